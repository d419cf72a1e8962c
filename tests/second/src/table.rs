//! The rows, worked out from the sources' factors: KX and KY are the factors of x and y times pi times 10^8, to the nearest
//! whole.
use crate::rounding::floor_root;
use std::f64::consts::PI;

/// Kinds are numbered from 1 to this one.
pub const KINDS: i128 = 12;

/// The kinds that have a retired row.
pub const RETIRED: [i128; 2] = [3, 4];

pub struct Row {
    pub kx: i128,
    pub ky: i128,
    pub outline: Outline,
}

/// How the half-width follows from the latitude.
pub enum Outline {
    /// By a, b and e, with a root or with a quotient in the place of q.
    Root(i128, i128, i128),
    Quotient(i128, i128, i128),
    /// By the cosine, or by the mean of 1 and the cosine.
    Cosine,
    CosineMean,
}

/// KX and KY as document 01 has them, from kind 1 on; document 02 exchanges those of kinds 3 and 4, kind 11's are kind 1's, and
/// kind 12's follow from its c.
const DOCUMENT: [(i128, i128); KINDS as usize] = [
    (314159265, 314159265),
    (314159265, 314159265),
    (595300392, 297650196),
    (297650196, 297650196),
    (132650043, 265300086),
    (272069905, 314159265),
    (250662827, 250662827),
    (250662827, 250662827),
    (318387849, 318387849),
    (318387849, 318387849),
    (314159265, 314159265),
    (277096497, 277096497),
];

/// The same of the retired rows: as document 01 has them.
const RETIRED_DOCUMENT: [(i128, i128); 2] = [(297650196, 297650196), (595300392, 297650196)];

/// Stops where the factors give something else than these numbers.
pub fn check() {
    for (kind, document) in (1..).zip(DOCUMENT) {
        hold(kind, row_of(kind), document);
    }
    for (kind, document) in RETIRED.into_iter().zip(RETIRED_DOCUMENT) {
        hold(kind, retired_row_of(kind), document);
    }
}

fn hold(kind: i128, row: Option<Row>, document: (i128, i128)) {
    let row = row.expect("a kind of the table");
    assert_eq!((row.kx, row.ky), document, "KX and KY of kind {kind}");
}

fn scaled(factor: f64) -> i128 {
    (factor * PI * 1e8).round() as i128
}

fn row(cx: f64, cy: f64, outline: Outline) -> Row {
    Row {
        kx: scaled(cx),
        ky: scaled(cy),
        outline,
    }
}

/// Nearest to c pi 10^8, where c is 2 over the root of (pi + 2). Twice that, squared, is 16 pi^2 10^16 / (pi + 2).
fn eckert_5() -> i128 {
    // in units of 10^-16, so that the powers of ten fall away
    let [pi, two] = [31_415_926_535_897_932, 20_000_000_000_000_000];
    let twice = floor_root(16 * pi * pi / (pi + two));
    (twice + 1) / 2
}

/// The row of a kind from 1 to 12.
pub fn row_of(kind: i128) -> Option<Row> {
    use Outline::{Cosine, CosineMean, Quotient, Root};
    let eckert = (PI * (4.0 + PI)).sqrt();
    let putnins_3 = (2.0 / PI).sqrt();
    Some(match kind {
        1 => row(1.0, 1.0, Root(2, 0, 0)),
        2 => row(1.0, 1.0, Root(0, 2, -4)),
        3 => row(1.89490, 0.94745, Root(-1, 2, -3)),
        4 => row(0.94745, 0.94745, Root(0, 2, -3)),
        5 => row(2.0 / eckert, 4.0 / eckert, Root(2, 2, -4)),
        6 => row(3f64.sqrt() / 2.0, 1.0, Root(0, 2, -3)),
        7 => row(putnins_3, putnins_3, Quotient(0, 2, -4)),
        8 => row(putnins_3, putnins_3, Quotient(0, 2, -2)),
        9 => row(1.01346, 1.01346, Root(4, -2, 12)),
        10 => row(1.01346, 1.01346, Root(3, -1, 12)),
        11 => row(1.0, 1.0, Cosine),
        12 => Row {
            kx: eckert_5(),
            ky: eckert_5(),
            outline: CosineMean,
        },
        _ => return None,
    })
}

/// The retired row of kind 3 or 4: these stood in the table before document 02's order 2.
pub fn retired_row_of(kind: i128) -> Option<Row> {
    Some(match kind {
        3 => row(0.94745, 0.94745, Outline::Root(0, 2, -3)),
        4 => row(1.89490, 0.94745, Outline::Root(-1, 2, -3)),
        _ => return None,
    })
}

/// The row that a kind had before that order.
pub fn old_row_of(kind: i128) -> Option<Row> {
    retired_row_of(kind).or_else(|| row_of(kind))
}

/// The kinds by turns, without an end. Each round begins one kind further: in a list that repeats every few entries a kind
/// would else always meet the same ones.
pub fn by_turns() -> impl Iterator<Item = i128> {
    let round = |first| (0..KINDS).map(move |i| 1 + (first + i) % KINDS);
    (0..).flat_map(round)
}
