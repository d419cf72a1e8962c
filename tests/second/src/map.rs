//! Document 01's rules in 128-bit arithmetic, with the half-widths of document 02's order 5, the refusals of its order 6 and the
//! rounding of its order 8. What takes a row serves those of the table and the retired ones.
use crate::rounding::{floor_root, nearest};
use crate::sine::{cosine, ONE};
use crate::table::{retired_row_of, row_of, Outline, Row};

pub const HALF_TURN: i128 = 180 * 60 * 60 * 100;
pub const RIGHT_ANGLE: i128 = 90 * 60 * 60 * 100;

#[derive(PartialEq)]
pub enum Answer {
    Width(i128),
    Pair(i128, i128),
    Floats(f64, f64),
    Refused(u8),
}

impl Answer {
    /// The pair of whole numbers, or the number of the refusal.
    pub fn pair(self) -> Result<[i128; 2], u8> {
        match self {
            Answer::Pair(first, second) => Ok([first, second]),
            Answer::Refused(n) => Err(n),
            _ => panic!("an answer of whole numbers"),
        }
    }
}

/// Half-widths at the Equator and at the pole: order 2's for the rows of kinds 3 and 4, and the other way round for the
/// retired ones.
const POINTED: [i128; 2] = [297650196, 0];
const FLAT: [i128; 2] = [297650196, 148825098];

/// Places of kind 7 a unit past the pole, which is a point, and the refusals that name the sides: north, south, east and west.
const PAST_THE_POLE: [([i128; 2], u8); 4] = [
    ([0, 125331415], 6),
    ([0, -125331415], 18),
    ([1, 125331414], 7),
    ([-1, 125331414], 17),
];

/// Stops where the rows of kinds 3 and 4 have other half-widths, or a place past the pole is not refused by its side's number.
pub fn check() {
    let rows = [row_of(3), row_of(4), retired_row_of(3), retired_row_of(4)];
    let ends = rows.map(|row| {
        let row = row.expect("a row");
        [0, RIGHT_ANGLE].map(|p| row_width(&row, p))
    });
    assert_eq!(ends, [POINTED, FLAT, FLAT, POINTED], "kinds 3 and 4");
    for ([x, y], number) in PAST_THE_POLE {
        let answer = inverse(7, 0, x, y).pair();
        assert_eq!(answer, Err(number), "the side of {x} {y}");
    }
}

/// The half-width at a latitude of size p, before it is rounded: the first number over the second.
pub fn row_ratio(row: &Row, p: i128) -> (i128, i128) {
    let m = 32 * HALF_TURN;
    let s = |e| HALF_TURN * HALF_TURN + e * p * p;
    let by_q = |a, b, q| (row.kx * (a * m + b * q), 2 * m);
    match row.outline {
        Outline::Root(a, b, e) => by_q(a, b, floor_root(1024 * s(e))),
        Outline::Quotient(a, b, e) => by_q(a, b, 32 * s(e) / HALF_TURN),
        Outline::Cosine => (row.kx * cosine(p), ONE),
        Outline::CosineMean => (row.kx * (ONE + cosine(p)), 2 * ONE),
    }
}

/// The half-width at a latitude of size p.
pub fn row_width(row: &Row, p: i128) -> i128 {
    let (n, d) = row_ratio(row, p);
    nearest(n, d)
}

/// y of a latitude.
pub fn row_y(row: &Row, latitude: i128) -> i128 {
    nearest(row.ky * latitude, HALF_TURN)
}

/// The latitude that is found at y.
pub fn row_latitude(row: &Row, y: i128) -> i128 {
    nearest(y * HALF_TURN, row.ky)
}

/// A difference or a sum of two longitudes, a whole turn nearer to 0 if it is more than a half turn away.
pub fn wrapped(angle: i128) -> i128 {
    if angle > HALF_TURN {
        angle - 2 * HALF_TURN
    } else if angle < -HALF_TURN {
        angle + 2 * HALF_TURN
    } else {
        angle
    }
}

pub fn half_width(kind: i128, latitude: i128) -> Answer {
    let Some(row) = row_of(kind) else {
        return Answer::Refused(1);
    };
    if latitude.abs() > RIGHT_ANGLE {
        return Answer::Refused(5);
    }
    Answer::Width(row_width(&row, latitude.abs()))
}

pub fn forward(kind: i128, central: i128, longitude: i128, latitude: i128) -> Answer {
    match row_of(kind) {
        Some(row) => row_forward(&row, central, longitude, latitude),
        None => Answer::Refused(1),
    }
}

pub fn inverse(kind: i128, central: i128, x: i128, y: i128) -> Answer {
    match row_of(kind) {
        Some(row) => row_inverse(&row, central, x, y),
        None => Answer::Refused(1),
    }
}

/// The place of a position under a row.
pub fn row_forward(row: &Row, central: i128, longitude: i128, latitude: i128) -> Answer {
    if central.abs() > HALF_TURN {
        return Answer::Refused(3);
    }
    if longitude.abs() > HALF_TURN {
        return Answer::Refused(4);
    }
    if latitude.abs() > RIGHT_ANGLE {
        return Answer::Refused(5);
    }
    let d = wrapped(longitude - central);
    let w = row_width(row, latitude.abs());
    Answer::Pair(nearest(w * d, HALF_TURN), row_y(row, latitude))
}

/// The position of a place under a row.
pub fn row_inverse(row: &Row, central: i128, x: i128, y: i128) -> Answer {
    if central.abs() > HALF_TURN {
        return Answer::Refused(3);
    }
    let pole = row_y(row, RIGHT_ANGLE);
    if y > pole {
        return Answer::Refused(6);
    }
    if y < -pole {
        return Answer::Refused(18);
    }
    let latitude = row_latitude(row, y);
    let w = row_width(row, latitude.abs());
    if x > w {
        return Answer::Refused(7);
    }
    if x < -w {
        return Answer::Refused(17);
    }
    let d = if w == 0 { 0 } else { nearest(x * HALF_TURN, w) };
    Answer::Pair(wrapped(central + d), latitude)
}
