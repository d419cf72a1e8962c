//! Forward and inverse on floats: the stored requests, the ends of the format and every limit in every mixture, every half
//! of a centisecond, places whose difference of longitudes is a half, and floats at random.
use crate::halves::halves;
use crate::library;
use crate::numbers::stored;
use crate::pairs::{hand_on, Call};
use crate::part::Part;
use second::float_edges::{angle_halves, in_each_place, signed, sizes};
use second::float_random::{self, Chance};
use second::float_requests::{place, position};
use second::map::{row_latitude, row_width, row_y, RIGHT_ANGLE};
use second::request::Request;
use second::requests::{seeded, DEGREE};
use second::table::{row_of, KINDS};

/// How many rounds are drawn for a part: ten requests of the second program's sorts each, and four of this file's.
const ROUNDS: u64 = 350_000;

const FORWARD: Call<f64> = Call {
    library: library::forward_degrees,
    request: Request::FloatPosition,
    handed: |request| match request {
        Request::FloatPosition(kind, floats) => Some(((*kind).try_into().ok()?, *floats)),
        _ => None,
    },
};

const INVERSE: Call<f64> = Call {
    library: library::inverse_degrees,
    request: Request::FloatPlace,
    handed: |request| match request {
        Request::FloatPlace(kind, floats) => Some(((*kind).try_into().ok()?, *floats)),
        _ => None,
    },
};

pub fn forward(part: &mut Part, seed: u64) {
    FORWARD.compare_all(part, edges());
    FORWARD.compare_all(part, drawn(seed, ROUNDS));
}

pub fn inverse(part: &mut Part, seed: u64) {
    INVERSE.compare_all(part, edges());
    INVERSE.compare_all(part, halves(seed).filter_map(as_floats));
    INVERSE.compare_all(part, drawn(seed, ROUNDS));
}

pub fn handed_on(part: &mut Part, seed: u64) {
    hand_on(part, [&FORWARD, &INVERSE], edges());
    let places = halves(seed).filter_map(as_floats);
    hand_on(part, [&FORWARD, &INVERSE], places);
    hand_on(part, [&FORWARD, &INVERSE], drawn(seed, ROUNDS / 8));
}

/// A place of whole numbers, and its central meridian in degrees, which read back as the same.
fn as_floats(request: Request) -> Option<Request> {
    let Request::Place(kind, [central, x, y]) = request else {
        return None;
    };
    let central = central as f64 / DEGREE as f64;
    Some(place(kind, central, x as f64, y as f64))
}

fn edges() -> impl Iterator<Item = Request> {
    let odd: Vec<u16> = (0..180 * 64).map(|n| 2 * n + 1).collect();
    stored()
        .chain((0..=255).flat_map(every_size))
        .chain(mixtures())
        .chain(angle_halves(&odd))
}

/// Every size in each place of a request.
fn every_size(kind: i128) -> impl Iterator<Item = Request> {
    let sizes = signed(&sizes()).into_iter();
    sizes.flat_map(move |x| in_each_place(kind, x))
}

/// Every three sizes, the kinds by turns, and 0 as a kind.
fn mixtures() -> impl Iterator<Item = Request> {
    let sizes = signed(&sizes());
    let count = sizes.len();
    let three = move |n: usize| [n / count / count, n / count % count, n % count].map(|i| sizes[i]);
    let all = (0..count.pow(3)).map(three);
    let with_kinds = (0..=KINDS).cycle().zip(all);
    with_kinds.flat_map(|(kind, [central, first, second])| {
        let position = position(kind, central, first, second);
        [position, place(kind, central, first, second)]
    })
}

fn drawn(seed: u64, rounds: u64) -> impl Iterator<Item = Request> {
    let mut chance = Chance(seeded(seed));
    let further = (0..rounds).flat_map(move |i| further(&mut chance, 1 + i128::from(i) % KINDS));
    float_random::requests(seeded(seed), rounds).chain(further)
}

fn further(chance: &mut Chance, kind: i128) -> [Request; 4] {
    let any = [(); 3].map(|_| at_the_ends(chance));
    let [position, place] = chance.mixed(kind, any);
    let at_half = beside_halves(chance, kind);
    [position, place, at_half, edge_of_row(chance, kind)]
}

/// A float whose exponent is the least or the greatest, or next to it: subnormal, infinite, NaN and nearly so.
fn at_the_ends(chance: &mut Chance) -> f64 {
    let exponent = [0, 1, 2046, 2047][(chance.bits() >> 20) as usize % 4];
    let sign = chance.bits() >> 63 << 63;
    // all 52 digits, or only the last ones, or none
    let fraction = (chance.bits() >> 12) >> ((chance.bits() >> 20) % 53);
    f64::from_bits(sign | exponent << 52 | fraction)
}

/// At most a few floats from halves of a centisecond that are no floats: a product in f64 takes many of these for the half.
fn beside_halves(chance: &mut Chance, kind: i128) -> Request {
    let per_degree = DEGREE as f64;
    let [central, longitude, latitude] = [180.0, 180.0, 90.0].map(|limit| {
        let half = chance.within(limit * per_degree - 1.0).floor() + 0.5;
        chance.nudged(half / per_degree)
    });
    position(kind, central, longitude, latitude)
}

/// At most a few floats from where x is read as one more than the half-width, at any y or at the pole's.
fn edge_of_row(chance: &mut Chance, kind: i128) -> Request {
    let row = row_of(kind).expect("a kind of the table");
    let pole = row_y(&row, RIGHT_ANGLE) as f64;
    let half = chance.nudged(pole + 0.5);
    let y = [chance.within(pole), half, -half][(chance.bits() >> 20) as usize % 3];
    let latitude = row_latitude(&row, y.round() as i128).abs();
    let w = row_width(&row, latitude.min(RIGHT_ANGLE)) as f64;
    let past = chance.nudged(w + 0.5);
    let x = [past, -past][(chance.bits() >> 20) as usize % 2];
    place(kind, chance.within(180.0), x, y)
}
