//! Numbers that are exactly a half before they are rounded, or just beside one: x of a difference of longitudes, the difference
//! of an x, y of a latitude, and half-widths. N is 2^8 times an odd number, so exact halves hang on the power of two in the
//! half-width. No latitude of a y is a half: KY has fewer twos than 2 N.
use crate::edges::signed;
use crate::map::{forward, row_ratio, row_width, row_y, HALF_TURN, RIGHT_ANGLE};
use crate::request::Request;
use crate::requests::{below, place, position, seeded, width, within};
use crate::rounding::nearest;
use crate::table::{row_of, Row, KINDS};

/// N is 2^TWOS times this.
const TWOS: u32 = HALF_TURN.trailing_zeros();
const ODD: i128 = HALF_TURN >> TWOS;

/// The parallels whose half-width is a half, by kind and latitude: a look at every latitude of every kind found no others.
const WIDTHS: [(i128, i128); 6] = [
    (2, 15_521_804),
    (6, RIGHT_ANGLE),
    (8, RIGHT_ANGLE),
    (10, RIGHT_ANGLE),
    (11, 21_600_000),
    (12, RIGHT_ANGLE),
];

/// Stops where a half does not go to the even neighbour, where P1, P3 or P10 is not as order 8 has it, or where what is said to be a
/// half is none.
pub fn check() {
    let halves = [-7, -5, -3, -1, 1, 3, 5, 7].map(|n| nearest(n, 2));
    assert_eq!(halves, [-4, -2, -2, 0, 0, 2, 2, 4], "from -3.5 to 3.5");
    let first = forward(1, 0, 32_400_000, 16_200_000).pair();
    assert_eq!(first, Ok([157_079_632, 78_539_816]), "P1");
    let [third, tenth] = [6, 10].map(kind);
    assert_eq!(row_width(&third, RIGHT_ANGLE), 136_034_952, "P3");
    assert_eq!(row_y(&third, RIGHT_ANGLE), 157_079_632, "P3");
    assert_eq!(row_width(&tenth, RIGHT_ANGLE), 159_193_924, "P10");
    for (number, latitude) in WIDTHS {
        let (n, d) = row_ratio(&kind(number), latitude);
        assert_eq!(2 * (n % d), d, "the half-width of {number} at {latitude}");
    }
    for row in (1..=KINDS).map(kind) {
        assert!(row.ky.trailing_zeros() <= TWOS, "latitudes of y");
        for latitude in latitudes(&row) {
            let n = row.ky * latitude;
            assert_eq!(2 * (n % HALF_TURN), HALF_TURN, "y at {latitude}");
        }
    }
}

fn kind(number: i128) -> Row {
    row_of(number).expect("a kind of the table")
}

/// The latitudes north of the Equator whose y is a half: KY times each is an odd number times N / 2.
fn latitudes(row: &Row) -> Vec<i128> {
    let first = HALF_TURN / common(row.ky, HALF_TURN) / 2;
    let odd = (1..).step_by(2);
    odd.map(|n| n * first)
        .take_while(|latitude| *latitude <= RIGHT_ANGLE)
        .collect()
}

/// The greatest common factor.
fn common(a: i128, b: i128) -> i128 {
    if b == 0 {
        a
    } else {
        common(b, a % b)
    }
}

/// The parallels whose y is a half, by kind and latitude.
fn heights() -> Vec<(i128, i128)> {
    let of = |number| {
        latitudes(&kind(number))
            .into_iter()
            .map(move |p| (number, p))
    };
    (1..=KINDS).flat_map(of).collect()
}

/// Parallels on both sides of the Equator.
fn both_sides(parallels: &[(i128, i128)]) -> Vec<(i128, i128)> {
    let both = |(number, p): &(i128, i128)| [(*number, *p), (*number, -p)];
    parallels.iter().flat_map(both).collect()
}

/// Every parallel whose y or half-width is a half.
pub fn parallels() -> Vec<(i128, i128)> {
    both_sides(&[&WIDTHS[..], &heights()].concat())
}

/// Requests on the parallels whose half-width is a half, and on one of kind 6 places whose difference is, above even and odd numbers.
pub fn few() -> Vec<Request> {
    let mut state = seeded(20_260_108);
    let mut requests = Vec::new();
    for (number, latitude) in both_sides(&WIDTHS) {
        requests.extend(on_parallel(&mut state, number, latitude));
    }
    let row = kind(6);
    let latitude = 43 * HALF_TURN / 180;
    let w = row_width(&row, latitude);
    for _ in 0..20 {
        let x = breadth(&mut state, w).expect("a parallel that has such an x");
        requests.extend(place(6, 0, x, row_y(&row, latitude)).handed_on());
    }
    requests
}

/// These, and the same on the parallels whose y is a half.
pub fn stored() -> Vec<Request> {
    let mut state = seeded(20_260_109);
    let mut requests = few();
    for (number, latitude) in both_sides(&heights()) {
        requests.extend(on_parallel(&mut state, number, latitude));
    }
    requests
}

/// The half-width of a parallel, both ends and a unit past them, and a longitude whose x is a half, if there is one.
fn on_parallel(state: &mut u64, number: i128, latitude: i128) -> Vec<Request> {
    let row = kind(number);
    let [w, y] = [row_width(&row, latitude.abs()), row_y(&row, latitude)];
    let mut requests = vec![width(number, latitude)];
    for longitude in [-HALF_TURN, HALF_TURN] {
        requests.extend(position(number, 0, longitude, latitude).handed_on());
    }
    requests.extend(signed(&[w, w + 1]).iter().map(|x| place(number, 0, *x, y)));
    let d = difference(state, w);
    requests.extend(d.map(|d| position(number, 0, d, latitude)));
    requests
}

/// A difference whose x is a half, if this half-width has any; nearly every one has.
pub fn difference(state: &mut u64, w: i128) -> Option<i128> {
    let twos = w.trailing_zeros();
    // w times the difference is an odd number times N / 2
    (twos < TWOS).then(|| odd(state, twos + 1) * (ODD << (TWOS - 1 - twos)))
}

/// An x whose difference is a half, if this half-width has any; one of 512 has.
pub fn breadth(state: &mut u64, w: i128) -> Option<i128> {
    let twos = w.trailing_zeros();
    // x times N is an odd number times w / 2
    (w > 0 && twos > TWOS).then(|| (w >> (TWOS + 1)) * odd(state, TWOS + 1))
}

/// An odd number of at most so many binary digits, with either sign.
fn odd(state: &mut u64, digits: u32) -> i128 {
    within(state, (1 << digits) - 1) | 1
}

/// A difference whose x is beside a half, if this half-width has no factor in common with N; one of four has none.
pub fn difference_beside(state: &mut u64, w: i128) -> Option<i128> {
    beside(state, w, HALF_TURN)
}

/// An x whose difference is beside a half, of the same half-widths.
pub fn breadth_beside(state: &mut u64, w: i128) -> Option<i128> {
    beside(state, HALF_TURN, w)
}

/// A number that, times `factor`, over `whole` is at most three units of 1 / `whole` beside a half: so near that floats miss it.
fn beside(state: &mut u64, factor: i128, whole: i128) -> Option<i128> {
    let inverse = inverse(factor, whole)?;
    // the last remainders that are rounded down
    let remainder = (whole - 1) / 2 - i128::from(below(state, 3));
    let size = (remainder * inverse).rem_euclid(whole);
    // the other size has the opposite remainder, which is rounded up
    let either = [size, whole - size, -size, size - whole];
    Some(either[below(state, 4) as usize])
}

/// The factor that makes 1 of a number, but for multiples of `whole`, if the two have no common factor.
fn inverse(number: i128, whole: i128) -> Option<i128> {
    // each of these is its factor times the number, but for such multiples
    let [mut last, mut rest] = [(whole, 0), (number, 1)];
    while rest.0 != 0 {
        let times = last.0 / rest.0;
        (last, rest) = (rest, (last.0 - times * rest.0, last.1 - times * rest.1));
    }
    (last.0 == 1).then_some(last.1)
}
