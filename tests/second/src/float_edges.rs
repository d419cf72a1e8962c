//! Requests on floats at the edges: the ends of the format, the limits of each float and halves, with what lies on either
//! side of them.
use crate::arcminutes;
use crate::float_requests::{place, position};
use crate::map::{inverse, row_latitude, row_width, row_y, Answer, HALF_TURN, RIGHT_ANGLE};
use crate::request::Request;
use crate::table::{by_turns, row_of, Row, KINDS};

/// NaNs, quiet and signalling, as bits: a float may lose them where it is worked with.
const NANS: [u64; 4] = [
    0x7ff8_0000_0000_0000,
    0x7ff0_0000_0000_0001,
    0x7ff4_0000_0000_0000,
    0x7fff_ffff_ffff_ffff,
];

const INFINITE: f64 = f64::INFINITY;

/// Floats with both signs.
pub fn signed(sizes: &[f64]) -> Vec<f64> {
    let turned = |x: &f64| f64::from_bits(x.to_bits() ^ 1 << 63);
    sizes.iter().flat_map(|x| [*x, turned(x)]).collect()
}

/// A float, with those next to it.
fn about(x: f64) -> [f64; 3] {
    [x.next_down(), x, x.next_up()]
}

/// Floats of every size, and those that are no numbers.
pub fn sizes() -> Vec<f64> {
    let small = [0.0, 5e-324, 1e-300, 1e-9, 0.1, 0.5, 1.0, 89.9, 179.9, 180.1];
    let powers = [31, 32, 40, 52, 53, 62, 63, 64, 127, 128, 1022, 1023].map(|n| 2_f64.powi(n));
    let limits = [90.0, 180.0, f64::MIN_POSITIVE, 2_f64.powi(31)].map(about);
    let last = [f64::MAX, INFINITE];
    let nans = NANS.map(f64::from_bits);
    [&small[..], &powers, &limits.concat(), &last, &nans].concat()
}

/// Every size in each place of a request, the kinds by turns.
pub fn anywhere() -> Vec<Request> {
    let sizes = signed(&sizes()).into_iter();
    let with_kinds = by_turns().zip(sizes);
    with_kinds
        .flat_map(|(kind, x)| in_each_place(kind, x))
        .collect()
}

/// A float in each place of a request.
pub fn in_each_place(kind: i128, x: f64) -> [Request; 6] {
    [
        position(kind, x, 12.5, 41.25),
        position(kind, -3.75, x, 41.25),
        position(kind, -3.75, 12.5, x),
        place(kind, x, 1e7, 2e7),
        place(kind, -3.75, x, 2e7),
        place(kind, -3.75, 1e7, x),
    ]
}

/// Good and bad floats in every mixture, which shows the order of the refusals.
pub fn mixtures() -> Vec<Request> {
    let nan = f64::from_bits(NANS[1]);
    let centrals = [0.5, 180.0_f64.next_up(), -181.0, nan, -INFINITE];
    let firsts = [-0.5, -180.0_f64.next_up(), 5e8, -5e8, INFINITE, -nan];
    let seconds = [0.25, 90.0_f64.next_up(), 2e8, -2e8, nan, INFINITE];
    let mut requests = Vec::new();
    for kind in [1, 9, 0, KINDS + 1] {
        for central in centrals {
            for (first, second) in pairs(&firsts, &seconds) {
                requests.push(position(kind, central, first, second));
                requests.push(place(kind, central, first, second));
            }
        }
    }
    requests
}

fn pairs(firsts: &[f64], seconds: &[f64]) -> Vec<(f64, f64)> {
    let with = |first: f64| seconds.iter().map(move |second| (first, *second));
    firsts.iter().flat_map(|first| with(*first)).collect()
}

/// Longitudes at the edges of the map and of the central meridian's half turn, there and back.
pub fn positions() -> Vec<Request> {
    let centrals = [0.0, 1e-9, 170.0, -179.999999, 180.0, -180.0];
    let edges = signed(&[&[0.0, 1e-6], &about(180.0)[..]].concat());
    let mut latitudes = signed(&[0.0, 5e-324, 1e-6, 60.0, 89.9999, 90.0])
        .into_iter()
        .cycle();
    let mut requests = Vec::new();
    for kind in 1..=KINDS {
        for (central, edge) in pairs(&centrals, &edges) {
            let latitude = latitudes.next().expect("an endless list");
            requests.extend(position(kind, central, edge, latitude).handed_on());
            requests.push(position(kind, central, central + edge, 60.0));
        }
    }
    requests
}

/// Both edges of the kinds that have a cosine, at some degrees of latitude, there and back.
pub fn cosines() -> Vec<Request> {
    let latitudes = signed(&arcminutes::DEGREES.map(|degrees| degrees as f64));
    let edges = pairs(&[180.0, -180.0], &latitudes).into_iter();
    let of_kinds = |(longitude, latitude)| {
        let edge = move |kind| position(kind, 0.0, longitude, latitude).handed_on();
        arcminutes::WITH_COSINE.map(edge).into_iter()
    };
    edges.flat_map(of_kinds).flatten().collect()
}

/// Odd numbers whose halves of a centisecond are small, near 90 degrees, near 180 degrees or between.
pub const SOME_ODD: [u16; 16] = [
    1, 3, 5, 7, 65, 127, 129, 1023, 4097, 5759, 11517, 11519, 11521, 17281, 23037, 23039,
];

/// Halves of a centisecond, which are the odd numbers over 128, with the floats next to each.
pub fn angle_halves(odd: &[u16]) -> Vec<Request> {
    let sizes = odd.iter().flat_map(|n| about(f64::from(*n) / 128.0));
    let halves = signed(&sizes.collect::<Vec<_>>());
    let mut kinds = by_turns();
    let mut requests = Vec::new();
    for half in halves {
        let kind = kinds.next().expect("an endless list");
        requests.push(position(kind, half, 0.0, 0.0));
        requests.push(position(kind, 0.0, half, 1.0));
        requests.push(position(kind, 0.0, 1.0, half));
        requests.push(place(kind, half, 0.0, 0.0));
    }
    requests
}

/// The whole number as it is, and with a half more, a little less and a little more than that.
fn about_half(n: i128) -> Vec<f64> {
    let n = n as f64;
    [&[n, n + 0.49][..], &about(n + 0.5)].concat()
}

/// Places about the edge of the row at some latitudes, the pole among them, on each side, and the north-eastern ones there and
/// back.
pub fn places() -> Vec<Request> {
    let mut requests = Vec::new();
    for kind in 1..=KINDS {
        let row = row_of(kind).expect("a kind of the table");
        for latitude in [0, RIGHT_ANGLE / 2, HALF_TURN / 3, RIGHT_ANGLE] {
            for (x, y) in edge_of_row(&row, latitude) {
                requests.extend(place(kind, -12.5, x, y).handed_on());
                let turned = [(-x, y), (x, -y), (-x, -y)];
                requests.extend(turned.map(|(x, y)| place(kind, 12.5, x, y)));
            }
        }
    }
    requests
}

fn edge_of_row(row: &Row, latitude: i128) -> Vec<(f64, f64)> {
    let y = row_y(row, latitude);
    let w = row_width(row, row_latitude(row, y));
    pairs(&about_half(w), &about_half(y))
}

/// Halves of a map unit above even and odd numbers, with the floats next to each, where the numbers on either side of the half have
/// different answers.
pub fn place_halves() -> Vec<Request> {
    let mut requests = Vec::new();
    for kind in 1..=KINDS {
        for start in [0, 1, 1_000_003, 1_000_004, 40_000_000, 40_000_001] {
            let x = telling(start, |x| inverse(kind, 0, x, 70_000_000));
            for half in signed(&about(x as f64 + 0.5)) {
                requests.push(place(kind, 0.0, half, 7e7));
            }
            let y = telling(start, |y| inverse(kind, 0, 50_000_000, y));
            for half in signed(&about(y as f64 + 0.5)) {
                requests.push(place(kind, 0.0, 5e7, half));
            }
        }
    }
    requests
}

/// The first whole number as even or odd as `start`, from there on, whose answer is another than the next number's.
fn telling(start: i128, answer: impl Fn(i128) -> Answer) -> i128 {
    let mut numbers = (start..).step_by(2);
    let tells = |n: &i128| answer(*n) != answer(*n + 1);
    numbers.find(tells).expect("an endless list")
}
