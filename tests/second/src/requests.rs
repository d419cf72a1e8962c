//! Requests over every kind and every edge that document 01 names, on text, on notes, and some thousand at random from a fixed seed.
use crate::arcminutes;
use crate::edges;
use crate::float_requests;
use crate::halves;
use crate::map::{row_latitude, row_width, row_y};
use crate::map::{HALF_TURN, RIGHT_ANGLE};
use crate::note_requests;
use crate::request::Request;
use crate::table::{row_of, KINDS};
use crate::text_requests;

pub const DEGREE: i128 = 60 * 60 * 100;

pub fn all() -> Vec<u8> {
    let mut requests = edges::widths();
    requests.extend(edges::positions());
    requests.extend(edges::places());
    requests.extend(edges::refusals());
    requests.extend(arcminutes::some());
    requests.extend(neighbours());
    requests.extend(halves::stored());
    requests.extend(random());
    let mut lines = texts(requests);
    lines.extend(DOCUMENT.map(String::from));
    lines.extend(ODD.map(String::from));
    lines.extend(float_requests::all());
    let mut lines: Vec<Vec<u8>> = lines.into_iter().map(String::into_bytes).collect();
    lines.extend(text_requests::all());
    lines.extend(note_requests::all());
    // the last line has no end of its own
    lines.push(width(2, 72 * DEGREE).to_string().into_bytes());
    lines.join(&b'\n')
}

/// The lines of some requests.
pub fn texts(requests: impl IntoIterator<Item = Request>) -> Vec<String> {
    let texts = requests.into_iter().map(|request| request.to_string());
    texts.collect()
}

pub fn width(kind: i128, latitude: i128) -> Request {
    Request::Width(kind, latitude)
}

pub fn position(kind: i128, central: i128, longitude: i128, latitude: i128) -> Request {
    Request::Position(kind, [central, longitude, latitude])
}

pub fn place(kind: i128, central: i128, x: i128, y: i128) -> Request {
    Request::Place(kind, [central, x, y])
}

/// Neighbouring meridians of kinds 2 and 11: apart at 72 degrees, some of them in one place at 89.
fn neighbours() -> Vec<Request> {
    let mut requests = Vec::new();
    for (kind, degrees) in [(2, 72), (2, 89), (11, 72), (11, 89)] {
        for first in [-20, 45 * DEGREE, HALF_TURN - 40] {
            for longitude in first..=first + 40 {
                requests.extend(position(kind, 0, longitude, degrees * DEGREE).handed_on());
            }
        }
    }
    requests
}

fn random() -> Vec<Request> {
    let mut requests = Vec::new();
    let mut state = 20_260_101;
    for i in 0..2000 {
        requests.push(width(1 + i % KINDS, within(&mut state, RIGHT_ANGLE)));
    }
    for i in 0..1500 {
        let kind = 1 + i % KINDS;
        let central = within(&mut state, HALF_TURN);
        let longitude = within(&mut state, HALF_TURN);
        let latitude = within(&mut state, RIGHT_ANGLE);
        requests.extend(position(kind, central, longitude, latitude).handed_on());
    }
    for i in 0..1500 {
        let kind = 1 + i % KINDS;
        let row = row_of(kind).expect("a kind of the table");
        let central = within(&mut state, HALF_TURN);
        let y = within(&mut state, row_y(&row, RIGHT_ANGLE));
        let w = row_width(&row, row_latitude(&row, y).abs());
        requests.extend(place(kind, central, within(&mut state, w), y).handed_on());
        // most of these are inside, some are only inside the Equator's width
        let x = within(&mut state, row_width(&row, 0));
        requests.push(place(kind, central, x, y));
    }
    requests
}

/// The cases of document 01 and of document 02's order 6 that numbers can ask for.
pub const DOCUMENT: [&str; 24] = [
    // P1 and P2
    "f 1 0 32400000 16200000",
    "f 1 0 -32400000 -16200000",
    "i 1 0 157079632 78539816",
    // P3 to P10: the half-width is x at 180 degrees
    "f 6 0 64800000 32400000",
    "f 2 0 64800000 19440000",
    "f 2 0 64800000 25920000",
    "f 5 0 64800000 0",
    "f 5 0 64800000 32400000",
    "f 7 0 64800000 16200000",
    "f 8 0 64800000 16200000",
    "f 8 0 64800000 32400000",
    "f 9 0 64800000 0",
    "f 9 0 64800000 32400000",
    "f 10 0 64800000 32400000",
    // P11
    "f 1 61200000 -61200000 0",
    "f 1 61200000 -3600000 0",
    "i 1 61200000 34906585 0",
    "i 1 61200000 -314159265 0",
    "i 1 61200000 314159265 0",
    // the pointed pole
    "i 7 0 0 125331414",
    "i 7 0 1 125331414",
    "i 7 0 0 125331415",
    // its other sides
    "i 7 0 -1 125331414",
    "i 7 0 0 -125331415",
];

/// Lines with something missing, too much or out of place; spaces may be left out or doubled.
const ODD: [&str; 31] = [
    "",
    "w",
    "w 1",
    "w 1 2 3",
    "w 1 2 3 4",
    "w 1 2 3 4 5",
    "x 1 2",
    "w1 2",
    "w 1 2a",
    "w 1 +2",
    "w - 1",
    "w 1 --2",
    "w 1 2-",
    "w 1  2 ",
    "ww 1 2",
    "\0w 1 2",
    "f",
    "f 1 2",
    "f 1 2 3",
    "f 1 2 3 4 5",
    "f1 2  3 4 ",
    "f 1 2 3 -",
    "i 1",
    "i 1 2 3",
    "i 1 2 3 4 5 6",
    "i1 -2 -3 -4",
    "g 1 2 3 4",
    "w 1 2\r",
    "w 00001 -0",
    "w 1 -170141183460469231731687303715884105728",
    "f 1 0 999999999999999999999999999999999999999999999999999999999999 0",
];

/// A number below a limit.
pub fn below(state: &mut u64, limit: u64) -> u64 {
    // the low digits of a step are alike from one step to the next
    (next(state) >> 20) % limit
}

/// A number from -limit to limit.
pub fn within(state: &mut u64, limit: i128) -> i128 {
    next(state) as i128 % (2 * limit + 1) - limit
}

/// The state that a seed begins with. Every seed has numbers of its own: 0 alone would stay 0, and small seeds are much
/// alike at first.
pub fn seeded(seed: u64) -> u64 {
    let mut state = seed ^ 0x9e37_79b9_7f4a_7c15;
    for _ in 0..20 {
        next(&mut state);
    }
    state
}

/// A step of xorshift.
pub fn next(state: &mut u64) -> u64 {
    *state ^= *state << 13;
    *state ^= *state >> 7;
    *state ^= *state << 17;
    *state
}
