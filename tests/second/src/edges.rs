//! Requests at the edges: the limits of each number and what lies on either side of them.
use crate::map::{row_latitude, row_width, row_y, HALF_TURN, RIGHT_ANGLE};
use crate::request::Request;
use crate::requests::{place, position, width, DEGREE};
use crate::table::{row_of, Row, KINDS};

pub const LEAST: i128 = i32::MIN as i128;
pub const GREATEST: i128 = i32::MAX as i128;

/// Numbers outside every range, some of them past 32 bits.
const FAR: [i128; 10] = [
    LEAST,
    LEAST + 1,
    LEAST - 1,
    GREATEST,
    GREATEST + 1,
    4294967296 + 5,
    -4294967296 - 5,
    4000000000,
    1 << 80,
    -(1 << 80),
];

const ODD_KINDS: [i128; 11] = [
    0,
    KINDS + 1,
    127,
    128,
    255,
    256,
    257,
    256 + KINDS,
    -1,
    -256,
    4294967297,
];

/// 89.99 degrees.
const NEAR_THE_POLE: i128 = RIGHT_ANGLE - DEGREE / 100;

const CENTRALS: [i128; 6] = [0, 1, -1, HALF_TURN, -HALF_TURN, 170 * DEGREE];

/// The sizes with both signs, each number once.
pub fn signed(sizes: &[i128]) -> Vec<i128> {
    let mut all: Vec<i128> = sizes.iter().flat_map(|size| [-size, *size]).collect();
    all.sort();
    all.dedup();
    all
}

pub fn latitudes() -> Vec<i128> {
    let pole = [RIGHT_ANGLE - 1, RIGHT_ANGLE, RIGHT_ANGLE + 1];
    signed(&[&[0, 1, 60 * DEGREE, NEAR_THE_POLE], &pole[..]].concat())
}

pub fn widths() -> Vec<Request> {
    let mut requests = Vec::new();
    for kind in 0..=KINDS + 1 {
        for degrees in -91..=91 {
            requests.push(width(kind, degrees * DEGREE));
        }
    }
    for kind in [1, 2, 9, 10, 11, 12].iter().chain(&ODD_KINDS) {
        for latitude in latitudes().iter().chain(&FAR) {
            requests.push(width(*kind, *latitude));
        }
    }
    requests
}

/// Longitudes at the edges of the map and of the central meridian's half turn.
pub fn longitudes(central: i128) -> Vec<i128> {
    let edges = signed(&[0, 1, HALF_TURN - 1, HALF_TURN, HALF_TURN + 1]);
    let about_central = edges.iter().map(|d| central + d);
    let mut all: Vec<i128> = edges.iter().copied().chain(about_central).collect();
    all.sort();
    all.dedup();
    all
}

pub fn positions() -> Vec<Request> {
    let mut requests = Vec::new();
    let mut latitude = latitudes().into_iter().cycle();
    for kind in 1..=KINDS {
        for central in CENTRALS {
            for longitude in longitudes(central) {
                requests.extend(position(kind, central, longitude, 60 * DEGREE).handed_on());
                let other = latitude.next().expect("an endless list");
                requests.push(position(kind, central, longitude, other));
            }
        }
        for latitude in latitudes() {
            for longitude in [HALF_TURN, -HALF_TURN, 1] {
                requests.extend(position(kind, 0, longitude, latitude).handed_on());
            }
        }
    }
    requests
}

/// y at the latitudes that matter, and one unit to either side.
pub fn heights(row: &Row) -> Vec<i128> {
    let at = [0, 60 * DEGREE, NEAR_THE_POLE, RIGHT_ANGLE].map(|latitude| row_y(row, latitude));
    signed(&at.map(|y| [y - 1, y, y + 1]).concat())
}

/// x at the edges of the row found at y, and at the Equator's.
pub fn breadths(row: &Row, y: i128) -> Vec<i128> {
    let w = row_width(row, row_latitude(row, y).abs().min(RIGHT_ANGLE));
    let equator = row_width(row, 0);
    signed(&[0, 1, 2, w - 2, w - 1, w, w + 1, equator, equator + 1])
}

/// Both ends of the rows at 45 degrees either way, and one unit past each: the heights are at other latitudes.
pub fn halfway(row: &Row) -> Vec<[i128; 2]> {
    let y = row_y(row, RIGHT_ANGLE / 2);
    let w = row_width(row, row_latitude(row, y));
    let ends = signed(&[w, w + 1]);
    let at = |y: i128| ends.iter().map(move |x| [*x, y]);
    [-y, y].into_iter().flat_map(at).collect()
}

/// Every breadth at every height, and the ends halfway.
pub fn row_edges(row: &Row) -> Vec<[i128; 2]> {
    let at = |y: i128| breadths(row, y).into_iter().map(move |x| [x, y]);
    let mut places: Vec<[i128; 2]> = heights(row).into_iter().flat_map(at).collect();
    places.extend(halfway(row));
    places
}

pub fn places() -> Vec<Request> {
    let mut requests = Vec::new();
    let mut centrals = CENTRALS.into_iter().cycle();
    for kind in 1..=KINDS {
        let row = row_of(kind).expect("a kind of the table");
        for [x, y] in row_edges(&row) {
            let central = centrals.next().expect("an endless list");
            requests.extend(place(kind, central, x, y).handed_on());
        }
    }
    requests
}

/// Good and bad numbers in every mixture, which shows the order of the refusals.
fn mixtures() -> Vec<Request> {
    let mut requests = Vec::new();
    for kind in [1, 9, KINDS, 0, KINDS + 1] {
        for central in [0, -HALF_TURN - 1, LEAST] {
            for longitude in [0, HALF_TURN + 1, GREATEST] {
                for latitude in [0, -RIGHT_ANGLE - 1, LEAST] {
                    requests.push(position(kind, central, longitude, latitude));
                }
            }
            for x in [0, 400_000_000, -400_000_000, GREATEST, LEAST] {
                for y in [0, 200_000_000, -200_000_000, GREATEST, LEAST] {
                    requests.push(place(kind, central, x, y));
                }
            }
        }
    }
    requests
}

pub fn refusals() -> Vec<Request> {
    let mut requests = mixtures();
    for far in FAR.iter().chain(&[HALF_TURN + 1, -HALF_TURN - 1]) {
        for kind in [1, 9, 11] {
            for [central, first, second] in [[*far, 0, 0], [0, *far, 0], [0, 0, *far]] {
                requests.push(position(kind, central, first, second));
                requests.push(place(kind, central, first, second));
            }
        }
    }
    for kind in ODD_KINDS {
        requests.push(position(kind, 1, 2, 3));
        requests.push(place(kind, 1, 2, 3));
    }
    requests
}
