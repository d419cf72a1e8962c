//! Forward and inverse on whole numbers: the stored requests, every kind at every edge, every arcminute of the kinds that have
//! a cosine, halves, and numbers at random.
use crate::halves::halves;
use crate::library;
use crate::pairs::{hand_on, Call};
use crate::part::Part;
use second::arcminutes;
use second::edges::{breadths, heights, latitudes, longitudes, signed, GREATEST, LEAST};
use second::map::HALF_TURN;
use second::record::POSITION;
use second::record_random::Chance;
use second::request::Request;
use second::requests::{self, DEGREE};
use second::table::row_of;

/// How many requests are drawn for a part.
const DRAWN: u64 = 4_000_000;

const FORWARD: Call<i32> = Call {
    library: library::forward,
    request: |kind, numbers| Request::Position(kind, numbers.map(i128::from)),
    handed: |request| match request {
        Request::Position(kind, numbers) => fitting(*kind, *numbers),
        _ => None,
    },
};

const INVERSE: Call<i32> = Call {
    library: library::inverse,
    request: |kind, numbers| Request::Place(kind, numbers.map(i128::from)),
    handed: |request| match request {
        Request::Place(kind, numbers) => fitting(*kind, *numbers),
        _ => None,
    },
};

/// A byte and three numbers of 32 bits, if they are that.
fn fitting(kind: i128, numbers: [i128; 3]) -> Option<(u8, [i32; 3])> {
    let [central, first, second] = numbers.map(|number| i32::try_from(number).ok());
    Some((kind.try_into().ok()?, [central?, first?, second?]))
}

pub fn forward(part: &mut Part, seed: u64) {
    FORWARD.compare_all(part, stored());
    FORWARD.compare_all(part, (0..=255).flat_map(positions));
    FORWARD.compare_all(part, arcminutes::all());
    FORWARD.compare_all(part, halves(seed));
    FORWARD.compare_all(part, drawn(seed, DRAWN));
}

pub fn inverse(part: &mut Part, seed: u64) {
    INVERSE.compare_all(part, stored());
    INVERSE.compare_all(part, (0..=255).flat_map(places));
    INVERSE.compare_all(part, arcminutes::all());
    INVERSE.compare_all(part, halves(seed));
    INVERSE.compare_all(part, drawn(seed, DRAWN));
}

pub fn handed_on(part: &mut Part, seed: u64) {
    hand_on(part, [&FORWARD, &INVERSE], stored());
    hand_on(part, [&FORWARD, &INVERSE], arcminutes::all());
    hand_on(part, [&FORWARD, &INVERSE], halves(seed));
    hand_on(part, [&FORWARD, &INVERSE], drawn(seed, DRAWN / 8));
}

/// The requests of the stored run of `query`.
pub fn stored() -> impl Iterator<Item = Request> {
    let requests = requests::all();
    let lines = requests.split(|byte| *byte == b'\n');
    let lines = lines.filter_map(|line| std::str::from_utf8(line).ok());
    let read: Vec<Request> = lines.filter_map(Request::read).collect();
    read.into_iter()
}

/// These numbers and the ends of 32 bits.
fn with_ends(mut numbers: Vec<i128>) -> Vec<i128> {
    numbers.extend([LEAST, LEAST + 1, GREATEST - 1, GREATEST]);
    numbers
}

/// Central meridians at both ends and past them.
fn centrals() -> Vec<i128> {
    let about_end = [HALF_TURN - 1, HALF_TURN, HALF_TURN + 1];
    with_ends(signed(&[&[0, 1, 170 * DEGREE], &about_end[..]].concat()))
}

/// Every mixture of numbers at the edges.
fn positions(kind: i128) -> Vec<Request> {
    let mut requests = Vec::new();
    for central in centrals() {
        for longitude in with_ends(longitudes(central)) {
            for latitude in with_ends(latitudes()) {
                requests.push(requests::position(kind, central, longitude, latitude));
            }
        }
    }
    requests
}

/// The same at the edges of the kind's rows, or of the first kind's where it has none.
fn places(kind: i128) -> Vec<Request> {
    let row = row_of(kind).or(row_of(1)).expect("a kind of the table");
    let mut requests = Vec::new();
    for central in centrals() {
        for y in with_ends(heights(&row)) {
            for x in with_ends(breadths(&row, y)) {
                requests.push(requests::place(kind, central, x, y));
            }
        }
    }
    requests
}

/// The numbers of records at random, damaged ones among them; of forms that are none, the even ones are taken for positions.
fn drawn(seed: u64, count: u64) -> impl Iterator<Item = Request> {
    let mut chance = Chance::new(seed);
    (0..count).map(move |_| {
        let record = chance.record();
        let numbers = record.numbers.map(i128::from);
        if record.form % 2 == POSITION {
            Request::Position(record.kind.into(), numbers)
        } else {
            Request::Place(record.kind.into(), numbers)
        }
    })
}
