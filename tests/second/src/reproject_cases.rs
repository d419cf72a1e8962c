//! Records for the program `reproject`: places at the edges of the retired rows and of the new ones, and all that passes.
use crate::edges::{breadths, halfway, heights, signed, GREATEST, LEAST};
use crate::halves::{breadth, breadth_beside, difference, difference_beside};
use crate::map::{row_width, row_y, HALF_TURN, RIGHT_ANGLE};
use crate::record::{record, Record, LENGTH, PLACE, POSITION};
use crate::record_cases::{every_byte, faulty, joined, mixed_faults};
use crate::record_random::Chance;
use crate::requests::{seeded, within, DEGREE};
use crate::rounding::nearest;
use crate::table::{retired_row_of, row_of, Row, KINDS, RETIRED};

/// How many bytes of a place stand at the end of the stored input: all but one, so that one that is filled up would be taken.
const TAIL: usize = 15;

/// How many records a program takes from a file by one read.
const READ: usize = 65_536 / LENGTH;

/// How many parallels of each kind are drawn for numbers beside a half. The stored input is to stay within three reads.
const PARALLELS: i128 = 1200;

/// The stored input, with a torn record at its end. Its first record and its last whole one change, and so do those before and
/// behind the end of each full read.
pub fn all() -> Vec<u8> {
    let mut records = retired();
    records.extend(first_bytes());
    records.extend(faults());
    records.extend(edges_by_turns());
    records.extend(halves(20_260_118));
    let mut chance = Chance::old(20_260_117);
    records.extend((0..6000).map(|_| chance.record()));
    for end in [READ, 2 * READ] {
        records.insert(end - 1, good(3));
        records.insert(end, good(4));
    }
    records.push(good(3));
    let mut bytes = joined(&records);
    bytes.extend(&good(3).bytes()[..TAIL]);
    bytes
}

/// The retired row of a kind, and its new one.
fn rows(kind: i128) -> [Row; 2] {
    [retired_row_of(kind), row_of(kind)].map(|row| row.expect("a kind that has a retired row"))
}

/// A place that is taken and changes where its kind has a retired row.
fn good(kind: i128) -> Record {
    good_from(kind, -DEGREE)
}

/// The same from another central meridian: it changes wherever that is accepted.
fn good_from(kind: i128, central: i128) -> Record {
    record(PLACE, kind, [central, 50_000_000, 40_000_000])
}

/// The small stored run. For each kind that has a retired row: the ends of some parallels and a unit past them, past the poles,
/// central meridians at the limit and past it, and what else passes. The first record and the last one change.
pub fn retired() -> Vec<Record> {
    let mut records = vec![good(3)];
    for kind in RETIRED {
        let [row, _] = rows(kind);
        for (latitude, central) in [
            (0, HALF_TURN),
            (60 * DEGREE, -HALF_TURN),
            (RIGHT_ANGLE, 0),
            (-RIGHT_ANGLE, DEGREE),
        ] {
            let [w, y] = [row_width(&row, latitude.abs()), row_y(&row, latitude)];
            let ends = signed(&[w, w + 1]);
            records.extend(ends.iter().map(|x| record(PLACE, kind, [central, *x, y])));
        }
        let past = row_y(&row, RIGHT_ANGLE) + 1;
        records.extend([past, -past].map(|y| record(PLACE, kind, [0, 0, y])));
        let outside = [HALF_TURN + 1, -HALF_TURN - 1, LEAST];
        records.extend(outside.map(|central| good_from(kind, central)));
        records.push(faulty(POSITION, kind, 0));
        // the mark, the form and the kind
        records.extend([0, 1, 2].map(|fault| faulty(PLACE, kind, 1 << fault)));
    }
    records.push(good(4));
    records
}

/// Every byte in each of the first four places of a place that is taken.
fn first_bytes() -> Vec<Record> {
    let good = RETIRED.map(good).into_iter();
    good.flat_map(|record| (0..4).flat_map(move |at| every_byte(&record, at)))
        .collect()
}

/// A good record, each fault alone and every two that it can have, for each kind in both forms.
fn faults() -> Vec<Record> {
    let mut records = Vec::new();
    for kind in 1..=KINDS {
        for form in [POSITION, PLACE] {
            let few = mixed_faults(form).filter(|which| which.count_ones() < 3);
            records.extend(few.map(|which| faulty(form, kind, which)));
        }
    }
    records
}

/// Central meridians about 0 and the limits, and the ends of 32 bits.
fn centrals() -> Vec<i128> {
    let mut all = signed(&[0, 1, 170 * DEGREE, HALF_TURN - 1, HALF_TURN, HALF_TURN + 1]);
    all.extend([LEAST, LEAST + 1, GREATEST]);
    all
}

/// Places of a kind about the edges of its retired row, of the new one's and of both poles, and the ends of 32 bits.
fn places(kind: i128) -> Vec<[i128; 2]> {
    let ends = [LEAST, LEAST + 1, GREATEST - 1, GREATEST];
    let mut places = Vec::new();
    for row in rows(kind) {
        for y in heights(&row).into_iter().chain(ends) {
            let xs = breadths(&row, y).into_iter().chain(ends);
            places.extend(xs.map(|x| [x, y]));
        }
        places.extend(halfway(&row));
    }
    places.sort();
    places.dedup();
    places
}

/// Every such place with every central meridian, in both forms.
pub fn edges() -> Vec<Record> {
    let mut records = Vec::new();
    for kind in RETIRED {
        for [x, y] in places(kind) {
            for central in centrals() {
                records.extend([POSITION, PLACE].map(|form| record(form, kind, [central, x, y])));
            }
        }
    }
    records
}

/// Every such place once, with the central meridians that are accepted by turns, and a good one with each of the others.
fn edges_by_turns() -> Vec<Record> {
    let all = centrals().into_iter();
    let (accepted, others): (Vec<_>, Vec<_>) = all.partition(|central| central.abs() <= HALF_TURN);
    let mut accepted = accepted.into_iter().cycle();
    let mut records = Vec::new();
    for kind in RETIRED {
        for [x, y] in places(kind) {
            let central = accepted.next().expect("an endless list");
            records.push(record(PLACE, kind, [central, x, y]));
        }
        records.extend(others.iter().map(|central| good_from(kind, *central)));
    }
    records
}

/// Places whose numbers are exactly a half before they are rounded, or just beside one.
pub fn halves(seed: u64) -> Vec<Record> {
    let mut state = seeded(seed);
    let mut records = new_halves(&mut state);
    records.extend(old_halves(&mut state));
    records.extend(beside_halves(&mut state));
    records
}

/// The new x is a half, and so is the new y: that it is at odd multiples of 2.5 degrees.
fn new_halves(state: &mut u64) -> Vec<Record> {
    let sizes: Vec<i128> = (1..36).step_by(2).map(|n| n * DEGREE * 5 / 2).collect();
    let mut records = Vec::new();
    for kind in RETIRED {
        let [old, new] = rows(kind);
        for latitude in signed(&sizes) {
            let [before, after] = [&old, &new].map(|row| row_width(row, latitude.abs()));
            let Some(d) = difference(state, after) else {
                continue;
            };
            let x = nearest(before * d, HALF_TURN);
            let central = within(state, HALF_TURN);
            records.push(record(PLACE, kind, [central, x, row_y(&old, latitude)]));
        }
    }
    records
}

/// The difference of longitudes is a half, on some of the parallels that are drawn.
fn old_halves(state: &mut u64) -> Vec<Record> {
    let mut records = Vec::new();
    for kind in RETIRED {
        let [old, _] = rows(kind);
        for _ in 0..10_000 {
            let latitude = within(state, RIGHT_ANGLE);
            let central = within(state, HALF_TURN);
            let x = breadth(state, row_width(&old, latitude.abs()));
            records.extend(x.map(|x| record(PLACE, kind, [central, x, row_y(&old, latitude)])));
        }
    }
    records
}

/// The new x is beside a half, or the difference of longitudes is.
fn beside_halves(state: &mut u64) -> Vec<Record> {
    let mut records = Vec::new();
    for kind in RETIRED {
        let [old, new] = rows(kind);
        for _ in 0..PARALLELS {
            let latitude = within(state, RIGHT_ANGLE);
            let central = within(state, HALF_TURN);
            let [before, after] = [&old, &new].map(|row| row_width(row, latitude.abs()));
            // a narrower old parallel may give another difference back
            let d = difference_beside(state, after).filter(|_| before >= HALF_TURN);
            let x = d.map(|d| nearest(before * d, HALF_TURN));
            let xs = x.into_iter().chain(breadth_beside(state, before));
            let y = row_y(&old, latitude);
            records.extend(xs.map(|x| record(PLACE, kind, [central, x, y])));
        }
    }
    records
}
