//! Records at the edges: each byte of mark, kind and form, the limits of each number, and refusals beside each other.
use crate::arcminutes;
use crate::edges::{latitudes, longitudes, row_edges, signed, GREATEST, LEAST};
use crate::halves;
use crate::map::{HALF_TURN, RIGHT_ANGLE};
use crate::record::{record, Record, DOCUMENT, MARK, PLACE, POSITION};
use crate::record_random::Chance;
use crate::request::Request;
use crate::requests::{self, DEGREE};
use crate::table::{by_turns, row_of, KINDS};

/// The stored input, with a torn record at its end. It is to stay within three reads.
pub fn all() -> Vec<u8> {
    let mut records = document();
    records.extend(refusals());
    records.extend(mixtures());
    records.extend(first_bytes());
    records.extend(far_numbers());
    records.extend(positions());
    records.extend(places());
    records.extend(arcminutes::degrees().filter_map(|request| asking(&request)));
    records.extend(neighbours());
    records.extend(halves::few().iter().filter_map(asking));
    let mut chance = Chance::new(20_260_103);
    records.extend((0..2000).map(|_| chance.record()));
    let mut bytes = joined(&records);
    bytes.extend(&DOCUMENT[..11]);
    assert!(bytes.len() <= 3 * 65_536, "within three reads");
    bytes
}

pub fn joined(records: &[Record]) -> Vec<u8> {
    records.iter().flat_map(Record::bytes).collect()
}

/// A record, and after it the moved one, if it is converted.
fn handed_on(first: Record) -> Vec<Record> {
    std::iter::once(first)
        .chain(first.converted().ok())
        .collect()
}

/// Document 01's record first, then its other cases.
fn document() -> Vec<Record> {
    let mut records = handed_on(Record::read(&DOCUMENT));
    for line in requests::DOCUMENT {
        let first = Request::read(line).as_ref().and_then(asking);
        let first = first.unwrap_or_else(|| panic!("a request for a record: {line}"));
        records.extend(handed_on(first));
    }
    records
}

/// The record that asks what a request on whole numbers asks, if it has a position or a place.
fn asking(request: &Request) -> Option<Record> {
    match *request {
        Request::Position(kind, numbers) => Some(record(POSITION, kind, numbers)),
        Request::Place(kind, numbers) => Some(record(PLACE, kind, numbers)),
        _ => None,
    }
}

/// How many things can be wrong with a record: mark, form, kind and central meridian, then longitude and latitude of a
/// position; or y of a place, to the north and to the south, and x, to the east and to the west.
fn faults(form: u8) -> usize {
    match form {
        POSITION => 6,
        _ => 8,
    }
}

/// Whether a record can have all the faults that `which` names: no place is past both poles, or past both edges.
fn possible(form: u8, which: usize) -> bool {
    form == POSITION || [4, 6].iter().all(|first| which >> first & 3 != 3)
}

/// Every mixture of faults that a record can have.
pub fn mixed_faults(form: u8) -> impl Iterator<Item = usize> {
    (0..1 << faults(form)).filter(move |which| possible(form, *which))
}

/// The first kind that is none.
const NO_KIND: u8 = KINDS as u8 + 1;

/// A record with the faults that the binary digits of `which` name, the first in the order of judging by the lowest.
pub fn faulty(form: u8, kind: i128, which: usize) -> Record {
    let has = |fault: usize| which >> fault & 1 == 1;
    let number = |fault: usize, good, bad| if has(fault) { bad } else { good };
    let central = number(3, 10 * DEGREE, -HALF_TURN - 1);
    let good = if form == POSITION {
        let longitude = number(4, 20 * DEGREE, HALF_TURN + 1);
        let latitude = number(5, 30 * DEGREE, RIGHT_ANGLE + 1);
        record(form, kind, [central, longitude, latitude])
    } else {
        let y = number(4, number(5, 40_000_000, -200_000_000), 200_000_000);
        let x = number(6, number(7, 50_000_000, -400_000_000), 400_000_000);
        record(form, kind, [central, x, y])
    };
    Record {
        mark: if has(0) { [MARK[1], MARK[0]] } else { MARK },
        form: if has(1) { form + 2 } else { form },
        kind: if has(2) { NO_KIND } else { good.kind },
        ..good
    }
}

/// For a position and for a place: no fault, each fault alone, then every two that it can have, so that the order shows.
pub fn refusals() -> Vec<Record> {
    let mut records = Vec::new();
    for form in [POSITION, PLACE] {
        let with = |which| faulty(form, 5, which);
        let all = 0..faults(form);
        records.push(with(0));
        records.extend(all.clone().map(|fault| with(1 << fault)));
        for first in all.clone() {
            let two = (first + 1..all.end).map(|second| 1 << first | 1 << second);
            records.extend(two.filter(|which| possible(form, *which)).map(with));
        }
    }
    records
}

/// Every mixture of faults for each kind by turns.
fn mixtures() -> Vec<Record> {
    let mut kinds = by_turns();
    let mut records = Vec::new();
    for form in [POSITION, PLACE] {
        for which in mixed_faults(form) {
            let kind = kinds.next().expect("an endless list");
            records.push(faulty(form, kind, which));
        }
    }
    records
}

/// Every byte in each of the first four places, in a position and in a place.
fn first_bytes() -> Vec<Record> {
    let mut records = Vec::new();
    for form in [POSITION, PLACE] {
        let good = record(form, 3, [DEGREE, 2 * DEGREE, 3 * DEGREE]);
        records.extend((0..4).flat_map(|at| every_byte(&good, at)));
    }
    records
}

/// A record with every byte in one place.
pub fn every_byte(good: &Record, at: usize) -> Vec<Record> {
    let with = |byte| {
        let mut bytes = good.bytes();
        bytes[at] = byte;
        Record::read(&bytes.try_into().expect("a record"))
    };
    (0..=255).map(with).collect()
}

/// The ends of 32 bits and the first numbers past the ranges, in each place, in the last two and in all three, for every kind in
/// both forms.
fn far_numbers() -> Vec<Record> {
    let past = [LEAST, LEAST + 1, GREATEST, HALF_TURN + 1, -HALF_TURN - 1];
    let mut records = Vec::new();
    for kind in 1..=KINDS {
        for form in [POSITION, PLACE] {
            for far in past {
                let all = [
                    [far, 1, 2],
                    [3, far, 4],
                    [5, 6, far],
                    [7, far, far],
                    [far; 3],
                ];
                records.extend(all.map(|numbers| record(form, kind, numbers)));
            }
        }
    }
    records
}

/// Central meridians at both ends, and near to them.
fn centrals() -> Vec<i128> {
    signed(&[0, 1, 170 * DEGREE, HALF_TURN - 1, HALF_TURN])
}

/// Positions at the edges of the map, each handed on.
fn positions() -> Vec<Record> {
    let mut records = Vec::new();
    let mut latitude = latitudes().into_iter().cycle();
    for kind in 1..=KINDS {
        for central in centrals() {
            for longitude in longitudes(central) {
                let latitude = latitude.next().expect("an endless list");
                records.extend(handed_on(record(
                    POSITION,
                    kind,
                    [central, longitude, latitude],
                )));
            }
        }
        for latitude in latitudes() {
            for longitude in [HALF_TURN, -HALF_TURN] {
                records.extend(handed_on(record(POSITION, kind, [0, longitude, latitude])));
            }
        }
    }
    records
}

/// Places at the edges of the row found and of the pole.
fn places() -> Vec<Record> {
    let mut records = Vec::new();
    let mut centrals = centrals().into_iter().cycle();
    for kind in 1..=KINDS {
        let row = row_of(kind).expect("a kind of the table");
        for [x, y] in row_edges(&row) {
            let central = centrals.next().expect("an endless list");
            records.push(record(PLACE, kind, [central, x, y]));
        }
    }
    records
}

/// Neighbouring meridians of kinds 2 and 11, each handed on: apart at 72 degrees, some of them in one place at 89.
fn neighbours() -> Vec<Record> {
    let mut records = Vec::new();
    for (kind, degrees) in [(2, 72), (2, 89), (11, 72), (11, 89)] {
        for longitude in HALF_TURN - 20..=HALF_TURN {
            let numbers = [0, longitude, degrees * DEGREE];
            records.extend(handed_on(record(POSITION, kind, numbers)));
        }
    }
    records
}
