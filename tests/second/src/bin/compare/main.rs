//! Compares the library, through its C interface, and the programs `convert`, `reproject` and `salvage` with the second program.
//! `compare names` prints the names of the parts, one a line. `compare NAME SEED` runs a part, from the repository's root, and
//! prints how many inputs it had; where something differs, it prints the first difference and its status is 1.
mod convert;
mod floats;
mod halves;
mod histories;
mod lent;
mod library;
mod note_calls;
mod notes;
mod numbers;
mod pairs;
mod part;
mod program;
mod record_calls;
mod record_inputs;
mod records;
mod reproject;
mod salvage;
mod sessions;
mod text_calls;
mod texts;
mod torn_calls;
mod torn_files;

use part::Part;
use second::reproject::{A_POSITION, OTHER_KIND};
use second::torn_sorts::{AT_EDGES, AT_RANDOM};
use std::process::ExitCode;

/// A part's name, its comparison from a seed, and every number that is to be seen: 0, the refusals, and sorts of input.
type Named = (&'static str, fn(&mut Part, u64), &'static [u8]);

const PARTS: [Named; 24] = [
    ("forward on numbers", numbers::forward, &[0, 1, 3, 4, 5]),
    ("inverse on numbers", numbers::inverse, &PLACES),
    ("numbers handed on", numbers::handed_on, &[0]),
    ("forward on floats", floats::forward, &[0, 1, 2, 3, 4, 5]),
    ("inverse on floats", floats::inverse, &FLOAT_PLACES),
    ("floats handed on", floats::handed_on, &[0]),
    ("records converted", records::converted, &UNCAPPED),
    ("records fed", records::fed, &CAPPED),
    ("records handed on", records::handed_on, &[0]),
    ("sessions about full", sessions::about_full, &CAPPED),
    ("runs of a session", sessions::runs, &CAPPED),
    ("notes saved", notes::saved, &[0, 8, 16]),
    ("notes restored", notes::restored, &[0, 8, 9, 16]),
    ("notes handed on", notes::handed_on, &[0]),
    ("histories of a session", histories::compare, &EVENTS),
    ("text written", texts::written, &[0, 4, 5, 12]),
    ("text read", texts::read, &[0, 4, 5, 12, 13, 14, 15]),
    ("text handed on", texts::handed_on, &[0]),
    ("torn files at the edges", torn_files::edges, &AT_EDGES),
    ("torn files at random", torn_files::drawn, &AT_RANDOM),
    ("pieces for torn files", torn_files::pieces, &[0, 23, 24]),
    ("program convert", convert::compare, &UNCAPPED),
    ("program reproject", reproject::compare, &REPROJECTED),
    ("program salvage", salvage::compare, &[0, 23]),
];

/// What a call on a place gives, on numbers and on floats.
const PLACES: [u8; 7] = [0, 1, 3, 6, 7, 17, 18];
const FLOAT_PLACES: [u8; 8] = [0, 1, 2, 3, 6, 7, 17, 18];

/// What a call on a record gives without a session, and in one; and what the events of a session give.
const UNCAPPED: [u8; 12] = [0, 1, 3, 4, 5, 6, 7, 8, 9, 10, 17, 18];
const CAPPED: [u8; 13] = [0, 1, 3, 4, 5, 6, 7, 8, 9, 10, 11, 17, 18];
const EVENTS: [u8; 14] = [0, 1, 3, 4, 5, 6, 7, 8, 9, 10, 11, 16, 17, 18];

/// What becomes of the pieces that `reproject` reads: 0 where a place is taken.
const REPROJECTED: [u8; 11] = [0, 3, 6, 7, 8, 9, 10, 17, 18, A_POSITION, OTHER_KIND];

fn main() -> ExitCode {
    second::check();
    let words: Vec<String> = std::env::args().skip(1).collect();
    match words.iter().map(String::as_str).collect::<Vec<_>>()[..] {
        ["names"] => {
            PARTS.iter().for_each(|(name, ..)| println!("{name}"));
            ExitCode::SUCCESS
        }
        [name, seed] => run(name, seed.parse().expect("a number")),
        _ => {
            eprintln!("compare names | NAME SEED");
            ExitCode::from(2)
        }
    }
}

fn run(name: &str, seed: u64) -> ExitCode {
    let named = PARTS.iter().find(|(known, ..)| *known == name);
    let (_, compare, numbers) = named.expect("the name of a part");
    let mut part = Part::new(seed);
    compare(&mut part, seed);
    match part.verdict(numbers) {
        Ok(inputs) => {
            println!("{inputs}");
            ExitCode::SUCCESS
        }
        Err(fault) => {
            println!("{fault}");
            ExitCode::FAILURE
        }
    }
}
