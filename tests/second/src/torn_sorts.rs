//! What sorts of reading a torn file brings about, so that a comparison sees that it had all of them.
use crate::record::LENGTH;
use crate::torn::{list_length, number_at, stands, taken, Salvaged, MOST};

/// A record that is converted begins inside one that is taken: this, and how many bytes behind its beginning.
const INSIDE: u8 = 100;

/// Nothing to read; nothing to take; nothing to skip; the longest input, and one of that length whose runs fill their piece.
const EMPTY: u8 = 120;
const NO_RECORD: u8 = 121;
const NO_RUN: u8 = 122;
const LONGEST: u8 = 123;
const FULL: u8 = 124;

/// What files at random bring about: the numbers that the reading skips a byte by, 0 where it takes a record, and sorts.
pub const AT_RANDOM: [u8; 22] = [
    0, 1, 3, 4, 5, 6, 7, 8, 9, 10, 17, 18, 104, 105, 108, 109, 112, 113, EMPTY, NO_RECORD, NO_RUN,
    LONGEST,
];

/// The same of files at the edges, where some lists are full, and some files refused.
pub const AT_EDGES: [u8; 24] = [
    0, 1, 3, 4, 5, 6, 7, 8, 9, 10, 17, 18, 23, 104, 105, 108, 109, 112, 113, EMPTY, NO_RECORD,
    NO_RUN, LONGEST, FULL,
];

/// The sorts of an input, of which this was salvaged.
pub fn sorts(input: &[u8], salvaged: &Salvaged) -> Vec<u8> {
    let stands = stands(input);
    let mut sorts: Vec<u8> = stands.iter().map(|(_, number)| *number).collect();
    for place in taken(&stands) {
        let inside = (1..LENGTH).filter(|more| number_at(input, place + more) == 0);
        sorts.extend(inside.map(|more| INSIDE + more as u8));
    }
    let longest = input.len() == MOST;
    let whole = [
        (EMPTY, input.is_empty()),
        (NO_RECORD, salvaged.records.is_empty()),
        (NO_RUN, salvaged.runs.is_empty()),
        (LONGEST, longest),
        (FULL, longest && salvaged.list().len() == list_length(MOST)),
    ];
    sorts.extend(whole.iter().filter(|(_, is)| *is).map(|(sort, _)| *sort));
    sorts
}
