//! Document 02's order 7 once more: what is salvaged of a torn record file, and what the program `salvage` writes and says. The
//! reading only tells which records are taken; the skipped runs are what lies between them.
use crate::record::{Record, DOCUMENT, LENGTH};

/// The longest input.
pub const MOST: usize = 65_536;

/// The bytes of a run in the list: two numbers.
const ENTRY: usize = 8;

/// Bytes that were skipped one after the other.
#[derive(Clone, Copy, Debug, PartialEq)]
pub struct Run {
    pub place: usize,
    pub length: usize,
}

/// What was taken, closed up, and what was skipped.
#[derive(Debug, PartialEq)]
pub struct Salvaged {
    pub records: Vec<u8>,
    pub runs: Vec<Run>,
}

/// Records with a byte lost, and one whose central meridian looks like a mark without its first byte: at place 3 stands what is
/// converted, and the next record begins inside of it.
pub fn check() {
    let lost = [&DOCUMENT[..5], &DOCUMENT[6..]].concat();
    let salvaged = Salvaged::of(&[&DOCUMENT, &lost[..], &DOCUMENT].concat());
    assert_eq!(salvaged.records, DOCUMENT.repeat(2));
    assert_eq!(salvaged.list(), b"\x10\0\0\0\x0f\0\0\0");
    assert_eq!(salvaged.said(), "skipped 15 at 16\nrecords 2 runs 1\n");
    let marked = b"\xd2\x01\0\x4d\xd2\x0c\x01\0\0\0\0\0\0\0\0\x4d\xd2\x01\0";
    let salvaged = Salvaged::of(&[marked, &DOCUMENT[4..]].concat());
    assert_eq!(salvaged.records, &marked[3..]);
    assert_eq!(salvaged.list(), b"\0\0\0\0\x03\0\0\0\x13\0\0\0\x0c\0\0\0");
    let lengths = [0, 16, 17, 33, 34, MOST].map(list_length);
    assert_eq!(lengths, [8, 8, 16, 16, 24, 30_848]);
}

/// The length of the list piece: 8 bytes for each full 17 of input, and 8 more.
pub fn list_length(input: usize) -> usize {
    input / (LENGTH + 1) * ENTRY + ENTRY
}

/// What becomes of the bytes at a place: 0 where a record stands there that is converted, and else the refusal. It is 8 where
/// fewer than 16 are left.
pub fn number_at(input: &[u8], place: usize) -> u8 {
    match input[place..].first_chunk() {
        Some(bytes) => Record::read(bytes).converted().err().unwrap_or(0),
        None => 8,
    }
}

/// The places that the reading stands at, each with what becomes of the bytes there.
pub fn stands(input: &[u8]) -> Vec<(usize, u8)> {
    let mut stands = Vec::new();
    let mut place = 0;
    while place < input.len() {
        let number = number_at(input, place);
        stands.push((place, number));
        place += if number == 0 { LENGTH } else { 1 };
    }
    stands
}

/// Where the records that are taken begin.
pub fn taken(stands: &[(usize, u8)]) -> Vec<usize> {
    let taken = stands.iter().filter(|(_, number)| *number == 0);
    taken.map(|(place, _)| *place).collect()
}

/// What is salvaged for pieces of these lengths, or the number of the refusal: 23 or 24.
pub fn salvage(input: &[u8], records: usize, list: usize) -> Result<Salvaged, u8> {
    if input.len() > MOST {
        return Err(23);
    }
    if records != input.len() || list != list_length(input.len()) {
        return Err(24);
    }
    Ok(Salvaged::of(input))
}

/// What the program writes and says.
pub fn program(input: &[u8]) -> (Vec<u8>, String) {
    match salvage(input, input.len(), list_length(input.len())) {
        Ok(salvaged) => {
            let said = salvaged.said();
            (salvaged.records, said)
        }
        Err(_) => {
            let said = format!("salvage: standard input: more than {MOST} bytes\n");
            (Vec::new(), said)
        }
    }
}

impl Salvaged {
    fn of(input: &[u8]) -> Salvaged {
        let taken = taken(&stands(input));
        let records = taken.iter().flat_map(|at| &input[*at..*at + LENGTH]);
        let begins = std::iter::once(0).chain(taken.iter().map(|at| at + LENGTH));
        let ends = taken.iter().copied().chain([input.len()]);
        let gaps = begins.zip(ends).map(|(place, end)| Run {
            place,
            length: end - place,
        });
        Salvaged {
            records: records.copied().collect(),
            runs: gaps.filter(|run| run.length > 0).collect(),
        }
    }

    /// Records taken, then runs skipped.
    pub fn counts(&self) -> [u64; 2] {
        [self.records.len() / LENGTH, self.runs.len()].map(|count| count as u64)
    }

    /// The runs in bytes.
    pub fn list(&self) -> Vec<u8> {
        let numbers = self.runs.iter().flat_map(|run| [run.place, run.length]);
        numbers.flat_map(number_bytes).collect()
    }

    /// A line for each run, and one for the counts.
    pub fn said(&self) -> String {
        let lines = self.runs.iter().map(|run| {
            let Run { place, length } = run;
            format!("skipped {length} at {place}\n")
        });
        let [records, runs] = self.counts();
        lines.collect::<String>() + &format!("records {records} runs {runs}\n")
    }
}

/// The bytes of a number, the least of them first.
fn number_bytes(number: usize) -> [u8; 4] {
    [1, 1 << 8, 1 << 16, 1 << 24].map(|power| (number / power % 256) as u8)
}
