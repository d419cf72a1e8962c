//! Requests on notes: every edge that document 02's order 3 names, and some hundred at random from a fixed seed.
use crate::note::NOTE;
use crate::note_cases::marked;
use crate::note_request::NoteRequest;
use crate::requests::{below, next, seeded};

/// Counts about the greatest sum, and about what a number of 32 or of 64 bits holds.
const COUNTS: [i128; 11] = [
    0,
    1,
    999_999_999,
    1_000_000_000,
    1_000_000_001,
    (1 << 32) - 1,
    1 << 32,
    1 << 63,
    (1 << 64) - 1,
    1 << 64,
    99_999_999_999_999_999_999,
];

/// Counts of 32 bits, their bytes told apart.
const NARROW: [u32; 10] = [
    0,
    1,
    0x80,
    0x0100,
    0x0001_0000,
    0x0100_0000,
    0x0403_0201,
    1_000_000_000,
    0x8000_0000,
    0xffff_ffff,
];

/// Counts that a note can have, to be saved with what is left up to the greatest sum.
const PARTS: [u32; 8] = [
    0,
    1,
    255,
    256,
    70_000,
    500_000_000,
    999_999_999,
    1_000_000_000,
];

/// Marks that are none but the first.
const MARKS: [[u8; 2]; 12] = [
    NOTE.mark,
    [0x4d, 0xd2],
    [0x4d, 0xd4],
    [0xd3, 0x4d],
    [0x4d, 0x4d],
    [0xd3, 0xd3],
    [0x4c, 0xd3],
    [0x4e, 0xd3],
    [0xcd, 0xd3],
    [0x4d, 0x53],
    [0x00, 0x00],
    [0xff, 0xff],
];

/// Bytes beside the digits, and others that are none.
const NO_DIGITS: &[u8] = b"/:@G`g xX-+\t\r\0\x7f\x80\xff";

/// A note with every sort of digit in it, 287,454,020 and 713 counted.
const GOOD: &[u8; 20] = b"4dd344332211c9020000";

/// Lines, each without its end.
pub fn all() -> Vec<Vec<u8>> {
    let mut requests = saves();
    requests.extend(restores());
    requests.extend(marks());
    requests.extend(random());
    let lines = requests.iter().map(|request| request.line().into_bytes());
    let mut lines: Vec<Vec<u8>> = lines.collect();
    lines.extend(lengths());
    lines.extend(no_digits());
    lines.extend(ODD.map(Vec::from));
    lines
}

/// Two numbers behind a mark.
fn note(mark: [u8; 2], counts: [u32; 2]) -> Vec<u8> {
    marked(mark, &NOTE.bytes(counts.map(u128::from)))
}

/// Two counts, both ways round.
fn both_ways([first, second]: [u32; 2]) -> [[u32; 2]; 2] {
    [[first, second], [second, first]]
}

/// Each part, with as much that the sum is the greatest, one less and one more.
fn about_the_greatest() -> Vec<[u32; 2]> {
    let mut pairs = Vec::new();
    for part in PARTS {
        let rest = NOTE.cap as u32 - part;
        for other in [rest.saturating_sub(1), rest, rest + 1] {
            pairs.extend(both_ways([part, other]));
        }
    }
    pairs
}

fn saves() -> Vec<NoteRequest> {
    let mut pairs: Vec<[i128; 2]> = Vec::new();
    for moved in COUNTS {
        pairs.extend(COUNTS.map(|refused| [moved, refused]));
    }
    pairs.extend(about_the_greatest().iter().map(|pair| pair.map(i128::from)));
    pairs.into_iter().map(NoteRequest::Save).collect()
}

fn restores() -> Vec<NoteRequest> {
    let mut pairs = about_the_greatest();
    for moved in NARROW {
        pairs.extend(NARROW.map(|refused| [moved, refused]));
    }
    let notes = pairs.into_iter().map(|pair| note(NOTE.mark, pair));
    notes.map(NoteRequest::Restore).collect()
}

/// Each mark before counts that are good, before counts that are too many, and in a note that is too long.
fn marks() -> Vec<NoteRequest> {
    let mut notes = Vec::new();
    for mark in MARKS {
        notes.push(note(mark, [2, 1]));
        notes.push(note(mark, [1_000_000_000, 1]));
        notes.push([note(mark, [2, 1]), vec![0]].concat());
    }
    notes.into_iter().map(NoteRequest::Restore).collect()
}

/// Counts to save, their notes, and notes with one byte changed.
fn random() -> Vec<NoteRequest> {
    let mut requests = Vec::new();
    let mut state = seeded(20_260_107);
    for _ in 0..40 {
        let moved = below(&mut state, 1 + NOTE.cap as u64) as u32;
        let refused = below(&mut state, 1 + NOTE.cap as u64 - u64::from(moved)) as u32;
        requests.push(NoteRequest::Save([moved.into(), refused.into()]));
        let mut note = note(NOTE.mark, [moved, refused]);
        requests.push(NoteRequest::Restore(note.clone()));
        note[below(&mut state, NOTE.length() as u64) as usize] = next(&mut state) as u8;
        requests.push(NoteRequest::Restore(note));
        // of any size
        let wide = [0, 1].map(|_| next(&mut state) >> below(&mut state, 64));
        requests.push(NoteRequest::Save(wide.map(i128::from)));
    }
    requests
}

/// Notes of 0 to 25 bytes, those with an odd number of digits among them, and much longer ones.
fn lengths() -> Vec<Vec<u8>> {
    let lengths = (0..=50).chain([199, 200, 4000, 4001]);
    let digits = lengths.map(|length| GOOD.iter().cycle().take(length));
    digits
        .map(|digits| b"r ".iter().chain(digits).copied().collect())
        .collect()
}

/// A good note with a byte that is no digit, in every place, and with every such byte in some; in long notes too.
fn no_digits() -> Vec<Vec<u8>> {
    let mut places: Vec<(usize, u8)> = Vec::new();
    for at in 0..GOOD.len() {
        places.extend([(at, b'g'), (at, b' ')]);
    }
    for at in [0, 9, 19] {
        places.extend(NO_DIGITS.iter().map(|byte| (at, *byte)));
    }
    let mut lines: Vec<Vec<u8>> = Vec::new();
    for (at, byte) in places {
        let mut digits = GOOD.to_vec();
        digits[at] = byte;
        lines.push([b"r ", &digits[..]].concat());
    }
    for at in [20, 21, 22, 45, 46, 47, 399] {
        let mut digits = GOOD.repeat(20);
        digits[at] = b'g';
        lines.push([b"r ", &digits[..]].concat());
    }
    lines
}

/// Lines at the edges of what `query` reads: `s` wants two counts, `r` one space, and then digits alone.
const ODD: [&str; 52] = [
    "s",
    "s ",
    "s 1",
    "s 1 ",
    "s 12",
    "s1 2",
    "s  1  2  ",
    "s 1 2 3",
    "s 1 2 3 4",
    "s 1 2 3 4 5",
    "s -1 0",
    "s 0 -1",
    "s -0 0",
    "s 0 -0",
    "s -1 -1",
    "s -99999999999999999999 0",
    "s +1 2",
    "s - 2",
    "s x1 2",
    "s 1 x2",
    "s 1 2a",
    "s 1,2",
    "s 1.0 2",
    "s 1 2\r",
    "s\t1 2",
    "S 1 2",
    "ss 1 2",
    " s 1 2",
    "s 0001000000000 00000000000000000000000000000000",
    "s 0000000000000000000000000000000000000000000000000000001 2",
    "s 18446744073709551616 18446744073709551616",
    "s 340282366920938463463374607431768211456 0",
    "s 4dd30100000002000000",
    "r",
    "r  ",
    "r\t",
    "rr",
    "r\r",
    "R 4dd30100000002000000",
    "r4dd30100000002000000",
    "r  4dd30100000002000000",
    "r\t4dd30100000002000000",
    "r 4dd30100000002000000 ",
    "r 4dd3 01000000 02000000",
    "r 4dd30100000002000000\r",
    "rr 4dd30100000002000000",
    " r 4dd30100000002000000",
    "r 0x4dd30100000002000000",
    "r 4DD30A0B0C0D0E0F0000",
    "r 4Dd30a0B0c0D0e0F0000",
    "r 4DD3FFC99A3B01000000",
    "r 1 2",
];
