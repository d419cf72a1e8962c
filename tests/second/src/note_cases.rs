//! Counts and notes at the edges: about the greatest sum, about every power of two, every mark, every length.
use crate::note::NOTE;
use crate::record;
use crate::session::Session;

/// A piece that is a note, or that is none.
pub type Note = Vec<u8>;

/// The mark of a note of two 64-bit numbers, which is none here.
pub const OTHER_MARK: [u8; 2] = [0x4d, 0xd4];

/// The longest piece.
pub const LONGEST: usize = 40;

const HALF: u64 = 1 << 63;
const MOST_32: u64 = (1 << 32) - 1;

/// Two counts, and whether a note may have them.
const COUNTS: [([u64; 2], bool); 20] = [
    ([0, 0], true),
    ([1, 0], true),
    ([0, 1], true),
    ([1_000_000_000, 0], true),
    ([999_999_999, 1], true),
    ([500_000_000, 500_000_000], true),
    ([1, 999_999_999], true),
    ([0, 1_000_000_000], true),
    ([1_000_000_000, 1], false),
    ([1, 1_000_000_000], false),
    ([1_000_000_001, 0], false),
    ([0, 1_000_000_001], false),
    ([1_000_000_000, 1_000_000_000], false),
    ([MOST_32, 1], false),
    ([MOST_32, MOST_32], false),
    ([MOST_32 + 1, 0], false),
    ([0, MOST_32 + 1], false),
    ([HALF, HALF], false),
    ([u64::MAX, 1], false),
    ([u64::MAX, u64::MAX], false),
];

/// Stops where the second program saves other counts of these.
pub fn check() {
    for ([moved, refused], saved) in COUNTS {
        let session = Session { moved, refused };
        assert_eq!(NOTE.save(&session, NOTE.length()).is_ok(), saved);
    }
}

/// Those above, and at most one beside each power of two, in either place and in both.
pub fn counts() -> Vec<[u64; 2]> {
    let mut all = COUNTS.map(|(counts, _)| counts).to_vec();
    for power in (0..64).map(|bits| 1_u64 << bits) {
        for n in [power - 1, power, power + 1] {
            all.extend([[n, 0], [0, n], [n, n]]);
        }
    }
    all
}

/// The notes of all those counts, of which the last bytes are left out where they do not fit.
pub fn notes() -> Vec<Note> {
    let note = |counts: [u64; 2]| NOTE.bytes(counts.map(u128::from));
    counts().into_iter().map(note).collect()
}

/// One that is accepted, and one that is refused by its numbers.
fn good_and_bad() -> [Note; 2] {
    [1, 2].map(|refused| NOTE.bytes([NOTE.cap - 1, refused]))
}

/// Every byte in each place, and every mark.
pub fn every_byte() -> Vec<Note> {
    let mut all = Vec::new();
    for note in good_and_bad() {
        for at in 0..note.len() {
            all.extend((0..=255).map(|byte| [&note[..at], &[byte], &note[at + 1..]].concat()));
        }
        all.extend((0..=u16::MAX).map(|mark| marked(mark.to_le_bytes(), &note)));
    }
    all
}

/// Every length with several marks, the note in front as far as it goes, and then again.
pub fn lengths() -> Vec<Note> {
    let [first, second] = NOTE.mark;
    let marks = [
        NOTE.mark,
        OTHER_MARK,
        record::MARK,
        [second, first],
        [first, 0],
        [0, second],
        [0, 0],
    ];
    let mut all = Vec::new();
    for mark in marks {
        for note in good_and_bad() {
            let bytes = marked(mark, &note).repeat(LONGEST.div_ceil(note.len()));
            all.extend((0..=LONGEST).map(|length| bytes[..length].to_vec()));
        }
    }
    all
}

/// The note with another mark.
pub fn marked(mark: [u8; 2], note: &[u8]) -> Note {
    [&mark, &note[mark.len()..]].concat()
}
