//! Torn files at the edges: every byte lost, added or changed, every cut, records in whose numbers another one begins, refused
//! records between good ones, lists that are full, and every length that matters.
use crate::map::{HALF_TURN, RIGHT_ANGLE};
use crate::record::{record, Record, DOCUMENT, LENGTH, MARK, PLACE, POSITION};
use crate::record_cases::{faulty, joined, mixed_faults, refusals};
use crate::requests::DEGREE;
use crate::table::KINDS;
use crate::torn::MOST;
use crate::torn_random::Chance;

/// A torn file, whatever its bytes.
pub type File = Vec<u8>;

/// Bytes that are put between others: those of a mark, forms, kinds, and others.
const LIKELY: [u8; 8] = [MARK[0], MARK[1], 0, 1, 12, 13, 0x80, 0xff];

/// Lengths that are tried with several sorts of bytes; the last ones are refused.
const LENGTHS: [usize; 19] = [
    47, 48, 49, 50, 51, 52, 65_519, 65_520, 65_521, 65_534, 65_535, MOST, 65_537, 65_538, 65_552,
    65_553, 70_000, 131_072, 1_048_576,
];

/// How many bytes of a record stand at the end of the stored input.
const TAIL: usize = 11;

/// How many bytes inside a record another one can begin. A number that is within its limits has no byte of a mark on top.
pub const INSIDE: [usize; 6] = [4, 5, 8, 9, 12, 13];

/// Every short length and those above: of records, of records without the first byte, of marks, of zeros.
pub fn lengths() -> impl Iterator<Item = File> {
    let bytes = [&DOCUMENT[..], &MARK, &[0]].map(|bytes| bytes.repeat(1_048_592 / bytes.len()));
    let [records, marks, zeros] = bytes;
    let lengths = (0..=35).chain(LENGTHS);
    lengths.flat_map(move |length| {
        let cut = [&records[..], &records[1..], &marks, &zeros];
        cut.map(|bytes| bytes[..length].to_vec())
    })
}

/// A file with one byte lost, in every place.
fn lost(file: &[u8]) -> impl Iterator<Item = File> + '_ {
    (0..file.len()).map(|at| [&file[..at], &file[at + 1..]].concat())
}

/// A file with one of these bytes added, in every place, before its first byte and behind its last one too.
fn added<'a>(file: &'a [u8], bytes: &'a [u8]) -> impl Iterator<Item = File> + 'a {
    let with = |at, byte| [&file[..at], &[byte], &file[at..]].concat();
    (0..=file.len()).flat_map(move |at| bytes.iter().map(move |byte| with(at, *byte)))
}

/// A file with one byte changed into one of these, in every place.
fn changed<'a>(file: &'a [u8], bytes: &'a [u8]) -> impl Iterator<Item = File> + 'a {
    let with = |at, byte| [&file[..at], &[byte], &file[at + 1..]].concat();
    (0..file.len()).flat_map(move |at| bytes.iter().map(move |byte| with(at, *byte)))
}

/// All of these of every file, each byte in turn for some of them and likely ones for the rest.
pub fn damaged() -> impl Iterator<Item = File> {
    let every: Vec<u8> = (0..=255).collect();
    let files = good_files().into_iter().enumerate();
    files.flat_map(move |(at, file)| {
        let bytes = if at % 3 == 0 { &every[..] } else { &LIKELY };
        let all = lost(&file).chain(added(&file, bytes));
        all.chain(changed(&file, bytes)).collect::<Vec<File>>()
    })
}

/// Files of three records: a position and a place of each kind, records in whose numbers another one begins, and both by turns.
fn good_files() -> Vec<File> {
    let plain = (1..=KINDS).map(|kind| {
        let [position, place] = [POSITION, PLACE].map(|form| faulty(form, kind, 0));
        [position, place, position]
    });
    let marked = INSIDE.into_iter().flat_map(|at| {
        let record = disguised(at, 1, POSITION);
        let plain = Record::read(&DOCUMENT);
        [
            [record, record, record],
            [record, plain, record],
            [plain, record, plain],
        ]
    });
    let files = plain.chain(marked);
    files.map(|records| joined(&records)).collect()
}

/// A position in whose numbers a mark, a kind and a form stand, so many bytes behind its beginning, as far as it goes. Its
/// latitude's lowest byte is 0, so that a number is within its limits of which this is the upper byte.
pub fn disguised(at: usize, kind: u8, form: u8) -> Record {
    let latitude = 256 * (DEGREE / 10);
    let mut bytes = record(POSITION, 1, [10 * DEGREE, 20 * DEGREE, latitude]).bytes();
    for (byte, other) in bytes[at..].iter_mut().zip([MARK[0], MARK[1], kind, form]) {
        *byte = other;
    }
    Record::read(&bytes.try_into().expect("a record"))
}

/// Records of every such sort with each kind and form that leaves them good: two and three of them in a row, and two with zeros behind
/// each, without their first bytes, up to 31 of them.
pub fn misleading() -> impl Iterator<Item = File> {
    let kinds = 1..=KINDS as u8;
    let all = kinds.flat_map(|kind| INSIDE.map(|at| [0, 1].map(|form| disguised(at, kind, form))));
    let good = all
        .flatten()
        .filter(|record| record.converted().is_ok())
        .flat_map(|record| {
            let bytes = record.bytes();
            let apart = [&bytes[..], &[0; LENGTH]].concat();
            [bytes.repeat(2), bytes.repeat(3), apart.repeat(2)]
        });
    good.flat_map(|file| (0..2 * LENGTH).map(move |first| file[first..].to_vec()))
}

/// Beginnings and ends of records before a whole one, of every length, and marks in a row.
pub fn cuts() -> Vec<File> {
    let mut files = Vec::new();
    let good = [POSITION, PLACE].map(|form| faulty(form, 5, 0).bytes());
    for piece in good.iter().chain([&DOCUMENT.to_vec()]) {
        for length in 0..=LENGTH {
            let (front, back) = piece.split_at(length);
            for part in [front, back] {
                files.push([part, piece].concat());
                files.push([piece, part, piece].concat());
                files.push([part, part, piece, part].concat());
            }
        }
        for marks in 1..20 {
            let marks = MARK.repeat(marks);
            files.push([&marks, &piece[..]].concat());
            files.push([&marks, &piece[2..]].concat());
            files.push([&marks[1..], piece].concat());
            files.push([&piece[..], &marks, piece].concat());
        }
    }
    files
}

/// Refused records between good ones: each fault and every two, each fault of each kind, and several in a row.
pub fn refused() -> Vec<File> {
    let good = Record::read(&DOCUMENT);
    let between = |record: &Record| joined(&[good, *record, good, *record, *record, good]);
    let mut files: Vec<File> = refusals().iter().map(between).collect();
    files.push(joined(&refusals()));
    for kind in 1..=KINDS {
        for form in [POSITION, PLACE] {
            let single = mixed_faults(form).filter(|which| which.count_ones() < 2);
            let records: Vec<Record> = single.map(|which| faulty(form, kind, which)).collect();
            files.extend(records.iter().map(between));
            files.push(joined(&records));
        }
    }
    files
}

/// Positions with a number at its limit and a unit past it, which decides whether they are taken, between good records.
pub fn limits() -> Vec<File> {
    let good = Record::read(&DOCUMENT);
    let limits = [HALF_TURN, HALF_TURN, RIGHT_ANGLE];
    let mut files = Vec::new();
    for kind in 1..=KINDS {
        for (at, limit) in limits.into_iter().enumerate() {
            for number in [limit, limit + 1, -limit, -limit - 1] {
                let mut numbers = [0; 3];
                numbers[at] = number;
                files.push(joined(&[good, record(POSITION, kind, numbers), good]));
            }
        }
    }
    files
}

/// A byte and a record by turns, so many times, and then such a byte or none: with one, no list is fuller.
pub fn full_lists() -> impl Iterator<Item = File> {
    let most = MOST / (LENGTH + 1);
    let counts = (1..=20).chain([100, most - 1, most]);
    counts.flat_map(|count| {
        LIKELY.into_iter().flat_map(move |byte| {
            let file = [&[byte], &DOCUMENT[..]].concat().repeat(count);
            let behind = [&file[1..], &[byte]].concat();
            let full = [&file[..], &[byte]].concat();
            [file, behind, full]
        })
    })
}

/// The small stored run of such records. For each place where another one can begin: a record without its first byte, a whole one, a
/// record and zeros, and document 01's record.
pub fn all_disguised() -> File {
    let parts = INSIDE.map(|at| {
        let bytes = disguised(at, 1, POSITION).bytes();
        [&bytes[1..], &bytes, &bytes, &[0; 5], &DOCUMENT].concat()
    });
    parts.concat()
}

/// A file of records, of which the second has a byte lost, the fifth one added in front, and the eighth one changed, and the last
/// is torn.
pub fn torn(mut file: File) -> File {
    let [lost, before, other] = [1, 4, 7].map(|record| LENGTH * record);
    file[other + 1] ^= 1;
    file.insert(before, 0);
    file.remove(lost + 9);
    file.truncate(file.len() - 3);
    file
}

/// The stored input of the program `salvage`, which is as long as it may be: what stands above, in parts, then files at random. Its
/// first record is taken, and at its end stands a torn one.
pub fn all() -> File {
    let mut file = DOCUMENT.to_vec();
    file.extend(damaged().step_by(997).take(150).flatten());
    file.extend(misleading().step_by(61).flatten());
    file.extend(cuts().concat());
    file.extend(refused().concat());
    let mut chance = Chance::new(20_260_207, 12);
    while file.len() < MOST - TAIL {
        file.extend(chance.file());
    }
    file.truncate(MOST - LENGTH - TAIL);
    file.extend(DOCUMENT);
    file.extend(&DOCUMENT[..TAIL]);
    file
}

/// Whole files as long as they may be, and what is left of them without a byte, or with one more.
pub fn whole_files() -> Vec<File> {
    let good = [POSITION, PLACE].map(|form| faulty(form, 3, 0).bytes());
    let file = good.concat().repeat(MOST / LENGTH / 2);
    let mut files = vec![file.clone()];
    // the reading never comes to the records that were written
    let other = [4, 8, 12].map(|at| disguised(at, 2, PLACE).bytes());
    let other = other.map(|bytes| bytes.repeat(MOST / LENGTH)[1..].to_vec());
    files.extend(other);
    for at in [0, 1, LENGTH, MOST / 2 + 5, MOST - LENGTH, MOST - 1] {
        let mut shorter = file.clone();
        shorter.remove(at);
        // of the greatest length again, and past it
        files.push([&shorter[..], &[0]].concat());
        files.push([&shorter[..], &[0, 0]].concat());
        files.push(shorter);
    }
    files
}
