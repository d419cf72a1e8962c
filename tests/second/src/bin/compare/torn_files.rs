//! Torn files: at every edge, at random, and with pieces of other lengths.
use crate::part::Part;
use crate::torn_calls::{compare, rooms};
use second::record::{DOCUMENT, LENGTH};
use second::torn::{salvage, stands, taken, MOST};
use second::torn_cases::{self, File};
use second::torn_random::Chance;
use second::torn_sorts::sorts;

/// How many files are drawn, with how many records each, about, how many more are cut and joined, how many have a good stretch, and
/// how many are so long that they are salvaged in parts.
const DRAWN: [(u64, u64); 3] = [(100_000, 8), (5_000, 100), (200, 4_100)];
const SPLICED: u64 = 1_000;
const STRETCHES: u64 = 5_000;
const LONG: u64 = 40;

/// How many are drawn to be handed over with pieces of other lengths.
const PIECES: u64 = 5_000;

/// The lengths of others that are; the last two are refused in any case.
const LENGTHS: [usize; 13] = [
    0, 1, 7, 8, 16, 17, 34, 47, 4_096, 65_535, MOST, 65_537, 70_000,
];

pub fn edges(part: &mut Part, _: u64) {
    let files = torn_cases::lengths()
        .chain(torn_cases::damaged())
        .chain(torn_cases::misleading())
        .chain(torn_cases::cuts())
        .chain(torn_cases::refused())
        .chain(torn_cases::limits())
        .chain(torn_cases::full_lists())
        .chain(torn_cases::whole_files());
    files.for_each(|file| whole(part, &file));
}

pub fn drawn(part: &mut Part, seed: u64) {
    for (at, (files, most)) in (0..).zip(DRAWN) {
        let mut chance = Chance::new(seed.wrapping_add(at), most);
        (0..files).for_each(|_| whole(part, &chance.file()));
    }
    let mut chance = Chance::new(seed, 30);
    (0..SPLICED).for_each(|_| whole(part, &chance.spliced()));
    (0..STRETCHES).for_each(|_| stretch(part, chance.stretch()));
    let mut chance = Chance::new(seed, 8_000);
    (0..LONG).for_each(|_| in_parts(part, &chance.spliced()));
}

/// The reading comes to stand at the beginning of a good stretch, and takes it record by record: held by what was answered alone.
fn stretch(part: &mut Part, [before, good, behind]: [File; 3]) {
    let file = [&before[..], &good, &behind].concat();
    let [records, runs] = compare(part, &file, rooms(&file));
    let first = [0_u32, before.len() as u32].map(u32::to_le_bytes).concat();
    let skipped = before.is_empty() || runs.starts_with(&first);
    let difference = || format!("{good:02x?} behind {before:02x?} is not taken");
    part.hold((!skipped || !records.starts_with(&good)).then(difference));
}

/// A file of any length in parts that are as long as they may be. Each begins where the last record ends that was taken of the one
/// before, or 15 bytes before that one's end where this is later, and what is taken of all is what one reading takes.
fn in_parts(part: &mut Part, file: &[u8]) {
    let (mut begin, mut records) = (0, Vec::new());
    loop {
        let end = file.len().min(begin + MOST);
        let bytes = &file[begin..end];
        let rooms = rooms(bytes);
        compare(part, bytes, rooms);
        let salvaged = salvage(bytes, rooms[0], rooms[1]).expect("a part that is not too long");
        records.extend(salvaged.records);
        if end == file.len() {
            break;
        }
        let last = salvaged.runs.last();
        let behind = last.filter(|run| run.place + run.length == bytes.len());
        begin = behind
            .map_or(end, |run| begin + run.place)
            .max(end - (LENGTH - 1));
    }
    let places = taken(&stands(file)).into_iter();
    let whole = places.flat_map(|at| &file[at..at + LENGTH]);
    let difference = || format!("a file of {} bytes is another one in parts", file.len());
    part.hold((!whole.eq(&records)).then(difference));
}

/// A file with pieces of the lengths that are asked for, and what sorts it is of.
fn whole(part: &mut Part, file: &[u8]) {
    let rooms = rooms(file);
    compare(part, file, rooms);
    if let Ok(salvaged) = salvage(file, rooms[0], rooms[1]) {
        part.see(&sorts(file, &salvaged));
    }
}

/// Each length with every two lengths about the right ones, and with the right ones exchanged; then files at random.
pub fn pieces(part: &mut Part, seed: u64) {
    for length in LENGTHS {
        let file = DOCUMENT.repeat(length.div_ceil(DOCUMENT.len()));
        let file = &file[..length];
        let [records, runs] = rooms(file);
        for records in about(records) {
            for runs in about(runs) {
                compare(part, file, [records, runs]);
            }
        }
        compare(part, file, [runs, records]);
    }
    let mut chance = Chance::new(!seed, 12);
    for _ in 0..PIECES {
        let (file, rooms) = any_rooms(&mut chance);
        compare(part, &file, rooms);
    }
}

/// None, and a few bytes more and less than so many.
fn about(length: usize) -> Vec<usize> {
    let more = [0, 1, 7, 8, 16, 256, 65_536].map(|more| length + more);
    let less = [1, 7, 8, 16].into_iter();
    let less = less.filter_map(|less| length.checked_sub(less));
    let mut all: Vec<usize> = [0].into_iter().chain(more).chain(less).collect();
    all.sort();
    all.dedup();
    all
}

/// A file, sometimes about as long as it may be, and pieces of which one, both or none is of another length.
fn any_rooms(chance: &mut Chance) -> (File, [usize; 2]) {
    let mut file = chance.file();
    if chance.below(50) == 0 {
        file.resize(MOST - 2 + chance.below(5) as usize, 0);
    }
    let any = |room: usize| match chance.below(2) {
        0 => room,
        _ => (room + chance.below(41) as usize).saturating_sub(20),
    };
    let rooms = rooms(&file).map(any);
    (file, rooms)
}
