//! Whole histories of a session from its opening: pieces fed, notes saved, and notes restored that were saved earlier, or
//! damaged, or drawn. After each event the counts are also held to the history statement.
use crate::lent::Lent;
use crate::note_calls;
use crate::part::Part;
use crate::record_calls::FEED;
use crate::record_inputs::{drawn, Handed};
use second::note::NOTE;
use second::note_cases::Note;
use second::note_random::Chance;
use second::record::LENGTH;

/// How many histories are drawn, with as many events each, and how many go over the cap and back again.
const DRAWN: u64 = 1_000;
const EVENTS: u64 = 1_500;
const REWOUND: u64 = 2_000;

/// At most so many records are left until a rewound session is full, and so many more are fed.
const LEFT: u64 = 40;
const MORE: usize = 3;

pub fn compare(part: &mut Part, seed: u64) {
    for i in 0..DRAWN {
        any_events(part, seed.wrapping_add(i));
    }
    for i in 0..REWOUND {
        rewound(part, seed.wrapping_add(i));
    }
}

/// The first event of half the histories is a note by which the session is nearly full, or full.
fn any_events(part: &mut Part, seed: u64) {
    let mut chance = Chance::new(seed);
    let mut history = History::default();
    let mut pieces = drawn(seed, EVENTS);
    if chance.below(2) == 0 {
        let sum = NOTE.cap - u128::from(chance.below(EVENTS));
        let note = NOTE.bytes(chance.split(sum));
        history.restore(part, &note);
    }
    for _ in 0..EVENTS {
        match chance.below(24) {
            0 => history.save(part, chance.room()),
            1 => {
                let note = history.earlier(&mut chance);
                history.restore(part, &note);
            }
            2 => {
                let note = history.earlier(&mut chance);
                history.restore(part, &chance.damaged(&note));
            }
            3 => history.restore(part, &chance.note()),
            _ => {
                let piece = pieces.next().expect("a piece for each event");
                history.feed(part, &piece);
            }
        }
    }
}

/// A session becomes full and is restored from the note of a time when it was not; it feeds on until it is full again, and has
/// the same counts then, since it was fed the same.
fn rewound(part: &mut Part, seed: u64) {
    let mut chance = Chance::new(seed);
    let left = 1 + chance.below(LEFT);
    let before = chance.split(NOTE.cap - u128::from(left));
    let mut history = History::default();
    history.restore(part, &NOTE.bytes(before));
    history.save(part, NOTE.length());
    let note = history.earlier(&mut chance);
    let pieces = records(seed, left as usize + MORE);
    let ends = [(); 2].map(|_| {
        let given: Vec<u8> = pieces
            .iter()
            .map(|piece| history.feed(part, piece))
            .collect();
        let (counted, behind) = given.split_at(left as usize);
        let full = !counted.contains(&11) && behind == [11; MORE];
        let difference = || format!("{before:?} and {left} records to the cap: answered {given:?}");
        part.hold((!full).then(difference));
        let end = history.counts;
        history.restore(part, &note);
        end
    });
    let difference = || format!("{before:?} and the same records twice: counts {ends:?}");
    part.hold((ends[0] != ends[1]).then(difference));
}

/// So many pieces of 16 bytes.
fn records(seed: u64, count: usize) -> Vec<Handed> {
    let drawn = drawn(seed, u64::MAX);
    let whole = drawn.filter(|(input, room)| [input.len(), *room] == [LENGTH; 2]);
    whole.take(count).collect()
}

#[derive(Default)]
struct History {
    /// As the last call left them. Each call is lent these.
    counts: [u64; 2],
    /// The numbers of the last note that was accepted, and what was counted since then.
    note: [u64; 2],
    since: [u64; 2],
    /// The notes that were saved.
    saved: Vec<Note>,
}

impl History {
    /// Gives the number that was answered.
    fn feed(&mut self, part: &mut Part, (bytes, room): &Handed) -> u8 {
        let lent = Lent::new(part, self.counts, bytes, *room);
        let (given, lent) = FEED.compare(part, lent);
        let [_, moved, refused, _] = lent.counts;
        self.counts = [moved, refused];
        match given {
            0 => self.since[0] += 1,
            8 | 11 => (),
            _ => self.since[1] += 1,
        }
        self.hold(part);
        given
    }

    /// No session of a history is refused for its counts, and the note has them.
    fn save(&mut self, part: &mut Part, room: usize) {
        let (given, note) = note_calls::save(part, self.counts, room);
        let counts = self.counts;
        let saved = given == 0 && numbers(&note) == counts;
        let difference = || format!("{counts:?} saved by {given} as {note:02x?}");
        part.hold((room == NOTE.length() && !saved).then(difference));
        if given == 0 {
            self.saved.push(note);
        }
        self.hold(part);
    }

    fn restore(&mut self, part: &mut Part, note: &[u8]) {
        let (given, counts) = note_calls::restore(part, self.counts, note);
        self.counts = counts;
        if given == 0 {
            self.note = numbers(note);
            self.since = [0; 2];
        }
        self.hold(part);
    }

    /// Each count is the note's number and what followed it.
    fn hold(&self, part: &mut Part) {
        let (counts, note, since) = (self.counts, self.note, self.since);
        let should = [0, 1].map(|i| note[i] + since[i]);
        let difference = || format!("counts {counts:?} after a note of {note:?} and {since:?}");
        part.hold((counts != should).then(difference));
    }

    /// A note that was saved earlier, and if there is none, that of the session's opening.
    fn earlier(&self, chance: &mut Chance) -> Note {
        match self.saved.len() as u64 {
            0 => NOTE.bytes([0; 2]),
            many => self.saved[chance.below(many) as usize].clone(),
        }
    }
}

/// The two numbers of a note of 10 bytes.
fn numbers(note: &[u8]) -> [u64; 2] {
    [2, 6].map(|at| {
        let bytes = note[at..at + 4].try_into().expect("four bytes");
        u32::from_le_bytes(bytes).into()
    })
}
