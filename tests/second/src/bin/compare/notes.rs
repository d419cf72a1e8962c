//! A session's counts as a note: saved, restored and handed on, at every edge and at random.
use crate::note_calls;
use crate::part::Part;
use crate::sessions;
use second::note::NOTE;
use second::note_cases::{self, Note, LONGEST};
use second::note_random::Chance;
use second::session::Session;

/// How many counts and how many notes are drawn for a part.
const DRAWN: u64 = 500_000;

/// Two counts, and the length of the piece for their note.
type Handed = ([u64; 2], usize);

pub fn saved(part: &mut Part, seed: u64) {
    for (counts, room) in edges().chain(drawn(seed)) {
        note_calls::save(part, counts, room);
    }
}

/// Each note with counts of its own that it is to replace.
pub fn restored(part: &mut Part, seed: u64) {
    let mut chance = Chance::new(!seed);
    for note in edge_notes().chain(drawn_notes(seed)) {
        note_calls::restore(part, chance.counts(), &note);
    }
}

/// What is answered to each that is accepted is handed on as it stands, and has to come back as it was.
pub fn handed_on(part: &mut Part, seed: u64) {
    let mut chance = Chance::new(!seed);
    for (counts, _) in edges()
        .chain(drawn(seed))
        .filter(|handed| accepted(*handed))
    {
        let (_, note) = note_calls::save(part, counts, NOTE.length());
        let (_, back) = note_calls::restore(part, chance.counts(), &note);
        let difference = || format!("{counts:?} came back as {back:?}");
        part.hold((back != counts).then(difference));
    }
    for note in edge_notes().chain(drawn_notes(seed)).filter(good) {
        let (_, counts) = note_calls::restore(part, chance.counts(), &note);
        let (_, back) = note_calls::save(part, counts, NOTE.length());
        let difference = || format!("{note:02x?} came back as {back:02x?}");
        part.hold((back != note).then(difference));
    }
}

fn accepted(([moved, refused], room): Handed) -> bool {
    NOTE.save(&Session { moved, refused }, room).is_ok()
}

fn good(note: &Note) -> bool {
    NOTE.restore(&mut Session::default(), note).is_ok()
}

/// Counts at every edge, and some of them with every length.
fn edges() -> impl Iterator<Item = Handed> {
    let mut counts = note_cases::counts();
    let named = counts.clone();
    counts.extend(sessions::counts());
    let whole = counts.into_iter().map(|counts| (counts, NOTE.length()));
    let rooms = |counts| (0..=LONGEST).map(move |room| (counts, room));
    whole.chain(named.into_iter().flat_map(rooms))
}

/// Counts at random, some of them with a piece of another length.
fn drawn(seed: u64) -> impl Iterator<Item = Handed> {
    let mut chance = Chance::new(seed);
    (0..DRAWN).map(move |_| (chance.counts(), chance.room()))
}

fn edge_notes() -> impl Iterator<Item = Note> {
    let all = [
        note_cases::notes(),
        note_cases::every_byte(),
        note_cases::lengths(),
    ];
    all.into_iter().flatten()
}

fn drawn_notes(seed: u64) -> impl Iterator<Item = Note> {
    let mut chance = Chance::new(seed);
    (0..DRAWN).map(move |_| chance.note())
}
