//! Calls on notes, beside the second program's session.
use crate::lent::Piece;
use crate::library;
use crate::part::Part;
use second::note::NOTE;
use second::session::Session;

/// The two counts stand between two words that no call is to touch.
fn lent(part: &mut Part, [moved, refused]: [u64; 2]) -> [u64; 4] {
    [part.word(), moved, refused, part.word()]
}

fn text([before, moved, refused, behind]: [u64; 4]) -> String {
    format!("{before}|{moved} {refused}|{behind}")
}

/// Compares the number that is given and all that was lent: the counts, the piece of so many bytes, and what lies about them.
/// Gives the number and the piece.
pub fn save(part: &mut Part, counts: [u64; 2], room: usize) -> (u8, Vec<u8>) {
    let session = lent(part, counts);
    let before = Piece::any(part, room);
    let (mut kept, mut lent) = (session, before.clone());
    let given = library::save(&mut kept, &mut lent);
    let mut after = before.clone();
    let [moved, refused] = counts;
    let should = match NOTE.save(&Session { moved, refused }, room) {
        Ok(note) => {
            after.put(&note);
            0
        }
        Err(number) => number,
    };
    let same = given == should && lent == after && kept == session;
    let difference = || {
        let [session, kept] = [session, kept].map(text);
        format!("{session} to save, lent {before}: answered {given} {kept} {lent}, should be {should} {session} {after}")
    };
    part.count(given, (!same).then(difference));
    (given, lent.bytes().to_vec())
}

/// The same for a session with some counts and a piece that is restored. Gives the number and the counts.
pub fn restore(part: &mut Part, counts: [u64; 2], note: &[u8]) -> (u8, [u64; 2]) {
    let before = lent(part, counts);
    let handed = Piece::of(part, note);
    let (mut lent, mut kept) = (before, handed.clone());
    let given = library::restore(&mut lent, &mut kept);
    let [moved, refused] = counts;
    let mut session = Session { moved, refused };
    let should = NOTE.restore(&mut session, note).err().unwrap_or(0);
    let [moved, refused] = session.counts();
    let after = [before[0], moved, refused, before[3]];
    let same = given == should && lent == after && kept == handed;
    let difference = || {
        let [before, lent, after] = [before, lent, after].map(text);
        format!("{handed} to restore, lent {before}: answered {given} {lent} {kept}, should be {should} {after} {handed}")
    };
    part.count(given, (!same).then(difference));
    (given, [lent[1], lent[2]])
}
