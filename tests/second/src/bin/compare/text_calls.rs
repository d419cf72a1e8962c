//! Calls on text, beside the second program's answers.
use crate::lent::{Piece, LONGEST};
use crate::library;
use crate::pairs;
use crate::part::Part;
use second::record::narrow;
use second::text;

/// Compares the number that is given and all that was lent: the text, the pair, and what lies about them. Gives the pair.
pub fn read(part: &mut Part, bytes: &[u8]) -> [i32; 2] {
    let handed = Piece::of(part, bytes);
    let before = [(); 4].map(|_| part.word() as i32);
    let (mut input, mut lent) = (handed.clone(), before);
    let given = library::read_text(&mut input, &mut lent);
    let (should, after) = match text::read(bytes) {
        Ok(position) => {
            let [longitude, latitude] = position.map(narrow);
            (0, [before[0], longitude, latitude, before[3]])
        }
        Err(number) => (number, before),
    };
    let same = given == should && lent == after && input == handed;
    let difference = || {
        let [before, lent, after] = [before, lent, after].map(pairs::text);
        let handed_in = shown(bytes);
        let changed = if input == handed {
            ""
        } else {
            " and the text changed"
        };
        format!("{handed_in}, lent {before}: answered {given} {lent}{changed}, should be {should} {after}")
    };
    part.count(given, (!same).then(difference));
    [lent[1], lent[2]]
}

/// The same for the text of a longitude and a latitude in a piece of so many bytes. Gives the text.
pub fn write(part: &mut Part, position: [i32; 2], room: usize) -> Vec<u8> {
    let before = Piece::any(part, room);
    let mut lent = before.clone();
    let given = library::write_text(position, &mut lent);
    let mut after = before.clone();
    let should = match text::write(position.map(i128::from), room) {
        Ok(text) => {
            after.put(text.as_bytes());
            0
        }
        Err(number) => number,
    };
    let same = given == should && lent == after;
    let difference = || {
        let [longitude, latitude] = position;
        format!("{longitude} {latitude}, lent {before}: answered {given} {lent}, should be {should} {after}")
    };
    part.count(given, (!same).then(difference));
    lent.bytes().to_vec()
}

/// A text, or the beginning of a long one.
pub fn shown(bytes: &[u8]) -> String {
    let front = &bytes[..bytes.len().min(LONGEST)];
    format!("{} of {} bytes", front.escape_ascii(), bytes.len())
}
