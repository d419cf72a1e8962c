//! The call on a torn file, beside the second program's reading.
use crate::lent::{hex, Piece};
use crate::library;
use crate::part::Part;
use second::record::LENGTH;
use second::torn::{list_length, salvage, Salvaged};

/// The three pieces, and the two counts between two words that no call is to touch.
#[derive(Clone)]
struct Lent {
    pieces: [Piece; 3],
    counts: [u64; 4],
}

impl Lent {
    /// All but the input holds any bytes.
    fn new(part: &mut Part, input: &[u8], rooms: [usize; 2]) -> Lent {
        let [records, runs] = rooms.map(|room| Piece::any(part, room));
        Lent {
            pieces: [Piece::of(part, input), records, runs],
            counts: [(); 4].map(|_| part.word()),
        }
    }

    fn put(&mut self, salvaged: &Salvaged) {
        let [_, records, runs] = &mut self.pieces;
        records.put_front(&salvaged.records);
        runs.put_front(&salvaged.list());
        self.counts[1..3].copy_from_slice(&salvaged.counts());
    }

    /// What is another than there.
    fn unlike(&self, other: &Lent) -> String {
        let names = ["input", "records", "runs"];
        let pieces = self.pieces.iter().zip(&other.pieces).zip(names);
        let texts = pieces.filter_map(|((here, there), name)| {
            let text = here.unlike(there)?;
            Some(format!(", {name} {text}"))
        });
        let (here, there) = (self.counts, other.counts);
        let counts = (here != there).then(|| format!(", counts {here:?}, should be {there:?}"));
        texts.chain(counts).collect()
    }
}

/// The lengths that are asked for.
pub fn rooms(input: &[u8]) -> [usize; 2] {
    [input.len(), list_length(input.len())]
}

/// Compares the number that is given and all that was lent: the input, both pieces, the counts, and what lies about them. What was
/// salvaged is also put back in order. The rooms are the lengths of the pieces for the records and for the runs. Gives both pieces.
pub fn compare(part: &mut Part, input: &[u8], rooms: [usize; 2]) -> [Vec<u8>; 2] {
    let before = Lent::new(part, input, rooms);
    let (mut lent, mut after) = (before.clone(), before);
    let given = library::salvage(&mut lent.pieces, &mut lent.counts);
    let should = match salvage(input, rooms[0], rooms[1]) {
        Ok(salvaged) => {
            after.put(&salvaged);
            0
        }
        Err(number) => number,
    };
    let unlike = lent.unlike(&after);
    let whole = given != 0 || put_back(input, &lent).is_some_and(|file| file == input);
    let same = given == should && unlike.is_empty() && whole;
    let difference = || {
        let handed = shown(input, rooms);
        let other = if whole { "" } else { ", put back another file" };
        format!("{handed}: answered {given}, should be {should}{unlike}{other}")
    };
    part.count(given, (!same).then(difference));
    let [_, records, runs] = lent.pieces;
    [records, runs].map(|piece| piece.bytes().to_vec())
}

/// The records and the skipped runs in order, by what was answered alone; of the input only the bytes of the runs are looked at.
fn put_back(input: &[u8], lent: &Lent) -> Option<Vec<u8>> {
    let [_, records, list] = lent.pieces.each_ref().map(Piece::bytes);
    let [_, taken, skipped, _] = lent.counts.map(|count| count as usize);
    let mut records = records.get(..taken.checked_mul(LENGTH)?)?;
    let mut file = Vec::new();
    for run in list.get(..skipped.checked_mul(8)?)?.chunks(8) {
        let [place, length] = [0, 4].map(|at| number(&run[at..at + 4]));
        let (before, behind) = records.split_at_checked(place.checked_sub(file.len())?)?;
        records = behind;
        file.extend(before);
        file.extend(input.get(place..place + length)?);
    }
    file.extend(records);
    Some(file)
}

fn number(bytes: &[u8]) -> usize {
    u32::from_le_bytes(bytes.try_into().expect("four bytes")) as usize
}

/// The beginning of an input, and the lengths of all pieces.
fn shown(input: &[u8], [records, runs]: [usize; 2]) -> String {
    let front = hex(&input[..input.len().min(8 * LENGTH)]);
    let length = input.len();
    format!("{front} of {length} bytes, pieces of {records} and {runs}")
}
