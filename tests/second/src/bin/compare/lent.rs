//! Pieces of bytes as calls are lent them, and what is lent to a call on a record: a session's counts, the input and the output.
use crate::part::Part;
use std::fmt;

/// The longest piece, but for the texts that are read.
pub const LONGEST: usize = 40;

/// A piece of bytes at some place of its own memory, with at least eight bytes before it and behind it.
#[derive(Clone, PartialEq)]
pub struct Piece {
    memory: Vec<u8>,
    at: usize,
    length: usize,
}

impl Piece {
    /// Any bytes at any place.
    pub fn any(part: &mut Part, length: usize) -> Piece {
        let mut memory = vec![0; 8 * (length.div_ceil(8) + 3)];
        for word in memory.chunks_mut(8) {
            word.copy_from_slice(&part.word().to_le_bytes());
        }
        let at = 8 + (part.word() >> 20) as usize % 8;
        Piece { memory, at, length }
    }

    /// These bytes at any place.
    pub fn of(part: &mut Part, bytes: &[u8]) -> Piece {
        let mut piece = Piece::any(part, bytes.len());
        piece.put(bytes);
        piece
    }

    pub fn bytes(&self) -> &[u8] {
        &self.memory[self.at..self.at + self.length]
    }

    /// Writes over the whole piece.
    pub fn put(&mut self, bytes: &[u8]) {
        self.memory[self.at..self.at + self.length].copy_from_slice(bytes);
    }

    /// Writes over the first bytes of the piece.
    pub fn put_front(&mut self, bytes: &[u8]) {
        self.memory[self.at..self.at + self.length][..bytes.len()].copy_from_slice(bytes);
    }

    pub fn lend(&mut self) -> (*mut u8, usize) {
        (self.memory.as_mut_ptr().wrapping_add(self.at), self.length)
    }

    /// Where the memory is another one than there, from the piece's first byte on, and what stands there in both: for pieces that
    /// are too long to be shown.
    pub fn unlike(&self, other: &Piece) -> Option<String> {
        let mut both = self.memory.iter().zip(&other.memory);
        let at = both.position(|(here, there)| here != there)?;
        let shown = |piece: &Piece| hex(&piece.memory[at..piece.memory.len().min(at + 24)]);
        let (here, there) = (shown(self), shown(other));
        let place = at as isize - self.at as isize;
        Some(format!("at {place} {here}, should be {there}"))
    }
}

/// The memory in hexadecimal, with the piece between two bars.
impl fmt::Display for Piece {
    fn fmt(&self, text: &mut fmt::Formatter) -> fmt::Result {
        let (before, rest) = self.memory.split_at(self.at);
        let (piece, behind) = rest.split_at(self.length);
        write!(text, "{}|{}|{}", hex(before), hex(piece), hex(behind))
    }
}

pub fn hex(bytes: &[u8]) -> String {
    bytes.iter().map(|byte| format!("{byte:02x}")).collect()
}

/// The two counts stand between two words that no call is to touch.
#[derive(Clone, PartialEq)]
pub struct Lent {
    pub counts: [u64; 4],
    pub input: Piece,
    pub output: Piece,
}

impl Lent {
    pub fn new(part: &mut Part, counts: [u64; 2], bytes: &[u8], room: usize) -> Lent {
        let counts = [part.word(), counts[0], counts[1], part.word()];
        let input = Piece::of(part, bytes);
        let output = Piece::any(part, room);
        Lent {
            counts,
            input,
            output,
        }
    }

    /// The input and the output, each by its first byte and its length.
    pub fn pieces(&mut self) -> [(*mut u8, usize); 2] {
        [self.input.lend(), self.output.lend()]
    }

    /// The text of what is another than there: counts, input or output.
    pub fn unlike(&self, other: &Lent) -> String {
        let [before, moved, refused, behind] = self.counts;
        let counts = format!(" counts {before}|{moved} {refused}|{behind}");
        let texts = [
            (self.counts != other.counts).then_some(counts),
            (self.input != other.input).then(|| format!(" input {}", self.input)),
            (self.output != other.output).then(|| format!(" output {}", self.output)),
        ];
        texts.into_iter().flatten().collect()
    }
}

/// What a call is handed.
impl fmt::Display for Lent {
    fn fmt(&self, text: &mut fmt::Formatter) -> fmt::Result {
        let [_, moved, refused, _] = self.counts;
        let input = hex(self.input.bytes());
        let room = self.output.length;
        write!(
            text,
            "counts {moved} {refused}, input {input}, output of {room} bytes"
        )
    }
}
