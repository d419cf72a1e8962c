//! Document 01's counting session, and the program `convert` once more.
use crate::record::{Record, LENGTH};
use std::io::{self, BufReader, BufWriter, Read, Write};

/// A session with this many records counted is full.
pub const FULL: u128 = 1_000_000_000;

/// Both counts are 0 when it is opened.
#[derive(Default)]
pub struct Session {
    pub moved: u64,
    pub refused: u64,
}

impl Session {
    /// Moved, then refused.
    pub fn counts(&self) -> [u64; 2] {
        [self.moved, self.refused]
    }

    /// The moved record, or the number of the refusal. 8 and 11 are not counted.
    pub fn feed(&mut self, piece: &[u8]) -> Result<Record, u8> {
        let piece: &[u8; LENGTH] = piece.try_into().map_err(|_| 8)?;
        if u128::from(self.moved) + u128::from(self.refused) >= FULL {
            return Err(11);
        }
        let answer = Record::read(piece).converted();
        match answer {
            Ok(_) => self.moved += 1,
            Err(_) => self.refused += 1,
        }
        answer
    }
}

/// A line for each record and for a tail, then the counts. The line of a refusal says which record it is, from 1; a tail is the
/// next one.
pub fn convert(input: impl Read, output: impl Write) -> io::Result<()> {
    let mut input = BufReader::with_capacity(1 << 20, input);
    let mut output = BufWriter::with_capacity(1 << 20, output);
    let mut session = Session::default();
    let mut piece = [0; LENGTH];
    for at in 1_u64.. {
        let length = fill(&mut input, &mut piece)?;
        if length == 0 {
            break;
        }
        match session.feed(&piece[..length]) {
            Ok(moved) => writeln!(output, "{} {}", moved.numbers[1], moved.numbers[2])?,
            Err(number) => writeln!(output, "refused {number} at {at}")?,
        }
    }
    writeln!(
        output,
        "moved {} refused {}",
        session.moved, session.refused
    )?;
    output.flush()
}

/// Reads until the piece is full or the input ends, and gives how many bytes it has then.
pub fn fill(input: &mut impl Read, piece: &mut [u8]) -> io::Result<usize> {
    let mut length = 0;
    while length < piece.len() {
        match input.read(&mut piece[length..]) {
            Ok(0) => break,
            Ok(n) => length += n,
            Err(error) if error.kind() == io::ErrorKind::Interrupted => (),
            Err(error) => return Err(error),
        }
    }
    Ok(length)
}
