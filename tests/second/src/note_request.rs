//! A request of the program `query` on notes: its line, and what is to be answered.
use crate::note::NOTE;
use crate::request::{all, whole};
use crate::session::Session;

/// Two counts to save, moved and refused, or a note to restore, of any bytes.
pub enum NoteRequest {
    Save([i128; 2]),
    Restore(Vec<u8>),
}

impl NoteRequest {
    /// The request that a line is, if it is one. All that follows `r` and one space is the note.
    pub fn read(line: &[u8]) -> Option<NoteRequest> {
        if let Some(digits) = line.strip_prefix(b"r ") {
            return bytes(digits).map(NoteRequest::Restore);
        }
        let numbers = std::str::from_utf8(line).ok()?.strip_prefix('s')?;
        let words = numbers.split(' ').filter(|word| !word.is_empty());
        let words: Vec<&str> = words.collect();
        all(&words, count).map(NoteRequest::Save)
    }

    pub fn answer(&self) -> String {
        let answer = match self {
            NoteRequest::Save(counts) => {
                let [moved, refused] = counts.map(held);
                let note = NOTE.save(&Session { moved, refused }, NOTE.length());
                note.map(|note| digits(&note))
            }
            NoteRequest::Restore(note) => {
                let mut session = Session::default();
                let restored = NOTE.restore(&mut session, note);
                restored.map(|()| format!("{} {}", session.moved, session.refused))
            }
        };
        answer.unwrap_or_else(|number| format!("refused {number}"))
    }

    /// The line that reads back as the same request.
    pub fn line(&self) -> String {
        match self {
            NoteRequest::Save([moved, refused]) => format!("s {moved} {refused}"),
            NoteRequest::Restore(note) => format!("r {}", digits(note)),
        }
    }
}

/// A count in 64 bits, or the greatest that they hold.
fn held(count: i128) -> u64 {
    u64::try_from(count).unwrap_or(u64::MAX)
}

/// A whole number without a sign.
fn count(word: &str) -> Option<i128> {
    let signed = word.starts_with('-');
    whole(word).filter(|_| !signed)
}

/// Two hexadecimal digits to a byte.
fn digits(bytes: &[u8]) -> String {
    bytes.iter().map(|byte| format!("{byte:02x}")).collect()
}

/// The bytes that hexadecimal digits stand for, if each has two.
fn bytes(digits: &[u8]) -> Option<Vec<u8>> {
    let (pairs, []) = digits.as_chunks() else {
        return None;
    };
    let value = |digit: u8| char::from(digit).to_digit(16);
    let byte = |&[high, low]: &[u8; 2]| Some((16 * value(high)? + value(low)?) as u8);
    pairs.iter().map(byte).collect()
}
