//! Document 02's order 3 once more: a session's counts as a note. The numbers are put together from their bytes and taken
//! apart by powers of 256.
use crate::session::Session;

/// What a note looks like: its mark, then moved and refused with so many bytes each, the least first, and their greatest sum.
pub struct Form {
    pub mark: [u8; 2],
    pub width: usize,
    pub cap: u128,
}

pub const NOTE: Form = Form {
    mark: [0x4d, 0xd3],
    width: 4,
    cap: 1_000_000_000,
};

/// A note of 770 moved and 999,999,230 refused records, written by hand.
const BY_HAND: [u8; 10] = *b"\x4d\xd3\x02\x03\x00\x00\xfe\xc6\x9a\x3b";
const COUNTS: [u64; 2] = [770, 999_999_230];

/// Stops where something else is made of the note that was written by hand.
pub fn check() {
    let mut session = Session::default();
    assert_eq!(NOTE.restore(&mut session, &BY_HAND), Ok(()));
    assert_eq!(session.counts(), COUNTS);
    let note = NOTE.save(&session, NOTE.length());
    assert_eq!(note, Ok(BY_HAND.to_vec()));
}

impl Form {
    pub fn length(&self) -> usize {
        self.mark.len() + 2 * self.width
    }

    /// The note of a session for a piece of so many bytes, or the number of the refusal: 8 or 16.
    pub fn save(&self, session: &Session, room: usize) -> Result<Vec<u8>, u8> {
        if room != self.length() {
            return Err(8);
        }
        let counts = self.within(session.counts().map(u128::from))?;
        Ok(self.bytes(counts))
    }

    /// The session has the note's counts afterwards, or those that it had: 8, 9 or 16, the first that applies.
    pub fn restore(&self, session: &mut Session, note: &[u8]) -> Result<(), u8> {
        if note.len() != self.length() {
            return Err(8);
        }
        let (mark, numbers) = note.split_at(self.mark.len());
        if mark != self.mark {
            return Err(9);
        }
        let (moved, refused) = numbers.split_at(self.width);
        let [moved, refused] = self.within([moved, refused].map(number))?;
        session.moved = narrow(moved);
        session.refused = narrow(refused);
        Ok(())
    }

    /// The note of two numbers, whatever they add to.
    pub fn bytes(&self, numbers: [u128; 2]) -> Vec<u8> {
        let mut note = self.mark.to_vec();
        for number in numbers {
            let powers = (0..self.width).map(|at| 256_u128.pow(at as u32));
            note.extend(powers.map(|power| (number / power % 256) as u8));
        }
        note
    }

    /// The numbers themselves, if a note may have them.
    fn within(&self, numbers: [u128; 2]) -> Result<[u128; 2], u8> {
        let sum: u128 = numbers.iter().sum();
        if sum > self.cap {
            Err(16)
        } else {
            Ok(numbers)
        }
    }
}

/// The number in some bytes, the least of them first.
fn number(bytes: &[u8]) -> u128 {
    let digits = bytes.iter().rev();
    digits.fold(0, |sum, byte| sum * 256 + u128::from(*byte))
}

/// It stops where 64 bits do not hold the number.
fn narrow(number: u128) -> u64 {
    u64::try_from(number).expect("a number of 64 bits")
}
