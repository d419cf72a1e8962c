//! Document 01's sixteen-byte record: the mark, kind and form, then three numbers. The numbers are put together from their
//! bytes and taken apart by powers of 256.
use crate::map::{forward, inverse};

pub const LENGTH: usize = 16;
pub const MARK: [u8; 2] = [0x4d, 0xd2];

/// The two forms.
pub const POSITION: u8 = 0;
pub const PLACE: u8 = 1;

/// Document 01's record, and the one that is made of it, with order 8's x.
pub const DOCUMENT: [u8; LENGTH] =
    *b"\x4d\xd2\x01\x00\x00\x00\x00\x00\x80\x62\xee\x01\x40\x31\xf7\x00";
const MOVED: [u8; LENGTH] = *b"\x4d\xd2\x01\x01\x00\x00\x00\x00\x50\xd8\x5c\x09\x28\x6c\xae\x04";

/// Stops where something else is made of document 01's record.
pub fn check() {
    let moved = Record::read(&DOCUMENT).converted();
    assert_eq!(moved.map(|record| record.bytes()), Ok(MOVED.to_vec()));
}

/// A record of any bytes: the central meridian, then longitude and latitude, or x and y.
#[derive(Clone, Copy)]
pub struct Record {
    pub mark: [u8; 2],
    pub kind: u8,
    pub form: u8,
    pub numbers: [i32; 3],
}

/// A record with the right mark.
pub fn record(form: u8, kind: i128, numbers: [i128; 3]) -> Record {
    Record {
        mark: MARK,
        kind: u8::try_from(kind).expect("a byte"),
        form,
        numbers: numbers.map(narrow),
    }
}

impl Record {
    pub fn read(bytes: &[u8; LENGTH]) -> Record {
        Record {
            mark: [bytes[0], bytes[1]],
            kind: bytes[2],
            form: bytes[3],
            numbers: [4, 8, 12].map(|at| number(&bytes[at..at + 4])),
        }
    }

    pub fn bytes(&self) -> Vec<u8> {
        let first = [self.mark[0], self.mark[1], self.kind, self.form];
        let numbers = self.numbers.map(number_bytes);
        [first, numbers[0], numbers[1], numbers[2]].concat()
    }

    /// The moved record, or the number of the refusal: of 9, 10, 1, 3, then 4 and 5 or 6, 18, 7 and 17 the first that applies.
    pub fn converted(&self) -> Result<Record, u8> {
        if self.mark != MARK {
            return Err(9);
        }
        let kind = i128::from(self.kind);
        let [central, first, second] = self.numbers.map(i128::from);
        let (answer, form) = match self.form {
            POSITION => (forward(kind, central, first, second), PLACE),
            PLACE => (inverse(kind, central, first, second), POSITION),
            _ => return Err(10),
        };
        let [first, second] = answer.pair()?.map(narrow);
        Ok(Record {
            form,
            numbers: [self.numbers[0], first, second],
            ..*self
        })
    }
}

/// The number in four bytes, the least of them first; from 2^31 up it counts as 2^32 less.
fn number(bytes: &[u8]) -> i32 {
    let unsigned = bytes
        .iter()
        .rev()
        .fold(0, |sum, b| sum * 256 + i64::from(*b));
    let signed = if unsigned < 1 << 31 {
        unsigned
    } else {
        unsigned - (1 << 32)
    };
    narrow(signed.into())
}

fn number_bytes(number: i32) -> [u8; 4] {
    let unsigned = i64::from(number).rem_euclid(1 << 32);
    [1, 1 << 8, 1 << 16, 1 << 24].map(|power| (unsigned / power % 256) as u8)
}

/// It stops where 32 bits do not hold the number.
pub fn narrow(number: i128) -> i32 {
    i32::try_from(number).expect("a number of 32 bits")
}
