//! Document 02's order 2, the program `reproject` once more: a place of kind 3 or 4 is sent back under the retired row and
//! forward under the new one, and all else passes as it is.
use crate::map::{row_forward, row_inverse};
use crate::record::{narrow, record, Record, LENGTH, MARK, PLACE, POSITION};
use crate::session::fill;
use crate::table::{retired_row_of, row_of};
use std::io::{self, BufReader, BufWriter, Read, Write};

/// Why a record passes as it is where no refusal says it. The refusals are 9, 10 and, of the retired row, 3, 6, 18, 7 and 17; a
/// tail passes by 8.
pub const A_POSITION: u8 = 100;
pub const OTHER_KIND: u8 = 101;

/// Stops where the end of kind 3's flat pole does not come to the point that its new one is, or the end of the Equator moves.
pub fn check() {
    for (old, new) in [
        ([297650196, 0], [297650196, 0]),
        ([-148825098, 148825098], [0, 148825098]),
    ] {
        let record = record(PLACE, 3, [0, old[0], old[1]]);
        let place = reprojected(&record).map(|record| record.numbers[1..].to_vec());
        assert_eq!(place, Ok(new.to_vec()));
    }
}

/// The record with its new place, or why it passes as it is.
pub fn reprojected(record: &Record) -> Result<Record, u8> {
    if record.mark != MARK {
        return Err(9);
    }
    match record.form {
        PLACE => (),
        POSITION => return Err(A_POSITION),
        _ => return Err(10),
    }
    let kind = i128::from(record.kind);
    let (Some(retired), Some(row)) = (retired_row_of(kind), row_of(kind)) else {
        return Err(OTHER_KIND);
    };
    let [central, x, y] = record.numbers.map(i128::from);
    let [longitude, latitude] = row_inverse(&retired, central, x, y).pair()?;
    let place = row_forward(&row, central, longitude, latitude).pair();
    let [x, y] = place.expect("a place for every position").map(narrow);
    Ok(Record {
        numbers: [record.numbers[0], x, y],
        ..*record
    })
}

/// The new record of a piece of the input, or why it passes as it is.
pub fn piece(bytes: &[u8]) -> Result<Record, u8> {
    let bytes: &[u8; LENGTH] = bytes.try_into().map_err(|_| 8)?;
    reprojected(&Record::read(bytes))
}

/// All records in turn, and the tail.
pub fn reproject(input: impl Read, output: impl Write) -> io::Result<()> {
    let mut input = BufReader::with_capacity(1 << 20, input);
    let mut output = BufWriter::with_capacity(1 << 20, output);
    let mut bytes = [0; LENGTH];
    loop {
        let length = fill(&mut input, &mut bytes)?;
        if length == 0 {
            break;
        }
        match piece(&bytes[..length]) {
            Ok(record) => output.write_all(&record.bytes())?,
            Err(_) => output.write_all(&bytes[..length])?,
        }
    }
    output.flush()
}
