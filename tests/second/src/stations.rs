//! Records of real places, from lines of text: form, kind, central meridian, longitude and latitude to the arcminute, as
//! 126E59 37N34, and words. A place is where the position stands on that map, by its row of the table or by the one before.
use crate::map::{row_forward, Answer};
use crate::record::{record, Record, PLACE, POSITION};
use crate::table::Row;

const MINUTE: i128 = 60 * 100;

/// The row of a kind, if it has one.
pub type Rows = fn(i128) -> Option<Row>;

/// Lines that begin with # are for the reader.
pub fn records(text: &str, row_of: Rows) -> Vec<Record> {
    let lines = text.lines().filter(|line| !line.starts_with('#'));
    lines
        .map(|line| station(line, row_of).unwrap_or_else(|| panic!("a station: {line}")))
        .collect()
}

fn station(line: &str, row_of: Rows) -> Option<Record> {
    let mut words = line.split_whitespace();
    let form = words.next()?;
    let kind = words.next()?.parse().ok()?;
    let central = angle(words.next()?, ['E', 'W'])?;
    let longitude = angle(words.next()?, ['E', 'W'])?;
    let latitude = angle(words.next()?, ['N', 'S'])?;
    let place = row_forward(&row_of(kind)?, central, longitude, latitude);
    match (form, place) {
        ("position", _) => Some(record(POSITION, kind, [central, longitude, latitude])),
        ("place", Answer::Pair(x, y)) => Some(record(PLACE, kind, [central, x, y])),
        _ => None,
    }
}

/// Degrees, the letter of the side and two digits of minutes, in hundredths of an arcsecond.
fn angle(word: &str, sides: [char; 2]) -> Option<i128> {
    let at = word.find(sides)?;
    let [degrees, minutes] = [&word[..at], &word[at + 1..]].map(|digits| digits.parse::<i128>());
    let size = (60 * degrees.ok()? + minutes.ok()?) * MINUTE;
    Some(if word[at..].starts_with(sides[0]) {
        size
    } else {
        -size
    })
}
