//! Positions and texts at the edges: every limit with every other, each number's digits, every fault with every other, and
//! texts of other lengths.
use crate::edges::{signed, GREATEST, LEAST};
use crate::map::{HALF_TURN, RIGHT_ANGLE};
use crate::requests::DEGREE;
use crate::text::{DOCUMENT, LENGTH};

/// A text, whatever its bytes and its length.
pub type Text = Vec<u8>;

/// Document 02's text, and the two sides of what it says and of what follows from it.
pub const EXAMPLES: [&str; 22] = [
    DOCUMENT,
    "-450000.00-0900000.00/",
    "+000000.00+0000000.00/",
    "-000000.00+0000000.00/",
    "+000000.00-0000000.00/",
    "-000000.00-0000000.00/",
    "-000000.01-0000000.01/",
    "-000000.01+1800000.00/",
    "+900000.00+1800000.00/",
    "-900000.00-1800000.00/",
    "+895959.99-1795959.99/",
    "+906000.00+0000000.00/",
    "+900000.01+0000000.00/",
    "+900000.00+1800000.01/",
    "-900000.01-1800000.01/",
    "+910000.00+1810000.00/",
    "+910000.00-0000000.00/",
    "-000000.00+1810000.00/",
    "+450000.00 0900000.00/",
    "+45 000.00+0900000.00/",
    "+450000,00+0900000.00/",
    "+450000.00+0900000.000",
];

/// A latitude or a longitude by its digits, right or not: degrees, minutes, seconds and hundredths.
#[derive(Clone, Copy)]
pub struct Digits {
    pub minus: bool,
    pub parts: [u64; 4],
}

impl Digits {
    /// With so many digits of degrees.
    fn text(&self, width: usize) -> String {
        let sign = if self.minus { '-' } else { '+' };
        let [degrees, minutes, seconds, hundredths] = self.parts;
        format!("{sign}{degrees:0width$}{minutes:02}{seconds:02}.{hundredths:02}")
    }
}

/// The text of a latitude and a longitude.
pub fn text([latitude, longitude]: [Digits; 2]) -> Text {
    format!("{}{}/", latitude.text(2), longitude.text(3)).into_bytes()
}

/// A good latitude and a good longitude.
const GOOD: [Digits; 2] = [
    Digits {
        minus: true,
        parts: [45, 12, 34, 56],
    },
    Digits {
        minus: false,
        parts: [123, 45, 6, 78],
    },
];

/// The good texts whose bytes are changed one at a time.
pub const GOOD_TEXTS: [&str; 4] = [
    DOCUMENT,
    "+000000.00+0000000.00/",
    "-900000.00-1800000.00/",
    "-451234.56+1234506.78/",
];

/// A text with every byte in one place.
pub fn every_byte(good: &[u8], at: usize) -> impl Iterator<Item = Text> + '_ {
    (0..=255).map(move |byte| {
        let mut text = good.to_vec();
        text[at] = byte;
        text
    })
}

/// Bytes that stand in no place of a text, those next to the digits among them.
const WRONG: [u8; 9] = *b" ,:;O\0\x80\xb0\xff";

/// How many things can be wrong with a text: length, a byte, sixty, minus before zero, latitude and longitude.
const FAULTS: usize = 6;

/// In how many ways each of these can be.
pub const WAYS: usize = 2 * 4 * LENGTH;

/// A text with the faults that the binary digits of `which` name, the first in the order of judging by the lowest, in one of
/// their ways.
pub fn faulty(which: usize, way: usize) -> Text {
    let has = |fault: usize| which >> fault & 1 == 1;
    let mut numbers = GOOD;
    if has(4) {
        numbers[0].parts = [90, 0, 0, 1];
    }
    if has(5) {
        numbers[1].parts = [180, 0, 0, 1];
    }
    if has(3) {
        numbers[way / LENGTH / 4 % 2] = Digits {
            minus: true,
            parts: [0; 4],
        };
    }
    if has(2) {
        let field = way / LENGTH % 4;
        numbers[field / 2].parts[1 + field % 2] = 60;
    }
    let mut text = text(numbers);
    if has(1) {
        text[way % LENGTH] = WRONG[way % WRONG.len()];
    }
    if has(0) {
        text.resize([LENGTH - 1, LENGTH + 1][way % 2], b'/');
    }
    text
}

/// Every mixture of faults in every `step`-th way.
pub fn mixtures(step: usize) -> impl Iterator<Item = Text> {
    let ways = move |which| {
        (which % step..WAYS)
            .step_by(step)
            .map(move |way| (which, way))
    };
    let all = (0..1 << FAULTS).flat_map(ways);
    all.map(|(which, way)| faulty(which, way))
}

/// Every two digits for the minutes and for the seconds of either number.
pub fn sixties() -> impl Iterator<Item = Text> {
    let all = (0..4).flat_map(|field| (0..100).map(move |part| (field, part)));
    all.map(|(field, part)| {
        let mut numbers = GOOD;
        numbers[field / 2].parts[1 + field % 2] = part;
        text(numbers)
    })
}

/// Whole degrees of a latitude (0) or a longitude (1), and a hundredth of a second more, with either sign.
pub fn whole_degrees(
    which: usize,
    degrees: impl Iterator<Item = u64>,
) -> impl Iterator<Item = Text> {
    let all = degrees.flat_map(|degrees| [0, 1].map(|hundredths| [degrees, 0, 0, hundredths]));
    let signed = all.flat_map(|parts| [true, false].map(|minus| Digits { minus, parts }));
    signed.map(move |number| {
        let mut numbers = GOOD;
        numbers[which] = number;
        text(numbers)
    })
}

/// Good texts cut, and with more before them or behind them. 278 and 65,558 are 22 where only the low digits are kept.
pub fn lengths() -> Vec<Text> {
    let long = [278, 1000, 4096, 5000, 65_558];
    let mut texts = Vec::new();
    for length in (0..=40).chain(long) {
        let mut text = DOCUMENT.repeat(length / LENGTH + 1).into_bytes();
        text.truncate(length);
        texts.push(text);
    }
    for byte in WRONG.iter().chain(b"\r\t/0+") {
        texts.push([DOCUMENT.as_bytes(), &[*byte]].concat());
        texts.push([&[*byte], DOCUMENT.as_bytes()].concat());
        // 22 bytes, but none of a text's
        texts.push(vec![*byte; LENGTH]);
    }
    texts
}

/// Zero, a second, a minute, these whole degrees and the limits, with a hundredth of a second more and less; the ends of 32 bits.
fn edges(degrees: &[i128]) -> Vec<i128> {
    let about = |size: i128| [size - 1, size, size + 1];
    let mut sizes = vec![0, DEGREE / 3600, DEGREE / 60, RIGHT_ANGLE, HALF_TURN];
    sizes.extend(degrees.iter().map(|degrees| degrees * DEGREE));
    let sizes: Vec<i128> = sizes.into_iter().flat_map(about).collect();
    let mut all = signed(&sizes);
    all.extend([LEAST, LEAST + 1, GREATEST - 1, GREATEST]);
    all
}

/// Every longitude at an edge with every latitude at one; these whole degrees are edges too.
pub fn positions(degrees: &[i128]) -> Vec<[i128; 2]> {
    let edges = edges(degrees);
    let with_all = |longitude: &i128| {
        let longitude = *longitude;
        edges.iter().map(move |latitude| [longitude, *latitude])
    };
    edges.iter().flat_map(with_all).collect()
}
