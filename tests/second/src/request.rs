//! A request of the program `query`: its line of text, and what is to be answered.
use crate::float;
use crate::map::{forward, half_width, inverse, Answer};
use std::fmt;

/// Past 64 bits: outside every range.
const FAR: i128 = 1 << 64;

/// A kind, and a latitude, or the central meridian with a position or a place.
pub enum Request {
    Width(i128, i128),
    Position(i128, [i128; 3]),
    Place(i128, [i128; 3]),
    FloatPosition(i128, [f64; 3]),
    FloatPlace(i128, [f64; 3]),
}

impl Request {
    /// The request that a line is, if it is one.
    pub fn read(line: &str) -> Option<Request> {
        let letter = line.chars().next()?;
        let words = line.get(1..)?.split(' ').filter(|word| !word.is_empty());
        let words: Vec<&str> = words.collect();
        let (kind, rest) = words.split_first()?;
        let kind = whole(kind)?;
        match letter {
            'w' => all(rest, whole).map(|[latitude]| Request::Width(kind, latitude)),
            'f' => all(rest, whole).map(|three| Request::Position(kind, three)),
            'i' => all(rest, whole).map(|three| Request::Place(kind, three)),
            'F' => all(rest, float).map(|three| Request::FloatPosition(kind, three)),
            'I' => all(rest, float).map(|three| Request::FloatPlace(kind, three)),
            _ => None,
        }
    }

    pub fn answer(&self) -> Answer {
        match *self {
            Request::Width(kind, latitude) => half_width(kind, latitude),
            Request::Position(kind, [central, longitude, latitude]) => {
                forward(kind, central, longitude, latitude)
            }
            Request::Place(kind, [central, x, y]) => inverse(kind, central, x, y),
            Request::FloatPosition(kind, [central, longitude, latitude]) => {
                float::forward(kind, central, longitude, latitude)
            }
            Request::FloatPlace(kind, [central, x, y]) => float::inverse(kind, central, x, y),
        }
    }

    /// The request, and the one that is handed what it is answered, exactly as it stands, if that is a place or a position.
    pub fn handed_on(self) -> Vec<Request> {
        let next = match (&self, self.answer()) {
            (&Request::Position(kind, [c, ..]), Answer::Pair(x, y)) => {
                Some(Request::Place(kind, [c, x, y]))
            }
            (&Request::Place(kind, [c, ..]), Answer::Pair(longitude, latitude)) => {
                Some(Request::Position(kind, [c, longitude, latitude]))
            }
            (&Request::FloatPosition(kind, [c, ..]), Answer::Floats(x, y)) => {
                Some(Request::FloatPlace(kind, [c, x, y]))
            }
            (&Request::FloatPlace(kind, [c, ..]), Answer::Floats(longitude, latitude)) => {
                Some(Request::FloatPosition(kind, [c, longitude, latitude]))
            }
            _ => None,
        };
        std::iter::once(self).chain(next).collect()
    }
}

/// The line that reads back as the same request.
impl fmt::Display for Request {
    fn fmt(&self, line: &mut fmt::Formatter) -> fmt::Result {
        let (letter, kind, words) = match self {
            Request::Width(kind, latitude) => ('w', kind, vec![latitude.to_string()]),
            Request::Position(kind, numbers) => ('f', kind, numbers.map(|n| n.to_string()).into()),
            Request::Place(kind, numbers) => ('i', kind, numbers.map(|n| n.to_string()).into()),
            Request::FloatPosition(kind, floats) => ('F', kind, floats.map(bits).into()),
            Request::FloatPlace(kind, floats) => ('I', kind, floats.map(bits).into()),
        };
        write!(line, "{letter} {kind} {}", words.join(" "))
    }
}

/// What is read of some words, if each can be read and they are as many as are asked for.
pub fn all<T, const COUNT: usize>(
    words: &[&str],
    read: fn(&str) -> Option<T>,
) -> Option<[T; COUNT]> {
    let values: Option<Vec<T>> = words.iter().copied().map(read).collect();
    values?.try_into().ok()
}

/// A whole number in decimal, or one far past every range where it has too many digits.
pub fn whole(word: &str) -> Option<i128> {
    let (sign, digits) = match word.strip_prefix('-') {
        Some(digits) => (-1, digits),
        None => (1, word),
    };
    if digits.is_empty() || !digits.chars().all(|c| c.is_ascii_digit()) {
        return None;
    }
    let size: i128 = digits.parse().unwrap_or(FAR);
    Some(sign * size.min(FAR))
}

/// A float by its 64 bits: an `x` and at most 16 hexadecimal digits.
fn float(word: &str) -> Option<f64> {
    let digits = word.strip_prefix('x')?;
    if !(1..=16).contains(&digits.len()) || !digits.chars().all(|c| c.is_ascii_hexdigit()) {
        return None;
    }
    u64::from_str_radix(digits, 16).ok().map(f64::from_bits)
}

/// A float by its bits.
pub fn bits(x: f64) -> String {
    format!("x{:016x}", x.to_bits())
}
