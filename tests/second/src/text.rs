//! Document 02's order 1 once more: positions as text of 22 bytes. A number's digits are taken as one whole number, and taken
//! apart by powers of a hundred.
use crate::map::{HALF_TURN, RIGHT_ANGLE};

pub const LENGTH: usize = 22;

/// What stands in each place: `s` for a sign, `d` for a digit, and else the byte itself.
const PLACES: &str = "sdddddd.ddsddddddd.dd/";

/// Document 02's text, and its longitude and latitude.
pub const DOCUMENT: &str = "+450000.00+0900000.00/";
const AT: [i128; 2] = [32_400_000, 16_200_000];

/// Stops where something else is made of document 02's text.
pub fn check() {
    assert_eq!(PLACES.len(), LENGTH);
    assert_eq!(read(DOCUMENT.as_bytes()), Ok(AT));
    assert_eq!(write(AT, LENGTH).as_deref(), Ok(DOCUMENT));
}

/// Longitude and latitude, or the number of the refusal: of 12 to 15, 5 and 4 the first that applies.
pub fn read(bytes: &[u8]) -> Result<[i128; 2], u8> {
    if bytes.len() != LENGTH {
        return Err(12);
    }
    let text = std::str::from_utf8(bytes).map_err(|_| 13)?;
    if !text.chars().zip(PLACES.chars()).all(stands) {
        return Err(13);
    }
    // the last sign is where the longitude begins
    let at = text.rfind(['+', '-']).ok_or(13)?;
    let numbers = [&text[at..LENGTH - 1], &text[..at]].map(Number::of);
    if numbers.iter().any(Number::past_sixty) {
        return Err(14);
    }
    if numbers.iter().any(Number::minus_zero) {
        return Err(15);
    }
    within(numbers.map(|number| number.centiseconds()))
}

/// The text of a longitude and a latitude for a piece of so many bytes, or the number of the refusal: 12, 5 or 4.
pub fn write(position: [i128; 2], room: usize) -> Result<String, u8> {
    if room != LENGTH {
        return Err(12);
    }
    let [longitude, latitude] = within(position)?.map(Number::standing_for);
    Ok(format!("{}{}/", latitude.text(2), longitude.text(3)))
}

/// The position itself, the latitude judged first.
fn within([longitude, latitude]: [i128; 2]) -> Result<[i128; 2], u8> {
    if latitude.abs() > RIGHT_ANGLE {
        Err(5)
    } else if longitude.abs() > HALF_TURN {
        Err(4)
    } else {
        Ok([longitude, latitude])
    }
}

fn stands((c, place): (char, char)) -> bool {
    match place {
        's' => c == '+' || c == '-',
        'd' => c.is_ascii_digit(),
        _ => c == place,
    }
}

/// A sign, and the digits of degrees, minutes, seconds and hundredths as one whole number.
struct Number {
    minus: bool,
    digits: i128,
}

impl Number {
    fn of(text: &str) -> Number {
        let digits: String = text.chars().filter(char::is_ascii_digit).collect();
        Number {
            minus: text.starts_with('-'),
            digits: digits.parse().expect("digits"),
        }
    }

    /// Degrees, minutes, seconds and hundredths.
    fn parts(&self) -> [i128; 4] {
        let [minutes, seconds, hundredths] = [10_000, 100, 1].map(|one| self.digits / one % 100);
        [self.digits / 1_000_000, minutes, seconds, hundredths]
    }

    fn past_sixty(&self) -> bool {
        let [_, minutes, seconds, _] = self.parts();
        minutes.max(seconds) >= 60
    }

    fn minus_zero(&self) -> bool {
        self.minus && self.digits == 0
    }

    fn centiseconds(&self) -> i128 {
        let [degrees, minutes, seconds, hundredths] = self.parts();
        let size = ((degrees * 60 + minutes) * 60 + seconds) * 100 + hundredths;
        if self.minus {
            -size
        } else {
            size
        }
    }

    fn standing_for(centiseconds: i128) -> Number {
        let size = centiseconds.abs();
        let (seconds, minutes) = (size / 100, size / 6_000);
        let parts = [minutes / 60, minutes % 60, seconds % 60, size % 100];
        Number {
            minus: centiseconds < 0,
            digits: parts.iter().fold(0, |sum, part| sum * 100 + part),
        }
    }

    /// With so many digits of degrees.
    fn text(&self, degrees: usize) -> String {
        let sign = if self.minus { '-' } else { '+' };
        let [whole, hundredths] = [self.digits / 100, self.digits % 100];
        format!("{sign}{whole:0width$}.{hundredths:02}", width = degrees + 4)
    }
}
