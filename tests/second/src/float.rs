//! Document 01's f64 door: a call on floats is judged on their own values, and answered as the whole numbers that are read
//! from them. Whole numbers are read from the bits, and no product is worked out in f64.
use crate::map::{self, Answer};
use crate::rounding::nearest;
use crate::table::row_of;

/// Hundredths of an arcsecond in a degree.
const PER_DEGREE: i128 = 60 * 60 * 100;

/// Stops where P12 is not as order 8 has it, or a float next to that half is not told from it.
pub fn check() {
    let half: f64 = 0.0078125;
    let about = [half.next_down(), half, half.next_up()];
    let read = |x: f64| [read(x, PER_DEGREE), read(-x, PER_DEGREE)];
    let should = [[2812, -2812], [2812, -2812], [2813, -2813]];
    assert_eq!(about.map(read), should, "P12");
}

/// The whole number nearest to x times `by`. From 2^52 up it is some number past every row, with x's sign.
fn read(x: f64, by: i128) -> i128 {
    let field = (x.to_bits() >> 52) as i32 % 2048;
    let fraction = (x.to_bits() % (1 << 52)) as i128;
    // x is digits * 2^power with its sign
    let digits = if field == 0 {
        fraction
    } else {
        fraction + (1 << 52)
    };
    let power = field.max(1) - 1075;
    let product = if x < 0.0 { -digits * by } else { digits * by };
    // the product has at most 72 bits, so that over 2^100 and over more it is far below a half
    let up = power.clamp(0, 40);
    let down = (-power).clamp(0, 100);
    nearest(product << up, 1 << down)
}

/// A whole number over `by`, rounded once. It stops where that does not read back.
fn written(n: i128, by: i128) -> f64 {
    let x = n as f64 / by as f64;
    assert_eq!(read(x, by), n, "{n} over {by}, written and read back");
    x
}

/// The refusals that both calls have: 1, 2 and 3.
fn refusal(kind: i128, central: f64, others: [f64; 2]) -> Option<Answer> {
    if row_of(kind).is_none() {
        return Some(Answer::Refused(1));
    }
    if !(central.is_finite() && others.iter().all(|x| x.is_finite())) {
        return Some(Answer::Refused(2));
    }
    if central.abs() > 180.0 {
        return Some(Answer::Refused(3));
    }
    None
}

/// An answer of whole numbers as floats.
fn as_floats(answer: Answer, by: i128) -> Answer {
    match answer {
        Answer::Pair(first, second) => Answer::Floats(written(first, by), written(second, by)),
        other => other,
    }
}

pub fn forward(kind: i128, central: f64, longitude: f64, latitude: f64) -> Answer {
    if let Some(refused) = refusal(kind, central, [longitude, latitude]) {
        return refused;
    }
    if longitude.abs() > 180.0 {
        return Answer::Refused(4);
    }
    if latitude.abs() > 90.0 {
        return Answer::Refused(5);
    }
    let read = |x| read(x, PER_DEGREE);
    let place = map::forward(kind, read(central), read(longitude), read(latitude));
    as_floats(place, 1)
}

pub fn inverse(kind: i128, central: f64, x: f64, y: f64) -> Answer {
    if let Some(refused) = refusal(kind, central, [x, y]) {
        return refused;
    }
    let position = map::inverse(kind, read(central, PER_DEGREE), read(x, 1), read(y, 1));
    as_floats(position, PER_DEGREE)
}
