//! The house sine of document 02's order 5, in billionths: a table with an entry for each arcminute, worked out from the
//! series, and the straight line between entries.
use crate::map::RIGHT_ANGLE;
use crate::rounding::nearest;
use crate::wide::Wide;
use std::sync::OnceLock;

/// The sine of a right angle.
pub const ONE: i128 = 1_000_000_000;

/// In hundredths of an arcsecond.
pub const ARCMINUTE: i128 = 60 * 100;

/// pi to its 20 decimals, in units of 10^-20.
const PI: u128 = 314159265358979323846;

/// What the series is worked out in: so many units are 1.
const UNITS: u128 = 1_000_000_000_000_000_000_000_000;

/// Stops where the sine of 0, 30 or 90 degrees is another number.
pub fn check() {
    let sines = [0, RIGHT_ANGLE / 3, RIGHT_ANGLE].map(sine);
    assert_eq!(sines, [0, ONE / 2, ONE], "sine of 0, 30 and 90 degrees");
}

/// The sine of an angle from 0 to 90 degrees: on the straight line from an entry to the next, rounded down.
pub fn sine(angle: i128) -> i128 {
    let at = (angle / ARCMINUTE) as usize;
    let rest = angle % ARCMINUTE;
    let entry = table()[at];
    // the last entry has no next, and no rest
    let next = table().get(at + 1).unwrap_or(&entry);
    (entry * (ARCMINUTE - rest) + next * rest) / ARCMINUTE
}

/// The cosine of a latitude's size.
pub fn cosine(p: i128) -> i128 {
    sine(RIGHT_ANGLE - p)
}

/// The entries from 0 to 90 degrees, worked out once.
fn table() -> &'static [i128] {
    static TABLE: OnceLock<Vec<i128>> = OnceLock::new();
    TABLE.get_or_init(|| (0..=90 * 60).map(entry).collect())
}

fn entry(arcminutes: u128) -> i128 {
    nearest(series(arcminutes), UNITS as i128 / ONE)
}

/// The sine's series cut after the 21st power, in whole units. The angle and each term's size are rounded down once.
fn series(arcminutes: u128) -> i128 {
    // pi is 180 degrees, and 10,000 units are 10^-20
    let angle = PI * 10_000 * arcminutes / (180 * 60);
    let square = Wide::of(angle).times(&Wide::of(angle));
    let mut size = angle;
    let mut sum = angle as i128;
    for power in (3..=21).step_by(2) {
        let product = Wide::of(size).times(&square);
        let factors = (power - 1) * power;
        // the square has the units of both its angles
        size = product.over(UNITS).over(UNITS).over(factors).narrow();
        // the 3rd, the 7th and every fourth power from there are taken away
        let term = size as i128;
        sum += if power % 4 == 3 { -term } else { term };
    }
    sum
}
