//! Requests of the kinds that have a cosine, where the house sine has its entries: at whole arcminutes, and one hundredth of
//! an arcsecond beside them.
use crate::edges::signed;
use crate::map::{row_width, row_y, HALF_TURN, RIGHT_ANGLE};
use crate::request::Request;
use crate::requests::{place, position, width, DEGREE};
use crate::sine::ARCMINUTE;
use crate::table::row_of;

/// The Sinusoidal and Eckert V.
pub const WITH_COSINE: [i128; 2] = [11, 12];

/// Latitudes in whole degrees, from the Equator to the pole.
pub const DEGREES: [i128; 7] = [0, 30, 45, 60, 72, 89, 90];

/// Whole degrees alone.
pub fn degrees() -> impl Iterator<Item = Request> {
    requests(&DEGREES.map(|degrees| degrees * DEGREE))
}

/// Whole degrees, the arcminute next to the Equator and the one next to the pole.
pub fn some() -> impl Iterator<Item = Request> {
    let degrees = DEGREES.into_iter().map(|degrees| 60 * degrees);
    requests(&beside(degrees.chain([1, 90 * 60 - 1])))
}

/// Every arcminute.
pub fn all() -> impl Iterator<Item = Request> {
    requests(&beside(0..=90 * 60))
}

/// Each arcminute, and what lies on either side of it, as far as these are latitudes.
fn beside(arcminutes: impl Iterator<Item = i128>) -> Vec<i128> {
    let three = |minute| [-1, 0, 1].map(|hundredth| minute * ARCMINUTE + hundredth);
    let sizes = arcminutes.flat_map(three);
    sizes.filter(|p| (0..=RIGHT_ANGLE).contains(p)).collect()
}

fn requests(sizes: &[i128]) -> impl Iterator<Item = Request> {
    let of_kinds = |latitude| WITH_COSINE.map(|kind| parallel(kind, latitude)).into_iter();
    signed(sizes).into_iter().flat_map(of_kinds).flatten()
}

/// The half-width, both edges there and back, and one unit past each of them.
fn parallel(kind: i128, latitude: i128) -> Vec<Request> {
    let row = row_of(kind).expect("a kind of the table");
    let w = row_width(&row, latitude.abs());
    let y = row_y(&row, latitude);
    let mut requests = vec![width(kind, latitude)];
    for side in [-1, 1] {
        requests.extend(position(kind, 0, side * HALF_TURN, latitude).handed_on());
        requests.push(place(kind, 0, side * (w + 1), y));
    }
    requests
}
