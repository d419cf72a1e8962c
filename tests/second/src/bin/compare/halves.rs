//! Positions and places that are exactly a half before they are rounded, or just beside one: x of a position, or a place's
//! difference of longitudes; and positions and places on the parallels whose y or half-width is a half.
use second::halves::{breadth, breadth_beside, difference, difference_beside, parallels};
use second::map::{row_latitude, row_width, row_y, wrapped, HALF_TURN, RIGHT_ANGLE};
use second::request::Request;
use second::requests::{place, position, seeded, within};
use second::table::{row_of, KINDS};

/// How many rows are drawn.
const ROWS: i128 = 600_000;

/// How many positions and places are drawn on each parallel whose y or half-width is a half.
const ON_PARALLELS: usize = 1000;

pub fn halves(seed: u64) -> impl Iterator<Item = Request> {
    let mut state = seeded(seed);
    let mut further = seeded(seed.wrapping_add(1));
    let on_parallels = parallels().into_iter().cycle();
    let count = ON_PARALLELS * parallels().len();
    (0..ROWS)
        .flat_map(move |i| halves_of_row(&mut state, 1 + i % KINDS))
        .chain(
            on_parallels
                .take(count)
                .flat_map(move |(kind, latitude)| on_parallel(&mut further, kind, latitude)),
        )
}

/// A position, and a place a few units past the row's ends at most.
fn on_parallel(state: &mut u64, kind: i128, latitude: i128) -> [Request; 2] {
    let row = row_of(kind).expect("a kind of the table");
    let central = within(state, HALF_TURN);
    let longitude = within(state, HALF_TURN);
    let x = within(state, row_width(&row, latitude.abs()) + 2);
    [
        position(kind, central, longitude, latitude),
        place(kind, central, x, row_y(&row, latitude)),
    ]
}

/// Positions have halves on nearly every row, places on one of 512: these rows have more of them. One row of four has numbers
/// beside a half.
fn halves_of_row(state: &mut u64, kind: i128) -> Vec<Request> {
    let row = row_of(kind).expect("a kind of the table");
    let central = within(state, HALF_TURN);
    let y = within(state, row_y(&row, RIGHT_ANGLE));
    let latitude = row_latitude(&row, y);
    let w = row_width(&row, latitude.abs());
    let differences = [difference(state, w), difference_beside(state, w)];
    let mut breadths: Vec<i128> = (0..16).filter_map(|_| breadth(state, w)).collect();
    breadths.extend(breadth_beside(state, w));
    let mut requests = Vec::new();
    for d in differences.into_iter().flatten() {
        requests.push(position(kind, central, wrapped(central + d), latitude));
    }
    requests.extend(breadths.iter().map(|x| place(kind, central, *x, y)));
    requests
}
