//! Requests on floats at random, from a seed.
use crate::float_requests::{place, position};
use crate::map::{row_latitude, row_width, row_y, RIGHT_ANGLE};
use crate::request::Request;
use crate::requests::next;
use crate::table::{row_of, KINDS};

/// Some requests of each sort for each round, the kinds by turns.
pub fn requests(seed: u64, rounds: u64) -> impl Iterator<Item = Request> {
    let mut chance = Chance(seed);
    (0..rounds).flat_map(move |i| chance.round(1 + i128::from(i) % KINDS))
}

/// The state of a generator.
pub struct Chance(pub u64);

impl Chance {
    fn round(&mut self, kind: i128) -> Vec<Request> {
        let mut requests = self.position(kind);
        requests.extend(self.place(kind));
        requests.extend(self.small(kind));
        requests.extend(self.near_halves(kind));
        requests.extend(self.patterns(kind));
        requests
    }

    pub fn bits(&mut self) -> u64 {
        next(&mut self.0)
    }

    /// A float of any bits.
    fn float(&mut self) -> f64 {
        f64::from_bits(self.bits())
    }

    /// A float from -limit to limit.
    pub fn within(&mut self, limit: f64) -> f64 {
        let part = (self.bits() >> 11) as f64 / (1u64 << 53) as f64;
        limit * (2.0 * part - 1.0)
    }

    /// A few floats on, either way.
    pub fn nudged(&mut self, x: f64) -> f64 {
        let steps = self.bits() % 7;
        f64::from_bits(x.to_bits() + steps - 3)
    }

    fn position(&mut self, kind: i128) -> Vec<Request> {
        let [central, longitude, latitude] = [180.0, 180.0, 90.0].map(|limit| self.within(limit));
        position(kind, central, longitude, latitude).handed_on()
    }

    /// A place inside its row, and one that may only be inside the Equator's.
    fn place(&mut self, kind: i128) -> Vec<Request> {
        let row = row_of(kind).expect("a kind of the table");
        let central = self.within(180.0);
        let y = self.within(row_y(&row, RIGHT_ANGLE) as f64);
        let w = row_width(&row, row_latitude(&row, y.round() as i128).abs());
        let x = self.within(w as f64);
        let mut requests = place(kind, central, x, y).handed_on();
        let x = self.within(row_width(&row, 0) as f64);
        requests.push(place(kind, central, x, y));
        requests
    }

    /// A position near to the central meridian and to the Equator, by every power of two down to 2^-40.
    fn small(&mut self, kind: i128) -> Vec<Request> {
        let [central, longitude, latitude] = [(); 3].map(|_| {
            let power = (self.bits() % 48) as i32 - 40;
            self.within(2.0_f64.powi(power)).clamp(-90.0, 90.0)
        });
        vec![position(kind, central, longitude, latitude)]
    }

    /// At most a few floats from a half of a centisecond, which is an odd number over 128, or of a map unit.
    fn near_halves(&mut self, kind: i128) -> Vec<Request> {
        let [central, longitude, latitude] = [23040.0, 23040.0, 11520.0].map(|limit| {
            let odd = 2.0 * (self.within(limit - 2.0) / 2.0).floor() + 1.0;
            self.nudged(odd / 128.0)
        });
        let [x, y] = [1e8, 1e8].map(|limit| {
            let half = self.within(limit).floor() + 0.5;
            self.nudged(half)
        });
        vec![
            position(kind, central, longitude, latitude),
            place(kind, central, x, y),
        ]
    }

    /// Any bits in one of the places, or in all three.
    fn patterns(&mut self, kind: i128) -> [Request; 2] {
        let any = [(); 3].map(|_| self.float());
        self.mixed(kind, any)
    }

    /// One of these floats between good ones, or all three.
    pub fn mixed(&mut self, kind: i128, any: [f64; 3]) -> [Request; 2] {
        let good = [180.0, 180.0, 90.0].map(|limit| self.within(limit));
        let at = (self.bits() % 4) as usize;
        let mixed = [0, 1, 2].map(|i| if at == 3 || i == at { any[i] } else { good[i] });
        [
            position(kind, mixed[0], mixed[1], mixed[2]),
            place(kind, mixed[0], mixed[1], mixed[2]),
        ]
    }
}
