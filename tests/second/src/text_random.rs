//! Positions and texts at random, from a seed: good ones, ones near to a limit and damaged ones.
use crate::map::{HALF_TURN, RIGHT_ANGLE};
use crate::requests::{below, seeded, within, DEGREE};
use crate::text::{write, LENGTH};
use crate::text_cases::{faulty, text, Digits, Text, WAYS};

const LIMITS: [i128; 2] = [HALF_TURN, RIGHT_ANGLE];

/// Bytes that belong to a text, or are often put in the place of one.
const LIKELY: &[u8] = b"+-./0123456789 ,:;6";

/// The longest text is shorter than this.
const LONGEST: u64 = 4000;

pub struct Chance(u64);

impl Chance {
    pub fn new(seed: u64) -> Chance {
        Chance(seeded(seed))
    }

    pub fn below(&mut self, limit: u64) -> u64 {
        below(&mut self.0, limit)
    }

    fn within(&mut self, limit: i128) -> i128 {
        within(&mut self.0, limit)
    }

    /// A longitude and a latitude of 32 bits, mostly within the limits.
    pub fn position(&mut self) -> [i128; 2] {
        match self.below(8) {
            0..=3 => self.accepted(),
            4 => LIMITS.map(|limit| self.about_whole(limit)),
            5 => LIMITS.map(|_| self.small()),
            // at most two from 0 or from its limit
            6 => LIMITS.map(|limit| self.within(1) * limit + self.within(2)),
            _ => self.any_numbers(),
        }
    }

    fn accepted(&mut self) -> [i128; 2] {
        LIMITS.map(|limit| self.within(limit))
    }

    /// At most a hundredth from whole degrees, minutes or seconds.
    fn about_whole(&mut self, limit: i128) -> i128 {
        let whole = [DEGREE, DEGREE / 60, DEGREE / 3600][self.below(3) as usize];
        self.within(limit / whole) * whole + self.within(1)
    }

    /// Of any number of digits.
    fn small(&mut self) -> i128 {
        let digits = self.below(9) as u32;
        self.within(10_i128.pow(digits))
    }

    /// Any 32 bits in one of the numbers, or in both.
    fn any_numbers(&mut self) -> [i128; 2] {
        let mut position = self.accepted();
        let at = self.below(3) as usize;
        for i in (0..2).filter(|i| at == 2 || at == *i) {
            position[i] = (self.below(1 << 32) as u32 as i32).into();
        }
        position
    }

    pub fn text(&mut self) -> Text {
        match self.below(16) {
            0..=2 => self.good(),
            3..=5 => self.changed(1),
            6 => self.changed(2),
            7 => {
                let most = 1 + self.below(LENGTH as u64);
                self.changed(most)
            }
            8 => self.sixty(),
            9 => self.minus_zero(),
            10 => self.far(0),
            11 => self.far(1),
            12 => self.any_digits(),
            13 => self.other_length(),
            14 => self.noise(),
            _ => {
                let [which, way] = [64, WAYS as u64].map(|limit| self.below(limit) as usize);
                faulty(which, way)
            }
        }
    }

    fn good(&mut self) -> Text {
        let drawn = write(self.position(), LENGTH);
        let text = drawn.or_else(|_| write(self.accepted(), LENGTH));
        text.expect("an accepted position").into_bytes()
    }

    /// A good text with at most so many bytes that are others.
    fn changed(&mut self, most: u64) -> Text {
        let mut text = self.good();
        for _ in 0..most {
            let at = self.below(LENGTH as u64) as usize;
            text[at] = self.byte();
        }
        text
    }

    fn byte(&mut self) -> u8 {
        match self.below(3) {
            0 => self.below(256) as u8,
            _ => LIKELY[self.below(LIKELY.len() as u64) as usize],
        }
    }

    /// A latitude and a longitude within the limits, or a little past them.
    fn digits(&mut self) -> [Digits; 2] {
        [90, 180].map(|most| Digits {
            minus: self.below(2) == 0,
            parts: [most + 1, 60, 60, 100].map(|limit| self.below(limit)),
        })
    }

    /// Minutes or seconds from 60 up, in one to four places.
    fn sixty(&mut self) -> Text {
        let mut numbers = self.digits();
        for _ in 0..=self.below(4) {
            let [number, part] = [0, 1].map(|_| self.below(2) as usize);
            numbers[number].parts[1 + part] = 60 + self.below(40);
        }
        text(numbers)
    }

    /// Degrees that are at a limit or past it.
    fn past(&mut self) -> [u64; 2] {
        [90 + self.below(10), 180 + self.below(820)]
    }

    /// A zero, mostly with minus, for one number, and often for both; the other one may be past its limit.
    fn minus_zero(&mut self) -> Text {
        let mut numbers = self.digits();
        if self.below(2) == 0 {
            let degrees = self.past();
            for (number, degrees) in numbers.iter_mut().zip(degrees) {
                number.parts[0] = degrees;
            }
        }
        for _ in 0..2 {
            let at = self.below(2) as usize;
            numbers[at] = Digits {
                minus: self.below(8) != 0,
                parts: [0; 4],
            };
        }
        text(numbers)
    }

    /// A latitude from 90 degrees up, or a longitude from 180, often whole; the other one may be past its limit too.
    fn far(&mut self, which: usize) -> Text {
        let mut numbers = self.digits();
        let degrees = self.past();
        numbers[which].parts = numbers[which].parts.map(|part| part * self.below(2));
        numbers[which].parts[0] = degrees[which];
        if self.below(4) == 0 {
            numbers[1 - which].parts[0] = degrees[1 - which];
        }
        text(numbers)
    }

    /// Any digits and any signs.
    fn any_digits(&mut self) -> Text {
        let numbers = [100, 1000].map(|degrees| Digits {
            minus: self.below(2) == 0,
            parts: [degrees, 100, 100, 100].map(|limit| self.below(limit)),
        });
        text(numbers)
    }

    /// A good text cut, with a byte left out, with a byte put in, or with more behind it.
    fn other_length(&mut self) -> Text {
        let mut text = self.good();
        match self.below(5) {
            0 => text.truncate(self.below(LENGTH as u64) as usize),
            1 => drop(text.remove(self.below(LENGTH as u64) as usize)),
            2 => text.insert(self.below(LENGTH as u64 + 1) as usize, self.byte()),
            3 => text.extend((0..1 + self.below(18)).map(|_| self.byte())),
            _ => {
                let most = LONGEST / LENGTH as u64;
                text = text.repeat(self.below(most) as usize);
                text.push(self.byte());
            }
        }
        text
    }

    /// Bytes at random: any, or those that are likely.
    fn noise(&mut self) -> Text {
        let any = self.below(2) == 0;
        let byte = |_| match any {
            true => self.below(256) as u8,
            false => self.byte(),
        };
        (0..LENGTH).map(byte).collect()
    }
}
