//! Counts and notes at random, from a seed: good ones, ones about the greatest sum and damaged ones.
use crate::note::{Form, NOTE};
use crate::note_cases::{marked, Note, LONGEST, OTHER_MARK};
use crate::requests::{below, next, seeded, within};

/// How many bits a count has in a session, and in a note.
const IN_SESSION: u32 = 64;
const IN_NOTE: u32 = 8 * NOTE.width as u32;

pub struct Chance(u64);

impl Chance {
    pub fn new(seed: u64) -> Chance {
        Chance(seeded(seed))
    }

    pub fn below(&mut self, limit: u64) -> u64 {
        below(&mut self.0, limit)
    }

    /// Any two counts of a session, mostly such as a note may have.
    pub fn counts(&mut self) -> [u64; 2] {
        let numbers = match self.below(8) {
            0..=2 => self.few(),
            3..=4 => self.about_cap(),
            5 => [(); 2].map(|_| self.number(IN_SESSION)),
            6 => self.past(IN_SESSION),
            _ => self.past(IN_NOTE),
        };
        numbers.map(|number| number as u64)
    }

    /// The length of a piece for a note, mostly the right one.
    pub fn room(&mut self) -> usize {
        match self.below(16) {
            0 => self.below(LONGEST as u64 + 1) as usize,
            _ => NOTE.length(),
        }
    }

    pub fn note(&mut self) -> Note {
        let numbers = match self.below(16) {
            0..=4 => self.few(),
            5..=7 => self.about_cap(),
            8..=10 => [(); 2].map(|_| self.number(IN_NOTE)),
            11 => self.past(IN_NOTE),
            12..=13 => {
                let note = NOTE.bytes(self.few());
                return self.damaged(&note);
            }
            14 => return self.noise(NOTE.length()),
            _ => return self.other_form(),
        };
        NOTE.bytes(numbers)
    }

    /// Such as a note may have.
    fn few(&mut self) -> [u128; 2] {
        let sum = self.number(IN_NOTE) % (NOTE.cap + 1);
        self.split(sum)
    }

    /// Two numbers that add to the greatest sum, or to at most two more or less.
    pub fn about_cap(&mut self) -> [u128; 2] {
        let sum = NOTE.cap as i128 + within(&mut self.0, 2);
        self.split(sum as u128)
    }

    /// Two numbers of so many bits whose sum would be that of a note if it were cut to as many.
    fn past(&mut self, bits: u32) -> [u128; 2] {
        let limit = 1_u128 << bits;
        let sum = limit + u128::from(self.below(2 * NOTE.cap as u64));
        let first = (sum - limit + 1) + self.number(bits) % (2 * limit - sum - 1);
        [first, sum - first]
    }

    /// Two numbers with this sum.
    pub fn split(&mut self, sum: u128) -> [u128; 2] {
        let first = u128::from(next(&mut self.0)) % (sum + 1);
        [first, sum - first]
    }

    /// A number of any length up to so many bits.
    fn number(&mut self, most: u32) -> u128 {
        let bits = self.below(u64::from(most) + 1) as u32;
        u128::from(next(&mut self.0)) >> (64 - bits)
    }

    /// A note that is cut or longer, or has a byte or a bit that may be another one, the mark's as often as the rest.
    pub fn damaged(&mut self, note: &[u8]) -> Note {
        let mut note = note.to_vec();
        let most = [2, note.len() as u64][self.below(2) as usize];
        let at = self.below(most) as usize;
        match self.below(6) {
            0 => note[at] ^= 1 << self.below(8),
            1 => note[at] = self.below(256) as u8,
            2 => note.truncate(at),
            3 => drop(note.remove(at)),
            4 => note.insert(at, self.below(256) as u8),
            _ => {
                let length = 1 + self.below(20) as usize;
                note.extend(self.noise(length));
            }
        }
        note
    }

    fn noise(&mut self, length: usize) -> Note {
        (0..length).map(|_| self.below(256) as u8).collect()
    }

    /// The mark of another form, on a note of this length, or on one with numbers of 64 bits.
    fn other_form(&mut self) -> Note {
        let width = [NOTE.width, 8][self.below(2) as usize];
        let form = Form { width, ..NOTE };
        let mark = [NOTE.mark, OTHER_MARK][self.below(2) as usize];
        marked(mark, &form.bytes(self.few()))
    }
}
