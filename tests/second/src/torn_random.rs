//! Torn files at random, from a seed: good ones cut and joined, shifted and damaged, and bytes of no record.
use crate::record::{Record, LENGTH, MARK};
use crate::record_random;
use crate::torn::MOST;
use crate::torn_cases::{disguised, File, INSIDE};

/// Bytes that records begin with, and few others.
const LIKELY: [u8; 7] = [MARK[0], MARK[1], 0, 1, 2, 12, 0xff];

pub struct Chance {
    records: record_random::Chance,
    /// How many records a file has at most, about.
    most: u64,
}

impl Chance {
    pub fn new(seed: u64, most: u64) -> Chance {
        let records = record_random::Chance::new(seed);
        Chance { records, most }
    }

    pub fn below(&mut self, limit: u64) -> u64 {
        self.records.below(limit)
    }

    /// A place in a file, or its end.
    fn place(&mut self, file: &[u8]) -> usize {
        self.below(file.len() as u64 + 1) as usize
    }

    /// A torn file, no longer than it may be.
    pub fn file(&mut self) -> File {
        let mut file = match self.below(16) {
            0..=4 => self.spliced(),
            5..=8 => self.damaged(),
            9 => self.shifted(),
            10..=11 => self.misleading(),
            12..=13 => self.mixed(),
            14 => self.noise(),
            _ => self.likely_noise(),
        };
        file.truncate(MOST);
        file
    }

    /// Pieces of good files, cut at random places and joined.
    pub fn spliced(&mut self) -> File {
        let mut file = Vec::new();
        for _ in 0..2 + self.below(6) {
            let good = self.good();
            let [one, other] = [(); 2].map(|_| self.place(&good));
            file.extend(&good[one.min(other)..one.max(other)]);
        }
        file
    }

    /// Bytes among which no record begins, a good file, and bytes behind it.
    pub fn stretch(&mut self) -> [File; 3] {
        let mut before = self.noise();
        before.retain(|byte| *byte != MARK[0]);
        [before, self.good(), self.file()]
    }

    /// A good file in which some bytes are lost, added or changed, one after the other.
    fn damaged(&mut self) -> File {
        let mut file = self.good();
        for _ in 0..1 + self.below(5) {
            let at = self.place(&file);
            let length = [1, 1 + self.below(20) as usize][self.below(2) as usize];
            let end = (at + length).min(file.len());
            match self.below(3) {
                0 => drop(file.drain(at..end)),
                1 => {
                    let bytes = self.bytes(length);
                    file.splice(at..at, bytes);
                }
                _ => {
                    let bytes = self.bytes(end - at);
                    file[at..end].copy_from_slice(&bytes);
                }
            }
        }
        file
    }

    /// A good file without its first bytes, which may stand at its end.
    fn shifted(&mut self) -> File {
        let mut file = self.good();
        let at = self.place(&file);
        file.rotate_left(at);
        file.truncate(file.len() - [0, at][self.below(2) as usize]);
        file
    }

    /// A file of records in whose numbers another one may begin, cut, and with a byte lost.
    fn misleading(&mut self) -> File {
        let mut file = Vec::new();
        for _ in 0..1 + self.below(self.most) {
            let at = INSIDE[self.below(INSIDE.len() as u64) as usize];
            let kind = 1 + self.below(12) as u8;
            let form = self.below(2) as u8;
            file.extend(disguised(at, kind, form).bytes());
            if self.below(4) == 0 {
                let length = 1 + self.below(20) as usize;
                file.resize(file.len() + length, 0);
            }
        }
        let lost = self.below(file.len() as u64) as usize;
        file.remove(lost);
        file.split_off(self.below(LENGTH as u64) as usize % file.len())
    }

    /// Good records and refused ones, with bytes lost at both ends.
    fn mixed(&mut self) -> File {
        let count = 1 + self.below(self.most);
        let records = (0..count).map(|_| self.records.record());
        let mut file: File = records.flat_map(|record| record.bytes()).collect();
        let [first, last] = [(); 2].map(|_| self.below(LENGTH as u64 / 2) as usize);
        file.truncate(file.len() - last);
        file.split_off(first)
    }

    /// Any bytes.
    fn noise(&mut self) -> File {
        let length = self.length();
        (0..length).map(|_| self.below(256) as u8).collect()
    }

    /// Marks, kinds, forms and few other bytes.
    fn likely_noise(&mut self) -> File {
        let length = self.length();
        self.likely(length)
    }

    fn length(&mut self) -> usize {
        self.below(LENGTH as u64 * self.most + 1) as usize
    }

    fn likely(&mut self, length: usize) -> File {
        let byte = |at: u64| LIKELY[at as usize];
        let count = LIKELY.len() as u64;
        (0..length).map(|_| byte(self.below(count))).collect()
    }

    /// So many bytes: any, likely ones, or zeros.
    fn bytes(&mut self, length: usize) -> File {
        match self.below(3) {
            0 => (0..length).map(|_| self.below(256) as u8).collect(),
            1 => self.likely(length),
            _ => vec![0; length],
        }
    }

    /// A file of records that are all converted.
    fn good(&mut self) -> File {
        let count = 1 + self.below(self.most);
        let records = (0..count).map(|_| self.converted());
        records.flat_map(|record| record.bytes()).collect()
    }

    fn converted(&mut self) -> Record {
        loop {
            let record = self.records.record();
            if record.converted().is_ok() {
                return record;
            }
        }
    }
}
