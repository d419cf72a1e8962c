//! Records at random, from a seed: good ones, moved ones, ones near to a limit and damaged ones.
use crate::map::{row_latitude, row_width, row_y, HALF_TURN, RIGHT_ANGLE};
use crate::record::{record, Record, LENGTH, PLACE, POSITION};
use crate::requests::{below, seeded, within};
use crate::table::{old_row_of, row_of, Row, KINDS, RETIRED};
use std::io::{self, BufWriter, Write};

/// Some records, and a torn one whose length is the seed's remainder by 16.
pub fn write(seed: u64, count: u64, output: impl Write) -> io::Result<()> {
    let mut output = BufWriter::new(output);
    let mut chance = Chance::new(seed);
    for _ in 0..count {
        output.write_all(&chance.record().bytes())?;
    }
    let torn = (seed % LENGTH as u64) as usize;
    output.write_all(&chance.record().bytes()[..torn])?;
    output.flush()
}

pub struct Chance {
    state: u64,
    /// The last record that was moved.
    moved: Record,
    /// Whether places are drawn on the old rows, mostly of kinds that have a retired one.
    old: bool,
}

impl Chance {
    pub fn new(seed: u64) -> Chance {
        let state = seeded(seed);
        let moved = record(POSITION, 1, [0; 3]);
        let old = false;
        Chance { state, moved, old }
    }

    pub fn old(seed: u64) -> Chance {
        let old = true;
        Chance {
            old,
            ..Chance::new(seed)
        }
    }

    fn kind(&mut self) -> i128 {
        if self.old && self.below(4) > 0 {
            RETIRED[self.below(2) as usize]
        } else {
            1 + i128::from(self.below(KINDS as u64))
        }
    }

    /// The row that places of a kind are drawn on.
    fn row_of(&self, kind: i128) -> Row {
        let row = if self.old { old_row_of } else { row_of };
        row(kind).expect("a kind of the table")
    }

    pub fn record(&mut self) -> Record {
        let kind = self.kind();
        let drawn = match self.below(16) {
            0..=4 => self.position(kind),
            5..=7 => self.place(kind),
            8 => self.place_by_the_equator(kind),
            9 => self.place_at_the_edge(kind),
            10..=11 => self.moved,
            12 => self.near_limits(kind),
            13 => self.any_numbers(kind),
            14 => self.other_byte(kind),
            _ => self.shifted(kind),
        };
        if let Ok(moved) = drawn.converted() {
            self.moved = moved;
        }
        drawn
    }

    pub fn below(&mut self, limit: u64) -> u64 {
        below(&mut self.state, limit)
    }

    fn within(&mut self, limit: i128) -> i128 {
        within(&mut self.state, limit)
    }

    fn position(&mut self, kind: i128) -> Record {
        let limits = [HALF_TURN, HALF_TURN, RIGHT_ANGLE];
        record(POSITION, kind, limits.map(|limit| self.within(limit)))
    }

    /// A central meridian, a row's y, and the half-width there.
    fn row(&mut self, row: &Row) -> (i128, i128, i128) {
        let central = self.within(HALF_TURN);
        let y = self.within(row_y(row, RIGHT_ANGLE));
        (central, y, row_width(row, row_latitude(row, y).abs()))
    }

    fn place(&mut self, kind: i128) -> Record {
        let (central, y, w) = self.row(&self.row_of(kind));
        record(PLACE, kind, [central, self.within(w), y])
    }

    /// A place that may only be inside the Equator's width.
    fn place_by_the_equator(&mut self, kind: i128) -> Record {
        let row = self.row_of(kind);
        let (central, y, _) = self.row(&row);
        record(PLACE, kind, [central, self.within(row_width(&row, 0)), y])
    }

    /// x at the end of its row, or at most two units to either side.
    fn place_at_the_edge(&mut self, kind: i128) -> Record {
        let (central, y, w) = self.row(&self.row_of(kind));
        let x = w + self.within(2);
        let x = if self.below(2) == 0 { x } else { -x };
        record(PLACE, kind, [central, x, y])
    }

    /// Each number at most two from 0 or from a limit of its own, either way.
    fn near_limits(&mut self, kind: i128) -> Record {
        let row = self.row_of(kind);
        let form = self.below(2) as u8;
        let limits = if form == POSITION {
            [HALF_TURN, HALF_TURN, RIGHT_ANGLE]
        } else {
            let y = row_y(&row, RIGHT_ANGLE);
            let latitude = [0, RIGHT_ANGLE][self.below(2) as usize];
            [HALF_TURN, row_width(&row, latitude), y]
        };
        let numbers = limits.map(|limit| self.within(1) * limit + self.within(2));
        record(form, kind, numbers)
    }

    /// Any 32 bits in one of the numbers, or in all three.
    fn any_numbers(&mut self, kind: i128) -> Record {
        let mut drawn = self.good(kind);
        let at = self.below(4) as usize;
        for i in (0..3).filter(|i| at == 3 || at == *i) {
            drawn.numbers[i] = self.below(1 << 32) as u32 as i32;
        }
        drawn
    }

    /// A good record with one byte that may be another one.
    fn other_byte(&mut self, kind: i128) -> Record {
        let mut bytes = self.good(kind).bytes();
        // the first four as often as the rest
        let most = [4, LENGTH as u64][self.below(2) as usize];
        let at = self.below(most) as usize;
        bytes[at] = match self.below(3) {
            0 => bytes[at] ^ 1 << self.below(8),
            1 => bytes[at].wrapping_add(self.below(3) as u8),
            _ => self.below(256) as u8,
        };
        Record::read(&bytes.try_into().expect("a record"))
    }

    /// The end of a good record and then its beginning, as where bytes were lost.
    fn shifted(&mut self, kind: i128) -> Record {
        let mut bytes = self.good(kind).bytes();
        bytes.rotate_left(self.below(LENGTH as u64) as usize);
        Record::read(&bytes.try_into().expect("a record"))
    }

    fn good(&mut self, kind: i128) -> Record {
        match self.below(2) {
            0 => self.position(kind),
            _ => self.place(kind),
        }
    }
}
