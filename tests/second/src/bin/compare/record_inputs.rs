//! Records, and pieces that are none, with the length of the output for each.
use crate::lent::LONGEST;
use second::record::{Record, LENGTH, PLACE, POSITION};
use second::record_cases::{self, every_byte, faulty};
use second::record_random::Chance;
use second::table::KINDS;

/// The input's bytes and the output's length.
pub type Handed = (Vec<u8>, usize);

/// The stored records, every byte in each place of good ones, and pieces of every length.
pub fn edges() -> impl Iterator<Item = Handed> {
    let damaged = good().into_iter().flat_map(|record| {
        let everywhere = (0..LENGTH).flat_map(move |at| every_byte(&record, at));
        everywhere.map(|record| (record.bytes(), LENGTH))
    });
    let pieces = good().into_iter().flat_map(lengths);
    stored().into_iter().chain(damaged).chain(pieces)
}

/// The records of the stored run of `convert`, and its tail.
fn stored() -> Vec<Handed> {
    let records = record_cases::all();
    let pieces = records.chunks(LENGTH).map(|piece| (piece.to_vec(), LENGTH));
    pieces.collect()
}

/// A position and a place of each kind.
fn good() -> Vec<Record> {
    let both = |kind| [POSITION, PLACE].map(|form| faulty(form, kind, 0));
    (1..=KINDS).flat_map(both).collect()
}

/// Every length of input and output, the input with the record in front as far as it goes, and then with it again.
fn lengths(record: Record) -> impl Iterator<Item = Handed> {
    let bytes = record.bytes().repeat(LONGEST.div_ceil(LENGTH));
    let all = (0..=LONGEST).flat_map(|input| (0..=LONGEST).map(move |output| (input, output)));
    all.map(move |(input, output)| (bytes[..input].to_vec(), output))
}

/// Records at random, some of them cut or followed by more, or with an output of another length.
pub fn drawn(seed: u64, count: u64) -> impl Iterator<Item = Handed> {
    let mut chance = Chance::new(seed);
    (0..count).map(move |_| {
        let mut bytes = chance.record().bytes();
        let mut lengths = [LENGTH; 2];
        let at = chance.below(32) as usize;
        if at < 2 {
            lengths[at] = chance.below(LONGEST as u64 + 1) as usize;
        }
        bytes.resize(lengths[0], 0);
        (bytes, lengths[1])
    })
}
