//! The program `reproject`, what it writes of each record beside the second program's.
use crate::part::Part;
use crate::program::{output, output_from_file};
use second::record::{LENGTH, MARK, PLACE};
use second::record_cases::{self, joined};
use second::record_random::Chance;
use second::reproject::piece;
use second::{reproject_cases, requests};

const PROGRAM: &str = "target/bin/reproject";

/// How many records are drawn.
const DRAWN: u64 = 500_000;

/// How many bytes an input has that is none of records.
const NOISE: usize = 1_000_003;

pub fn compare(part: &mut Part, seed: u64) {
    let drawn = drawn(seed);
    stream(part, &joined(&reproject_cases::edges()));
    stream(part, &joined(&reproject_cases::halves(seed)));
    stream(part, &reproject_cases::all());
    stream(part, &record_cases::all());
    stream(part, &drawn);
    compare_all(part, &drawn, &output_from_file(PROGRAM, &drawn));
    // a text
    stream(part, &requests::all());
    for bytes in [noise(part), likely_noise(part)] {
        stream(part, &bytes);
    }
    // tails of every length, the beginnings of a place that would change, alone and behind records of which the last one does
    let records = joined(&reproject_cases::retired());
    for length in 0..LENGTH {
        let tail = &records[..length];
        stream(part, tail);
        stream(part, &[&records, tail].concat());
    }
}

fn drawn(seed: u64) -> Vec<u8> {
    let mut chance = Chance::old(seed);
    let records: Vec<_> = (0..DRAWN).map(|_| chance.record()).collect();
    joined(&records)
}

/// Any bytes.
fn noise(part: &mut Part) -> Vec<u8> {
    (0..NOISE).map(|_| (part.word() >> 20) as u8).collect()
}

/// Bytes that a record of these kinds begins with, and few others.
fn likely_noise(part: &mut Part) -> Vec<u8> {
    let likely = [MARK[0], MARK[1], 3, 4, PLACE, 0];
    let byte = |word: u64| likely[word as usize % likely.len()];
    (0..NOISE).map(|_| byte(part.word() >> 20)).collect()
}

/// Compares an input that comes through a pipe.
fn stream(part: &mut Part, input: &[u8]) {
    compare_all(part, input, &output(PROGRAM, input));
}

/// Compares piece by piece. The input's end counts as an empty tail, for which nothing is to be written.
fn compare_all(part: &mut Part, input: &[u8], output: &[u8]) {
    let mut rest = output;
    for bytes in input.chunks(LENGTH) {
        let (written, behind) = rest.split_at(bytes.len().min(rest.len()));
        rest = behind;
        compare_piece(part, bytes, written);
    }
    compare_piece(part, &[], rest);
}

fn compare_piece(part: &mut Part, bytes: &[u8], written: &[u8]) {
    let (number, should) = match piece(bytes) {
        Ok(record) => (0, record.bytes()),
        Err(number) => (number, bytes.to_vec()),
    };
    let difference = || {
        let front = &written[..written.len().min(2 * LENGTH)];
        let length = written.len();
        format!("{bytes:02x?}: wrote {front:02x?} in {length} bytes, should be {should:02x?}")
    };
    part.count(number, (written != should).then(difference));
}
