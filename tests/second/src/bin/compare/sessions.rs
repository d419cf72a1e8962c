//! Sessions about their cap, and runs of calls on one session.
use crate::lent::Lent;
use crate::part::Part;
use crate::record_calls::FEED;
use crate::record_inputs::{drawn, Handed};
use second::record::{DOCUMENT, LENGTH};
use second::record_cases::refusals;
use second::session::FULL;

/// How many calls the longest run has, and how many runs reach the cap, with as many calls each.
const LONG_RUN: u64 = 1_000_000;
const SHORT_RUNS: u64 = 250;
const SHORT_RUN: u64 = 4_000;

/// Each of these numbers, and at most two more or less.
fn about(numbers: &[u128]) -> Vec<u128> {
    let five = |n: &u128| n.saturating_sub(2)..=n + 2;
    numbers.iter().flat_map(five).collect()
}

/// Counts whose sum is about the cap, or would be below it if it were cut to 32 or to 64 bits.
pub fn counts() -> Vec<[u64; 2]> {
    let [b32, b63, b64] = [32, 63, 64].map(|bits| 1u128 << bits);
    let firsts = about(&[0, FULL / 2, FULL, b32, b63, b64 - FULL, b64]);
    let sums = about(&[FULL, b32, b32 + FULL, b63, b64, b64 + FULL, 2 * b64 - 4]);
    let mut all = Vec::new();
    for first in firsts {
        let seconds = sums.iter().filter_map(|sum| sum.checked_sub(first));
        for [first, second] in seconds.filter_map(|second| fitting([first, second])) {
            all.extend([[first, second], [second, first]]);
        }
    }
    all
}

/// Two numbers of 64 bits, if they are that.
fn fitting([first, second]: [u128; 2]) -> Option<[u64; 2]> {
    Some([first.try_into().ok()?, second.try_into().ok()?])
}

/// Records with every fault and every two, and pieces that are no records.
fn judged() -> Vec<Handed> {
    let mut handed: Vec<Handed> = Vec::new();
    handed.extend(refusals().iter().map(|record| (record.bytes(), LENGTH)));
    let lengths = [
        (0, 0),
        (0, LENGTH),
        (15, LENGTH),
        (LENGTH, 0),
        (LENGTH, 15),
        (LENGTH, 17),
    ];
    handed.extend(lengths.map(|(input, output)| (DOCUMENT[..input].to_vec(), output)));
    handed
}

pub fn about_full(part: &mut Part, _: u64) {
    let judged = judged();
    for counts in counts() {
        for (bytes, room) in &judged {
            let lent = Lent::new(part, counts, bytes, *room);
            FEED.compare(part, lent);
        }
    }
}

/// One session from its opening, and some that become full on the way.
pub fn runs(part: &mut Part, seed: u64) {
    run(part, [0; 2], drawn(seed, LONG_RUN));
    for i in 1..=SHORT_RUNS {
        let sum = FULL as u64 - (part.word() >> 20) % SHORT_RUN;
        let moved = (part.word() >> 20) % sum;
        let handed = drawn(seed.wrapping_add(i), SHORT_RUN);
        run(part, [moved, sum - moved], handed);
    }
}

/// Each call is lent the counts that the one before it left.
fn run(part: &mut Part, mut counts: [u64; 2], handed: impl Iterator<Item = Handed>) {
    for (bytes, room) in handed {
        let lent = Lent::new(part, counts, &bytes, room);
        let (_, lent) = FEED.compare(part, lent);
        let [_, moved, refused, _] = lent.counts;
        counts = [moved, refused];
    }
}
