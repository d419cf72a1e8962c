//! Records converted by themselves, fed with any counts, and handed on.
use crate::lent::Lent;
use crate::part::Part;
use crate::record_calls::{CONVERT, FEED};
use crate::record_inputs::{drawn, edges};
use second::record::{Record, LENGTH};
use second::session::FULL;

/// How many records are drawn for a part.
const DRAWN: u64 = 2_000_000;

pub fn converted(part: &mut Part, seed: u64) {
    for (bytes, room) in edges().chain(drawn(seed, DRAWN)) {
        let lent = Lent::new(part, [0; 2], &bytes, room);
        CONVERT.compare(part, lent);
    }
}

/// Each call has counts of its own, so that one that goes by an earlier call's is seen.
pub fn fed(part: &mut Part, seed: u64) {
    for (bytes, room) in edges().chain(drawn(seed, DRAWN)) {
        let counts = any_counts(part);
        let lent = Lent::new(part, counts, &bytes, room);
        FEED.compare(part, lent);
    }
}

/// Mostly counts of a session that is not full, and else any two.
fn any_counts(part: &mut Part) -> [u64; 2] {
    let most = (FULL / 2) as u64;
    let any = [part.word(), part.word()];
    match part.word() >> 20 & 7 {
        0 => any,
        _ => any.map(|word| (word >> 20) % most),
    }
}

/// What was written of each converted record is handed on as it stands.
pub fn handed_on(part: &mut Part, seed: u64) {
    let handed = edges().chain(drawn(seed, DRAWN / 4));
    let whole = handed.filter_map(|(bytes, _)| <[u8; LENGTH]>::try_from(bytes).ok());
    for record in whole.filter(|bytes| Record::read(bytes).converted().is_ok()) {
        by_turns(part, &record);
    }
}

/// Each call has to take what either of them wrote.
fn by_turns(part: &mut Part, record: &[u8]) {
    let mut bytes = record.to_vec();
    for call in [CONVERT, FEED, FEED, CONVERT] {
        let lent = Lent::new(part, [0; 2], &bytes, LENGTH);
        let (_, lent) = call.compare(part, lent);
        bytes = lent.output.bytes().to_vec();
    }
}
