//! The program `convert`, its lines beside the second program's.
use crate::part::Part;
use crate::program::output;
use second::record::LENGTH;
use second::{record_random, session};

const PROGRAM: &str = "target/bin/convert";

/// How many records it is given, and how many bytes of one more.
const RECORDS: usize = 2_000_000;
const TAIL: usize = 7;

/// The end of the input counts as one: it is answered by the closing line.
pub fn compare(part: &mut Part, seed: u64) {
    let mut records = Vec::new();
    record_random::write(seed, RECORDS as u64 + 1, &mut records).expect("memory takes all");
    records.truncate(LENGTH * RECORDS + TAIL);
    let mut should = Vec::new();
    session::convert(&records[..], &mut should).expect("memory takes all");
    let [printed, should] = [output(PROGRAM, &records), should].map(text);
    let inputs = records.chunks(LENGTH).chain([&[][..]]);
    let both = lines(&printed).zip(lines(&should));
    for (at, (input, (printed, should))) in (1..).zip(inputs.zip(both)) {
        let difference = || format!("{input:02x?}: printed {printed:?}, should be {should:?}");
        part.count(number(printed, at), (printed != should).then(difference));
    }
}

fn text(bytes: Vec<u8>) -> String {
    String::from_utf8(bytes).expect("text")
}

/// A line for each input; all that follows belongs to the last one.
fn lines(text: &str) -> impl Iterator<Item = &str> {
    let lines = text.splitn(RECORDS + 2, '\n');
    lines.chain(std::iter::repeat(""))
}

/// The number that the line of an input gives, which is also to say which input it is, from 1.
fn number(line: &str, at: u64) -> u8 {
    let Some(refusal) = line.strip_prefix("refused ") else {
        return 0;
    };
    let number = refusal.strip_suffix(&format!(" at {at}"));
    number.map_or(u8::MAX, |number| number.parse().unwrap_or(u8::MAX))
}
