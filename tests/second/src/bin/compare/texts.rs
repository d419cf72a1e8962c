//! Positions as text: written, read and handed on, at every edge and at random.
use crate::lent::LONGEST;
use crate::part::Part;
use crate::text_calls::{self, shown};
use second::record::narrow;
use second::text::{self, LENGTH};
use second::text_cases::{self, Text, EXAMPLES, GOOD_TEXTS};
use second::text_random::Chance;

/// How many positions and how many texts are drawn for a part.
const POSITIONS: u64 = 200_000;
const TEXTS: u64 = 500_000;

/// Degrees about which positions are tried, each with each.
const DEGREES: [i128; 13] = [1, 2, 9, 10, 59, 60, 89, 91, 99, 100, 179, 181, 360];

/// The lengths of the pieces that a text is written to.
const ROOMS: [usize; 5] = [0, LENGTH - 1, LENGTH, LENGTH + 1, LONGEST];

/// A longitude and a latitude, and the length of the output for them.
type Handed = ([i32; 2], usize);

pub fn written(part: &mut Part, seed: u64) {
    for (position, room) in edges().chain(drawn(seed)) {
        text_calls::write(part, position, room);
    }
}

pub fn read(part: &mut Part, seed: u64) {
    for text in edge_texts().chain(drawn_texts(seed)) {
        text_calls::read(part, &text);
    }
}

/// What is answered to each that is accepted is handed on as it stands, and has to come back as it was.
pub fn handed_on(part: &mut Part, seed: u64) {
    for (position, room) in edges().chain(drawn(seed)) {
        if text::write(position.map(i128::from), room).is_ok() {
            position_and_back(part, position);
        }
    }
    for text in edge_texts().chain(drawn_texts(seed)) {
        if text::read(&text).is_ok() {
            text_and_back(part, &text);
        }
    }
}

fn position_and_back(part: &mut Part, position: [i32; 2]) {
    let text = text_calls::write(part, position, LENGTH);
    let back = text_calls::read(part, &text);
    let difference = || format!("{position:?} came back as {back:?}");
    part.count(0, (back != position).then(difference));
}

fn text_and_back(part: &mut Part, text: &[u8]) {
    let position = text_calls::read(part, text);
    let back = text_calls::write(part, position, LENGTH);
    let difference = || format!("{} came back as {}", shown(text), shown(&back));
    part.count(0, (back != text).then(difference));
}

/// Every position at an edge with every length.
fn edges() -> impl Iterator<Item = Handed> {
    let positions = text_cases::positions(&DEGREES).into_iter();
    positions.flat_map(|position| ROOMS.map(|room| (position.map(narrow), room)))
}

/// Positions at random, some of them with an output of another length.
fn drawn(seed: u64) -> impl Iterator<Item = Handed> {
    let mut chance = Chance::new(seed);
    (0..POSITIONS).map(move |_| {
        let position = chance.position().map(narrow);
        let room = match chance.below(16) {
            0 => chance.below(LONGEST as u64 + 1) as usize,
            _ => LENGTH,
        };
        (position, room)
    })
}

fn drawn_texts(seed: u64) -> impl Iterator<Item = Text> {
    let mut chance = Chance::new(seed);
    (0..TEXTS).map(move |_| chance.text())
}

/// Every byte in each place of good texts, every digit of degrees, minutes and seconds, every mixture of faults in every way.
fn edge_texts() -> impl Iterator<Item = Text> {
    let in_each_place = |good: &'static str| {
        (0..LENGTH).flat_map(move |at| text_cases::every_byte(good.as_bytes(), at))
    };
    let examples = EXAMPLES.map(Text::from).into_iter();
    examples
        .chain(GOOD_TEXTS.into_iter().flat_map(in_each_place))
        .chain(text_cases::lengths())
        .chain(text_cases::sixties())
        .chain(text_cases::whole_degrees(0, 0..100))
        .chain(text_cases::whole_degrees(1, 0..1000))
        .chain(text_cases::mixtures(1))
}
