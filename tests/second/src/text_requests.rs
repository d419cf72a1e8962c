//! Requests on text: every edge that document 02's order 1 names, and some thousand at random from a fixed seed.
use crate::text::{DOCUMENT, LENGTH};
use crate::text_cases::{self, Text, EXAMPLES, GOOD_TEXTS};
use crate::text_random::Chance;
use crate::text_request::TextRequest;

/// Places of a text with something of each sort: signs, tens, ones and decimals, points and the slash.
const SOME_PLACES: [usize; 9] = [0, 2, 3, 7, 10, 13, 16, 18, 21];

/// Lines, each without its end.
pub fn all() -> Vec<Vec<u8>> {
    let mut texts: Vec<Text> = EXAMPLES.map(Text::from).into();
    texts.extend(text_cases::lengths());
    texts.extend(text_cases::sixties());
    texts.extend(text_cases::whole_degrees(0, 80..100));
    texts.extend(text_cases::whole_degrees(1, (0..1000).step_by(59)));
    texts.extend(text_cases::whole_degrees(1, 175..185));
    texts.extend(text_cases::mixtures(23));
    texts.extend(bytes());
    let mut chance = Chance::new(20_260_106);
    texts.extend((0..3000).map(|_| chance.text()));
    // a line ends at a line feed, so that no text has one
    texts.retain(|text| !text.contains(&b'\n'));
    let mut requests: Vec<TextRequest> = texts.into_iter().map(TextRequest::Read).collect();
    let edges = text_cases::positions(&[1, 100]);
    requests.extend(edges.into_iter().map(TextRequest::Write));
    requests.extend((0..1500).map(|_| TextRequest::Write(chance.position())));
    let mut lines: Vec<Vec<u8>> = requests.iter().map(TextRequest::line).collect();
    lines.extend(ODD.map(Vec::from));
    lines
}

/// Every byte in some places of a good text, and bytes that good texts have, a space and a comma in every place.
fn bytes() -> Vec<Text> {
    let good = DOCUMENT.as_bytes();
    let mut texts: Vec<Text> = Vec::new();
    for at in SOME_PLACES {
        texts.extend(text_cases::every_byte(good, at));
    }
    for good in GOOD_TEXTS.map(str::as_bytes) {
        for at in 0..LENGTH {
            let likely = text_cases::every_byte(good, at);
            texts.extend(likely.filter(|text| b"+-./05 ,".contains(&text[at])));
        }
    }
    texts
}

/// Lines at the edges of what `query` reads: `p` wants one space and takes all that follows, `t` wants two whole numbers.
const ODD: [&str; 55] = [
    "p",
    "p ",
    "p  ",
    "p\t",
    "p\r",
    "pp",
    "p/",
    "px +450000.00+0900000.00/",
    "p+450000.00+0900000.00/",
    "p\t+450000.00+0900000.00/",
    "P +450000.00+0900000.00/",
    " p +450000.00+0900000.00/",
    "p  +450000.00+0900000.00/",
    "p  450000.00+0900000.00/",
    "p +450000.00+0900000.00/ ",
    "p +450000.00+0900000.00 /",
    "p +450000.00+0900000.00/\r",
    "p +450000.00+0900000.00\r",
    "p +450000.00+0900000.00",
    "p +450000.00 +0900000.00/",
    "p +450000.00+0900000.00/ +450000.00+0900000.00/",
    "p 32400000 16200000",
    "p 1 2",
    "t",
    "t ",
    "t 1",
    "t 1 ",
    "t 12",
    "t1 2",
    "t-1-2",
    "t -1-2",
    "t 1 2 3",
    "t 1 2 3 4",
    "t 1 2 3 4 5",
    "t  1  2  ",
    "t 1 2\r",
    "t\t1 2",
    "t 1,2",
    "t 1 +2",
    "t - 2",
    "t x1 2",
    "t 1 x2",
    "T 1 2",
    "tt 1 2",
    "t 000032400000 -0",
    "t -64800000 0000000000000000000000000000032400000",
    // past 32 and 64 bits, what is left of them being within the limits
    "t 4294967296 4294967296",
    "t 4294967296 0",
    "t 0 -4294967296",
    "t 4327367296 16200000",
    "t 32400000 4311167296",
    "t -18446744073709551616 0",
    "t 0 18446744073725751616",
    "t 340282366920938463463374607431768211456 0",
    "t +450000.00+0900000.00/",
];
