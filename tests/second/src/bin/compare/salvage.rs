//! The program `salvage`, what it writes and says of each file beside the second program's.
use crate::lent::hex;
use crate::part::Part;
use crate::program::{run_on_file, run_on_pieces};
use second::record::DOCUMENT;
use second::torn::{program, MOST};
use second::torn_cases::{self, File};
use second::torn_random::Chance;
use std::process::Output;

const PROGRAM: &str = "target/bin/salvage";

/// How many files are drawn, with how many records each, about.
const DRAWN: [(u64, u64); 3] = [(300, 12), (60, 300), (30, 4_100)];

/// Inputs about the greatest length, and longer ones.
const LENGTHS: [usize; 12] = [
    0, 1, 15, 16, 17, 33, 65_520, 65_535, MOST, 65_537, 65_552, 200_000,
];

pub fn compare(part: &mut Part, seed: u64) {
    let mut chance = Chance::new(!seed, 1);
    for file in files(seed) {
        let output = run_on_file(PROGRAM, &file);
        judge(part, &file, output);
        let lengths = pieces(&mut chance, file.len());
        let output = run_on_pieces(PROGRAM, cut(&file, &lengths));
        judge(part, &file, output);
    }
}

fn files(seed: u64) -> impl Iterator<Item = File> {
    let records = DOCUMENT.repeat(200_000 / DOCUMENT.len());
    let lengths = LENGTHS.map(|length| records[..length].to_vec());
    let whole = torn_cases::whole_files().into_iter();
    // some, and the last, which is the longest list that a file has
    let full = torn_cases::full_lists().step_by(20).chain(torn_cases::full_lists().last());
    let drawn = (0..).zip(DRAWN).flat_map(move |(at, (files, most))| {
        let mut chance = Chance::new(seed.wrapping_add(at), most);
        (0..files).map(move |_| chance.file())
    });
    let fixed = lengths.into_iter().chain(whole).chain(full);
    fixed.chain([torn_cases::all()]).chain(drawn)
}

/// Lengths that add up to so many bytes: small ones for one file, larger ones for the next.
fn pieces(chance: &mut Chance, length: usize) -> Vec<usize> {
    let most = [3, 40, 1_000, 70_000][chance.below(4) as usize];
    let mut lengths = Vec::new();
    let mut rest = length;
    while rest > 0 {
        let piece = (1 + chance.below(most) as usize).min(rest);
        lengths.push(piece);
        rest -= piece;
    }
    lengths
}

fn cut<'a>(file: &'a [u8], lengths: &'a [usize]) -> impl Iterator<Item = &'a [u8]> {
    lengths.iter().scan(file, |rest, length| {
        let (piece, behind) = rest.split_at(*length);
        *rest = behind;
        Some(piece)
    })
}

/// Compares both streams byte for byte. The number is 23 where the file is refused.
fn judge(part: &mut Part, file: &[u8], output: Output) {
    let (written, said) = program(file);
    let unlike = [
        unlike("wrote", &output.stdout, &written),
        unlike("said", &output.stderr, said.as_bytes()),
    ];
    let well = unlike.concat().is_empty() && output.status.success();
    let difference = || {
        let front = hex(&file[..file.len().min(100)]);
        let (length, status, unlike) = (file.len(), output.status, unlike.concat());
        format!("{front} of {length} bytes: {status}{unlike}")
    };
    let number = if file.len() > MOST { 23 } else { 0 };
    part.count(number, (!well).then(difference));
}

/// What stands behind the bytes that two texts have in common, if anything does.
fn unlike(what: &str, is: &[u8], should: &[u8]) -> String {
    if is == should {
        return String::new();
    }
    let same = is.iter().zip(should).take_while(|(a, b)| a == b).count();
    let [here, there] = [is, should].map(|text| {
        let rest = &text[same..];
        rest[..rest.len().min(60)].escape_ascii().to_string()
    });
    format!(", {what} at {same} '{here}', should be '{there}'")
}
