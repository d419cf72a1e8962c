//! The second program: document 01's rules and document 02's orders 1, 2, 3 and 5 to 8 once more, with no code of the product.
//! `second requests` writes requests for the program `query`, and `second answers` reads such requests and writes what is to
//! be answered. `second random SEED ROUNDS` writes more requests on floats than the stored ones.
//!
//! `second convert`, `second reproject` and `second salvage` do what the programs of these names do. `second records`, `second
//! old-records` and `second torn-records` write their stored inputs; `second refusals`, `second retired`, `second disguised` and
//! `second stations` those of small runs, the last from lines of text, `second old-stations` the same stations on the old rows, and
//! `second torn-stations` a damaged file of them. `second random-records SEED COUNT` writes more records than the stored ones.
use second::map::Answer;
use second::note_request::NoteRequest;
use second::record_cases::joined;
use second::request::{bits, Request};
use second::requests::texts;
use second::table::{old_row_of, row_of};
use second::text_request::TextRequest;
use second::{float_random, record_cases, record_random, requests, session, stations};
use second::{reproject, reproject_cases, torn, torn_cases};
use std::io::{self, Read, Write};

fn main() -> io::Result<()> {
    second::check();
    let mut out = io::stdout().lock();
    let words: Vec<String> = std::env::args().skip(1).collect();
    match words.iter().map(String::as_str).collect::<Vec<_>>()[..] {
        ["requests"] => out.write_all(&requests::all()),
        ["answers"] => {
            let mut text = Vec::new();
            io::stdin().read_to_end(&mut text)?;
            out.write_all(answers(&text).as_bytes())
        }
        ["random", seed, rounds] => {
            let [seed, rounds] = [seed, rounds].map(|word| word.parse().expect("a number"));
            let lines = texts(float_random::requests(seed, rounds));
            out.write_all((lines.join("\n") + "\n").as_bytes())
        }
        ["convert"] => session::convert(io::stdin().lock(), out),
        ["reproject"] => reproject::reproject(io::stdin().lock(), out),
        ["salvage"] => {
            let mut input = Vec::new();
            io::stdin().read_to_end(&mut input)?;
            let (written, said) = torn::program(&input);
            out.write_all(&written)?;
            io::stderr().write_all(said.as_bytes())
        }
        ["records"] => out.write_all(&record_cases::all()),
        ["old-records"] => out.write_all(&reproject_cases::all()),
        ["torn-records"] => out.write_all(&torn_cases::all()),
        ["refusals"] => out.write_all(&joined(&record_cases::refusals())),
        ["retired"] => out.write_all(&joined(&reproject_cases::retired())),
        ["disguised"] => out.write_all(&torn_cases::all_disguised()),
        ["stations"] => out.write_all(&stations_on(row_of)?),
        ["old-stations"] => out.write_all(&stations_on(old_row_of)?),
        ["torn-stations"] => out.write_all(&torn_cases::torn(stations_on(row_of)?)),
        ["random-records", seed, count] => {
            let [seed, count] = [seed, count].map(|word| word.parse().expect("a number"));
            record_random::write(seed, count, out)
        }
        _ => {
            eprintln!("second requests | answers | random SEED ROUNDS");
            eprintln!("second convert | records | refusals | stations | random-records SEED COUNT");
            eprintln!("second reproject | old-records | retired | old-stations");
            eprintln!("second salvage | torn-records | disguised | torn-stations");
            std::process::exit(2)
        }
    }
}

/// The records of the stations that standard input names, their places on these rows.
fn stations_on(row_of: stations::Rows) -> io::Result<Vec<u8>> {
    let text = io::read_to_string(io::stdin())?;
    Ok(joined(&stations::records(&text, row_of)))
}

/// A line of answer for each line; what follows the last line's end is a line if it has a byte.
fn answers(text: &[u8]) -> String {
    if text.is_empty() {
        return String::new();
    }
    let text = text.strip_suffix(b"\n").unwrap_or(text);
    let lines = text.split(|byte| *byte == b'\n');
    lines.map(|line| answer(line) + "\n").collect()
}

fn answer(line: &[u8]) -> String {
    if let Some(request) = TextRequest::read(line) {
        return request.answer();
    }
    if let Some(request) = NoteRequest::read(line) {
        return request.answer();
    }
    let Some(request) = Request::read(&String::from_utf8_lossy(line)) else {
        return "unreadable".to_string();
    };
    match request.answer() {
        Answer::Width(w) => w.to_string(),
        Answer::Pair(first, second) => format!("{first} {second}"),
        Answer::Floats(first, second) => format!("{} {}", bits(first), bits(second)),
        Answer::Refused(n) => format!("refused {n}"),
    }
}
