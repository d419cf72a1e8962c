//! Runs a program that was built. Its name is from the repository's root.
use std::fs::{self, File, OpenOptions};
use std::io::{self, Seek, Write};
use std::process::{Child, Command, Output, Stdio};
use std::thread;

/// Pieces of an input end inside a record, nearly all of them.
const PIECE: usize = 4_099;

/// What a program writes for an input, which comes through a pipe, piece by piece.
pub fn output(name: &str, input: &[u8]) -> Vec<u8> {
    written(name, run_on_pieces(name, input.chunks(PIECE)))
}

/// What it writes for an input that comes from a file, so that each read is as long as it may be.
pub fn output_from_file(name: &str, input: &[u8]) -> Vec<u8> {
    written(name, run_on_file(name, input))
}

/// All that it writes and says for an input that comes through a pipe in these pieces.
pub fn run_on_pieces<'a>(name: &str, pieces: impl Iterator<Item = &'a [u8]> + Send) -> Output {
    let mut program = started(name, Stdio::piped());
    let mut pipe = program.stdin.take().expect("a pipe");
    thread::scope(|scope| {
        // a program that stops reading writes too little, and that is seen
        let mut pieces = pieces;
        scope.spawn(move || pieces.try_for_each(|bytes| pipe.write_all(bytes)));
        ended(program)
    })
}

/// The same for one that comes from a file.
pub fn run_on_file(name: &str, input: &[u8]) -> Output {
    let file = file(input).unwrap_or_else(|error| panic!("a file for an input: {error}"));
    ended(started(name, file.into()))
}

/// A file of these bytes, to be read from its beginning. It has no name any more, so that none is left behind.
fn file(bytes: &[u8]) -> io::Result<File> {
    let path = std::env::temp_dir().join(format!("uldaseong-{}", std::process::id()));
    let mut options = OpenOptions::new();
    let mut file = options
        .read(true)
        .write(true)
        .create_new(true)
        .open(&path)?;
    fs::remove_file(&path)?;
    file.write_all(bytes)?;
    file.rewind()?;
    Ok(file)
}

fn started(name: &str, input: Stdio) -> Child {
    let mut command = Command::new(name);
    command.stdin(input).stdout(Stdio::piped());
    let program = command.stderr(Stdio::piped()).spawn();
    program.unwrap_or_else(|error| panic!("{name}: {error}"))
}

fn ended(program: Child) -> Output {
    program.wait_with_output().expect("a program that ends")
}

/// What a program wrote that is to have ended well, with nothing said.
fn written(name: &str, output: Output) -> Vec<u8> {
    let said = String::from_utf8_lossy(&output.stderr);
    let well = output.status.success() && said.is_empty();
    assert!(well, "{name}: {}, it said {said:?}", output.status);
    output.stdout
}
