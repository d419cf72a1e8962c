//! A request of the program `query` on text: its line, and what is to be answered.
use crate::request::{all, whole};
use crate::text;

/// A text to read, of any bytes, or a longitude and a latitude to write.
pub enum TextRequest {
    Read(Vec<u8>),
    Write([i128; 2]),
}

impl TextRequest {
    /// The request that a line is, if it is one. All that follows `p` and one space is the text.
    pub fn read(line: &[u8]) -> Option<TextRequest> {
        if let Some(text) = line.strip_prefix(b"p ") {
            return Some(TextRequest::Read(text.to_vec()));
        }
        let numbers = std::str::from_utf8(line).ok()?.strip_prefix('t')?;
        let words = numbers.split(' ').filter(|word| !word.is_empty());
        let words: Vec<&str> = words.collect();
        all(&words, whole).map(TextRequest::Write)
    }

    pub fn answer(&self) -> String {
        let answer = match self {
            TextRequest::Read(bytes) => {
                text::read(bytes).map(|[first, second]| format!("{first} {second}"))
            }
            TextRequest::Write(position) => text::write(*position, text::LENGTH),
        };
        answer.unwrap_or_else(|number| format!("refused {number}"))
    }

    /// The line that reads back as the same request, unless a text has a line feed.
    pub fn line(&self) -> Vec<u8> {
        match self {
            TextRequest::Read(text) => [b"p ", &text[..]].concat(),
            TextRequest::Write([longitude, latitude]) => {
                format!("t {longitude} {latitude}").into_bytes()
            }
        }
    }
}
