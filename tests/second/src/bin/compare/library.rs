//! The functions of include/uldaseong.h, each made safe to call: a pointer is to borrowed memory, as long as the function may
//! take it to be. What is lent lies inside more memory of the comparison's own, so that a write out of place is seen.
use crate::lent::{Lent, Piece};

extern "C" {
    fn uldaseong_forward(
        kind: u8,
        central: i32,
        longitude: i32,
        latitude: i32,
        place: *mut i32,
    ) -> u8;
    fn uldaseong_inverse(kind: u8, central: i32, x: i32, y: i32, position: *mut i32) -> u8;
    fn uldaseong_forward_degrees(
        kind: u8,
        central: f64,
        longitude: f64,
        latitude: f64,
        place: *mut f64,
    ) -> u8;
    fn uldaseong_inverse_degrees(kind: u8, central: f64, x: f64, y: f64, position: *mut f64) -> u8;
    fn uldaseong_convert_record(
        input: *const u8,
        input_length: usize,
        output: *mut u8,
        output_length: usize,
    ) -> u8;
    fn uldaseong_feed(
        counts: *mut u64,
        input: *const u8,
        input_length: usize,
        output: *mut u8,
        output_length: usize,
    ) -> u8;
    fn uldaseong_save(counts: *const u64, note: *mut u8, note_length: usize) -> u8;
    fn uldaseong_restore(counts: *mut u64, note: *const u8, note_length: usize) -> u8;
    fn uldaseong_read_text(text: *const u8, text_length: usize, position: *mut i32) -> u8;
    fn uldaseong_write_text(longitude: i32, latitude: i32, text: *mut u8, text_length: usize)
        -> u8;
    fn uldaseong_salvage(
        input: *const u8,
        input_length: usize,
        records: *mut u8,
        records_length: usize,
        runs: *mut u8,
        runs_length: usize,
        counts: *mut u64,
    ) -> u8;
}

/// The two words between the first and the last of four.
fn middle<T>(four: &mut [T; 4]) -> *mut T {
    four.as_mut_ptr().wrapping_add(1)
}

pub fn forward(kind: u8, numbers: [i32; 3], lent: &mut [i32; 4]) -> u8 {
    let [central, longitude, latitude] = numbers;
    unsafe { uldaseong_forward(kind, central, longitude, latitude, middle(lent)) }
}

pub fn inverse(kind: u8, numbers: [i32; 3], lent: &mut [i32; 4]) -> u8 {
    let [central, x, y] = numbers;
    unsafe { uldaseong_inverse(kind, central, x, y, middle(lent)) }
}

pub fn forward_degrees(kind: u8, floats: [f64; 3], lent: &mut [f64; 4]) -> u8 {
    let [central, longitude, latitude] = floats;
    unsafe { uldaseong_forward_degrees(kind, central, longitude, latitude, middle(lent)) }
}

pub fn inverse_degrees(kind: u8, floats: [f64; 3], lent: &mut [f64; 4]) -> u8 {
    let [central, x, y] = floats;
    unsafe { uldaseong_inverse_degrees(kind, central, x, y, middle(lent)) }
}

pub fn convert_record(lent: &mut Lent) -> u8 {
    let [(input, input_length), (output, output_length)] = lent.pieces();
    unsafe { uldaseong_convert_record(input, input_length, output, output_length) }
}

pub fn feed(lent: &mut Lent) -> u8 {
    let counts = middle(&mut lent.counts);
    let [(input, input_length), (output, output_length)] = lent.pieces();
    unsafe { uldaseong_feed(counts, input, input_length, output, output_length) }
}

pub fn save(counts: &mut [u64; 4], note: &mut Piece) -> u8 {
    let (note, note_length) = note.lend();
    unsafe { uldaseong_save(middle(counts), note, note_length) }
}

pub fn restore(counts: &mut [u64; 4], note: &mut Piece) -> u8 {
    let (note, note_length) = note.lend();
    unsafe { uldaseong_restore(middle(counts), note, note_length) }
}

pub fn read_text(text: &mut Piece, lent: &mut [i32; 4]) -> u8 {
    let (text, text_length) = text.lend();
    unsafe { uldaseong_read_text(text, text_length, middle(lent)) }
}

pub fn write_text([longitude, latitude]: [i32; 2], text: &mut Piece) -> u8 {
    let (text, text_length) = text.lend();
    unsafe { uldaseong_write_text(longitude, latitude, text, text_length) }
}

/// The pieces are the input, the records and the list of runs.
pub fn salvage(pieces: &mut [Piece; 3], counts: &mut [u64; 4]) -> u8 {
    let [(input, input_length), (records, records_length), (runs, runs_length)] =
        pieces.each_mut().map(Piece::lend);
    let counts = middle(counts);
    unsafe {
        uldaseong_salvage(
            input,
            input_length,
            records,
            records_length,
            runs,
            runs_length,
            counts,
        )
    }
}
