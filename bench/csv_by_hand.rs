//! W-211 by hand: the rows of a search written as text, digit by digit into the area, as a console would without an export.
use crate::lift::{Lift, RECORD_BYTES};

const HEADER: &[u8] = b"time,load,member\r\n";
/// A time of 15 digits, a load of 6, a member of 10, two commas and CRLF.
pub const LINE_MOST: usize = 15 + 6 + 10 + 4;

/// So much room is enough for the text of so many lifts.
pub fn room_for(lifts: usize) -> usize {
    HEADER.len() + lifts * LINE_MOST
}

/// Where the next byte of the text goes.
struct Pen<'a> {
    text: &'a mut [u8],
    at: usize,
}

impl Pen<'_> {
    fn put(&mut self, byte: u8) {
        self.text[self.at] = byte;
        self.at += 1;
    }

    /// The digits come last first, each straight to its place.
    fn number(&mut self, mut number: u64) {
        let digits = digits_of(number);
        for place in self.text[self.at..self.at + digits].iter_mut().rev() {
            *place = b'0' + (number % 10) as u8;
            number /= 10;
        }
        self.at += digits;
    }

    fn row(&mut self, row: &[u8]) {
        let time = u64::from_le_bytes(row[..8].try_into().unwrap());
        let load = u32::from_le_bytes(row[8..12].try_into().unwrap()) as i64 - 50_001;
        let member = u32::from_le_bytes(row[12..16].try_into().unwrap());
        self.number(time);
        self.put(b',');
        if load < 0 {
            self.put(b'-');
        }
        self.number(load.unsigned_abs());
        self.put(b',');
        self.number(member.into());
        self.put(b'\r');
        self.put(b'\n');
    }
}

fn digits_of(number: u64) -> usize {
    number.checked_ilog10().unwrap_or(0) as usize + 1
}

/// Writes the text of these rows and hands back its length.
pub fn write_text(rows: &[u8], text: &mut [u8]) -> usize {
    text[..HEADER.len()].copy_from_slice(HEADER);
    let mut pen = Pen { text, at: HEADER.len() };
    for row in rows.chunks_exact(RECORD_BYTES) {
        pen.row(row);
    }
    pen.at
}

/// The text of these lifts.
pub fn text_of(lifts: &[Lift]) -> Vec<u8> {
    let mut rows = vec![0; lifts.len() * RECORD_BYTES];
    for (row, lift) in rows.chunks_exact_mut(RECORD_BYTES).zip(lifts) {
        lift.write(row);
    }
    let mut text = vec![0; room_for(lifts.len())];
    let length = write_text(&rows, &mut text);
    text.truncate(length);
    text
}
