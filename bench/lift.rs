//! What all contenders share: a lift, a record of 32 bytes, and the calls that are timed.
use plain::{Counts, Window};

pub const RECORD_BYTES: usize = plain::RECORD_BYTES;

#[derive(Clone, Copy)]
pub struct Lift {
    pub time: u64,
    pub load: i32,
    pub note: [u8; 20],
}

impl Lift {
    pub fn write(&self, row: &mut [u8]) {
        row[..8].copy_from_slice(&self.time.to_le_bytes());
        row[8..12].copy_from_slice(&((self.load + 50_001) as u32).to_le_bytes());
        row[12..RECORD_BYTES].copy_from_slice(&self.note);
    }
}

/// A keeper of lifts. A call that should be accepted and is not ends the run.
pub trait Contender {
    fn append(&mut self, lift: &Lift);
    /// The rows found go to the start of the area, oldest first; their number is handed back.
    fn search(&mut self, window: &Window, rows: &mut [u8]) -> usize;
    fn tally(&mut self, t1: u64, t2: u64) -> Counts;
    /// Only the last so many lifts are still retained.
    fn keep_last(&mut self, _lifts: usize) {}
    /// How questions are gone about, by a contender that has a planner.
    fn plans(&self) -> Vec<(&'static str, String)> {
        Vec::new()
    }

    fn append_all(&mut self, lifts: &[Lift]) {
        for lift in lifts {
            self.append(lift);
        }
    }

    fn search_all(&mut self, windows: &[Window], rows: &mut [u8]) {
        for window in windows {
            std::hint::black_box(self.search(window, rows));
        }
    }

    fn tally_all(&mut self, windows: &[Window]) {
        for window in windows {
            std::hint::black_box(self.tally(window.t1, window.t2));
        }
    }
}
