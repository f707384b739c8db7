//! W-209: a search of loads that are known within a tolerance.
use crate::bytes::u32_at;
use crate::query::{Asked, Log, Window};
use crate::state::State;
use crate::{Ground, LOAD_MAX, LOAD_MIN, LOAD_OFFSET, RECORD_BYTES};

const TOLERANCE_MAX: u64 = 1_000;

/// How many lifts are certain and how many possible.
#[derive(Clone, Copy, Debug, Default, PartialEq, Eq)]
pub struct Tolerated {
    pub certain: usize,
    pub possible: usize,
}

impl State {
    /// Counts both lists in one walk and writes the possible rows in a second, as a search does; the certain ones are picked
    /// from among them.
    pub fn tolerant(
        &self,
        nand: &[u8],
        nor: &[u8],
        slots: u64,
        window: &Window,
        tolerance: u64,
        certain: &mut [u8],
        possible: &mut [u8],
    ) -> Result<Tolerated, Ground> {
        self.check(nand, nor, slots)?;
        let asked = window.widened(tolerance)?;
        let (low, high) = (window.k1 + tolerance as i32, window.k2 - tolerance as i32);
        let is_certain = |record: &[u8]| (low..=high).contains(&load_of(record));
        let log = Log { state: self, nand, nor, slots };
        let mut found = Tolerated::default();
        log.visit(&asked, |segment, matches| {
            found.possible += matches.len();
            found.certain += matches.filter(|place| is_certain(segment.record(*place))).count();
        })?;
        if certain.len() / RECORD_BYTES < found.certain || possible.len() / RECORD_BYTES < found.possible {
            return Err(Ground::AreaTooSmall);
        }
        let mut end = found.possible * RECORD_BYTES;
        log.visit(&asked, |segment, matches| {
            let start = end - matches.len() * RECORD_BYTES;
            let rows = possible[start..end].chunks_exact_mut(RECORD_BYTES);
            for (row, place) in rows.zip(matches) {
                row.copy_from_slice(segment.record(place));
            }
            end = start;
        })?;
        let records = possible.chunks_exact(RECORD_BYTES).take(found.possible);
        for (row, record) in certain.chunks_exact_mut(RECORD_BYTES).zip(records.filter(|record| is_certain(record))) {
            row.copy_from_slice(record);
        }
        Ok(found)
    }
}

impl Window {
    /// Grounds 4, 5, 17 and 6, in this order; the range widened, up to the load limits.
    fn widened(&self, tolerance: u64) -> Result<Asked, Ground> {
        let checked = self.check();
        let past_limits = matches!(checked, Err(Ground::TimeLimit | Ground::LoadLimit));
        if !past_limits && tolerance > TOLERANCE_MAX {
            return Err(Ground::TooTolerant);
        }
        checked?;
        let (k1, k2) = (self.k1 - tolerance as i32, self.k2 + tolerance as i32);
        Window { k1: k1.max(LOAD_MIN), k2: k2.min(LOAD_MAX), ..*self }.check()
    }
}

fn load_of(record: &[u8]) -> i32 {
    u32_at(record, 8) as i32 - LOAD_OFFSET
}
