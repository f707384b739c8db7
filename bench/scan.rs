//! A plain array of all retained lifts, scanned from end to end.
use crate::lift::{Contender, Lift, RECORD_BYTES};
use plain::{plate_of, Counts, Window};

#[derive(Default)]
pub struct Scan {
    lifts: Vec<Lift>,
}

impl Scan {
    /// The time of the oldest lift.
    pub fn first_time(&self) -> u64 {
        self.lifts[0].time
    }
}

impl Contender for Scan {
    fn append(&mut self, lift: &Lift) {
        self.lifts.push(*lift);
    }

    fn search(&mut self, w: &Window, rows: &mut [u8]) -> usize {
        let mut found = 0;
        for lift in &self.lifts {
            if w.t1 <= lift.time && lift.time <= w.t2 && w.k1 <= lift.load && lift.load <= w.k2 {
                lift.write(&mut rows[found * RECORD_BYTES..][..RECORD_BYTES]);
                found += 1;
            }
        }
        found
    }

    fn tally(&mut self, t1: u64, t2: u64) -> Counts {
        let mut counts = Counts::default();
        for lift in &self.lifts {
            if t1 <= lift.time && lift.time <= t2 {
                counts[plate_of(lift.load).expect("a plate")] += 1;
            }
        }
        counts
    }

    fn keep_last(&mut self, lifts: usize) {
        self.lifts.drain(..self.lifts.len() - lifts);
    }
}
