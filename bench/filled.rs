//! The store and (a), filled with the same lifts.
use crate::gym::Gym;
use crate::in_place::InPlace;
use crate::lift::{Contender, Lift, RECORD_BYTES};
use crate::proved::{found_in, FoundArea, Proved};
use plain::{Found, Window};

pub struct Filled {
    pub proved: Proved,
    pub in_place: InPlace,
    pub gym: Gym,
    /// The lifts that are retained, oldest first.
    pub retained: Vec<Lift>,
}

impl Filled {
    /// Enough lifts to fill the store and to force drops.
    pub fn new(slots: u64) -> Filled {
        let (mut proved, mut in_place, mut gym) = (Proved::new(slots), InPlace::new(slots), Gym::new(20_260_701));
        let mut retained = gym.lifts(slots as usize * 330 + 2_000);
        proved.append_all(&retained);
        in_place.append_all(&retained);
        retained.drain(..retained.len() - proved.retained());
        Filled { proved, in_place, gym, retained }
    }

    /// First and last time retained.
    pub fn span(&self) -> (u64, u64) {
        (self.retained[0].time, self.retained[self.retained.len() - 1].time)
    }

    /// A row for each retained lift.
    pub fn result_area(&self) -> Vec<u8> {
        vec![0; self.retained.len() * RECORD_BYTES]
    }

    /// What both find: the same rows and counts.
    pub fn find(&self, window: &Window) -> Found {
        let [mut rows, mut plain_rows] = [self.result_area(), self.result_area()];
        let mut answer = [0; size_of::<FoundArea>()];
        assert_eq!(self.proved.find(window, &mut rows, &mut answer), 0, "the store refuses a search");
        let found = self.in_place.find(window, &mut plain_rows).expect("a search");
        assert_eq!(found_in(&answer), found, "counts differ at {window:?}");
        assert!(rows == plain_rows, "rows differ at {window:?}");
        found
    }
}
