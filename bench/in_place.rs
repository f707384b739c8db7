//! The in-place implementation with its own state and chips.
use crate::lift::{Contender, Lift};
use crate::service_page::{lay_out, ServicePage};
use plain::{Counts, Found, Ground, State, Window, NOR_BYTES, SLOT_BYTES};

#[derive(Clone)]
pub struct InPlace {
    pub state: State,
    pub nand: Vec<u8>,
    pub nor: Vec<u8>,
    pub slots: u64,
}

impl InPlace {
    pub fn new(slots: u64) -> InPlace {
        let (nand, nor) = (vec![0; slots as usize * SLOT_BYTES], vec![0; NOR_BYTES]);
        let mut store = InPlace { state: State::NEW, nand, nor, slots };
        store.state.format(&mut store.nand, &mut store.nor, slots).expect("a format");
        store
    }

    pub fn put(&mut self, lift: &Lift) -> Result<(), Ground> {
        let InPlace { state, nand, nor, slots } = self;
        state.append(nand, nor, *slots, lift.time, lift.load, &lift.note)
    }

    pub fn find(&self, window: &Window, rows: &mut [u8]) -> Result<Found, Ground> {
        self.state.search(&self.nand, &self.nor, self.slots, window, rows)
    }

    pub fn page(&self, t1: u64, t2: u64, page: &mut ServicePage) -> Result<(), Ground> {
        let counts = self.state.tally(&self.nand, &self.nor, self.slots, t1, t2)?;
        lay_out(t1, t2, &counts, page);
        Ok(())
    }
}

impl Contender for InPlace {
    fn append(&mut self, lift: &Lift) {
        self.put(lift).expect("an append");
    }

    fn search(&mut self, window: &Window, rows: &mut [u8]) -> usize {
        self.find(window, rows).expect("a search").rows
    }

    fn tally(&mut self, t1: u64, t2: u64) -> Counts {
        self.state.tally(&self.nand, &self.nor, self.slots, t1, t2).expect("a tally")
    }
}
