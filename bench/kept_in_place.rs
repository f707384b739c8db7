//! W-210 by (a): these calls are built apart from (a)'s others (bench/run), with a state of their own.
use crate::lift::Lift;
use crate::proved::Proved;
use plain_kept::{Ground, Kept, State};

#[derive(Clone)]
pub struct KeptInPlace {
    pub state: State,
    pub nand: Vec<u8>,
    pub nor: Vec<u8>,
    pub slots: u64,
}

impl KeptInPlace {
    /// A copy of the store.
    pub fn of(store: &Proved) -> KeptInPlace {
        let Proved { state, nand, nor, slots } = store;
        KeptInPlace { state: State::from_bytes(state), nand: nand.clone(), nor: nor.clone(), slots: *slots }
    }

    pub fn format_kept(&mut self, counts: &mut Kept) -> Result<(), Ground> {
        let KeptInPlace { state, nand, nor, slots } = self;
        state.format_kept(counts, nand, nor, *slots)
    }

    pub fn put(&mut self, lift: &Lift) -> Result<(), Ground> {
        let KeptInPlace { state, nand, nor, slots } = self;
        state.append(nand, nor, *slots, lift.time, lift.load, &lift.note)
    }

    pub fn put_kept(&mut self, counts: &mut Kept, lift: &Lift) -> Result<(), Ground> {
        let KeptInPlace { state, nand, nor, slots } = self;
        state.append_kept(counts, nand, nor, *slots, lift.time, lift.load, &lift.note)
    }

    pub fn close(&mut self) -> Result<(), Ground> {
        let KeptInPlace { state, nand, nor, slots } = self;
        state.close(nand, nor, *slots)
    }

    pub fn drop_oldest(&mut self) -> Result<(), Ground> {
        let KeptInPlace { state, nand, nor, slots } = self;
        state.drop_oldest(nand, nor, *slots)
    }

    pub fn drop_kept(&mut self, counts: &mut Kept) -> Result<(), Ground> {
        let KeptInPlace { state, nand, nor, slots } = self;
        state.drop_kept(counts, nand, nor, *slots)
    }

    /// State and chips are the store's, byte for byte.
    pub fn is(&self, store: &Proved) -> bool {
        self.state.to_bytes() == store.state && self.nand == store.nand && self.nor == store.nor
    }
}
