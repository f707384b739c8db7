//! W-203: a filled store and its copy in form 0, carried over by the store's calls and by (a).
use crate::gym::Gym;
use crate::lift::{Contender, Lift};
use crate::proved::Proved;
use plain::{Ground, OldState, State, OLD_STATE_BYTES, STATE_BYTES};

extern "C" {
    fn store_forward(
        old: *const u8,
        old_len: usize,
        nand: *const u8,
        nand_len: usize,
        nor: *const u8,
        nor_len: usize,
        slots: u64,
        state: *mut u8,
        state_len: usize,
        to_nand: *mut u8,
        to_nand_len: usize,
        to_nor: *mut u8,
        to_nor_len: usize,
    ) -> u8;
    fn store_backward(
        state: *const u8,
        state_len: usize,
        nand: *const u8,
        nand_len: usize,
        nor: *const u8,
        nor_len: usize,
        slots: u64,
        old: *mut u8,
        old_len: usize,
        to_nand: *mut u8,
        to_nand_len: usize,
        to_nor: *mut u8,
        to_nor_len: usize,
    ) -> u8;
}

/// A store of form 0, as the first machines hold it.
#[derive(Clone)]
pub struct OldStore {
    pub state: [u8; OLD_STATE_BYTES],
    pub nand: Vec<u8>,
    pub nor: Vec<u8>,
    pub slots: u64,
}

impl OldStore {
    /// Room for a copy of this store; no byte is right.
    pub fn room_for(store: &Proved) -> OldStore {
        let (nand, nor) = (vec![0; store.nand.len()], vec![0; store.nor.len()]);
        OldStore { state: [0; OLD_STATE_BYTES], nand, nor, slots: store.slots }
    }

    /// Into form 1, by the store.
    pub fn forward(&self, to: &mut Proved) -> u8 {
        let (from, slots) = (self, self.slots);
        // Every pointer comes with the length of its area, and no two areas overlap.
        unsafe {
            store_forward(
                from.state.as_ptr(),
                OLD_STATE_BYTES,
                from.nand.as_ptr(),
                from.nand.len(),
                from.nor.as_ptr(),
                from.nor.len(),
                slots,
                to.state.as_mut_ptr(),
                STATE_BYTES,
                to.nand.as_mut_ptr(),
                to.nand.len(),
                to.nor.as_mut_ptr(),
                to.nor.len(),
            )
        }
    }

    /// Into form 1, by (a); the state it hands back stays a struct.
    pub fn forward_in_place(&self, state: &OldState, to: &mut Proved) -> Result<State, Ground> {
        state.forward(&self.nand, &self.nor, self.slots, &mut to.nand, &mut to.nor)
    }
}

/// Into form 0, by the store.
pub fn backward(from: &Proved, to: &mut OldStore) -> u8 {
    unsafe {
        store_backward(
            from.state.as_ptr(),
            STATE_BYTES,
            from.nand.as_ptr(),
            from.nand.len(),
            from.nor.as_ptr(),
            from.nor.len(),
            from.slots,
            to.state.as_mut_ptr(),
            OLD_STATE_BYTES,
            to.nand.as_mut_ptr(),
            to.nand.len(),
            to.nor.as_mut_ptr(),
            to.nor.len(),
        )
    }
}

/// Into form 0, by (a).
pub fn backward_in_place(from: &Proved, state: &State, to: &mut OldStore) -> Result<OldState, Ground> {
    state.backward(&from.nand, &from.nor, from.slots, &mut to.nand, &mut to.nor)
}

/// A filled store and its copy in form 0.
pub struct Carried {
    pub new: Proved,
    pub old: OldStore,
}

impl Carried {
    /// Form 0 holds no two lifts at one time, so the second arm's lift is logged a millisecond later.
    pub fn filled(slots: u64) -> Carried {
        let mut lifts = Gym::new(20_260_703).lifts(slots as usize * 330 + 2_000);
        (1..lifts.len()).for_each(|i| lifts[i].time = lifts[i].time.max(lifts[i - 1].time + 1));
        Carried::holding(slots, &lifts)
    }

    pub fn holding(slots: u64, lifts: &[Lift]) -> Carried {
        let mut new = Proved::new(slots);
        new.append_all(lifts);
        let mut old = OldStore::room_for(&new);
        assert_eq!(backward(&new, &mut old), 0, "the store refuses to go back");
        Carried { new, old }
    }

    /// Both directions give the same bytes by the store and by (a), and going there and back the store's own.
    pub fn check(&self) {
        let state = State::from_bytes(&self.new.state);
        let mut old = OldStore::room_for(&self.new);
        let old_state = backward_in_place(&self.new, &state, &mut old).expect("a way back");
        assert!(old_state.to_bytes() == self.old.state && old.nand == self.old.nand && old.nor == self.old.nor);
        let mut new = Proved::new(self.new.slots);
        assert_eq!(self.old.forward(&mut new), 0, "the store refuses to go forward");
        self.check_new(&new);
        let state = self.old.forward_in_place(&old_state, &mut new).expect("a way forward");
        new.state = state.to_bytes();
        self.check_new(&new);
    }

    fn check_new(&self, new: &Proved) {
        assert!(new.state == self.new.state && new.nand == self.new.nand && new.nor == self.new.nor, "another store");
    }
}
