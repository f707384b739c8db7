//! W-209 by (a), on the store's chips: the call is built apart from (a)'s others (bench/run) and has a state of its own.
use crate::proved::Proved;
use plain::Window;
use plain_tolerant::{State, Tolerated};

pub struct TolerantInPlace<'a> {
    store: &'a Proved,
    state: State,
}

impl<'a> TolerantInPlace<'a> {
    pub fn of(store: &'a Proved) -> Self {
        TolerantInPlace { store, state: State::from_bytes(&store.state) }
    }

    /// Both counts, or the number of the ground.
    pub fn tolerant(
        &self,
        window: &Window,
        tolerance: u64,
        certain: &mut [u8],
        possible: &mut [u8],
    ) -> Result<Tolerated, u8> {
        let Proved { nand, nor, slots, .. } = self.store;
        let Window { t1, t2, k1, k2 } = *window;
        let window = plain_tolerant::Window { t1, t2, k1, k2 };
        let found = self.state.tolerant(nand, nor, *slots, &window, tolerance, certain, possible);
        found.map_err(|ground| ground as u8)
    }
}
