//! What the two forms of a store differ in, where W-203 reads the one and writes the other.
use crate::bytes::{put, u16_at, u32_at, u64_at};
use crate::state::{Pointer, State};

#[derive(Clone, Copy, PartialEq, Eq)]
pub enum Form {
    Old,
    New,
}

impl Form {
    pub const fn byte_ten(self) -> u8 {
        match self {
            Form::Old => 0,
            Form::New => 1,
        }
    }

    pub const fn pointer_bytes(self) -> usize {
        match self {
            Form::Old => 10,
            Form::New => 14,
        }
    }
}

impl Pointer {
    #[inline(always)]
    pub fn read(area: &[u8], at: usize, form: Form) -> Pointer {
        let slot = u16_at(area, at);
        match form {
            Form::Old => Pointer { slot, serial: 0, time: u64_at(area, at + 2) },
            Form::New => Pointer { slot, serial: u32_at(area, at + 2), time: u64_at(area, at + 6) },
        }
    }

    #[inline(always)]
    pub fn write(self, area: &mut [u8], at: usize, form: Form) {
        put(area, at, self.slot.to_le_bytes());
        if let Form::New = form {
            put(area, at + 2, self.serial.to_le_bytes());
        }
        put(area, at + form.pointer_bytes() - 8, self.time.to_le_bytes());
    }
}

/// A state of form 0: that of form 1, the serials of its heads 0, and the oldest live time.
#[derive(Clone)]
pub struct OldState {
    pub state: State,
    pub live: u64,
}

pub const OLD_STATE_BYTES: usize = 775;
const LIVE_AT: usize = 19;
const HEADS_AT: usize = 27;
const REST_AT: usize = 67;
/// Where what follows the heads stands in form 1, to the end.
const NEW_REST_AT: usize = 75;

impl OldState {
    pub fn from_bytes(area: &[u8; OLD_STATE_BYTES]) -> OldState {
        let mut new = [0; crate::STATE_BYTES];
        new[..LIVE_AT].copy_from_slice(&area[..LIVE_AT]);
        new[NEW_REST_AT..].copy_from_slice(&area[REST_AT..]);
        let mut state = State::from_bytes(&new);
        state.heads = core::array::from_fn(|i| Pointer::read(area, HEADS_AT + 10 * i, Form::Old));
        OldState { state, live: u64_at(area, LIVE_AT) }
    }

    pub fn to_bytes(&self) -> [u8; OLD_STATE_BYTES] {
        let new = self.state.to_bytes();
        let mut area = [0; OLD_STATE_BYTES];
        area[..LIVE_AT].copy_from_slice(&new[..LIVE_AT]);
        put(&mut area, LIVE_AT, self.live.to_le_bytes());
        for (i, head) in self.state.heads.iter().enumerate() {
            head.write(&mut area, HEADS_AT + 10 * i, Form::Old);
        }
        area[REST_AT..].copy_from_slice(&new[NEW_REST_AT..]);
        area
    }
}
