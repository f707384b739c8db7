//! The state: its fields, its 783 bytes, its bounds (ground 3), format and drop.
use crate::bytes::{i32_at, put, slot_mut, slot_of, u16_at, u32_at, u64_at};
use crate::form::{Form, OldState};
use crate::{load_ok, Ground, BUCKETS_MAX, LIFTS_MAX, NOR_BYTES, PAGE_BYTES, SLOT_BYTES, TIME_MAX};

pub const STATE_BYTES: usize = 783;
pub const POINTER_BYTES: usize = Form::New.pointer_bytes();
const HEADS_AT: usize = 19;
const LOADS_AT: usize = 75;
const PAGE_AT: usize = 127;
const BLOOM_AT: usize = 639;
const START_AT: usize = 767;
const LOW_AT: usize = 775;
const HIGH_AT: usize = 779;
const SERIAL_MAX: u32 = 999_999_999;

/// A skip pointer.
#[derive(Clone, Copy)]
pub struct Pointer {
    pub slot: u16,
    pub serial: u32,
    pub time: u64,
}

impl Pointer {
    pub const NONE: Pointer = Pointer { slot: 65_535, serial: 0, time: 0 };

    pub fn is_none(self) -> bool {
        self.slot == Self::NONE.slot
    }

    pub fn is_live(self, oldest: u32) -> bool {
        !self.is_none() && self.serial >= oldest
    }

    pub fn fits(self, slots: u64) -> bool {
        self.is_none() || u64::from(self.slot) < slots
    }
}

#[derive(Clone)]
pub struct State {
    pub oldest: u32,
    pub open: u32,
    pub count: u16,
    pub buckets: u8,
    pub next: u64,
    pub heads: [Pointer; 4],
    pub loads: [i32; 13],
    pub page: [u8; PAGE_BYTES],
    pub bloom: [u8; 128],
    pub start: u64,
    pub low: i32,
    pub high: i32,
}

impl State {
    pub const NEW: State = State {
        oldest: 1,
        open: 1,
        count: 0,
        buckets: 0,
        next: 0,
        heads: [Pointer::NONE; 4],
        loads: [0; 13],
        page: [255; PAGE_BYTES],
        bloom: [0; 128],
        start: 0,
        low: 0,
        high: 0,
    };

    pub fn from_bytes(area: &[u8; STATE_BYTES]) -> State {
        State {
            oldest: u32_at(area, 0),
            open: u32_at(area, 4),
            count: u16_at(area, 8),
            buckets: area[10],
            next: u64_at(area, 11),
            heads: core::array::from_fn(|i| Pointer::read(area, HEADS_AT + POINTER_BYTES * i, Form::New)),
            loads: core::array::from_fn(|i| i32_at(area, LOADS_AT + 4 * i)),
            page: area[PAGE_AT..BLOOM_AT].try_into().unwrap(),
            bloom: area[BLOOM_AT..START_AT].try_into().unwrap(),
            start: u64_at(area, START_AT),
            low: i32_at(area, LOW_AT),
            high: i32_at(area, HIGH_AT),
        }
    }

    pub fn to_bytes(&self) -> [u8; STATE_BYTES] {
        let mut area = [0; STATE_BYTES];
        put(&mut area, 0, self.oldest.to_le_bytes());
        put(&mut area, 4, self.open.to_le_bytes());
        put(&mut area, 8, self.count.to_le_bytes());
        area[10] = self.buckets;
        put(&mut area, 11, self.next.to_le_bytes());
        for (i, head) in self.heads.iter().enumerate() {
            head.write(&mut area, HEADS_AT + POINTER_BYTES * i, Form::New);
        }
        for (i, load) in self.loads.iter().enumerate() {
            put(&mut area, LOADS_AT + 4 * i, load.to_le_bytes());
        }
        put(&mut area, PAGE_AT, self.page);
        put(&mut area, BLOOM_AT, self.bloom);
        put(&mut area, START_AT, self.start.to_le_bytes());
        put(&mut area, LOW_AT, self.low.to_le_bytes());
        put(&mut area, HIGH_AT, self.high.to_le_bytes());
        area
    }

    pub(crate) fn within_bounds(&self, slots: u64) -> bool {
        let empty = self.count == 0;
        self.others_within_bounds(slots)
            && self.next <= TIME_MAX
            && (self.next == 0 || self.open != 1 || !empty)
            && (empty || self.start <= self.next)
    }

    /// All bounds but those of next time.
    fn others_within_bounds(&self, slots: u64) -> bool {
        let empty = self.count == 0;
        let serials = 1 <= self.oldest && self.oldest <= self.open && self.open <= SERIAL_MAX;
        if !serials {
            return false;
        }
        let closed = u64::from(self.open - self.oldest);
        (closed < slots || (empty && closed == slots))
            && self.count <= LIFTS_MAX
            && self.buckets <= BUCKETS_MAX
            && (self.buckets == 0) == empty
            && (empty || self.open != SERIAL_MAX)
            && self.start <= TIME_MAX + 1
            && (empty || self.low <= self.high)
            && self.loads.iter().all(|&load| load_ok(load))
            && load_ok(self.low)
            && load_ok(self.high)
            && self.heads.iter().all(|head| head.fits(slots))
    }

    /// Grounds 1 to 3.
    pub(crate) fn check(&self, nand: &[u8], nor: &[u8], slots: u64) -> Result<(), Ground> {
        check_chips(nand, nor, slots)?;
        if self.within_bounds(slots) {
            Ok(())
        } else {
            Err(Ground::StateBound)
        }
    }

    pub fn format(&mut self, nand: &mut [u8], nor: &mut [u8], slots: u64) -> Result<(), Ground> {
        check_chips(nand, nor, slots)?;
        nand.fill(255);
        nor.fill(255);
        *self = State::NEW;
        Ok(())
    }

    pub fn drop_oldest(&mut self, nand: &mut [u8], nor: &[u8], slots: u64) -> Result<(), Ground> {
        self.check(nand, nor, slots)?;
        if self.oldest == self.open {
            return Err(Ground::NothingThere);
        }
        self.forget_oldest(nand, slots);
        Ok(())
    }

    /// Reads no header.
    pub(crate) fn forget_oldest(&mut self, nand: &mut [u8], slots: u64) {
        slot_mut(nand, slot_of(self.oldest, slots)).fill(255);
        self.oldest += 1;
    }
}

impl OldState {
    pub(crate) fn within_bounds(&self, slots: u64) -> bool {
        let s = &self.state;
        let empty = s.count == 0;
        s.others_within_bounds(slots)
            && s.next <= TIME_MAX + 1
            && self.live <= TIME_MAX + 1
            && (s.next == 0) == (s.open == 1 && empty)
            && (empty || s.start < s.next)
    }
}

/// Ground 1.
pub(crate) fn check_nand(nand: &[u8], slots: u64) -> Result<(), Ground> {
    if !(2..=4096).contains(&slots) || nand.len() != slots as usize * SLOT_BYTES {
        Err(Ground::NandSize)
    } else {
        Ok(())
    }
}

/// Ground 2.
pub(crate) fn check_nor(nor: &[u8]) -> Result<(), Ground> {
    if nor.len() != NOR_BYTES {
        Err(Ground::NorSize)
    } else {
        Ok(())
    }
}

/// Grounds 1 and 2.
fn check_chips(nand: &[u8], nor: &[u8], slots: u64) -> Result<(), Ground> {
    check_nand(nand, slots)?;
    check_nor(nor)
}
