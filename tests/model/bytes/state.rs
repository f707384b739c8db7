//! Document 01, "State", and as W-202 amends it: the fields, their bytes and their bounds in both forms.
use super::numbers::{i32_at, u16_at, u32_at, u64_at, Bytes};
use crate::limits::*;
use script::form::Form;

pub const NO_SLOT: u16 = 65_535;

/// "slot (2), start time (8)"; in form 1 "slot 2, serial 4, time 8" (W-202). In form 0 the serial is 0.
#[derive(Clone, Copy, Debug, PartialEq)]
pub struct Pointer {
    pub slot: u16,
    pub serial: u32,
    pub time: u64,
}

impl Pointer {
    pub const NONE: Pointer = Pointer { slot: NO_SLOT, serial: 0, time: 0 };

    pub fn at(bytes: &[u8], offset: usize, form: Form) -> Pointer {
        let serial = match form {
            Form::Old => 0,
            Form::New => u32_at(bytes, offset + 2),
        };
        Pointer { slot: u16_at(bytes, offset), serial, time: u64_at(bytes, offset + 2 + form.serial_bytes()) }
    }

    pub fn put_into(&self, bytes: &mut Bytes, form: Form) {
        bytes.put(&self.slot.to_le_bytes());
        bytes.put(&self.serial.to_le_bytes()[..form.serial_bytes()]).put(&self.time.to_le_bytes());
    }

    pub fn is_none(&self) -> bool {
        self.slot == NO_SLOT
    }

    pub fn slot_is_bad(&self, slots: u64) -> bool {
        !self.is_none() && u64::from(self.slot) >= slots
    }
}

/// How far next time lies past the last accepted one: "last accepted + 1", in form 1 "the last accepted time" (W-202).
pub fn step(form: Form) -> u64 {
    match form {
        Form::Old => 1,
        Form::New => 0,
    }
}

#[derive(Clone)]
pub struct State {
    pub form: Form,
    pub oldest: u32,
    pub open: u32,
    pub count: u16,
    pub buckets: u8,
    pub next: u64,
    /// The oldest live time; 0 in form 1, whose state has none.
    pub oldest_live: u64,
    pub heads: [Pointer; 4],
    pub last_loads: [i32; 13],
    pub page: [u8; 512],
    pub bloom: [u8; 128],
    pub start: u64,
    pub low: i32,
    pub high: i32,
}

impl State {
    pub fn formatted(form: Form) -> State {
        State {
            form,
            oldest: 1,
            open: 1,
            count: 0,
            buckets: 0,
            next: 0,
            oldest_live: 0,
            heads: [Pointer::NONE; 4],
            last_loads: [0; 13],
            page: [255; 512],
            bloom: [0; 128],
            start: 0,
            low: 0,
            high: 0,
        }
    }

    pub fn from_bytes(form: Form, bytes: &[u8]) -> State {
        let oldest_live = match form {
            Form::Old => u64_at(bytes, 19),
            Form::New => 0,
        };
        let start = form.start();
        State {
            form,
            oldest: u32_at(bytes, 0),
            open: u32_at(bytes, 4),
            count: u16_at(bytes, 8),
            buckets: bytes[10],
            next: u64_at(bytes, 11),
            oldest_live,
            heads: std::array::from_fn(|level| Pointer::at(bytes, form.heads() + form.pointer_bytes() * level, form)),
            last_loads: std::array::from_fn(|place| i32_at(bytes, form.last_loads() + 4 * place)),
            page: bytes[form.page_buffer()..form.bloom_buffer()].try_into().unwrap(),
            bloom: bytes[form.bloom_buffer()..start].try_into().unwrap(),
            start: u64_at(bytes, start),
            low: i32_at(bytes, start + 8),
            high: i32_at(bytes, start + 12),
        }
    }

    pub fn to_bytes(&self) -> Vec<u8> {
        let mut bytes = Bytes::default();
        bytes.put(&self.oldest.to_le_bytes()).put(&self.open.to_le_bytes());
        bytes.put(&self.count.to_le_bytes()).put(&[self.buckets]).put(&self.next.to_le_bytes());
        if self.form == Form::Old {
            bytes.put(&self.oldest_live.to_le_bytes());
        }
        self.heads.iter().for_each(|head| head.put_into(&mut bytes, self.form));
        self.last_loads.iter().for_each(|load| {
            bytes.put(&load.to_le_bytes());
        });
        bytes.put(&self.page).put(&self.bloom).put(&self.start.to_le_bytes());
        bytes.put(&self.low.to_le_bytes()).put(&self.high.to_le_bytes());
        bytes.0
    }

    /// "live when it isn't none and its time is at least the oldest live time"; in form 1 "its serial is at least the
    /// oldest retained" (W-202)
    pub fn is_live(&self, pointer: &Pointer) -> bool {
        let is_retained = match self.form {
            Form::Old => pointer.time >= self.oldest_live,
            Form::New => pointer.serial >= self.oldest,
        };
        !pointer.is_none() && is_retained
    }

    /// Ground 3.
    pub fn breaks_a_bound(&self, slots: u64) -> bool {
        self.serials_break_a_bound(slots)
            || self.times_break_a_bound()
            || self.loads_break_a_bound()
            || self.heads.iter().any(|head| head.slot_is_bad(slots))
    }

    fn serials_break_a_bound(&self, slots: u64) -> bool {
        let outside = |serial: u32| serial < 1 || serial > LAST_SERIAL;
        if outside(self.oldest) || outside(self.open) || self.oldest > self.open {
            return true;
        }
        let held = u64::from(self.open - self.oldest);
        held > slots
            || (self.count > 0 && held >= slots)
            || usize::from(self.count) > SEGMENT_LIFTS
            || usize::from(self.buckets) > SEGMENT_BUCKETS
            || (self.buckets == 0) != (self.count == 0)
            || (self.open == LAST_SERIAL && self.count != 0)
    }

    /// In form 1 next time has the limit of a time, is 0 "if open is 1 and count 0", and start may equal it (W-202).
    fn times_break_a_bound(&self) -> bool {
        let past = |time: u64| time > LAST_TIME + 1;
        let fresh = self.open == 1 && self.count == 0;
        let next_is_bad = match self.form {
            Form::Old => past(self.next) || (self.next == 0) != fresh,
            Form::New => time_past_limit(self.next) || (fresh && self.next != 0),
        };
        let start_is_late = match self.form {
            Form::Old => self.start >= self.next,
            Form::New => self.start > self.next,
        };
        next_is_bad || past(self.oldest_live) || past(self.start) || (self.count > 0 && start_is_late)
    }

    fn loads_break_a_bound(&self) -> bool {
        self.last_loads.iter().any(|load| load_past_limit(*load))
            || load_past_limit(self.low)
            || load_past_limit(self.high)
            || (self.count > 0 && self.low > self.high)
    }

    pub fn empty_open_segment(&mut self) {
        self.count = 0;
        self.buckets = 0;
        self.last_loads = [0; 13];
        self.page = [255; 512];
        self.bloom = [0; 128];
        self.start = 0;
        self.low = 0;
        self.high = 0;
    }

    /// The new load joins the last thirteen, the oldest leaving when there are as many.
    pub fn push_last_load(&mut self, load: i32) {
        let count = usize::from(self.count);
        if count < self.last_loads.len() {
            self.last_loads[count] = load;
        } else {
            self.last_loads.rotate_left(1);
            self.last_loads[12] = load;
        }
    }
}

#[cfg(test)]
mod tests {
    use super::*;

    /// Each field is read from where it is written, in areas of W-214's lengths.
    #[test]
    fn a_state_reads_back() {
        for (form, length) in [(Form::Old, 775), (Form::New, 783)] {
            let bytes: Vec<u8> = (0..length).map(|place| (place % 251) as u8).collect();
            assert_eq!(form.state_bytes(), length);
            assert_eq!(State::from_bytes(form, &bytes).to_bytes(), bytes);
        }
    }
}
