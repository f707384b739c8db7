//! W-203: a store carried into the other form, in a second store. Every ground is looked for before anything is written.
use crate::bytes::{page, put, slot, slot_mut, slot_of, u64_at};
use crate::form::{Form, OldState};
use crate::header::{Header, FORM_AT, POINTERS_AT};
use crate::state::{check_nand, check_nor, Pointer, State};
use crate::{Ground, HEADER_PAGE, LIFTS_PER_PAGE, PAGE_BYTES, RECORD_BYTES, SLOT_BYTES};

const HEADER_AT: usize = HEADER_PAGE * PAGE_BYTES;

impl OldState {
    /// Form 0 into form 1.
    pub fn forward(
        &self,
        nand: &[u8],
        nor: &[u8],
        slots: u64,
        to_nand: &mut [u8],
        to_nor: &mut [u8],
    ) -> Result<State, Ground> {
        let s = &self.state;
        check_all([nand, to_nand], [nor, to_nor], slots, self.within_bounds(slots))?;
        let mut damage = false;
        for serial in s.oldest..s.open {
            damage |= header_of(nand, slots, serial, Form::Old)?.is_none();
        }
        if damage {
            return Err(Ground::Damage);
        }
        s.carry_chips(nand, slots, to_nand, Form::New);
        to_nor.copy_from_slice(nor);
        // "Next time moves by one, but stays 0 while open is 1 and count 0."
        Ok(State { next: s.next.saturating_sub(1), heads: with_serials(s.heads, s.open), ..s.clone() })
    }
}

impl State {
    /// Form 1 into form 0.
    pub fn backward(
        &self,
        nand: &[u8],
        nor: &[u8],
        slots: u64,
        to_nand: &mut [u8],
        to_nor: &mut [u8],
    ) -> Result<OldState, Ground> {
        check_all([nand, to_nand], [nor, to_nor], slots, self.within_bounds(slots))?;
        let fresh = self.open == 1 && self.count == 0;
        let next = if fresh { 0 } else { self.next + 1 };
        let mut back =
            WayBack { oldest: self.oldest, live: self.first_time(nand, slots, next), last: None, none: false };
        back.pointers(&self.heads);
        let mut damage = false;
        for serial in self.oldest..self.open {
            match header_of(nand, slots, serial, Form::New)? {
                Some(header) => {
                    back.pointers(&header.next);
                    let lifts = slot(nand, slot_of(serial, slots));
                    back.times(&lifts[..usize::from(header.count) * RECORD_BYTES]);
                }
                None => damage = true,
            }
        }
        if damage {
            return Err(Ground::Damage);
        }
        let count = usize::from(self.count);
        back.times(&slot(nand, slot_of(self.open, slots))[..count / LIFTS_PER_PAGE * PAGE_BYTES]);
        back.times(&self.page[..count % LIFTS_PER_PAGE * RECORD_BYTES]);
        if back.none {
            return Err(Ground::NoWayBack);
        }
        self.carry_chips(nand, slots, to_nand, Form::Old);
        to_nor.copy_from_slice(nor);
        let heads = self.heads.map(|head| Pointer { serial: 0, ..head });
        Ok(OldState { state: State { next, heads, ..self.clone() }, live: back.live })
    }

    /// The start of the oldest retained lift, or next time if there is none.
    fn first_time(&self, nand: &[u8], slots: u64, next: u64) -> u64 {
        if self.oldest < self.open {
            u64_at(page(slot(nand, slot_of(self.oldest, slots)), HEADER_PAGE), 16)
        } else if self.count > 0 {
            self.start
        } else {
            next
        }
    }

    /// Retained slots are copied, the headers of closed ones written anew; every other slot is erased.
    fn carry_chips(&self, nand: &[u8], slots: u64, to_nand: &mut [u8], into: Form) {
        let closed = self.open - self.oldest;
        let carried = u64::from(closed) + 1;
        for serial in self.oldest..self.open {
            let number = slot_of(serial, slots);
            carry_slot(slot(nand, number), slot_mut(to_nand, number), serial, into);
        }
        // With S closed segments the open serial's slot is the oldest one's.
        if u64::from(closed) < slots {
            let number = slot_of(self.open, slots);
            slot_mut(to_nand, number).copy_from_slice(slot(nand, number));
        }
        for beyond in carried..slots {
            let number = (slot_of(self.oldest, slots) + beyond as usize) % slots as usize;
            slot_mut(to_nand, number).fill(255);
        }
    }
}

/// Each ground on both stores before the next one.
fn check_all(nand: [&[u8]; 2], nor: [&[u8]; 2], slots: u64, within_bounds: bool) -> Result<(), Ground> {
    nand.iter().try_for_each(|nand| check_nand(nand, slots))?;
    nor.iter().try_for_each(|nor| check_nor(nor))?;
    if within_bounds {
        Ok(())
    } else {
        Err(Ground::StateBound)
    }
}

/// The header of a retained closed segment, none if it is damaged. Ground 13 comes before 10, so it ends the search.
fn header_of(nand: &[u8], slots: u64, serial: u32, form: Form) -> Result<Option<Header>, Ground> {
    let h = page(slot(nand, slot_of(serial, slots)), HEADER_PAGE);
    let other = 1 - form.byte_ten();
    if h[FORM_AT] == other {
        return Err(Ground::OtherForm);
    }
    Ok(Header::read(h, form, slots).filter(|header| header.serial == serial))
}

/// Level i of segment n: the largest multiple of 2 to the power i − 1 below n.
fn with_serials(pointers: [Pointer; 4], n: u32) -> [Pointer; 4] {
    core::array::from_fn(|i| {
        let serial = if pointers[i].is_none() { 0 } else { (n - 1) >> i << i };
        Pointer { serial, ..pointers[i] }
    })
}

fn carry_slot(from: &[u8; SLOT_BYTES], to: &mut [u8; SLOT_BYTES], serial: u32, into: Form) {
    let (lifts, h) = from.split_at(HEADER_AT);
    let from_form = if into == Form::New { Form::Old } else { Form::New };
    let pointers = core::array::from_fn(|i| Pointer::read(h, POINTERS_AT + from_form.pointer_bytes() * i, from_form));
    let pointers = if into == Form::New { with_serials(pointers, serial) } else { pointers };
    let mut new = [0; PAGE_BYTES];
    new[..FORM_AT].copy_from_slice(&h[..FORM_AT]);
    put(&mut new, FORM_AT, [into.byte_ten()]);
    new[16..POINTERS_AT].copy_from_slice(&h[16..POINTERS_AT]);
    for (i, pointer) in pointers.into_iter().enumerate() {
        pointer.write(&mut new, POINTERS_AT + into.pointer_bytes() * i, into);
    }
    to[..HEADER_AT].copy_from_slice(lifts);
    to[HEADER_AT..].copy_from_slice(&new);
}

/// Ground 14: whether form 0 can hold the store.
struct WayBack {
    oldest: u32,
    live: u64,
    last: Option<u64>,
    none: bool,
}

impl WayBack {
    /// A pointer neither none nor live that is no earlier than the oldest live time.
    fn pointers(&mut self, pointers: &[Pointer; 4]) {
        let late = |p: &Pointer| !p.is_none() && !p.is_live(self.oldest) && p.time >= self.live;
        self.none |= pointers.iter().any(late);
    }

    /// A lift that is no later than the one before it.
    fn times(&mut self, records: &[u8]) {
        for record in records.chunks_exact(RECORD_BYTES) {
            let time = u64_at(record, 0);
            self.none |= self.last.is_some_and(|last| time <= last);
            self.last = Some(time);
        }
    }
}
