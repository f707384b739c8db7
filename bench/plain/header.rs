//! The header page of a closed segment: read with its damage test, and made for a close.
use crate::bloom::{fragment_of, sections_of};
use crate::bytes::{page, put, slot, u16_at, u32_at, u64_at};
use crate::form::Form;
use crate::state::{Pointer, State, POINTER_BYTES};
use crate::{stored, Ground, BUCKETS_MAX, CODE_MAX, HEADER_PAGE, LIFTS_MAX, PAGE_BYTES, TIME_MAX};

pub const FORM_AT: usize = 10;
pub const POINTERS_AT: usize = 40;

pub struct Header {
    pub serial: u32,
    pub count: u16,
    pub buckets: u8,
    pub start: u64,
    pub low: u32,
    pub high: u32,
    pub next: [Pointer; 4],
}

impl Header {
    /// The header of a slot without damage, its serial below `before`.
    pub fn load(nand: &[u8], number: usize, slots: u64, before: u32) -> Result<Header, Ground> {
        let h = page(slot(nand, number), HEADER_PAGE);
        Header::read(h, Form::New, slots).filter(|header| header.serial < before).ok_or(Ground::Damage)
    }

    /// The header of a page, unless it is damaged or of another form.
    #[inline(always)]
    pub fn read(h: &[u8; PAGE_BYTES], form: Form, slots: u64) -> Option<Header> {
        let header = Header {
            serial: u32_at(h, 0),
            count: u16_at(h, 4),
            buckets: h[6],
            start: u64_at(h, 16),
            low: u32_at(h, 32),
            high: u32_at(h, 36),
            next: core::array::from_fn(|i| Pointer::read(h, POINTERS_AT + form.pointer_bytes() * i, form)),
        };
        let (sections, fragment, end) = (usize::from(h[7]), usize::from(h[8]), u64_at(h, 24));
        let counts = (1..=LIFTS_MAX).contains(&header.count)
            && (1..=BUCKETS_MAX).contains(&header.buckets)
            && sections == sections_of(header.count)
            && fragment == fragment_of(sections);
        let span = header.start <= end
            && end <= TIME_MAX
            && (1..=CODE_MAX).contains(&header.low)
            && header.low <= header.high
            && header.high <= CODE_MAX;
        let pointers = header.next.iter().all(|p| p.fits(slots) && p.time <= TIME_MAX);
        (h[FORM_AT] == form.byte_ten() && counts && span && pointers).then_some(header)
    }
}

/// A segment's level, 1 to 4.
pub fn level_of(serial: u32) -> usize {
    (1 + serial.trailing_zeros() as usize).min(4)
}

/// Page 31 of the open segment at its close.
pub fn image(s: &State) -> [u8; PAGE_BYTES] {
    let sections = sections_of(s.count);
    let level = level_of(s.open);
    let mut h = [0; PAGE_BYTES];
    put(&mut h, 0, s.open.to_le_bytes());
    put(&mut h, 4, s.count.to_le_bytes());
    h[6] = s.buckets;
    h[7] = sections as u8;
    h[8] = fragment_of(sections) as u8;
    h[9] = level as u8;
    h[FORM_AT] = Form::New.byte_ten();
    put(&mut h, 16, s.start.to_le_bytes());
    put(&mut h, 24, s.next.to_le_bytes());
    put(&mut h, 32, stored(s.low).to_le_bytes());
    put(&mut h, 36, stored(s.high).to_le_bytes());
    for (i, &head) in s.heads.iter().enumerate() {
        let pointer = if i < level { head } else { Pointer::NONE };
        pointer.write(&mut h, POINTERS_AT + POINTER_BYTES * i, Form::New);
    }
    h
}
