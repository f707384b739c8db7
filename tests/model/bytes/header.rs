//! The header page of a closed segment: its bytes and the damage test.
use super::bloom::{fragment_length, sections_of};
use super::numbers::{u16_at, u32_at, u64_at, Bytes};
use super::state::Pointer;
use crate::limits::*;
use script::areas::PAGE_BYTES;
use script::form::Form;

pub struct Header {
    pub serial: u32,
    pub count: usize,
    pub buckets: usize,
    pub sections: usize,
    pub fragment_length: usize,
    pub level: u8,
    /// The form that it is written in, and read as.
    pub form: Form,
    /// Byte 10, which tells the form; document 01 leaves it unread.
    pub byte_ten: u8,
    pub start: u64,
    pub end: u64,
    /// Low and high are loads as logged; the page holds stored ones.
    pub low: i64,
    pub high: i64,
    pub pointers: [Pointer; 4],
}

/// 1 plus the trailing zero bits of the serial, at most 4.
pub fn level_of(serial: u32) -> usize {
    (1 + serial.trailing_zeros() as usize).min(4)
}

impl Header {
    pub fn page(&self) -> Vec<u8> {
        let mut page = Bytes::default();
        page.put(&self.serial.to_le_bytes()).put(&(self.count as u16).to_le_bytes());
        page.put(&[self.buckets as u8, self.sections as u8, self.fragment_length as u8, self.level, self.byte_ten]);
        page.filled_to(16, 0);
        page.put(&self.start.to_le_bytes()).put(&self.end.to_le_bytes());
        page.put(&((self.low + LOAD_SHIFT) as u32).to_le_bytes());
        page.put(&((self.high + LOAD_SHIFT) as u32).to_le_bytes());
        self.pointers.iter().for_each(|pointer| pointer.put_into(&mut page, self.form));
        page.filled_to(PAGE_BYTES, 0);
        page.0
    }

    /// Reads a header of a form; its serial must be below `serial_before`.
    pub fn read(form: Form, page: &[u8], slots: u64, serial_before: u32) -> Outcome<Header> {
        let header = Header {
            serial: u32_at(page, 0),
            count: u16_at(page, 4).into(),
            buckets: page[6].into(),
            sections: page[7].into(),
            fragment_length: page[8].into(),
            level: page[9],
            form,
            byte_ten: page[10],
            start: u64_at(page, 16),
            end: u64_at(page, 24),
            low: i64::from(u32_at(page, 32)) - LOAD_SHIFT,
            high: i64::from(u32_at(page, 36)) - LOAD_SHIFT,
            pointers: std::array::from_fn(|level| Pointer::at(page, 40 + form.pointer_bytes() * level, form)),
        };
        refuse_if(header.is_damaged(slots) || header.serial >= serial_before, DAMAGE)?;
        Ok(header)
    }

    /// "any other byte 10 counts as damage" (W-202), in form 1
    fn is_of_another_form(&self) -> bool {
        self.form == Form::New && self.byte_ten != self.form.byte_ten()
    }

    fn is_damaged(&self, slots: u64) -> bool {
        let load_past_limit = |load: i64| load < LEAST_LOAD.into() || load > GREATEST_LOAD.into();
        let bad_pointer = |pointer: &Pointer| time_past_limit(pointer.time) || pointer.slot_is_bad(slots);
        !(1..=SEGMENT_LIFTS).contains(&self.count)
            || !(1..=SEGMENT_BUCKETS).contains(&self.buckets)
            || self.sections != sections_of(self.count)
            || self.fragment_length != fragment_length(self.sections)
            || self.is_of_another_form()
            || time_past_limit(self.start)
            || time_past_limit(self.end)
            || load_past_limit(self.low)
            || load_past_limit(self.high)
            || self.start > self.end
            || self.low > self.high
            || self.pointers.iter().any(bad_pointer)
    }
}

#[cfg(test)]
mod tests {
    #[test]
    fn the_worked_examples_of_document_01() {
        assert_eq!([1, 2, 8, 16].map(super::level_of), [1, 2, 4, 4]);
    }
}
