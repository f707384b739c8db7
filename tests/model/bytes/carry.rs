//! Document 02, W-203: a store carried into the other form, in a second store.
use super::calls::{check_nand, check_nor, state_in_bounds};
use super::header::Header;
use super::numbers::u64_at;
use super::state::{Pointer, State};
use super::work::*;
use crate::limits::*;
use script::areas::{Areas, SLOT_BYTES};
use script::form::Form;

/// What a conversion reads of the first store: its state, and the headers of the retained closed segments, oldest first.
struct Carried<'a> {
    areas: &'a Areas,
    slots: u64,
    state: State,
    headers: Vec<Header>,
}

/// "Each ground is tried on every store in order before the next ground"; the second store's state is output alone.
pub fn carry_over(into: Form, slots: u64, first: &Areas, second: &mut Areas) -> Outcome<()> {
    check_nand(first, slots)?;
    check_nand(second, slots)?;
    check_nor(first)?;
    check_nor(second)?;
    let state = state_in_bounds(into.other(), first, slots)?;
    let headers = headers_of_retained(first, &state, slots)?;
    let carried = Carried { areas: first, slots, state, headers };
    let state = carried.new_state();
    if into == Form::Old {
        refuse_if(!carried.times_rise() || carried.misleads(state.oldest_live), NO_WAY_BACK)?;
    }
    second.nand = carried.new_nand();
    second.nor.clone_from(&first.nor);
    put_state(second, &state);
    Ok(())
}

/// "A conversion reads the retained closed segments' headers by slot, a serial out of place being damage." Ground 13 is
/// tried on all of them before ground 10.
fn headers_of_retained(areas: &Areas, state: &State, slots: u64) -> Outcome<Vec<Header>> {
    let page = |serial: u32| page_of(&areas.nand, slot_of(serial, slots), HEADER_PAGE);
    let retained = state.oldest..state.open;
    let other_form = state.form.other().byte_ten();
    refuse_if(retained.clone().any(|serial| page(serial)[10] == other_form), OTHER_FORM)?;
    let read = |serial: u32| {
        let header = Header::read(state.form, page(serial), slots, state.open)?;
        refuse_if(header.byte_ten != state.form.byte_ten() || header.serial != serial, DAMAGE)?;
        Ok(header)
    };
    retained.map(read).collect()
}

/// "An old pointer, none apart, at level i of segment n gets the largest multiple of 2 to the power i−1 below n as its
/// serial." Going back it loses its serial.
fn pointers_into(into: Form, n: u32, pointers: &[Pointer; 4]) -> [Pointer; 4] {
    std::array::from_fn(|place| {
        let pointer = pointers[place];
        let serial = match into {
            Form::New if !pointer.is_none() => {
                let power = 1 << place;
                (0..n).rev().find(|serial| serial % power == 0).unwrap()
            }
            _ => 0,
        };
        Pointer { serial, ..pointer }
    })
}

impl Carried<'_> {
    fn into(&self) -> Form {
        self.state.form.other()
    }

    /// "for the heads n is the open serial"; heads, next time and the oldest live time apart all is kept.
    fn new_state(&self) -> State {
        let state = &self.state;
        let heads = pointers_into(self.into(), state.open, &state.heads);
        let next = self.new_next();
        State { form: self.into(), next, oldest_live: self.new_oldest_live(next), heads, ..state.clone() }
    }

    /// "Next time moves by one, but stays 0 while open is 1 and count 0."
    fn new_next(&self) -> u64 {
        let state = &self.state;
        match self.into() {
            _ if state.open == 1 && state.count == 0 => 0,
            Form::New => state.next - 1,
            Form::Old => state.next + 1,
        }
    }

    /// "The oldest live time is the start of the oldest retained lift, or next time if there is none."
    fn new_oldest_live(&self, next: u64) -> u64 {
        match self.into() {
            Form::New => 0,
            Form::Old => match self.headers.first() {
                Some(oldest) => oldest.start,
                None if self.state.count > 0 => self.state.start,
                None => next,
            },
        }
    }

    /// "Retained closed segments, the open one and NOR are carried; every other slot is erased."
    fn new_nand(&self) -> Vec<u8> {
        let mut nand = vec![255; self.areas.nand.len()];
        let in_slot =
            |serial: u32| slot_of(serial, self.slots) * SLOT_BYTES..(slot_of(serial, self.slots) + 1) * SLOT_BYTES;
        let serials = self.state.oldest..=self.state.open;
        serials.for_each(|serial| nand[in_slot(serial)].copy_from_slice(&self.areas.nand[in_slot(serial)]));
        for header in &self.headers {
            let page = self.new_header(header).page();
            nand[in_slot(header.serial)][SLOT_BYTES - page.len()..].copy_from_slice(&page);
        }
        nand
    }

    /// "headers are written anew, other fields kept, unused bytes 0"
    fn new_header(&self, header: &Header) -> Header {
        let form = self.into();
        let pointers = pointers_into(form, header.serial, &header.pointers);
        Header { form, byte_ten: form.byte_ten(), pointers, ..*header }
    }

    /// All retained lift times, in order of arrival.
    fn times(&self) -> Vec<u64> {
        let mut times = Vec::new();
        let time_in = |page: &[u8], position: usize| u64_at(page, position % 16 * ROW_BYTES);
        for header in &self.headers {
            let slot = slot_of(header.serial, self.slots);
            times.extend((0..header.count).map(|n| time_in(page_of(&self.areas.nand, slot, n / 16), n)));
        }
        let slot = slot_of(self.state.open, self.slots);
        let (count, in_nand) = (usize::from(self.state.count), usize::from(self.state.count) / 16 * 16);
        times.extend((0..in_nand).map(|n| time_in(page_of(&self.areas.nand, slot, n / 16), n)));
        times.extend((in_nand..count).map(|n| time_in(&self.state.page, n)));
        times
    }

    /// Ground 14 holds if "a retained lift is no later than the one before it",
    fn times_rise(&self) -> bool {
        self.times().windows(2).all(|pair| pair[0] < pair[1])
    }

    /// "or a pointer neither none nor live is no earlier than the oldest live time": form 0 would take it as live.
    fn misleads(&self, oldest_live: u64) -> bool {
        let pointers = self.headers.iter().flat_map(|header| &header.pointers).chain(&self.state.heads);
        let mut dead = pointers.filter(|pointer| !pointer.is_none() && !self.state.is_live(pointer));
        dead.any(|pointer| pointer.time >= oldest_live)
    }
}

#[cfg(test)]
mod tests {
    use super::*;

    fn serials(into: Form, n: u32) -> [u32; 4] {
        let pointer = Pointer { slot: 0, serial: 0, time: 9 };
        pointers_into(into, n, &[pointer; 4]).map(|pointer| pointer.serial)
    }

    /// Multiples of 1, 2, 4 and 8 below n; 0 where there is no other.
    #[test]
    fn the_largest_multiple_below() {
        assert_eq!(serials(Form::New, 13), [12, 12, 12, 8]);
        assert_eq!(serials(Form::New, 8), [7, 6, 4, 0]);
        assert_eq!(serials(Form::New, 1), [0, 0, 0, 0]);
        assert_eq!(serials(Form::Old, 13), [0, 0, 0, 0]);
    }

    #[test]
    fn none_keeps_its_time_and_gets_no_serial() {
        let none = Pointer { slot: Pointer::NONE.slot, serial: 5, time: 7 };
        let expected = Pointer { serial: 0, ..none };
        assert_eq!(pointers_into(Form::New, 13, &[none; 4]), [expected; 4]);
        assert_eq!(pointers_into(Form::Old, 13, &[none; 4]), [expected; 4]);
    }
}
