//! The calls with their grounds in checking order.
use super::append::{append_lift, drop_oldest_closed};
use super::carry::carry_over;
use super::close::close_segment;
use super::counts::kept_counts;
use super::pairs::pair_up;
use super::search::{find, load_of, Found, PagesRead};
use super::state::State;
use super::text::{export, import_text};
use super::tolerant::search_with_tolerance;
use super::work::{put_state, Work};
use crate::counts::Counts;
use crate::limits::*;
use crate::paper::{Lift, Record};
use crate::plate::plate_of;
use crate::service_page;
use crate::stacks::{generated, plate_at};
use script::areas::{Areas, SLOT_BYTES};
use script::calls::{Call, Carry, Outputs, Pairs, Store, Tolerant, TolerantOutputs, Window};
use script::form::Form;

const NOR_BYTES: usize = 6_144;

/// Answers any call on any areas as document 01 says, in form 1 as W-202, W-206, W-207 and W-210 amend it, and the calls of
/// W-203, W-208, W-209 and W-211.
pub struct Expectation;

impl Store for Expectation {
    fn answer(&mut self, form: Form, call: &Call, areas: &mut Areas, outputs: &mut Outputs) -> u8 {
        let result = match *call {
            Call::Format { slots } => format(form, areas, slots),
            Call::Append { keeps, slots, time, load, ref note } => {
                append(form, areas, keeps, slots, &Lift { time, load, note: *note })
            }
            Call::Close { slots } => close(form, areas, slots),
            Call::Drop { keeps, slots } => drop_oldest(form, areas, keeps, slots),
            Call::Search { slots, ref window, .. } => search(form, areas, slots, window, outputs),
            Call::Tally { slots, t1, t2 } => tally(form, areas, slots, t1, t2, outputs),
            Call::Page { slots, t1, t2 } => page(form, areas, slots, t1, t2, outputs),
            Call::Plate { place, load } => plate(place, load, outputs),
            Call::Export { slots, ref window, .. } => export(areas, slots, window, outputs),
            Call::Import { keeps, slots, ref text } => import_text(areas, keeps, slots, text, outputs),
        };
        result.err().unwrap_or(0)
    }

    fn carry(&mut self, carry: &Carry, first: &mut Areas, second: &mut Areas) -> u8 {
        carry_over(carry.into, carry.slots, first, second).err().unwrap_or(0)
    }

    fn pairs(&mut self, pairs: &Pairs, first: &Areas, second: &Areas, outputs: &mut Outputs) -> u8 {
        pair_up((first, pairs.slots), (second, pairs.second_slots), outputs).err().unwrap_or(0)
    }

    fn tolerant(&mut self, tolerant: &Tolerant, areas: &Areas, outputs: &mut TolerantOutputs) -> u8 {
        search_with_tolerance(areas, tolerant, outputs).err().unwrap_or(0)
    }

    fn generate(&mut self, input: &[u8]) -> Result<Vec<u8>, String> {
        Ok(generated(input))
    }
}

/// Ground 1.
pub fn check_nand(areas: &Areas, slots: u64) -> Outcome<()> {
    refuse_if(!SLOTS.contains(&slots), SLOTS_OR_NAND_LENGTH)?;
    refuse_if(areas.nand.len() as u64 != slots * SLOT_BYTES as u64, SLOTS_OR_NAND_LENGTH)
}

/// Ground 2.
pub fn check_nor(areas: &Areas) -> Outcome<()> {
    refuse_if(areas.nor.len() != NOR_BYTES, NOR_LENGTH)
}

/// The state, unless ground 3 holds.
pub fn state_in_bounds(form: Form, areas: &Areas, slots: u64) -> Outcome<State> {
    let state = State::from_bytes(form, areas.state_of(form));
    refuse_if(state.breaks_a_bound(slots), STATE_BOUND)?;
    Ok(state)
}

/// The state, unless one of grounds 1 to 3 holds.
pub fn checked_state(form: Form, areas: &Areas, slots: u64) -> Outcome<State> {
    check_nand(areas, slots)?;
    check_nor(areas)?;
    state_in_bounds(form, areas, slots)
}

fn format(form: Form, areas: &mut Areas, slots: u64) -> Outcome<()> {
    check_nand(areas, slots)?;
    check_nor(areas)?;
    areas.nand.fill(255);
    areas.nor.fill(255);
    put_state(areas, &State::formatted(form));
    if form == Form::New {
        areas.counts = Counts::ZERO.to_bytes();
    }
    Ok(())
}

pub fn append(form: Form, areas: &mut Areas, keeps: bool, slots: u64, lift: &Lift) -> Outcome<()> {
    let state = checked_state(form, areas, slots)?;
    let counts = kept_counts(keeps, areas)?;
    refuse_if(time_past_limit(lift.time), TIME_LIMIT)?;
    refuse_if(load_past_limit(lift.load), LOAD_LIMIT)?;
    refuse_if(lift.time < state.next, TIME_BELOW_NEXT)?;
    refuse_if(state.open >= LAST_SERIAL - 1, LAST_SERIALS)?;
    let mut work = Work::keeping(counts, areas, slots, state);
    let result = append_lift(&mut work, lift.time, lift.load, &lift.note);
    work.end(result)
}

fn close(form: Form, areas: &mut Areas, slots: u64) -> Outcome<()> {
    let state = checked_state(form, areas, slots)?;
    refuse_if(state.count == 0, NOTHING_TO_DO)?;
    let mut work = Work::new(areas, slots, state);
    close_segment(&mut work);
    work.end(Ok(()))
}

fn drop_oldest(form: Form, areas: &mut Areas, keeps: bool, slots: u64) -> Outcome<()> {
    let state = checked_state(form, areas, slots)?;
    let counts = kept_counts(keeps, areas)?;
    refuse_if(state.oldest == state.open, NOTHING_TO_DO)?;
    let mut work = Work::keeping(counts, areas, slots, state);
    let result = drop_oldest_closed(&mut work);
    work.end(result)
}

pub fn bytes_of(values: &[u64]) -> Vec<u8> {
    values.iter().flat_map(|value| value.to_le_bytes()).collect()
}

pub fn put_values(outputs: &mut Outputs, values: &[u64]) {
    outputs.answer = bytes_of(values);
}

/// Writes rows into an area that has room for them; its other bytes stay.
pub fn put_rows(area: &mut [u8], records: &[Record]) {
    for (row, record) in area.chunks_mut(ROW_BYTES).zip(records) {
        row.copy_from_slice(record);
    }
}

/// What a search finds, unless a ground before 12 is against it.
pub fn found(form: Form, areas: &Areas, slots: u64, window: &Window) -> Outcome<Found> {
    let state = checked_state(form, areas, slots)?;
    let Window { t1, t2, k1, k2 } = *window;
    refuse_if(time_past_limit(t1) || time_past_limit(t2), TIME_LIMIT)?;
    refuse_if(load_past_limit(k1) || load_past_limit(k2), LOAD_LIMIT)?;
    refuse_if(t1 > t2 || k1 > k2, BACKWARD_RANGE)?;
    find(areas, &state, slots, window)
}

fn search(form: Form, areas: &Areas, slots: u64, window: &Window, outputs: &mut Outputs) -> Outcome<()> {
    let Found { records, pages_read } = found(form, areas, slots, window)?;
    refuse_if(records.len() > outputs.rows.len() / ROW_BYTES, TOO_MANY_ROWS)?;
    put_rows(&mut outputs.rows, &records);
    let PagesRead { header, bloom, tree } = pages_read;
    let counts = [records.len(), header, bloom, tree].map(|count| count as u64);
    put_values(outputs, &counts[..1 + form.page_counts()]);
    Ok(())
}

/// Counts what a search over all loads finds; its grounds 5 and 12 cannot hold.
fn counts(form: Form, areas: &Areas, slots: u64, t1: u64, t2: u64) -> Outcome<Vec<u64>> {
    let all_loads = Window { t1, t2, k1: LEAST_LOAD, k2: GREATEST_LOAD };
    let mut counts = vec![0; form.counts()];
    for record in found(form, areas, slots, &all_loads)?.records {
        counts[plate_of(form, load_of(&record) as i32)] += 1;
    }
    Ok(counts)
}

fn tally(form: Form, areas: &Areas, slots: u64, t1: u64, t2: u64, outputs: &mut Outputs) -> Outcome<()> {
    put_values(outputs, &counts(form, areas, slots, t1, t2)?);
    Ok(())
}

fn page(form: Form, areas: &Areas, slots: u64, t1: u64, t2: u64, outputs: &mut Outputs) -> Outcome<()> {
    let lines = service_page::page(t1, t2, &counts(form, areas, slots, t1, t2)?);
    outputs.answer = service_page::text_of(&lines).into_bytes();
    Ok(())
}

fn plate(place: u64, load: i32, outputs: &mut Outputs) -> Outcome<()> {
    put_values(outputs, &[plate_at(place, load)? as u64]);
    Ok(())
}
