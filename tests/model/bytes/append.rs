//! Append and drop after grounds 1 to 9: closing by force, the slot that must go, the lift itself.
use super::bloom::set_bits;
use super::close::close_segment;
use super::counts::uncount_segment;
use super::header::Header;
use super::insert::{find_place, write_place, Place};
use super::state::step;
use super::work::*;
use crate::limits::{Outcome, LOAD_SHIFT, ROW_BYTES, SEGMENT_BUCKETS, SEGMENT_LIFTS};
use script::form::Form;

pub fn append_lift(work: &mut Work, time: u64, load: i32, note: &[u8; 20]) -> Outcome<()> {
    let place = place_in_open_segment(work, load)?;
    let place = match place {
        Some(place) => place,
        None => {
            close_segment(work);
            Place::Root
        }
    };
    if work.state.count == 0 {
        enter_serial(work, time)?;
    }
    write_place(work, &place, load)?;
    fill_buffers(work, time, load, note)?;
    note_in_state(work, time, load);
    if let Some(counts) = &mut work.counts {
        counts.add(load);
    }
    Ok(())
}

/// None if the open segment is to be closed first: it has 320 lifts, or the load needs bucket 36.
fn place_in_open_segment(work: &Work, load: i32) -> Outcome<Option<Place>> {
    if usize::from(work.state.count) == SEGMENT_LIFTS {
        return Ok(None);
    }
    let place = find_place(work, load)?;
    let needs_bucket_36 = place.takes_a_bucket() && usize::from(work.state.buckets) == SEGMENT_BUCKETS;
    Ok(if needs_bucket_36 { None } else { Some(place) })
}

/// The first append to a serial: the segment S before it goes, if it is still retained. "a forced drop before the new lift"
/// (W-210)
fn enter_serial(work: &mut Work, time: u64) -> Outcome<()> {
    let open = work.state.open;
    if u64::from(work.state.oldest) + work.slots <= u64::from(open) {
        uncount_segment(work, slot_of(open, work.slots))?;
        work.erase_slot(slot_of(open, work.slots));
        work.state.oldest = open - work.slots as u32 + 1;
        renew_oldest_live(work)?;
    } else if work.state.form == Form::Old && work.state.oldest == open {
        work.state.oldest_live = time;
    }
    Ok(())
}

/// "A drop, forced or not, reads the header of the closed segment that becomes oldest." "The oldest live time leaves the
/// state, so a drop reads no header." (W-202)
fn renew_oldest_live(work: &mut Work) -> Outcome<()> {
    let state = &work.state;
    if state.form == Form::New {
        return Ok(());
    }
    work.state.oldest_live = if state.oldest < state.open {
        let page = work.page(slot_of(state.oldest, work.slots), HEADER_PAGE);
        Header::read(state.form, page, work.slots, state.open)?.start
    } else if state.count > 0 {
        state.start
    } else {
        state.next
    };
    Ok(())
}

/// A lift page goes to NAND at its sixteenth lift, a Bloom section to NOR at its sixty-fourth.
fn fill_buffers(work: &mut Work, time: u64, load: i32, note: &[u8; 20]) -> Outcome<()> {
    let position = usize::from(work.state.count);
    let record = &mut work.state.page[position % 16 * ROW_BYTES..][..ROW_BYTES];
    record[..8].copy_from_slice(&time.to_le_bytes());
    record[8..12].copy_from_slice(&((i64::from(load) + LOAD_SHIFT) as u32).to_le_bytes());
    record[12..].copy_from_slice(note);
    set_bits(&mut work.state.bloom, load);
    if position % 16 == 15 {
        let page = work.state.page;
        work.program(slot_of(work.state.open, work.slots), position / 16, &page);
        work.state.page = [255; 512];
    }
    if position % 64 == 63 {
        let section = work.state.bloom;
        work.write_nor(SECTIONS_IN_NOR + position / 64 * SECTION_BYTES, &section)?;
        work.state.bloom = [0; 128];
    }
    Ok(())
}

fn note_in_state(work: &mut Work, time: u64, load: i32) {
    let state = &mut work.state;
    if state.count == 0 {
        state.start = time;
        state.low = load;
        state.high = load;
    }
    state.low = state.low.min(load);
    state.high = state.high.max(load);
    state.push_last_load(load);
    state.count += 1;
    state.next = time + step(state.form);
}

/// Erases the oldest closed segment.
pub fn drop_oldest_closed(work: &mut Work) -> Outcome<()> {
    let slot = slot_of(work.state.oldest, work.slots);
    uncount_segment(work, slot)?;
    work.erase_slot(slot);
    work.state.oldest += 1;
    renew_oldest_live(work)
}
