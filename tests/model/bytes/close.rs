//! Closing the open segment: its pages, the heads, and on to the next serial.
use super::bloom::{bloom_page, fragment_length, sections_of};
use super::header::{level_of, Header};
use super::state::{step, Pointer};
use super::work::*;
use script::areas::PAGE_BYTES;
use script::form::Form;

/// Programs, in rising page order, what the open segment has to leave in its slot; then moves on.
pub fn close_segment(work: &mut Work) {
    let slot = slot_of(work.state.open, work.slots);
    let count = usize::from(work.state.count);
    if count % 16 != 0 {
        let page = work.state.page;
        work.program(slot, count / 16, &page);
    }
    program_tree(work, slot);
    program_bloom(work, slot);
    let header = header_to_program(work);
    work.program(slot, HEADER_PAGE, &header.page());
    let serial = match work.state.form {
        Form::Old => 0,
        Form::New => work.state.open,
    };
    let this = Pointer { slot: slot as u16, serial, time: work.state.start };
    work.state.heads[..level_of(work.state.open)].fill(this);
    work.erase_nor();
    work.state.open += 1;
    work.state.empty_open_segment();
}

/// Four buckets a page, unused places 255.
fn program_tree(work: &mut Work, slot: usize) {
    let used = usize::from(work.state.buckets) * BUCKET_BYTES;
    let tree = work.nor[..used].to_vec();
    for (index, buckets) in tree.chunks(PAGE_BYTES).enumerate() {
        let mut page = [255; PAGE_BYTES];
        page[..buckets.len()].copy_from_slice(buckets);
        work.program(slot, TREE_PAGE + index, &page);
    }
}

/// Full sections stand in NOR, a part-filled one in its buffer.
fn program_bloom(work: &mut Work, slot: usize) {
    let count = usize::from(work.state.count);
    let full = work.nor[SECTIONS_IN_NOR..].chunks(SECTION_BYTES).take(count / 64);
    let mut sections: Vec<Vec<u8>> = full.map(|section| section.to_vec()).collect();
    if count % 64 != 0 {
        sections.push(work.state.bloom.to_vec());
    }
    let pages = if sections.len() == 5 { 2 } else { 1 };
    for index in 0..pages {
        work.program(slot, BLOOM_PAGE + index, &bloom_page(&sections, index));
    }
}

fn header_to_program(work: &Work) -> Header {
    let state = &work.state;
    let level = level_of(state.open);
    let count = usize::from(state.count);
    let sections = sections_of(count);
    let mut pointers = [Pointer::NONE; 4];
    pointers[..level].copy_from_slice(&state.heads[..level]);
    Header {
        serial: state.open,
        count,
        buckets: state.buckets.into(),
        sections,
        fragment_length: fragment_length(sections),
        level: level as u8,
        form: state.form,
        byte_ten: state.form.byte_ten(),
        start: state.start,
        end: state.next - step(state.form),
        low: state.low.into(),
        high: state.high.into(),
        pointers,
    }
}
