//! Document 02, W-210: the counts of a call that keeps them, and the segment that leaves them.
use super::header::Header;
use super::search::{load_of, record_in};
use super::work::{Work, HEADER_PAGE};
use crate::counts::Counts;
use crate::limits::Outcome;
use script::areas::Areas;

/// The counts, unless their sum breaks ground 3; none for a call that keeps none.
pub fn kept_counts(keeps: bool, areas: &Areas) -> Outcome<Option<Counts>> {
    if !keeps {
        return Ok(None);
    }
    let counts = Counts::from_bytes(&areas.counts);
    counts.check_sum()?;
    Ok(Some(counts))
}

/// "A drop that keeps counts reads the dropped segment's header and lifts": before its slot is erased.
pub fn uncount_segment(work: &mut Work, slot: usize) -> Outcome<()> {
    let Some(mut counts) = work.counts.take() else { return Ok(()) };
    let page = work.page(slot, HEADER_PAGE);
    let header = Header::read(work.state.form, page, work.slots, work.state.open)?;
    for position in 0..header.count {
        counts.take_out(load_of(&record_in(work.page(slot, position / 16), position)))?;
    }
    work.counts = Some(counts);
    Ok(())
}
