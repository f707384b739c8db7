//! Document 01, "Search", and as W-202 amends it: the open segment, the skip walk, level 1, and the matches of each; W-207's
//! counts of the pages read.
use super::bloom;
use super::bucket::{Bucket, NO_CHILD};
use super::header::Header;
use super::numbers::{u32_at, u64_at};
use super::state::{Pointer, State};
use super::work::*;
use crate::limits::*;
use crate::paper::Record;
use script::areas::{Areas, PAGE_BYTES};
use script::calls::Window;
use script::form::Form;
use std::collections::BTreeSet;

const BUCKETS_PER_PAGE: usize = PAGE_BYTES / BUCKET_BYTES;

/// What a search reads, the serial of the header read last, and the pages read so far.
struct Reader<'a> {
    areas: &'a Areas,
    state: &'a State,
    slots: u64,
    serial_before: u32,
    pages_read: PagesRead,
}

/// "the number of header pages loaded while it finds the newest closed segment" and "the distinct Bloom and tree pages that
/// hold a bit tried or a bucket visited" of the closed segments from that one on (W-207)
#[derive(Clone, Copy, Default)]
pub struct PagesRead {
    pub header: usize,
    pub bloom: usize,
    pub tree: usize,
}

pub struct Found {
    /// By serial and then position.
    pub records: Vec<Record>,
    pub pages_read: PagesRead,
}

/// The records of one segment, by position, and the buckets visited.
struct Matches {
    records: Vec<Record>,
    visited: Vec<usize>,
}

pub fn load_of(record: &Record) -> i64 {
    i64::from(u32_at(record, 8)) - LOAD_SHIFT
}

pub fn find(areas: &Areas, state: &State, slots: u64, window: &Window) -> Outcome<Found> {
    let mut reader = Reader { areas, state, slots, serial_before: state.open, pages_read: PagesRead::default() };
    let mut newest_first = Vec::new();
    let has_open_lifts = state.count > 0;
    if has_open_lifts {
        newest_first.push(reader.open_matches(window)?);
    }
    if !(has_open_lifts && ends_with(state.form, state.start, window)) {
        let mut pointer = reader.walk_to(window.t2)?;
        while state.is_live(&pointer) {
            let header = reader.load_header(pointer)?;
            newest_first.push(reader.closed_matches(&header, pointer.slot.into(), window)?);
            if ends_with(state.form, header.start, window) {
                break;
            }
            pointer = header.pointers[0];
        }
    }
    Ok(Found { records: newest_first.into_iter().rev().flatten().collect(), pages_read: reader.pages_read })
}

/// "until a start ≤ t1 has been done"; in form 1 "A search goes on while a segment's start, the open one's included, is at
/// least t1." (W-202)
fn ends_with(form: Form, start: u64, window: &Window) -> bool {
    match form {
        Form::Old => start <= window.t1,
        Form::New => start < window.t1,
    }
}

impl Reader<'_> {
    fn load_header(&mut self, pointer: Pointer) -> Outcome<Header> {
        let page = page_of(&self.areas.nand, pointer.slot.into(), HEADER_PAGE);
        let header = Header::read(self.state.form, page, self.slots, self.serial_before)?;
        self.serial_before = header.serial;
        Ok(header)
    }

    /// Level 4 down to 1, on while the pointer is live and above t2; then the level 1 pointer. Counted is "each segment it
    /// moves onto because its start is after t2" (W-207), so not the one found.
    fn walk_to(&mut self, t2: u64) -> Outcome<Pointer> {
        let mut pointers = self.state.heads;
        for level in (0..4).rev() {
            while self.state.is_live(&pointers[level]) && pointers[level].time > t2 {
                pointers = self.load_header(pointers[level])?.pointers;
                self.pages_read.header += 1;
            }
        }
        Ok(pointers[0])
    }

    fn open_matches(&self, window: &Window) -> Outcome<Vec<Record>> {
        let state = self.state;
        let slot = slot_of(state.open, self.slots);
        let pages_in_nand = usize::from(state.count) / 16;
        let record = |position: usize| {
            let in_buffer = position / 16 >= pages_in_nand;
            let page = if in_buffer { &state.page } else { page_of(&self.areas.nand, slot, position / 16) };
            record_in(page, position)
        };
        let tree = &self.areas.nor[..TREE_BYTES];
        Ok(matches(tree, state.buckets.into(), state.count.into(), window, record)?.records)
    }

    fn closed_matches(&mut self, header: &Header, slot: usize, window: &Window) -> Outcome<Vec<Record>> {
        if self.is_passed_over(header, slot, window) {
            return Ok(Vec::new());
        }
        let nand = &self.areas.nand;
        let tree_pages = (TREE_PAGE..TREE_PAGE + TREE_BYTES / PAGE_BYTES).map(|page| page_of(nand, slot, page));
        let tree: Vec<u8> = tree_pages.flatten().copied().collect();
        let record = |position: usize| record_in(page_of(nand, slot, position / 16), position);
        let Matches { records, visited } = matches(&tree, header.buckets, header.count, window, record)?;
        let pages: BTreeSet<usize> = visited.iter().map(|bucket| bucket / BUCKETS_PER_PAGE).collect();
        self.pages_read.tree += pages.len();
        Ok(records)
    }

    /// "if its load span misses the range or, for equal loads, if some hash bit is clear in all sections"
    fn is_passed_over(&mut self, header: &Header, slot: usize, window: &Window) -> bool {
        let misses = header.high < window.k1.into() || header.low > window.k2.into();
        if misses || window.k1 != window.k2 {
            return misses;
        }
        let tried = bloom::try_bits(&self.areas.nand, slot, header.sections, window.k1);
        self.pages_read.bloom += tried.pages.len();
        tried.rules_out
    }
}

pub fn record_in(page: &[u8], position: usize) -> Record {
    page[position % 16 * ROW_BYTES..][..ROW_BYTES].try_into().unwrap()
}

/// The records of one segment in the window.
fn matches(
    tree: &[u8], buckets: usize, count: usize, window: &Window, record: impl Fn(usize) -> Record,
) -> Outcome<Matches> {
    let (k1, k2) = (i64::from(window.k1), i64::from(window.k2));
    let mut is_match = [false; SEGMENT_LIFTS];
    let mut is_reached = [false; SEGMENT_BUCKETS];
    let mut visited = Vec::new();
    is_reached[0] = true;
    for number in 0..buckets {
        if !is_reached[number] {
            continue;
        }
        visited.push(number);
        let bucket = Bucket::read(tree, number, buckets, count)?;
        if let Some(mid) = bucket.mid {
            let taken = [(bucket.left, mid >= k1), (bucket.right, mid < k2)];
            for (child, _) in taken.into_iter().filter(|(child, taken)| *taken && *child != NO_CHILD) {
                is_reached[usize::from(child)] = true;
            }
        }
        for entry in bucket.entries.iter().filter(|entry| (k1..=k2).contains(&entry.load)) {
            refuse_if(load_of(&record(entry.position)) != entry.load, DAMAGE)?;
            is_match[entry.position] = true;
        }
    }
    let in_window = |record: &Record| (window.t1..=window.t2).contains(&u64_at(record, 0));
    let records = (0..count).filter(|position| is_match[*position]).map(record).filter(in_window).collect();
    Ok(Matches { records, visited })
}
