//! Search and tally.
use crate::bytes::{slot, u32_at};
use crate::header::Header;
use crate::matches::{Matches, Segment};
use crate::plate::{plate_of_code, Counts, PLATES};
use crate::state::{Pointer, State};
use crate::{bloom, load_ok, stored, Ground, LOAD_MAX, LOAD_MIN, RECORD_BYTES, TIME_MAX};

/// Times from t1 to t2 and loads from k1 to k2.
#[derive(Clone, Copy, Debug)]
pub struct Window {
    pub t1: u64,
    pub t2: u64,
    pub k1: i32,
    pub k2: i32,
}

/// How many rows a search found, and what it read on the way.
#[derive(Clone, Copy, Debug, Default, PartialEq, Eq)]
pub struct Found {
    pub rows: usize,
    pub pages: PagesRead,
}

/// W-207: header pages that the skip walk moved onto; Bloom pages with a bit tried and tree pages with a bucket visited, of
/// the closed segments after it.
#[derive(Clone, Copy, Debug, Default, PartialEq, Eq)]
pub struct PagesRead {
    pub header: u32,
    pub bloom: u32,
    pub tree: u32,
}

/// A window within its limits, its loads as stored.
pub struct Asked {
    pub t1: u64,
    pub t2: u64,
    pub k1: u32,
    pub k2: u32,
}

/// What a search reads.
pub struct Log<'a> {
    pub state: &'a State,
    pub nand: &'a [u8],
    pub nor: &'a [u8],
    pub slots: u64,
}

impl State {
    /// Counts first, then writes the rows from the end backwards: no row before the answer is known.
    pub fn search(
        &self,
        nand: &[u8],
        nor: &[u8],
        slots: u64,
        window: &Window,
        rows: &mut [u8],
    ) -> Result<Found, Ground> {
        self.check(nand, nor, slots)?;
        let asked = window.check()?;
        let log = Log { state: self, nand, nor, slots };
        let mut total = 0;
        let pages = log.visit(&asked, |_, matches| total += matches.len())?;
        if rows.len() / RECORD_BYTES < total {
            return Err(Ground::AreaTooSmall);
        }
        let mut end = total * RECORD_BYTES;
        log.visit(&asked, |segment, matches| {
            let start = end - matches.len() * RECORD_BYTES;
            let rows = rows[start..end].chunks_exact_mut(RECORD_BYTES);
            for (row, place) in rows.zip(matches) {
                row.copy_from_slice(segment.record(place));
            }
            end = start;
        })?;
        Ok(Found { rows: total, pages })
    }

    /// How many lifts of the time window belong to each plate.
    pub fn tally(&self, nand: &[u8], nor: &[u8], slots: u64, t1: u64, t2: u64) -> Result<Counts, Ground> {
        self.check(nand, nor, slots)?;
        let asked = Window { t1, t2, k1: LOAD_MIN, k2: LOAD_MAX }.check()?;
        let log = Log { state: self, nand, nor, slots };
        let mut counts = [0; PLATES];
        log.visit(&asked, |segment, matches| {
            for place in matches {
                counts[plate_of_code(u32_at(segment.record(place), 8))] += 1;
            }
        })?;
        Ok(counts)
    }
}

impl Window {
    /// Grounds 4, 5 and 6.
    pub(crate) fn check(&self) -> Result<Asked, Ground> {
        let Window { t1, t2, k1, k2 } = *self;
        if t1 > TIME_MAX || t2 > TIME_MAX {
            Err(Ground::TimeLimit)
        } else if !load_ok(k1) || !load_ok(k2) {
            Err(Ground::LoadLimit)
        } else if t1 > t2 || k1 > k2 {
            Err(Ground::BackwardRange)
        } else {
            Ok(Asked { t1, t2, k1: stored(k1), k2: stored(k2) })
        }
    }
}

impl<'a> Log<'a> {
    /// Every segment that may hold a match, the newest first; the pages read of closed ones are handed back.
    pub fn visit(&self, asked: &Asked, mut take: impl FnMut(&Segment<'a>, Matches)) -> Result<PagesRead, Ground> {
        let state = self.state;
        let mut pages = PagesRead::default();
        if state.count > 0 {
            let segment = Segment::open(self);
            take(&segment, segment.matches(asked)?.0);
            if state.start < asked.t1 {
                return Ok(pages);
            }
        }
        let (mut pointer, mut before, moves) = self.newest_up_to(asked.t2)?;
        pages.header = moves;
        while pointer.is_live(state.oldest) {
            let number = usize::from(pointer.slot);
            let header = Header::load(self.nand, number, self.slots, before)?;
            if self.may_match(number, &header, asked, &mut pages.bloom) {
                let segment = Segment::closed(self.nand, number, header.count, header.buckets);
                let (matches, tree_pages) = segment.matches(asked)?;
                pages.tree += tree_pages;
                take(&segment, matches);
            }
            if header.start < asked.t1 {
                break;
            }
            (pointer, before) = (header.next[0], header.serial);
        }
        Ok(pages)
    }

    /// By the skip pointers, level 4 down to 1, to the newest closed segment with start not above t2: its pointer, the serial
    /// of the header before it, and how many headers were moved onto.
    fn newest_up_to(&self, t2: u64) -> Result<(Pointer, u32, u32), Ground> {
        let (mut pointers, mut before, mut moves) = (self.state.heads, self.state.open, 0);
        for level in (0..4).rev() {
            while pointers[level].is_live(self.state.oldest) && pointers[level].time > t2 {
                let number = usize::from(pointers[level].slot);
                let header = Header::load(self.nand, number, self.slots, before)?;
                (pointers, before) = (header.next, header.serial);
                moves += 1;
            }
        }
        Ok((pointers[0], before, moves))
    }

    fn may_match(&self, number: usize, header: &Header, asked: &Asked, bloom_pages: &mut u32) -> bool {
        let meets = header.high >= asked.k1 && header.low <= asked.k2;
        if !meets || asked.k1 < asked.k2 {
            return meets;
        }
        bloom::may_hold(slot(self.nand, number), header.count, asked.k1, bloom_pages)
    }
}
