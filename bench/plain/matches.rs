//! The matches of one segment: a set of 320 places, found by its tree.
use crate::bytes::{page, slot, slot_of, u32_at, u64_at};
use crate::query::{Asked, Log};
use crate::tree::{Bucket, BUCKETS_PER_PAGE, NO_CHILD, TREE_BYTES};
use crate::{Ground, LIFTS_PER_PAGE, PAGE_BYTES, RECORD_BYTES, SLOT_BYTES, TREE_PAGE};

#[derive(Clone, Copy)]
pub struct Matches([u64; 5]);

impl Matches {
    pub fn len(&self) -> usize {
        self.0.iter().map(|word| word.count_ones() as usize).sum()
    }

    fn insert(&mut self, place: usize) {
        self.0[place / 64] |= 1 << (place % 64);
    }
}

impl Iterator for Matches {
    type Item = usize;

    fn next(&mut self) -> Option<usize> {
        let (i, word) = self.0.iter_mut().enumerate().find(|(_, word)| **word != 0)?;
        let place = 64 * i + word.trailing_zeros() as usize;
        *word &= *word - 1;
        Some(place)
    }
}

/// A segment to be searched: its tree and its records, those from place `tail_from` on in `tail`.
pub struct Segment<'a> {
    tree: &'a [u8; TREE_BYTES],
    slot: &'a [u8; SLOT_BYTES],
    tail: &'a [u8; PAGE_BYTES],
    tail_from: usize,
    count: u16,
    buckets: u8,
}

impl<'a> Segment<'a> {
    pub fn closed(nand: &'a [u8], number: usize, count: u16, buckets: u8) -> Self {
        let slot = slot(nand, number);
        let tree = slot[TREE_PAGE * PAGE_BYTES..][..TREE_BYTES].try_into().unwrap();
        let tail_from = usize::from(count);
        Segment { tree, slot, tail: page(slot, 0), tail_from, count, buckets }
    }

    /// The open segment's full pages are in NAND, the rest in the page buffer.
    pub fn open(log: &Log<'a>) -> Self {
        let state = log.state;
        Segment {
            tree: log.nor[..TREE_BYTES].try_into().unwrap(),
            slot: slot(log.nand, slot_of(state.open, log.slots)),
            tail: &state.page,
            tail_from: usize::from(state.count) / LIFTS_PER_PAGE * LIFTS_PER_PAGE,
            count: state.count,
            buckets: state.buckets,
        }
    }

    pub fn record(&self, place: usize) -> &'a [u8; RECORD_BYTES] {
        let (area, from) =
            if place < self.tail_from { (&self.slot[..], place) } else { (&self.tail[..], place - self.tail_from) };
        area[from * RECORD_BYTES..][..RECORD_BYTES].try_into().unwrap()
    }

    /// The places found and how many tree pages were read. Buckets in rising order of their numbers: a child's is above its
    /// parent's.
    pub fn matches(&self, asked: &Asked) -> Result<(Matches, u32), Ground> {
        let mut found = Matches([0; 5]);
        let mut due = 1u64;
        let mut pages_read = 0u32;
        while due != 0 {
            let b = due.trailing_zeros() as u8;
            due &= due - 1;
            pages_read |= 1 << (b / BUCKETS_PER_PAGE);
            let bucket = Bucket::read(self.tree, b, self.buckets, self.count)?;
            if let Some((mid, left, right)) = bucket.split {
                if left != NO_CHILD && mid >= asked.k1 {
                    due |= 1 << left;
                }
                if right != NO_CHILD && mid < asked.k2 {
                    due |= 1 << right;
                }
            }
            for (code, position) in bucket.entries() {
                if asked.k1 <= code && code <= asked.k2 {
                    let record = self.record(usize::from(position));
                    if u32_at(record, 8) != code {
                        return Err(Ground::Damage);
                    }
                    let time = u64_at(record, 0);
                    if asked.t1 <= time && time <= asked.t2 {
                        found.insert(usize::from(position));
                    }
                }
            }
        }
        Ok((found, pages_read.count_ones()))
    }
}
