//! Document 01, "Tree", first half: a bucket read from its 128 bytes, and the damage test.
use super::numbers::{u16_at, u32_at};
use super::work::BUCKET_BYTES;
use crate::limits::{refuse_if, Outcome, BUCKET_ENTRIES, DAMAGE, GREATEST_LOAD, LOAD_SHIFT};

pub const MID_OFFSET: usize = 8;
pub const LEFT_OFFSET: usize = 12;
pub const RIGHT_OFFSET: usize = 13;
pub const NO_CHILD: u8 = 255;
const UNUSED_MID: u32 = u32::MAX;
const UNUSED_POSITION: u16 = 65_535;

pub fn entry_offset(entry: usize) -> usize {
    24 + 8 * entry
}

pub struct Entry {
    /// Stored loads have no limit of their own, so neither have these.
    pub load: i64,
    pub position: usize,
}

pub struct Bucket {
    pub x: i64,
    pub y: i64,
    pub mid: Option<i64>,
    pub left: u8,
    pub right: u8,
    pub entries: Vec<Entry>,
}

fn load_at(bytes: &[u8], offset: usize) -> i64 {
    i64::from(u32_at(bytes, offset)) - LOAD_SHIFT
}

impl Bucket {
    /// Reads bucket `number` of a tree of `buckets` over `count` lifts, checked whole.
    pub fn read(tree: &[u8], number: usize, buckets: usize, count: usize) -> Outcome<Bucket> {
        let bytes = &tree[number * BUCKET_BYTES..(number + 1) * BUCKET_BYTES];
        let used = u32_at(bytes, MID_OFFSET) != UNUSED_MID;
        let bucket = Bucket {
            x: load_at(bytes, 0),
            y: load_at(bytes, 4),
            mid: used.then(|| load_at(bytes, MID_OFFSET)),
            left: bytes[LEFT_OFFSET],
            right: bytes[RIGHT_OFFSET],
            entries: entries(bytes),
        };
        refuse_if(bucket.is_damaged(number, buckets, count), DAMAGE)?;
        Ok(bucket)
    }

    fn is_damaged(&self, number: usize, buckets: usize, count: usize) -> bool {
        let bad_child = |child: u8| {
            let child_number = usize::from(child);
            child != NO_CHILD && (child_number <= number || child_number >= buckets)
        };
        let bad_range = !(self.x < self.y && self.y <= i64::from(GREATEST_LOAD));
        let bad_split = match self.mid {
            Some(mid) => !(self.x < mid && mid <= self.y) || bad_child(self.left) || bad_child(self.right),
            None => false,
        };
        bad_range || bad_split || self.entries.iter().any(|entry| entry.position >= count)
    }

    pub fn is_full(&self) -> bool {
        self.entries.len() == BUCKET_ENTRIES
    }
}

/// The entries up to the first whose position is 65,535.
fn entries(bytes: &[u8]) -> Vec<Entry> {
    let mut entries = Vec::new();
    for offset in (0..BUCKET_ENTRIES).map(entry_offset) {
        let position = u16_at(bytes, offset + 4);
        if position == UNUSED_POSITION {
            break;
        }
        entries.push(Entry { load: load_at(bytes, offset), position: usize::from(position) });
    }
    entries
}
