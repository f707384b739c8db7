//! The tree of load ranges: a bucket as read with its damage test, and the plan of an insertion.
use crate::bytes::{u16_at, u32_at};
use crate::split::mid_of;
use crate::{Ground, BUCKETS_MAX, CODE_MAX, LIFTS_MAX, LOAD_OFFSET};

pub const BUCKET_BYTES: usize = 128;
pub const TREE_BYTES: usize = 4_608;
pub const BUCKETS_PER_PAGE: u8 = 4;
pub const MID_AT: usize = 8;
pub const LEFT_AT: usize = 12;
pub const RIGHT_AT: usize = 13;
pub const NO_CHILD: u8 = 255;
const NO_MID: u32 = u32::MAX;
const NO_POSITION: u16 = u16::MAX;
const ENTRIES_AT: usize = 24;
const ENTRY_BYTES: usize = 8;
const ENTRIES: usize = 13;

/// Where entry i of bucket b stands in the tree's area.
pub fn entry_at(b: u8, i: usize) -> usize {
    usize::from(b) * BUCKET_BYTES + ENTRIES_AT + ENTRY_BYTES * i
}

/// A bucket without damage.
pub struct Bucket<'a> {
    bytes: &'a [u8; BUCKET_BYTES],
    x: u32,
    y: u32,
    /// Mid, left and right child of a split bucket.
    pub split: Option<(u32, u8, u8)>,
    used: usize,
}

impl<'a> Bucket<'a> {
    /// Bucket b of a tree with so many buckets, in a segment of `count` lifts; checked whole.
    pub fn read(tree: &'a [u8; TREE_BYTES], b: u8, buckets: u8, count: u16) -> Result<Self, Ground> {
        let at = usize::from(b) * BUCKET_BYTES;
        let bytes: &[u8; BUCKET_BYTES] = tree[at..at + BUCKET_BYTES].try_into().unwrap();
        let (x, y, mid) = (u32_at(bytes, 0), u32_at(bytes, 4), u32_at(bytes, MID_AT));
        let (left, right) = (bytes[LEFT_AT], bytes[RIGHT_AT]);
        let split = (mid != NO_MID).then_some((mid, left, right));
        let child_ok = |c: u8| c == NO_CHILD || (b < c && c < buckets);
        let split_ok = split.is_none() || (x < mid && mid <= y && child_ok(left) && child_ok(right));
        if !(x < y && y <= CODE_MAX && split_ok) {
            return Err(Ground::Damage);
        }
        let mut used = 0;
        while used < ENTRIES {
            let position = u16_at(bytes, ENTRIES_AT + ENTRY_BYTES * used + 4);
            if position == NO_POSITION {
                break;
            }
            if position >= count {
                return Err(Ground::Damage);
            }
            used += 1;
        }
        Ok(Bucket { bytes, x, y, split, used })
    }

    /// Stored load and position of each entry.
    pub fn entries(&self) -> impl Iterator<Item = (u32, u16)> + 'a {
        let entries = &self.bytes[ENTRIES_AT..ENTRIES_AT + ENTRY_BYTES * self.used];
        entries.chunks_exact(ENTRY_BYTES).map(|e| (u32_at(e, 0), u16_at(e, 4)))
    }
}

/// Where a new entry goes.
pub enum Plan {
    /// The segment closes first.
    Full,
    Root,
    Entry {
        bucket: u8,
        i: usize,
    },
    /// A new child with range (x, y] below `parent`, which is split at `mid` if it was not yet.
    Child {
        parent: u8,
        mid: Option<u32>,
        side: usize,
        x: u32,
        y: u32,
    },
}

pub fn plan(tree: &[u8; TREE_BYTES], buckets: u8, count: u16, loads: &[i32; 13], code: u32) -> Result<Plan, Ground> {
    match count {
        0 => return Ok(Plan::Root),
        LIFTS_MAX => return Ok(Plan::Full),
        _ => {}
    }
    let mut b = 0;
    loop {
        let bucket = Bucket::read(tree, b, buckets, count)?;
        match bucket.split {
            Some((mid, left, right)) => {
                let child = if code <= mid { left } else { right };
                if child == NO_CHILD {
                    return Ok(new_child(&bucket, b, buckets, mid, None, code));
                }
                b = child;
            }
            None if bucket.used < ENTRIES => return Ok(Plan::Entry { bucket: b, i: bucket.used }),
            None => {
                let signed = |end: u32| end as i32 - LOAD_OFFSET;
                let mid = (mid_of(signed(bucket.x), signed(bucket.y), loads) + LOAD_OFFSET) as u32;
                return Ok(new_child(&bucket, b, buckets, mid, Some(mid), code));
            }
        }
    }
}

fn new_child(bucket: &Bucket, parent: u8, buckets: u8, at: u32, mid: Option<u32>, code: u32) -> Plan {
    if buckets == BUCKETS_MAX {
        Plan::Full
    } else if code <= at {
        Plan::Child { parent, mid, side: LEFT_AT, x: bucket.x, y: at }
    } else {
        Plan::Child { parent, mid, side: RIGHT_AT, x: at, y: bucket.y }
    }
}
