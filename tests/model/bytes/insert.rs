//! An append's way through the open tree: where the load goes, then the NOR bytes that it writes.
use super::bucket::{entry_offset, Bucket, LEFT_OFFSET, MID_OFFSET, NO_CHILD, RIGHT_OFFSET};
use super::work::{Work, BUCKET_BYTES, TREE_BYTES};
use crate::limits::{Outcome, GREATEST_LOAD, LOAD_SHIFT, SEGMENT_BUCKETS};
use crate::split;

/// Where a load goes in the open tree.
pub enum Place {
    /// The tree is empty: a root.
    Root,
    Entry {
        bucket: usize,
        entry: usize,
    },
    /// A new child (x, y] of `parent`, which is split at `new_mid` first if it has none.
    Child {
        parent: usize,
        new_mid: Option<i64>,
        is_left: bool,
        x: i64,
        y: i64,
    },
}

impl Place {
    pub fn takes_a_bucket(&self) -> bool {
        !matches!(self, Place::Entry { .. })
    }
}

/// Descends from the root; damage in a bucket on the way is met here.
pub fn find_place(work: &Work, load: i32) -> Outcome<Place> {
    let state = &work.state;
    if state.count == 0 {
        return Ok(Place::Root);
    }
    let load = i64::from(load);
    let mut number = 0;
    loop {
        let tree = &work.nor[..TREE_BYTES];
        let bucket = Bucket::read(tree, number, state.buckets.into(), state.count.into())?;
        if bucket.mid.is_none() && !bucket.is_full() {
            return Ok(Place::Entry { bucket: number, entry: bucket.entries.len() });
        }
        let mid = bucket.mid.unwrap_or_else(|| split::mid(bucket.x, bucket.y, &state.last_loads));
        let is_left = load <= mid;
        let (child, x, y) = if is_left { (bucket.left, bucket.x, mid) } else { (bucket.right, mid, bucket.y) };
        if bucket.mid.is_none() {
            return Ok(Place::Child { parent: number, new_mid: Some(mid), is_left, x, y });
        }
        if child == NO_CHILD {
            return Ok(Place::Child { parent: number, new_mid: None, is_left, x, y });
        }
        number = child.into();
    }
}

fn stored(load: i64) -> [u8; 4] {
    ((load + LOAD_SHIFT) as u32).to_le_bytes()
}

fn write_entry(work: &mut Work, bucket: usize, entry: usize, load: i32) -> Outcome<()> {
    let offset = bucket * BUCKET_BYTES + entry_offset(entry);
    work.write_nor(offset, &stored(load.into()))?;
    work.write_nor(offset + 4, &work.state.count.to_le_bytes())
}

/// A new bucket gets the next number and the entry.
fn write_bucket(work: &mut Work, x: i64, y: i64, load: i32) -> Outcome<()> {
    let number = usize::from(work.state.buckets);
    assert!(number < SEGMENT_BUCKETS, "bucket numbers run from 0 to 35");
    work.write_nor(number * BUCKET_BYTES, &stored(x))?;
    work.write_nor(number * BUCKET_BYTES + 4, &stored(y))?;
    write_entry(work, number, 0, load)?;
    work.state.buckets += 1;
    Ok(())
}

pub fn write_place(work: &mut Work, place: &Place, load: i32) -> Outcome<()> {
    match *place {
        Place::Root => write_bucket(work, -LOAD_SHIFT, GREATEST_LOAD.into(), load),
        Place::Entry { bucket, entry } => write_entry(work, bucket, entry, load),
        Place::Child { parent, new_mid, is_left, x, y } => {
            let offset = parent * BUCKET_BYTES;
            if let Some(mid) = new_mid {
                work.write_nor(offset + MID_OFFSET, &stored(mid))?;
            }
            let child_offset = if is_left { LEFT_OFFSET } else { RIGHT_OFFSET };
            work.write_nor(offset + child_offset, &[work.state.buckets])?;
            write_bucket(work, x, y, load)
        }
    }
}
