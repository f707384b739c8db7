//! The tree of load ranges as plain structs: tells when a segment's loads need bucket 36.
use crate::limits::{BUCKET_ENTRIES, GREATEST_LOAD, LOAD_SHIFT, SEGMENT_BUCKETS};
use crate::split;

#[derive(Clone)]
struct Bucket {
    /// The range (x, y].
    x: i64,
    y: i64,
    loads: Vec<i64>,
    split: Option<Split>,
}

#[derive(Clone)]
struct Split {
    mid: i64,
    left: Option<Box<Bucket>>,
    right: Option<Box<Bucket>>,
}

impl Bucket {
    fn new(x: i64, y: i64, load: i64) -> Bucket {
        Bucket { x, y, loads: vec![load], split: None }
    }

    /// Puts a load into this bucket or below it; nowhere, if that takes a bucket and `may_allocate` is false.
    fn put(&mut self, load: i64, last_loads: &[i32; 13], may_allocate: bool) -> Placed {
        if self.split.is_none() && self.loads.len() < BUCKET_ENTRIES {
            self.loads.push(load);
            return Placed::InPresentBucket;
        }
        if self.split.is_none() && !may_allocate {
            return Placed::Nowhere;
        }
        let (x, y) = (self.x, self.y);
        let made = || Split { mid: split::mid(x, y, last_loads), left: None, right: None };
        let Split { mid, left, right } = self.split.get_or_insert_with(made);
        let (child, x, y) = if load <= *mid { (left, x, *mid) } else { (right, *mid, y) };
        match child {
            Some(bucket) => bucket.put(load, last_loads, may_allocate),
            None if may_allocate => {
                *child = Some(Box::new(Bucket::new(x, y, load)));
                Placed::InNewBucket
            }
            None => Placed::Nowhere,
        }
    }
}

#[derive(PartialEq)]
enum Placed {
    InPresentBucket,
    InNewBucket,
    Nowhere,
}

/// The tree of one segment's loads.
#[derive(Clone, Default)]
pub struct LoadTree {
    root: Option<Bucket>,
    buckets: usize,
    /// Oldest first, from place 0; at most the last 13.
    last_loads: Vec<i32>,
}

impl LoadTree {
    /// Whether the segment has to close before it takes this load.
    pub fn needs_bucket_36(&self, load: i32) -> bool {
        self.buckets == SEGMENT_BUCKETS && !self.clone().take(load)
    }

    /// Takes the next load of the segment, or returns false, unchanged, if it needs bucket 36.
    pub fn take(&mut self, load: i32) -> bool {
        let mut before = [0; 13];
        before[..self.last_loads.len()].copy_from_slice(&self.last_loads);
        let may_allocate = self.buckets < SEGMENT_BUCKETS;
        let placed = match &mut self.root {
            Some(root) => root.put(i64::from(load), &before, may_allocate),
            None => {
                self.root = Some(Bucket::new(-LOAD_SHIFT, i64::from(GREATEST_LOAD), i64::from(load)));
                Placed::InNewBucket
            }
        };
        if placed == Placed::Nowhere {
            return false;
        }
        self.buckets += usize::from(placed == Placed::InNewBucket);
        if self.last_loads.len() == before.len() {
            self.last_loads.remove(0);
        }
        self.last_loads.push(load);
        true
    }
}
