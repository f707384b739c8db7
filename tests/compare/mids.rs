//! Searches whose range ends at the mid of a bucket, one of whose children is damaged.
use crate::damage::change_field;
use crate::judge::{Difference, Step};
use crate::trial::{Trial, BUCKETS, BUCKET_BYTES, TREE};
use model::limits::{GREATEST_LOAD, LAST_TIME, LEAST_LOAD};
use script::areas::SLOT_BYTES;
use script::calls::{Call, Window};
use script::command::Part;

/// A split bucket's mid and one of its children, as they stand in a tree's bytes.
struct Branch {
    mid: i32,
    is_left: bool,
    child: usize,
}

fn branches(tree: &[u8]) -> Vec<Branch> {
    let mut branches = Vec::new();
    for bucket in tree.chunks(BUCKET_BYTES) {
        let stored_mid = i32::from_le_bytes(bucket[8..12].try_into().unwrap());
        for (offset, is_left) in [(12, true), (13, false)] {
            let child = usize::from(bucket[offset]);
            if (1..=150_001).contains(&stored_mid) && child < BUCKETS {
                branches.push(Branch { mid: stored_mid - 50_001, is_left, child });
            }
        }
    }
    branches
}

/// Damages the child of some branch, if there is one: the loads of a range that just takes it in or just leaves it out.
pub fn damage_a_child(trial: &mut Trial, slots: u64) -> Result<Option<(i32, i32)>, Difference> {
    let slot = trial.random.index(slots as usize);
    let in_slot = slot * SLOT_BYTES + TREE;
    let (part, tree_at) = trial.random.pick(&[(Part::Nor, 0), (Part::Nand, in_slot)]);
    let branches = branches(&trial.areas().part(part)[tree_at..tree_at + BUCKETS * BUCKET_BYTES]);
    if branches.is_empty() {
        return Ok(None);
    }
    let branch = &branches[trial.random.index(branches.len())];
    let field = trial.random.pick(&[0, 4]);
    change_field(trial, part, tree_at + branch.child * BUCKET_BYTES + field, 4)?;
    let end = (branch.mid + trial.random.pick(&[0, 1])).clamp(LEAST_LOAD, GREATEST_LOAD);
    Ok(Some(if branch.is_left { (end, GREATEST_LOAD) } else { (LEAST_LOAD, end) }))
}

pub fn search_beside_damage(trial: &mut Trial, slots: u64) -> Step {
    let Some((k1, k2)) = damage_a_child(trial, slots)? else { return Ok(()) };
    let window = Window { t1: 0, t2: LAST_TIME, k1, k2 };
    trial.call(Call::Search { slots, window, area_bytes: 32 * 320 })
}
