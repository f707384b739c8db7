//! W-208 as one would write it by hand: both logs are arrays of rows whose times do not fall.
use crate::lift::RECORD_BYTES;

pub type Record = [u8; RECORD_BYTES];
pub const PAIR_BYTES: usize = 2 * RECORD_BYTES;

const LATER_MOST: u64 = 30_000;

fn time_of(record: &Record) -> u64 {
    u64::from_le_bytes(record[..8].try_into().unwrap())
}

fn member_of(record: &Record) -> u32 {
    u32::from_le_bytes(record[12..16].try_into().unwrap())
}

/// A bit for each lift of the second machine.
struct Used(Vec<u64>);

impl Used {
    fn none_of(lifts: usize) -> Used {
        Used(vec![0; lifts.div_ceil(64)])
    }

    fn has(&self, place: usize) -> bool {
        self.0[place / 64] >> (place % 64) & 1 == 1
    }

    fn insert(&mut self, place: usize) {
        self.0[place / 64] |= 1 << (place % 64);
    }
}

/// The pairs go to the start of the area, which has room for them; their number is handed back.
pub fn pair_up(first: &[Record], second: &[Record], area: &mut [u8]) -> usize {
    let mut used = Used::none_of(second.len());
    let mut rows = area.chunks_exact_mut(PAIR_BYTES);
    // No lift before this place is later than the present one, nor than those to come.
    let mut from = 0;
    let mut pairs = 0;
    for lift in first {
        let (time, member) = (time_of(lift), member_of(lift));
        if member == 0 {
            continue;
        }
        while second.get(from).is_some_and(|other| time_of(other) <= time) {
            from += 1;
        }
        let due = second[from..].iter().take_while(|other| time_of(other) <= time + LATER_MOST);
        let joined = (from..).zip(due).find(|(place, other)| member_of(other) == member && !used.has(*place));
        if let Some((place, other)) = joined {
            used.insert(place);
            let row = rows.next().expect("room for a pair");
            row[..RECORD_BYTES].copy_from_slice(lift);
            row[RECORD_BYTES..].copy_from_slice(other);
            pairs += 1;
        }
    }
    pairs
}
