//! Document 02, W-208: supersets across two machines, over the rows of both logs.
use crate::limits::{refuse_if, Outcome, TOO_MANY_PAIRS};
use crate::paper::{PaperLog, Record};

/// A lift of the first machine and the one of the second that it joins.
pub type Pair = [Record; 2];

/// "that is later by 1 to 30,000 ms"
const LATER: std::ops::RangeInclusive<u64> = 1..=30_000;

fn time_of(record: &Record) -> u64 {
    u64::from_le_bytes(record[..8].try_into().unwrap())
}

/// "The first four note bytes now hold a member number, 0 for none."
fn member_of(record: &Record) -> u32 {
    u32::from_le_bytes(record[12..16].try_into().unwrap())
}

/// "by the same member, other than 0, that is later by 1 to 30,000 ms"
fn may_join(lift: &Record, other: &Record) -> bool {
    let member = member_of(lift);
    let later = time_of(other).checked_sub(time_of(lift));
    member != 0 && member_of(other) == member && later.is_some_and(|ms| LATER.contains(&ms))
}

/// "Each lift of the first machine, in turn, joins the first unused lift of the second [..]; otherwise it stands alone."
pub fn pairs(first: &[Record], second: &[Record]) -> Vec<Pair> {
    let mut unused = second.to_vec();
    let mut pairs = Vec::new();
    for lift in first {
        if let Some(place) = unused.iter().position(|other| may_join(lift, other)) {
            pairs.push([*lift, unused.remove(place)]);
        }
    }
    pairs
}

/// The pairs of two paper logs.
pub fn of_logs(first: &PaperLog, second: &PaperLog) -> Vec<Pair> {
    let [first, second] = [first, second].map(|log| log.lifts().map(|lift| lift.record()).collect::<Vec<_>>());
    pairs(&first, &second)
}

/// "16: the pairs outnumber the whole 64-byte rows of their area"
pub fn check_area(pairs: &[Pair], area_bytes: usize) -> Outcome<()> {
    refuse_if(pairs.len() > area_bytes / size_of::<Pair>(), TOO_MANY_PAIRS)
}

#[cfg(test)]
mod tests {
    use super::*;
    use crate::limits::ROW_BYTES;

    /// A lift by a member at a time, its last byte a mark to tell it by.
    fn lift(time: u64, member: u32, mark: u8) -> Record {
        let mut record = [0; ROW_BYTES];
        record[..8].copy_from_slice(&time.to_le_bytes());
        record[12..16].copy_from_slice(&member.to_le_bytes());
        record[ROW_BYTES - 1] = mark;
        record
    }

    fn marks(first: &[Record], second: &[Record]) -> Vec<[u8; 2]> {
        pairs(first, second).iter().map(|pair| pair.map(|record| record[ROW_BYTES - 1])).collect()
    }

    #[test]
    fn later_by_1_to_30_000_ms() {
        for (time, joins) in [(999, false), (1_000, false), (1_001, true), (31_000, true), (31_001, false)] {
            let expected = if joins { vec![[1, 2]] } else { vec![] };
            assert_eq!(marks(&[lift(1_000, 7, 1)], &[lift(time, 7, 2)]), expected, "at {time}");
        }
    }

    #[test]
    fn by_the_same_member_other_than_0() {
        for (member, other, joins) in [(7, 7, true), (7, 8, false), (0, 0, false), (7, 0, false), (7, 7 << 24, false)] {
            assert_eq!(marks(&[lift(0, member, 1)], &[lift(1, other, 2)]).len(), usize::from(joins));
        }
    }

    /// The first lift takes what the second one would have wanted, too; what is used stays used.
    #[test]
    fn each_in_turn_joins_the_first_unused() {
        let first = [lift(0, 7, 1), lift(10, 7, 2), lift(20, 7, 3)];
        let second = [lift(15, 7, 4), lift(30_005, 7, 5), lift(30_030, 7, 6)];
        assert_eq!(marks(&first, &second), [[1, 4], [2, 5]]);
    }

    /// First in the order of the rows, also where damage lets times fall.
    #[test]
    fn rows_in_their_order() {
        let second = [lift(900, 7, 2), lift(20, 7, 3), lift(10, 7, 4)];
        assert_eq!(marks(&[lift(0, 7, 1), lift(5, 7, 5)], &second), [[1, 2], [5, 3]]);
    }
}
