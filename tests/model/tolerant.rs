//! Document 02, W-209: loads known within a tolerance, over the lifts that a log holds.
use crate::limits::*;
use crate::paper::{Lift, PaperLog, Record};
use script::calls::{Tolerant, Window};

/// The certain lifts and the possible ones.
pub type Lists = [Vec<Record>; 2];

/// The grounds that the window and the tolerance can meet. "17: d above 1,000, before the ranges are compared"
pub fn check_ranges(window: &Window, tolerance: u64) -> Outcome<()> {
    let Window { t1, t2, k1, k2 } = *window;
    refuse_if(time_past_limit(t1) || time_past_limit(t2), TIME_LIMIT)?;
    refuse_if(load_past_limit(k1) || load_past_limit(k2), LOAD_LIMIT)?;
    refuse_if(tolerance > MOST_TOLERANCE, TOLERANCE_LIMIT)?;
    refuse_if(t1 > t2 || k1 > k2, BACKWARD_RANGE)
}

/// "Ground 12 is met if either list outnumbers its area."
pub fn check_areas(lists: &Lists, area_bytes: [usize; 2]) -> Outcome<()> {
    let outnumbers = |(list, bytes): (&Vec<Record>, usize)| list.len() > bytes / ROW_BYTES;
    refuse_if(lists.iter().zip(area_bytes).any(outnumbers), TOO_MANY_ROWS)
}

/// The least and the greatest whole number within d of a logged load; no load limit stops them.
fn within(load: i32, tolerance: u64) -> [i64; 2] {
    [i64::from(load) - tolerance as i64, i64::from(load) + tolerance as i64]
}

/// "for which every whole number within d of the logged load lies between k1 and k2"
fn is_certain(load: i32, window: &Window, tolerance: u64) -> bool {
    let [least, greatest] = within(load, tolerance);
    i64::from(window.k1) <= least && greatest <= i64::from(window.k2)
}

/// "for which at least one does"
fn is_possible(load: i32, window: &Window, tolerance: u64) -> bool {
    let [least, greatest] = within(load, tolerance);
    greatest >= i64::from(window.k1) && least <= i64::from(window.k2)
}

/// Both lists of a log whose store is as its calls left it, or the first ground against them.
pub fn of_log(log: &PaperLog, call: &Tolerant) -> Outcome<Lists> {
    let Tolerant { slots, ref window, tolerance, area_bytes } = *call;
    refuse_if(slots != log.slots(), SLOTS_OR_NAND_LENGTH)?;
    check_ranges(window, tolerance)?;
    let lists = [is_certain, is_possible].map(|belongs| {
        let wanted =
            |lift: &&Lift| (window.t1..=window.t2).contains(&lift.time) && belongs(lift.load, window, tolerance);
        log.lifts().filter(wanted).map(|lift| lift.record()).collect()
    });
    check_areas(&lists, area_bytes)?;
    Ok(lists)
}

#[cfg(test)]
mod tests {
    use super::*;

    fn between(k1: i32, k2: i32) -> Window {
        Window { k1, k2, ..EVERYTHING }
    }

    /// Each number within d tried in turn, as the request words it.
    #[test]
    fn every_whole_number_and_at_least_one() {
        for (k1, k2) in [(-3, -3), (0, 0), (0, 1), (-2, 3), (5, 9), (LEAST_LOAD, -1), (4, GREATEST_LOAD)] {
            for tolerance in 0..6 {
                for load in -12..=18 {
                    let window = between(k1, k2);
                    let mut near = load - tolerance..=load + tolerance;
                    let lies_between = |load: i32| (k1..=k2).contains(&load);
                    let (all, any) = (near.clone().all(lies_between), near.any(lies_between));
                    let said = [is_certain, is_possible].map(|belongs| belongs(load, &window, tolerance as u64));
                    assert_eq!(said, [all, any], "load {load}, d {tolerance}, {k1} to {k2}");
                }
            }
        }
    }

    /// Numbers past the load limits count, too.
    #[test]
    fn at_the_load_limits() {
        for (load, tolerance, certain) in [
            (GREATEST_LOAD, 0, true),
            (GREATEST_LOAD, 1, false),
            (GREATEST_LOAD - 1, 1, true),
            (LEAST_LOAD, 0, true),
            (LEAST_LOAD, 1, false),
            (LEAST_LOAD + 1_000, 1_000, true),
            (LEAST_LOAD + 999, 1_000, false),
        ] {
            assert_eq!(is_certain(load, &EVERYTHING, tolerance), certain, "load {load}, d {tolerance}");
            assert!(is_possible(load, &EVERYTHING, tolerance));
        }
    }

    #[test]
    fn d_above_1_000_before_the_ranges() {
        let backward = between(1, 0);
        assert_eq!(check_ranges(&EVERYTHING, 1_000), Ok(()));
        assert_eq!(check_ranges(&backward, 1_000), Err(BACKWARD_RANGE));
        assert_eq!(check_ranges(&backward, 1_001), Err(TOLERANCE_LIMIT));
        assert_eq!(check_ranges(&between(GREATEST_LOAD + 1, 0), 1_001), Err(LOAD_LIMIT));
    }
}
