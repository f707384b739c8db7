//! The search lines of the store and of (a) alone, in some seconds, for bench/turns.
use crate::filled::Filled;
use crate::measure::{searches_in_turns, spread};
use crate::questions::Asked;
use crate::{report, SIZES};

/// A line for each: S, the call, the median nanoseconds of the store and of (a), apart by tabs.
pub fn print() {
    for slots in SIZES {
        let mut filled = Filled::new(slots);
        let Asked { recent_days, any_days, whole_log, absent } = Asked::of(slots, filled.span());
        let lines = [
            (report::RECENT_DAY, recent_days),
            (report::ANY_DAY, any_days),
            (report::WHOLE_LOG, whole_log),
            (report::ABSENT, absent),
        ];
        for (call, windows) in lines {
            let rounds = searches_in_turns(&mut filled, &windows);
            let [store, in_place] = rounds.map(|rounds| spread(rounds).expect("some rounds")[1]);
            println!("{slots}\t{call}\t{store:.0}\t{in_place:.0}");
        }
    }
}
