//! W-207: the pages that a day's search reads, beside the headers that there are.
use crate::filled::Filled;
use crate::gym::DAY;
use crate::proved::Proved;
use plain::{State, Window, LOAD_MAX, LOAD_MIN, PAGE_BYTES, SLOT_BYTES};

const SIZES: [u64; 3] = [64, 512, 4_096];
/// The header page of a slot, and a segment's start in it.
const START_AT: usize = 31 * PAGE_BYTES + 16;

/// The windows of a day: all its loads, and the load of the lift in its middle.
fn questions(filled: &Filled, day: u64) -> [(&'static str, Window); 2] {
    let of_day: Vec<_> = filled.retained.iter().filter(|lift| lift.time / DAY == day).collect();
    let load = of_day[of_day.len() / 2].load;
    let (t1, t2) = (day * DAY, day * DAY + DAY - 1);
    [("all", Window { t1, t2, k1: LOAD_MIN, k2: LOAD_MAX }), ("one", Window { t1, t2, k1: load, k2: load })]
}

/// How many closed segments a search goes through from the one found on: their headers are read, too.
fn gone_through(store: &Proved, window: &Window) -> usize {
    let state = State::from_bytes(&store.state);
    if state.count > 0 && state.start < window.t1 {
        return 0;
    }
    let start = |serial: u32| {
        let slot = (u64::from(serial) - 1) % store.slots;
        let at = slot as usize * SLOT_BYTES + START_AT;
        u64::from_le_bytes(store.nand[at..at + 8].try_into().unwrap())
    };
    let from_found_on = (state.oldest..state.open).rev().map(start).skip_while(|start| *start > window.t2);
    let starts: Vec<u64> = from_found_on.collect();
    starts.iter().position(|start| *start < window.t1).map_or(starts.len(), |last| last + 1)
}

pub fn print() {
    println!(
        "| S | closed segments | day | loads | headers, walk | headers, found on | Bloom pages | tree pages | rows |"
    );
    println!("|---|---|---|---|---|---|---|---|---|");
    for slots in SIZES {
        let filled = Filled::new(slots);
        let state = State::from_bytes(&filled.proved.state);
        let lifts = &filled.retained;
        let days = [("newest", lifts.len() - 1), ("middle", lifts.len() / 2), ("oldest", 0)];
        for (name, place) in days {
            for (loads, window) in questions(&filled, lifts[place].time / DAY) {
                let found = filled.find(&window);
                println!(
                    "| {slots} | {} | {name} | {loads} | {} | {} | {} | {} | {} |",
                    state.open - state.oldest,
                    found.pages.header,
                    gone_through(&filled.proved, &window),
                    found.pages.bloom,
                    found.pages.tree,
                    found.rows
                );
            }
        }
    }
}
