//! Timed rounds: in each, every contender makes the same calls, one after the other.
use crate::carried::{backward, backward_in_place, Carried, OldStore};
use crate::clock;
use crate::field::{Field, CONTENDERS};
use crate::filled::Filled;
use crate::gym::Gym;
use crate::lift::{Contender, Lift};
use crate::proved::Proved;
use crate::service_page::ServicePage;
use plain::{plate_on, OldState, State, Window};
use std::hint::black_box;
use std::time::{Duration, Instant};

const ROUNDS_LEAST: usize = 7;
const ROUNDS_MOST: usize = 31;
const TIME_FOR_ROUNDS: Duration = Duration::from_millis(2_500);
/// A contender repeats its calls until a round is long enough for the clock, in nanoseconds.
const ROUND_LEAST: f64 = 2e6;
/// Appends change the log, so their number is fixed: every run asks the same questions of the same lifts.
const APPEND_ROUNDS: usize = 15;
const APPENDS_A_ROUND: usize = 20_000;
/// A lookup is short: so many loads are looked up one after another.
const LOADS_LOOKED_UP: usize = 4_096;

/// The nanoseconds a call of one contender, round by round; none where it was not to be had.
pub type Rounds = Vec<f64>;
/// The same of every contender, in their order.
type AllRounds = [Rounds; CONTENDERS];
/// One round: a time for each contender that is there.
type Round = [Option<f64>; CONTENDERS];

/// The smallest, the median and the largest.
pub fn spread(mut values: Vec<f64>) -> Option<[f64; 3]> {
    values.sort_by(f64::total_cmp);
    Some([*values.first()?, values[values.len() / 2], *values.last()?])
}

/// The median of the rounds' ratios: what slows the machine for a while slows both sides of a round.
pub fn ratio(above: &Rounds, below: &Rounds) -> Option<f64> {
    spread(above.iter().zip(below).map(|(a, b)| a / b).collect()).map(|[_, median, _]| median)
}

/// One kind of call at one S, the contenders in their order.
pub struct Line {
    /// None where the call has no store.
    pub slots: Option<u64>,
    pub call: &'static str,
    /// Lifts found, counted or carried over by a call, on average.
    pub found: f64,
    pub rounds: AllRounds,
}

pub fn ns_per_call(calls: usize, run: impl FnOnce()) -> f64 {
    let start = clock::nanoseconds();
    run();
    (clock::nanoseconds() - start) as f64 / calls as f64
}

/// Rounds while they are wanted; `round` hands back a time for each contender, the first to start given.
fn rounds(wanted: impl Fn(usize) -> bool, mut round: impl FnMut(usize) -> Round) -> AllRounds {
    let mut all: AllRounds = Default::default();
    let mut n = 0;
    while wanted(n) {
        for (rounds, ns) in all.iter_mut().zip(round(n % CONTENDERS)) {
            rounds.extend(ns);
        }
        n += 1;
    }
    all
}

/// Appends of the next lifts to the filled contenders: every round drops some segments.
pub fn appends(field: &mut Field, call: &'static str) -> Line {
    let rounds = rounds(
        |n| n < APPEND_ROUNDS,
        |first| {
            let lifts: Vec<Lift> = field.next_lifts(APPENDS_A_ROUND);
            let ns = one_round(field, first, |contender, _| ns_per_call(lifts.len(), || contender.append_all(&lifts)));
            field.settle(&lifts);
            ns
        },
    );
    field.check_bytes();
    Line { slots: Some(field.slots), call, found: 1.0, rounds }
}

/// The store's appends at two sizes, in turns: the larger one's time over the smaller one's. The other contenders stay behind.
pub fn append_ratio(small: &mut Field, large: &mut Field) -> f64 {
    let mut sizes = [small, large].map(|field| (field, Rounds::new()));
    for _ in 0..APPEND_ROUNDS {
        for (field, rounds) in &mut sizes {
            let lifts = field.next_lifts(APPENDS_A_ROUND);
            rounds.push(ns_per_call(lifts.len(), || field.proved.append_all(&lifts)));
        }
    }
    ratio(&sizes[1].1, &sizes[0].1).expect("some rounds")
}

pub fn searches(field: &mut Field, call: &'static str, windows: &[Window]) -> Line {
    let found = field.check_searches(windows);
    let rounds = repeated(field, windows, |contender, rows| contender.search_all(windows, rows));
    Line { slots: Some(field.slots), call, found: found as f64 / windows.len() as f64, rounds }
}

/// Searches by the store and by (a) alone: the nanoseconds of each.
pub fn searches_in_turns(filled: &mut Filled, windows: &[Window]) -> [Rounds; 2] {
    let mut rows = filled.result_area();
    let Filled { proved, in_place, .. } = filled;
    let [store, plain, ..] = in_turns(|by| match by {
        Side::Store => proved.search_all(windows, &mut rows),
        Side::InPlace => in_place.search_all(windows, &mut rows),
    });
    [store, plain].map(|rounds| of_each(windows.len(), rounds))
}

pub fn tallies(field: &mut Field, call: &'static str, windows: &[Window]) -> Line {
    let found = field.check_tallies(windows);
    let rounds = repeated(field, windows, |contender, _| contender.tally_all(windows));
    Line { slots: Some(field.slots), call, found: found as f64 / windows.len() as f64, rounds }
}

/// The page of a window, by the store and by (a).
pub fn page(field: &Field, call: &'static str, window: &Window) -> Line {
    let Window { t1, t2, .. } = *window;
    let [mut page, mut plain_page] = [[0; size_of::<ServicePage>()]; 2];
    let rounds = in_turns(|by| match by {
        Side::Store => assert_eq!(field.proved.page(t1, t2, &mut page), 0),
        Side::InPlace => field.in_place.page(t1, t2, &mut plain_page).expect("a page"),
    });
    assert!(page == plain_page, "pages differ");
    Line { slots: Some(field.slots), call, found: field.retained() as f64, rounds }
}

/// Forward and backward of a filled store, by the store and by (a).
pub fn conversions(slots: u64, calls: [&'static str; 2]) -> [Line; 2] {
    let carried = Carried::filled(slots);
    carried.check();
    let Carried { mut new, old } = carried;
    let found = new.retained() as f64;
    let (state, old_state) = (State::from_bytes(&new.state), OldState::from_bytes(&old.state));
    let mut to_new = Proved::new(slots);
    let forward = in_turns(|by| match by {
        Side::Store => assert_eq!(old.forward(&mut to_new), 0),
        Side::InPlace => drop(black_box(old.forward_in_place(&old_state, &mut to_new).expect("a way"))),
    });
    let mut to_old = OldStore::room_for(&new);
    let backward = in_turns(|by| match by {
        Side::Store => assert_eq!(backward(&new, &mut to_old), 0),
        Side::InPlace => drop(black_box(backward_in_place(&new, &state, &mut to_old).expect("a way"))),
    });
    let [forward_call, backward_call] = calls;
    [
        Line { slots: Some(slots), call: forward_call, found, rounds: forward },
        Line { slots: Some(slots), call: backward_call, found, rounds: backward },
    ]
}

/// The loads of a gym looked up on the carried stack at a place, by the store and by (a).
pub fn lookups(place: u64, call: &'static str) -> Line {
    let lifts = Gym::new(20_260_703).lifts(LOADS_LOOKED_UP);
    let loads: Vec<i32> = lifts.iter().take(LOADS_LOOKED_UP).map(|lift| lift.load).collect();
    let mut answer = [0; 8];
    let rounds = in_turns(|by| match by {
        Side::Store => loads.iter().for_each(|load| assert_eq!(Proved::plate(place, *load, &mut answer), 0)),
        Side::InPlace => loads.iter().for_each(|load| assert!(black_box(plate_on(place, *load)).is_ok())),
    });
    Line { slots: None, call, found: 0.0, rounds: rounds.map(|rounds| of_each(LOADS_LOOKED_UP, rounds)) }
}

/// The time of one call where so many were made at once.
pub fn of_each(calls: usize, rounds: Rounds) -> Rounds {
    rounds.into_iter().map(|ns| ns / calls as f64).collect()
}

/// The two contenders that keep the store's bytes.
#[derive(Clone, Copy)]
enum Side {
    Store,
    InPlace,
}

/// Rounds of one call by the store and by (a).
fn in_turns(mut run: impl FnMut(Side)) -> AllRounds {
    of_both(in_turns_of(|i| run([Side::Store, Side::InPlace][i])))
}

/// The rounds of the store and of (a) where the others have no such call.
pub fn of_both([store, in_place]: [Rounds; 2]) -> AllRounds {
    let mut all = AllRounds::default();
    (all[0], all[1]) = (store, in_place);
    all
}

/// Rounds of one call each of so many kinds, every kind in turn the first.
pub fn in_turns_of<const N: usize>(mut run: impl FnMut(usize)) -> [Rounds; N] {
    let repeats = std::array::from_fn::<_, N, _>(|i| (ROUND_LEAST / ns_per_call(1, || run(i)).max(1.0)) as usize + 1);
    let mut all = [const { Rounds::new() }; N];
    let start = Instant::now();
    let mut n = 0;
    while n < ROUNDS_LEAST || (n < ROUNDS_MOST && start.elapsed() < TIME_FOR_ROUNDS) {
        for i in (0..N).map(|i| (n + i) % N) {
            all[i].push(ns_per_call(repeats[i], || (0..repeats[i]).for_each(|_| run(i))));
        }
        n += 1;
    }
    all
}

fn one_round(field: &mut Field, first: usize, mut time: impl FnMut(&mut dyn Contender, usize) -> f64) -> Round {
    let mut ns = [None; CONTENDERS];
    let mut contenders = field.contenders();
    for i in (0..CONTENDERS).map(|i| (first + i) % CONTENDERS) {
        ns[i] = contenders[i].as_mut().map(|contender| time(&mut **contender, i));
    }
    ns
}

fn repeated(field: &mut Field, windows: &[Window], run: impl Fn(&mut dyn Contender, &mut [u8])) -> AllRounds {
    let mut rows = std::mem::take(&mut field.rows);
    let mut repeats = [1; CONTENDERS];
    one_round(field, 0, |contender, i| {
        let once = ns_per_call(1, || run(contender, &mut rows)).max(1.0);
        repeats[i] = (ROUND_LEAST / once) as usize + 1;
        once
    });
    let start = Instant::now();
    let wanted = |n| n < ROUNDS_LEAST || (n < ROUNDS_MOST && start.elapsed() < TIME_FOR_ROUNDS);
    let rounds = rounds(wanted, |first| {
        one_round(field, first, |contender, i| {
            ns_per_call(windows.len() * repeats[i], || (0..repeats[i]).for_each(|_| run(contender, &mut rows)))
        })
    });
    field.rows = rows;
    rounds
}
