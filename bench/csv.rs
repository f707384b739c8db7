//! W-211: imports beside the appends that they make, and exports beside a search whose rows are written as text by hand.
use crate::csv_by_hand::{room_for, text_of, write_text};
use crate::filled::Filled;
use crate::gym::Gym;
use crate::kept_calls::KeptArea;
use crate::lift::{Contender, Lift, RECORD_BYTES};
use crate::measure::{in_turns_of, ns_per_call, of_each, ratio, Rounds};
use crate::proved::Proved;
use crate::questions::Asked;
use crate::report::{self, cell, grouped, ratio_cell};
use plain::{Window, LOAD_MAX, LOAD_MIN};
use std::hint::black_box;

const IMPORT_ROUNDS: usize = 45;
const RECORDS_A_HALF: usize = 10_000;

/// One call at one S: nanoseconds a lift.
pub struct CsvLine {
    slots: u64,
    call: &'static str,
    /// Lifts of a call, on average.
    lifts: f64,
    by_call: Rounds,
    beside: Rounds,
}

impl CsvLine {
    /// How many times what it stands beside the call takes, and in which words.
    pub fn times(&self) -> (String, f64) {
        let CsvLine { slots, call, by_call, beside, .. } = self;
        let by_others = match *call {
            report::IMPORT | report::IMPORT_KEPT => "the appends one by one",
            _ => "a search whose rows are written as text by hand",
        };
        let times = ratio(by_call, beside).expect("both are always measured");
        (format!("{call}, S = {slots}: at most {} times {by_others}", report::CSV_MOST), times)
    }
}

/// A store with its counts. Two of them have the same lifts: one takes an import, the other the appends, and they change
/// places from time to time, so that neither has the better memory.
#[derive(Clone)]
struct Counted {
    store: Proved,
    counts: KeptArea,
}

impl Counted {
    /// From a format on, every call keeps counts; enough lifts to fill the store and to force drops.
    fn filled(slots: u64, gym: &mut Gym) -> Counted {
        let mut counted = Counted { store: Proved::new(slots), counts: [0; size_of::<KeptArea>()] };
        counted.append(true, &lifts_of(gym, slots as usize * 330 + 2_000));
        counted
    }

    fn import(&mut self, keeping: bool, text: &[u8]) {
        let Counted { store, counts } = self;
        let answer = if keeping { store.import_kept(counts, text) } else { store.import(text) };
        assert_eq!(answer, (0, 0), "the store refuses an import");
    }

    fn append(&mut self, keeping: bool, lifts: &[Lift]) {
        let Counted { store, counts } = self;
        match keeping {
            true => lifts.iter().for_each(|lift| assert_eq!(store.put_kept(counts, lift), 0, "a refused append")),
            false => store.append_all(lifts),
        }
    }
}

/// The next lifts, with notes as an import makes them: the member alone.
fn lifts_of(gym: &mut Gym, at_least: usize) -> Vec<Lift> {
    let mut lifts = gym.lifts(at_least);
    lifts.iter_mut().for_each(|lift| lift.note[4..].fill(0));
    lifts
}

/// Rounds of two halves, between which the twins change places.
fn imports(twins: &mut [Counted; 2], keeping: bool, gym: &mut Gym) -> CsvLine {
    let [mut by_call, mut beside] = [Rounds::new(), Rounds::new()];
    let mut records = 0;
    for n in 0..IMPORT_ROUNDS {
        let mut ns = [0.0; 2];
        let mut in_round = 0;
        for one in 0..2 {
            let lifts = lifts_of(gym, RECORDS_A_HALF);
            let text = text_of(&lifts);
            for kind in [n % 2, 1 - n % 2] {
                ns[kind] += match kind {
                    0 => ns_per_call(1, || twins[one].import(keeping, &text)),
                    _ => ns_per_call(1, || twins[1 - one].append(keeping, &lifts)),
                };
            }
            in_round += lifts.len();
        }
        by_call.push(ns[0] / in_round as f64);
        beside.push(ns[1] / in_round as f64);
        records += in_round;
    }
    let [one, other] = twins;
    assert!(one.store == other.store && one.counts == other.counts, "imports and appends leave different stores");
    if keeping {
        assert!(one.counts == one.store.counts_due(), "counts are no tally of the whole log");
    }
    let lifts = records as f64 / (2 * IMPORT_ROUNDS) as f64;
    let call = if keeping { report::IMPORT_KEPT } else { report::IMPORT };
    CsvLine { slots: one.store.slots, call, lifts, by_call, beside }
}

/// The areas that texts go into, and the rows that one of them is written from.
struct Texts {
    exported: Vec<u8>,
    by_hand: Vec<u8>,
    rows: Vec<u8>,
}

impl Texts {
    fn by_export(&mut self, store: &Proved, window: &Window) -> usize {
        let (number, length) = store.export(window, &mut self.exported);
        assert_eq!(number, 0, "the store refuses an export");
        length
    }

    fn by_search(&mut self, store: &mut Proved, window: &Window) -> usize {
        let found = store.search(window, &mut self.rows);
        write_text(&self.rows[..found * RECORD_BYTES], &mut self.by_hand)
    }
}

/// The same bytes both ways, and then both in turns.
fn exports(filled: &mut Filled, texts: &mut Texts, call: &'static str, windows: &[Window]) -> CsvLine {
    let store = &mut filled.proved;
    let mut lifts = 0;
    for window in windows {
        let [length, by_hand] = [texts.by_export(store, window), texts.by_search(store, window)];
        assert!(texts.exported[..length] == texts.by_hand[..by_hand], "another text at {window:?}");
        lifts += texts.exported[..length].iter().filter(|byte| **byte == b'\n').count() - 1;
    }
    let rounds = in_turns_of(|kind| {
        for window in windows {
            black_box(match kind {
                0 => texts.by_export(store, window),
                _ => texts.by_search(store, window),
            });
        }
    });
    let [by_call, beside] = rounds.map(|rounds| of_each(lifts, rounds));
    CsvLine { slots: store.slots, call, lifts: lifts as f64 / windows.len() as f64, by_call, beside }
}

fn all_loads(window: &Window) -> Window {
    Window { k1: LOAD_MIN, k2: LOAD_MAX, ..*window }
}

pub fn measured(slots: u64) -> [CsvLine; 4] {
    let mut gym = Gym::new(20_260_711);
    let counted = Counted::filled(slots, &mut gym);
    let mut twins = [counted.clone(), counted];
    // First the imports that keep counts: after the others the counts are no tally.
    let kept = imports(&mut twins, true, &mut gym);
    let plain = imports(&mut twins, false, &mut gym);
    drop(twins);
    let mut filled = Filled::new(slots);
    let Asked { any_days, whole_log, .. } = Asked::of(slots, filled.span());
    let days: Vec<Window> = any_days.iter().map(all_loads).collect();
    let room = room_for(filled.proved.retained());
    let mut texts = Texts { exported: vec![0; room], by_hand: vec![0; room], rows: filled.result_area() };
    let day = exports(&mut filled, &mut texts, report::EXPORT_DAY, &days);
    let whole = exports(&mut filled, &mut texts, report::EXPORT_ALL, &[all_loads(&whole_log[0])]);
    [plain, kept, day, whole]
}

pub fn table(sizes: &[[CsvLine; 4]]) {
    println!("| S | call | lifts | ns a lift | one by one, or by hand | times |");
    println!("|---|---|---|---|---|---|");
    for CsvLine { slots, call, lifts, by_call, beside } in sizes.iter().flatten() {
        let times = ratio_cell(by_call, beside);
        println!("| {slots} | {call} | {} | {} | {} | {times} |", grouped(*lifts), cell(by_call), cell(beside));
    }
}
