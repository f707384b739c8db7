//! W-210: appends and drops that keep counts, by the store and by (a), each in turns with the plain call.
use crate::gym::Gym;
use crate::kept_calls::{counts_in, KeptArea};
use crate::kept_in_place::KeptInPlace;
use crate::measure::{ns_per_call, of_both, ratio, Line, Rounds};
use crate::proved::Proved;
use crate::report::{self, cell, grouped, ratio_cell, slots_cell};
use crate::twins::{Keeper, Task, Twins};

const APPEND_ROUNDS: usize = 45;
const APPENDS_A_HALF: usize = 10_000;
/// At S = 4,096 all rounds drop from one store, and no segment that was read or written shortly before.
const DROP_ROUNDS: usize = 31;
const DROPS_A_HALF: usize = 63;

/// Keeping counts and not, by the store and by (a).
const KINDS: usize = 4;

/// Twins of the store and of (a), all of the same lifts.
struct Sides {
    store: Vec<Twins<Proved>>,
    in_place: Vec<Twins<KeptInPlace>>,
}

/// Only the calls are timed; in nanoseconds.
fn timed<T: Keeper>(twins: &mut [Twins<T>], before: &[Twins<T>], task: Task, keeping: bool, one: usize) -> f64 {
    for (twins, before) in twins.iter_mut().zip(before) {
        twins.make_ready(task, keeping, one, before);
    }
    ns_per_call(1, || twins.iter_mut().for_each(|twins| twins.run(task, keeping, one)))
}

impl Sides {
    /// From a format on, every call keeps counts; enough lifts to fill the store and to force drops.
    fn filled(slots: u64, gym: &mut Gym) -> Sides {
        let lifts = gym.lifts(slots as usize * 330 + 2_000);
        let mut counts = [9; size_of::<KeptArea>()];
        let mut store = Proved::new(slots);
        assert_eq!(store.format_kept(&mut counts), 0, "the store refuses a format that keeps counts");
        let (mut in_place, mut plain_counts) = (KeptInPlace::of(&store), [9; 22]);
        in_place.format_kept(&mut plain_counts).expect("a format that keeps counts");
        for lift in &lifts {
            store.append_kept(&mut counts, lift);
            in_place.append_kept(&mut plain_counts, lift);
        }
        Sides { store: vec![Twins::new(store, counts)], in_place: vec![Twins::new(in_place, plain_counts)] }
    }

    /// So many copies of each.
    fn times(&self, copies: usize) -> Sides {
        let Sides { store, in_place } = self;
        Sides { store: vec![store[0].clone(); copies], in_place: vec![in_place[0].clone(); copies] }
    }

    /// All stores have the same bytes, and their counts are those of a tally of the whole log.
    fn check(&mut self) {
        let known = self.store[0].stores[0].clone();
        let due = self.store[0].stores[0].counts_due();
        for Twins { stores, counts } in &self.store {
            assert!(stores.iter().all(|store| *store == known), "stores differ");
            assert!(*counts == due, "counts are no tally of the whole log");
        }
        for Twins { stores, counts } in &self.in_place {
            assert!(stores.iter().all(|store| store.is(&known)), "(a) has other bytes");
            assert!(*counts == counts_in(&due), "(a) has other counts");
        }
    }

    /// The nanoseconds of each kind, one of the twins keeping counts, the other not.
    fn half(&mut self, before: Option<&Sides>, task: Task, first: usize, keeper: usize) -> [f64; KINDS] {
        let (store, in_place) = before.map_or((&[][..], &[][..]), |before| (&before.store, &before.in_place));
        let mut ns = [0.0; KINDS];
        for kind in (0..KINDS).map(|i| (first + i) % KINDS) {
            let keeping = kind < 2;
            let one = if keeping { keeper } else { 1 - keeper };
            ns[kind] = match kind % 2 {
                0 => timed(&mut self.store, store, task, keeping, one),
                _ => timed(&mut self.in_place, in_place, task, keeping, one),
            };
        }
        ns
    }
}

/// So many rounds, each of two halves between which the twins change places; a half hands back how many calls it made and what
/// they took, its keeper and the kind to begin with given.
fn in_halves(rounds: usize, mut half: impl FnMut(usize, usize) -> (usize, [f64; KINDS])) -> [Rounds; KINDS] {
    let mut all = [const { Rounds::new() }; KINDS];
    for n in 0..rounds {
        let halves = [0, 1].map(|keeper| half(n % KINDS, keeper));
        let calls: usize = halves.iter().map(|(calls, _)| calls).sum();
        for (kind, rounds) in all.iter_mut().enumerate() {
            rounds.push(halves.iter().map(|(_, ns)| ns[kind]).sum::<f64>() / calls as f64);
        }
    }
    all
}

/// One kind of call at one S.
pub struct KeptLine {
    /// Keeping counts, by the store and by (a).
    pub line: Line,
    /// The plain call, by the store and by (a).
    plain: [Rounds; 2],
}

impl KeptLine {
    fn of(slots: u64, call: &'static str, found: f64, rounds: [Rounds; KINDS]) -> KeptLine {
        let [store, in_place, plain_store, plain_in_place] = rounds;
        let line = Line { slots: Some(slots), call, found, rounds: of_both([store, in_place]) };
        KeptLine { line, plain: [plain_store, plain_in_place] }
    }

    /// How many times the store's plain call its call that keeps counts takes.
    pub fn times_plain(&self) -> f64 {
        ratio(&self.line.rounds[0], &self.plain[0]).expect("both are always measured")
    }
}

fn appends(slots: u64, sides: &mut Sides, gym: &mut Gym) -> KeptLine {
    let rounds = in_halves(APPEND_ROUNDS, |first, keeper| {
        let lifts = gym.lifts(APPENDS_A_HALF);
        (lifts.len(), sides.half(None, Task::Append(&lifts), first, keeper))
    });
    sides.check();
    KeptLine::of(slots, report::APPEND_KEPT, 1.0, rounds)
}

/// Where a store has too few segments for a half, there are several, and each is restored from a copy before its calls.
fn drops(slots: u64, sides: &Sides) -> KeptLine {
    let each = DROPS_A_HALF.min(slots as usize - 1);
    let mut sides = sides.times(DROPS_A_HALF.div_ceil(each));
    let before = sides.times(sides.store.len());
    let rounds = in_halves(DROP_ROUNDS, |first, keeper| {
        (each * sides.store.len(), sides.half(Some(&before), Task::Drop(each), first, keeper))
    });
    sides.check();
    let [before, after] = [&before, &sides].map(|sides| &sides.store[0]);
    let [lifts, lifts_left] = [before, after].map(|twins| counts_in(&twins.counts).iter().sum::<u32>());
    let [segments, segments_left] = [before, after].map(|twins| twins.stores[0].closed_segments());
    let found = f64::from(lifts - lifts_left) / (segments - segments_left) as f64;
    KeptLine::of(slots, report::DROP_KEPT, found, rounds)
}

pub fn measured(slots: u64) -> [KeptLine; 2] {
    let mut gym = Gym::new(20_260_710);
    let mut sides = Sides::filled(slots, &mut gym);
    sides.check();
    let append = appends(slots, &mut sides, &mut gym);
    [append, drops(slots, &sides)]
}

pub fn table(sizes: &[[KeptLine; 2]]) {
    println!(
        "| S | call | lifts | store | (a) in place | store, plain call | (a), plain call | store/(a) | store, keeping/plain \
         | (a), keeping/plain |"
    );
    println!("|---|---|---|---|---|---|---|---|---|---|");
    for KeptLine { line, plain: [plain_store, plain_in_place] } in sizes.iter().flatten() {
        let [store, in_place, ..] = &line.rounds;
        let times = [store, in_place, plain_store, plain_in_place].map(cell).join(" | ");
        let ratios = [(store, in_place), (store, plain_store), (in_place, plain_in_place)];
        let ratios = ratios.map(|(above, below)| ratio_cell(above, below)).join(" | ");
        println!("| {} | {} | {} | {times} | {ratios} |", slots_cell(line), line.call, grouped(line.found));
    }
}
