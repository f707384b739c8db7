//! Store and in-place implementation side by side on damaged chips, odd states and odd arguments.
use crate::agree_kept;
use crate::carried::{backward, backward_in_place, Carried, OldStore};
use crate::gym::{Gym, Random};
use crate::in_place::InPlace;
use crate::lift::{Contender, Lift, RECORD_BYTES};
use crate::proved::{found_in, listed_in, FoundArea, ListedArea, Proved};
use crate::service_page::ServicePage;
use crate::tolerant_in_place::TolerantInPlace;
use plain::{plate_of, plate_on, Counts, Ground, OldState, State, Window, LOAD_MAX, LOAD_MIN, SLOT_BYTES, TIME_MAX};

pub const TRIALS: usize = 4_000;
/// What a stuck cell shows: both ends of plate 20, just beyond the stack and far beyond it.
pub const STUCK: [i32; 4] = [9_751, 10_250, 10_251, LOAD_MAX];

/// How often each number was answered, 0 first.
pub type Seen = [usize; 18];

fn number<T>(answer: Result<T, Ground>) -> u8 {
    answer.map_or_else(|ground| ground as u8, |_| 0)
}

/// How often each number was answered, over all trials; panics where the two differ.
pub fn check() -> Seen {
    let mut random = Random(7);
    let mut seen = [0; 18];
    for slots in [2, 3, 5] {
        let mut lifts = Gym::new(slots).lifts(slots as usize * 400);
        lifts.iter_mut().step_by(16).for_each(|lift| lift.load = STUCK[random.within(0, 3) as usize]);
        let mut store = Proved::new(slots);
        lifts.truncate(slots as usize * 330 + random.within(0, 300) as usize);
        store.append_all(&lifts);
        for _ in 0..TRIALS {
            let mut poked = store.clone();
            poke(&mut random, &mut poked.state, &mut poked.nand, &mut poked.nor, &mut poked.slots);
            trial(&mut random, &poked, lifts[lifts.len() - 1].time, &mut seen);
        }
        check_conversions(&mut random, slots, &mut seen);
        agree_kept::check(&mut random, slots, &mut seen);
    }
    check_lookups();
    seen
}

/// Every load on each carried stack and at places beyond them; on twenty plates of 500 a lookup is what a tally goes by.
fn check_lookups() {
    for load in LOAD_MIN - 1..=LOAD_MAX + 1 {
        for place in [0, 1, 2, 1 << 32, u64::MAX] {
            let mut answer = [0; 8];
            let plate = plate_on(place, load);
            assert_eq!(Proved::plate(place, load, &mut answer), number(plate), "plate of {load} at {place}");
            assert_eq!(u64::from_le_bytes(answer) as usize, plate.unwrap_or(0), "plate of {load} at {place}");
        }
        assert_eq!(plate_on(0, load), plate_of(load));
    }
}

/// Up to three bytes are changed, mostly in headers, trees and the state; now and then the serials, S or NOR's length.
pub fn poke(random: &mut Random, state: &mut [u8], nand: &mut [u8], nor: &mut Vec<u8>, named_slots: &mut u64) {
    match random.within(0, 31) {
        0 => *named_slots += 1,
        1 => nor.truncate(6_000),
        2 => {
            let last = random.within(999_999_996, 999_999_999) as u32;
            state[..4].copy_from_slice(&last.to_le_bytes());
            state[4..8].copy_from_slice(&last.to_le_bytes());
        }
        _ => {}
    }
    let slots = nand.len() / SLOT_BYTES;
    for _ in 0..random.within(0, 3) {
        let value = [0, 1, 127, 255, random.next() as u8][random.within(0, 4) as usize];
        let slot = random.within(0, slots as i64 - 1) as usize * SLOT_BYTES;
        match random.within(0, 5) {
            0 => state[random.within(0, state.len() as i64 - 1) as usize] = value,
            1 => state[random.within(0, 74) as usize] = value,
            2 => nor[random.within(0, 5_300) as usize] = value,
            3 => nand[slot + 31 * 512 + random.within(0, 95) as usize] = value,
            4 => nand[slot + random.within(20 * 512, 31 * 512 - 1) as usize] = value,
            _ => nand[slot + random.within(0, SLOT_BYTES as i64 - 1) as usize] = value,
        }
    }
}

/// Now and then the byte that tells a header's form is changed.
pub fn poke_form(random: &mut Random, nand: &mut [u8]) {
    let slots = (nand.len() / SLOT_BYTES) as i64;
    if random.within(0, 15) == 0 {
        nand[random.within(0, slots - 1) as usize * SLOT_BYTES + 31 * 512 + 10] = random.within(0, 2) as u8;
    }
}

/// Damaged stores of both forms carried over by the store and by (a).
fn check_conversions(random: &mut Random, slots: u64, seen: &mut Seen) {
    let base = Carried::filled(slots);
    base.check();
    let (mut to_new, mut to_old) = (Proved::new(slots), OldStore::room_for(&base.new));
    let (mut plain_new, mut plain_old) = (to_new.clone(), to_old.clone());
    for _ in 0..TRIALS {
        let Carried { mut new, mut old } = Carried { new: base.new.clone(), old: base.old.clone() };
        poke(random, &mut new.state, &mut new.nand, &mut new.nor, &mut new.slots);
        poke(random, &mut old.state, &mut old.nand, &mut old.nor, &mut old.slots);
        poke_form(random, &mut new.nand);
        poke_form(random, &mut old.nand);
        let number_back = backward(&new, &mut to_old);
        let back = backward_in_place(&new, &State::from_bytes(&new.state), &mut plain_old);
        let number_forward = old.forward(&mut to_new);
        let forward = old.forward_in_place(&OldState::from_bytes(&old.state), &mut plain_new);
        if let Ok(state) = &back {
            plain_old.state = state.to_bytes();
        }
        if let Ok(state) = &forward {
            plain_new.state = state.to_bytes();
        }
        assert_eq!([number_back, number_forward], [number(back), number(forward)], "numbers differ");
        assert!(to_old.state == plain_old.state && to_new.state == plain_new.state, "states differ");
        assert!(to_old.nand == plain_old.nand && to_new.nand == plain_new.nand, "NAND differs");
        assert!(to_old.nor == plain_old.nor && to_new.nor == plain_new.nor, "NOR differs");
        seen[usize::from(number_back)] += 1;
        seen[usize::from(number_forward)] += 1;
    }
}

fn trial(random: &mut Random, store: &Proved, last: u64, seen: &mut Seen) {
    let state = State::from_bytes(&store.state);
    let plain = InPlace { state, nand: store.nand.clone(), nor: store.nor.clone(), slots: store.slots };
    let time = [last, last, last + 5, last - 1, TIME_MAX, TIME_MAX + 1][random.within(0, 5) as usize];
    let load = [500, 740, -20_000, LOAD_MAX, LOAD_MAX + 1, 2_500][random.within(0, 5) as usize];
    let lift = Lift { time, load, note: [3; 20] };
    let [mut one, mut two] = [store.clone(), store.clone()];
    let [mut one_plain, mut two_plain] = [plain.clone(), plain.clone()];
    // Two appends in a row, then a close and a drop.
    let again = Lift { time: time + random.within(0, 1) as u64, ..lift };
    let calls = [
        (one.put(&lift), number(one_plain.put(&lift))),
        (one.put(&again), number(one_plain.put(&again))),
        (two.close(), number(two_plain.state.close(&mut two_plain.nand, &mut two_plain.nor, store.slots))),
        (two.drop_oldest(), number(two_plain.state.drop_oldest(&mut two_plain.nand, &two_plain.nor, store.slots))),
    ];
    for (proved, plain) in calls {
        assert_eq!(proved, plain, "numbers differ");
        seen[usize::from(proved)] += 1;
    }
    same_bytes(&one, &one_plain);
    same_bytes(&two, &two_plain);
    same_answers(random, store, &plain, last, seen);
}

fn same_bytes(store: &Proved, plain: &InPlace) {
    assert!(store.state == plain.state.to_bytes(), "states differ");
    assert!(store.nand == plain.nand && store.nor == plain.nor, "chips differ");
}

fn same_answers(random: &mut Random, store: &Proved, plain: &InPlace, last: u64, seen: &mut Seen) {
    let mut time = || [0, last - last / 3, last, TIME_MAX][random.within(0, 3) as usize];
    let (t1, t2) = (time(), time());
    let mut load = || [LOAD_MIN, 0, 2_480, 2_500, LOAD_MAX][random.within(0, 4) as usize];
    let window = Window { t1, t2, k1: load(), k2: load() };
    let room = random.within(0, 2_000) as usize * RECORD_BYTES + 5;
    let (mut rows, mut plain_rows, mut answer) = (vec![9; room], vec![9; room], [0; size_of::<FoundArea>()]);
    let proved = store.find(&window, &mut rows, &mut answer);
    let found = plain.find(&window, &mut plain_rows);
    assert_eq!(proved, number(found), "numbers differ");
    assert!(rows == plain_rows, "rows differ");
    assert_eq!(found_in(&answer), found.unwrap_or_default(), "counts differ");
    seen[usize::from(proved)] += 1;
    same_counts(store, plain, t1, t2, seen);
    same_lists(random, store, window, seen);
}

/// Both lists of a tolerant search; now and then its window is past a limit.
fn same_lists(random: &mut Random, store: &Proved, mut window: Window, seen: &mut Seen) {
    match random.within(0, 15) {
        0 => window.t2 = TIME_MAX + 1,
        1 => window.k2 = LOAD_MAX + 1,
        _ => {}
    }
    let tolerance = [0, 10, 25, 1_000, 1_001, 1 << 32][random.within(0, 5) as usize];
    let mut area = || vec![9; random.within(0, 1_500) as usize * RECORD_BYTES + 5];
    let (mut certain, mut possible, mut answer) = (area(), area(), [0; size_of::<ListedArea>()]);
    let (mut plain_certain, mut plain_possible) = (certain.clone(), possible.clone());
    let proved = store.tolerant(&window, tolerance, &mut certain, &mut possible, &mut answer);
    let plain = TolerantInPlace::of(store);
    let listed = plain.tolerant(&window, tolerance, &mut plain_certain, &mut plain_possible);
    assert_eq!(proved, listed.err().unwrap_or(0), "numbers differ");
    assert!(certain == plain_certain && possible == plain_possible, "lists differ");
    assert_eq!(listed_in(&answer), listed.unwrap_or_default(), "counts differ");
    seen[usize::from(proved)] += 1;
}

/// A tally and its page; a refusal leaves the area of either as it was.
fn same_counts(store: &Proved, plain: &InPlace, t1: u64, t2: u64, seen: &mut Seen) {
    let mut answer = [0; size_of::<Counts>()];
    let tallied = store.by_plate(t1, t2, &mut answer);
    let counts = plain.state.tally(&plain.nand, &plain.nor, plain.slots, t1, t2);
    assert_eq!(tallied, number(counts), "numbers differ");
    let counts: Vec<u8> = counts.unwrap_or_default().iter().flat_map(|n| n.to_le_bytes()).collect();
    assert!(answer[..] == counts, "tallies differ");
    let [mut page, mut plain_page] = [[9; size_of::<ServicePage>()]; 2];
    let paged = store.page(t1, t2, &mut page);
    assert_eq!(paged, number(plain.page(t1, t2, &mut plain_page)), "numbers differ");
    assert!(page == plain_page, "pages differ");
    seen[usize::from(tallied)] += 1;
    seen[usize::from(paged)] += 1;
}
