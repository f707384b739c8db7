//! W-210: store and in-place implementation side by side on damaged stores with kept counts.
use crate::agree::{poke, poke_form, Seen, STUCK, TRIALS};
use crate::gym::{Gym, Random};
use crate::kept_calls::{area_of, counts_in, KeptArea};
use crate::kept_in_place::KeptInPlace;
use crate::lift::{Lift, RECORD_BYTES};
use crate::proved::Proved;
use plain::{plate_of, LOAD_MAX, SLOT_BYTES, TIME_MAX};
use plain_kept::{Ground, Kept};

const KEPT_MOST: u32 = 1_310_720;
/// The last of them is beyond the limit.
const LOADS: [i32; 6] = [500, 740, 2_500, -20_000, LOAD_MAX, LOAD_MAX + 1];
/// As stored: below the least, the least, the greatest and above it, and a good one of plate 5.
const CODES: [u32; 6] = [0, 1, 150_001, 150_002, u32::MAX, 52_501];

#[derive(Clone)]
struct Counted {
    store: Proved,
    counts: KeptArea,
}

impl Counted {
    fn serials(&self) -> [u32; 2] {
        [0, 4].map(|at| u32::from_le_bytes(self.store.state[at..at + 4].try_into().unwrap()))
    }

    fn last_time(&self) -> u64 {
        u64::from_le_bytes(self.store.state[11..19].try_into().unwrap())
    }

    /// Where the slot of the oldest segment begins.
    fn oldest_at(&self) -> usize {
        let slots = self.store.nand.len() / SLOT_BYTES;
        (self.serials()[0] as usize - 1) % slots * SLOT_BYTES
    }

    fn put(&mut self, lift: &Lift) {
        assert_eq!(self.store.put_kept(&mut self.counts, lift), 0, "the store refuses an append that keeps counts");
        assert!(self.counts == self.store.counts_due(), "counts are no tally of the whole log");
    }
}

/// One store with any number of lifts, one whose next lift closes and drops, one that is closed so that it only drops.
fn stores(random: &mut Random, slots: u64) -> [Counted; 3] {
    let mut lifts = Gym::new(slots + 10).lifts(slots as usize * 330 + 1_000);
    lifts.iter_mut().step_by(16).for_each(|lift| lift.load = STUCK[random.within(0, 3) as usize]);
    let mut filled = Counted { store: Proved::new(slots), counts: [9; size_of::<KeptArea>()] };
    assert_eq!(filled.store.format_kept(&mut filled.counts), 0, "the store refuses a format");
    let (first, rest) = lifts.split_at(slots as usize * 330 + random.within(0, 300) as usize);
    first.iter().for_each(|lift| filled.put(lift));
    let mut before = filled.clone();
    let mut after = filled.clone();
    let mut rest = rest.iter();
    while after.serials()[0] == before.serials()[0] {
        before = after.clone();
        after.put(rest.next().expect("a lift that forces a drop"));
    }
    let mut closed = before.clone();
    assert_eq!(closed.store.close(), 0, "the store refuses a close");
    [filled, before, closed]
}

/// Now and then a load or the header of the segment that goes.
fn poke_oldest(random: &mut Random, counted: &mut Counted) {
    let (oldest_at, open) = (counted.oldest_at(), counted.serials()[1]);
    let slot = &mut counted.store.nand[oldest_at..][..SLOT_BYTES];
    let mut put = |at: usize, bytes: &[u8]| slot[at..at + bytes.len()].copy_from_slice(bytes);
    match random.within(0, 7) {
        0 => {
            let code = CODES[random.within(0, 5) as usize];
            put(random.within(0, 319) as usize * RECORD_BYTES + 8, &code.to_le_bytes());
        }
        1 => put(31 * 512 + random.within(0, 95) as usize, &[random.next() as u8]),
        2 => put(31 * 512, &(open - 1 + random.within(0, 2) as u32).to_le_bytes()),
        3 => put(31 * 512 + 4, &(random.within(300, 321) as u16).to_le_bytes()),
        _ => {}
    }
}

/// Now and then the counts: their sum at its limit and above it, or one that the drop takes to zero or below.
fn poke_counts(random: &mut Random, counted: &mut Counted) {
    let records = counted.store.nand[counted.oldest_at()..][..320 * RECORD_BYTES].chunks_exact(RECORD_BYTES);
    let load_of = |record: &[u8]| u32::from_le_bytes(record[8..12].try_into().unwrap()) as i32 - 50_001;
    let plates = records.filter_map(|record| plate_of(load_of(record)).ok());
    let mut counts = counts_in(&counted.counts);
    let sum: u32 = counts.iter().sum();
    let plate = [0, 1, 5, 21, random.within(0, 21) as usize][random.within(0, 4) as usize];
    match random.within(0, 15) {
        0 => counts[plate] += KEPT_MOST - sum,
        1 => counts[plate] += KEPT_MOST - sum + 1,
        2 => counts[plate] = u32::MAX - sum + counts[plate] + 1 + random.within(0, 1) as u32,
        3 => counts = [u32::MAX; 22],
        4 => counts[plate] = 0,
        5..=8 => {
            counts[plate] = (plates.filter(|&of| of == plate).count() as u32).saturating_sub(random.within(0, 1) as u32)
        }
        _ => {}
    }
    counted.counts = area_of(&counts);
}

/// The same store by both.
struct Both {
    counted: Counted,
    plain: KeptInPlace,
    plain_counts: Kept,
}

impl Both {
    fn of(counted: &Counted) -> Both {
        let (plain, plain_counts) = (KeptInPlace::of(&counted.store), counts_in(&counted.counts));
        Both { counted: counted.clone(), plain, plain_counts }
    }

    /// The same call by both: number, state, counts and chips are the same, and as they were where it is refused.
    fn call(
        &mut self,
        seen: &mut Seen,
        by_store: impl FnOnce(&mut Proved, &mut KeptArea) -> u8,
        in_place: impl FnOnce(&mut KeptInPlace, &mut Kept) -> Result<(), Ground>,
    ) {
        let Both { counted, plain, plain_counts } = self;
        let before = counted.clone();
        let number = by_store(&mut counted.store, &mut counted.counts);
        let plain_number = in_place(plain, plain_counts).map_or_else(|ground| ground as u8, |()| 0);
        assert_eq!(number, plain_number, "numbers differ");
        assert!(plain.is(&counted.store), "states or chips differ");
        assert!(*plain_counts == counts_in(&counted.counts), "counts differ");
        if number != 0 {
            assert!(counted.store == before.store && counted.counts == before.counts, "a refusal changes something");
        }
        seen[usize::from(number)] += 1;
    }

    fn append(&mut self, lift: &Lift, seen: &mut Seen) {
        self.call(seen, |store, counts| store.put_kept(counts, lift), |plain, counts| plain.put_kept(counts, lift));
    }

    fn drop(&mut self, seen: &mut Seen) {
        self.call(seen, |store, counts| store.drop_kept(counts), |plain, counts| plain.drop_kept(counts));
    }
}

/// Two appends in a row, and beside them a close with two drops; now and then a format.
fn trial(random: &mut Random, counted: &Counted, last: u64, seen: &mut Seen) {
    let time =
        [last, last, last + 5, last + 5, last + 5, last - 1, TIME_MAX, TIME_MAX + 1][random.within(0, 7) as usize];
    let lift = Lift { time, load: LOADS[random.within(0, 5) as usize], note: [3; 20] };
    let [mut one, mut two] = [Both::of(counted), Both::of(counted)];
    one.append(&lift, seen);
    one.append(&lift, seen);
    two.drop(seen);
    two.call(seen, |store, _| store.close(), |plain, _| plain.close());
    two.drop(seen);
    if random.within(0, 15) == 0 {
        one.call(seen, |store, counts| store.format_kept(counts), |plain, counts| plain.format_kept(counts));
    }
}

pub fn check(random: &mut Random, slots: u64, seen: &mut Seen) {
    let stores = stores(random, slots);
    for _ in 0..TRIALS {
        let good = &stores[random.within(0, 2) as usize];
        let mut poked = good.clone();
        poke_counts(random, &mut poked);
        poke_oldest(random, &mut poked);
        // Every other store has no other damage, so that a drop is reached.
        if random.within(0, 1) == 0 {
            let Proved { state, nand, nor, slots } = &mut poked.store;
            poke(random, state, nand, nor, slots);
            poke_form(random, nand);
        }
        trial(random, &poked, good.last_time(), seen);
    }
}
