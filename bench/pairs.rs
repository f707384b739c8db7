//! W-208: the pairs of two filled stores, beside two searches and beside the pairing by hand.
use crate::gym::Gym;
use crate::lift::{Contender, RECORD_BYTES};
use crate::measure::{in_turns_of, Rounds};
use crate::paired_by_hand::{pair_up, Record, PAIR_BYTES};
use crate::proved::Proved;
use crate::report::{cell, grouped, ratio_cell};
use crate::stack;
use plain::{Window, LOAD_MAX, LOAD_MIN, STATE_BYTES, TIME_MAX};
use std::hint::black_box;

extern "C" {
    fn store_pairs(
        first: *const u8,
        first_len: usize,
        first_nand: *const u8,
        first_nand_len: usize,
        first_nor: *const u8,
        first_nor_len: usize,
        first_slots: u64,
        second: *const u8,
        second_len: usize,
        second_nand: *const u8,
        second_nand_len: usize,
        second_nor: *const u8,
        second_nor_len: usize,
        second_slots: u64,
        rows: *mut u8,
        rows_len: usize,
        answer: *mut u8,
        answer_len: usize,
    ) -> u8;
}

const EVERYTHING: Window = Window { t1: 0, t2: TIME_MAX, k1: LOAD_MIN, k2: LOAD_MAX };

/// Two machines of a gym, each with a store of the same S and with the rows of its whole log.
struct Machines {
    stores: [Proved; 2],
    logs: [Vec<Record>; 2],
}

impl Machines {
    /// Enough lifts to fill both stores and to force drops.
    fn filled(slots: u64) -> Machines {
        let lifts = Gym::new(20_260_708).lifts_of_two(slots as usize * 330 + 2_000);
        let mut stores = lifts.map(|lifts| {
            let mut store = Proved::new(slots);
            store.append_all(&lifts);
            store
        });
        let logs = stores.each_mut().map(whole_log);
        Machines { stores, logs }
    }

    /// How many pairs the store finds.
    fn pair_up(&self, rows: &mut [u8]) -> usize {
        let [first, second] = &self.stores;
        let mut answer = [0; 8];
        // Every pointer comes with the length of its area, and no two areas overlap.
        let number = unsafe {
            store_pairs(
                first.state.as_ptr(),
                STATE_BYTES,
                first.nand.as_ptr(),
                first.nand.len(),
                first.nor.as_ptr(),
                first.nor.len(),
                first.slots,
                second.state.as_ptr(),
                STATE_BYTES,
                second.nand.as_ptr(),
                second.nand.len(),
                second.nor.as_ptr(),
                second.nor.len(),
                second.slots,
                rows.as_mut_ptr(),
                rows.len(),
                answer.as_mut_ptr(),
                answer.len(),
            )
        };
        assert_eq!(number, 0, "the store refuses pairs");
        u64::from_le_bytes(answer) as usize
    }

    /// A row for each pair; the store's pairs are those by hand.
    fn checked_area(&self) -> Vec<u8> {
        let [first, second] = &self.logs;
        let [mut rows, mut by_hand] = [(); 2].map(|_| vec![0; first.len() * PAIR_BYTES]);
        let pairs = self.pair_up(&mut rows);
        assert_eq!(pairs, pair_up(first, second, &mut by_hand), "counts of pairs differ");
        assert!(rows == by_hand, "pairs differ");
        rows.truncate(pairs * PAIR_BYTES);
        rows
    }
}

fn whole_log(store: &mut Proved) -> Vec<Record> {
    let mut rows = vec![0; store.retained() * RECORD_BYTES];
    store.search(&EVERYTHING, &mut rows);
    rows.chunks_exact(RECORD_BYTES).map(|row| row.try_into().unwrap()).collect()
}

/// What was measured at one S.
pub struct PairsLine {
    slots: u64,
    /// Of either machine.
    lifts: [usize; 2],
    pairs: usize,
    store: Rounds,
    searches: Rounds,
    by_hand: Rounds,
    /// The bytes of stack that the store's call takes.
    pub stack: usize,
}

pub fn measured(slots: u64) -> PairsLine {
    let mut machines = Machines::filled(slots);
    let mut rows = machines.checked_area();
    let lifts = machines.logs.each_ref().map(Vec::len);
    let mut found = vec![0; lifts[0].max(lifts[1]) * RECORD_BYTES];
    let [store, searches, by_hand] = in_turns_of(|kind| {
        black_box(match kind {
            0 => machines.pair_up(&mut rows),
            1 => machines.stores.iter_mut().map(|store| store.search(&EVERYTHING, &mut found)).sum(),
            _ => pair_up(&machines.logs[0], &machines.logs[1], &mut rows),
        });
    });
    let stack = stack::depth(|| assert_eq!(machines.pair_up(&mut rows), rows.len() / PAIR_BYTES));
    PairsLine { slots, lifts, pairs: rows.len() / PAIR_BYTES, store, searches, by_hand, stack }
}

pub fn table(lines: &[PairsLine]) {
    println!(
        "| S | lifts of the first | of the second | pairs | store | two searches | by hand | store/searches | store/by hand \
         | store/both |"
    );
    println!("|---|---|---|---|---|---|---|---|---|---|");
    for line in lines {
        let PairsLine { slots, lifts, pairs, store, searches, by_hand, .. } = line;
        let both = searches.iter().zip(by_hand).map(|(searches, by_hand)| searches + by_hand).collect();
        let numbers = [lifts[0], lifts[1], *pairs].map(|number| grouped(number as f64)).join(" | ");
        let times = [store, searches, by_hand].map(cell).join(" | ");
        let ratios = [searches, by_hand, &both].map(|below| ratio_cell(store, below)).join(" | ");
        println!("| {slots} | {numbers} | {times} | {ratios} |");
    }
}
