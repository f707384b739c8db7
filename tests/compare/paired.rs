//! W-208: what two paper logs say of the pairs of their stores, and how many pairs there were.
use model::limits::{refuse_if, Outcome, SLOTS_OR_NAND_LENGTH};
use model::pairs::{check_area, of_logs, Pair};
use model::paper::PaperLog;
use script::calls::{Outputs, Pairs};

/// The accepted pairings.
#[derive(Default)]
pub struct Paired {
    with_pairs: u64,
    with_itself: u64,
    pairs: u64,
    most: u64,
    by_logs: u64,
}

impl Paired {
    pub fn count(&mut self, with_itself: bool, outputs: &Outputs) {
        let pairs = outputs.count();
        self.with_pairs += u64::from(pairs > 0);
        self.with_itself += u64::from(pairs > 0 && with_itself);
        self.pairs += pairs;
        self.most = pairs.max(self.most);
    }

    pub fn count_by_logs(&mut self) {
        self.by_logs += 1;
    }

    pub fn print(&self) {
        println!(
            "lists with pairs {}, of one store with itself {}, pairs {}, most in a list {}; calls held to both paper logs {}",
            self.with_pairs, self.with_itself, self.pairs, self.most, self.by_logs
        );
    }
}

/// The list of two logs; both stores are as their calls left them, so but two grounds can hold.
fn said(pairs: &Pairs, [first, second]: [&PaperLog; 2]) -> Outcome<Vec<Pair>> {
    let other_slots = pairs.slots != first.slots() || pairs.second_slots != second.slots();
    refuse_if(other_slots, SLOTS_OR_NAND_LENGTH)?;
    let list = of_logs(first, second);
    check_area(&list, pairs.area_bytes)?;
    Ok(list)
}

/// Holds number, count and rows to what the logs say.
pub fn check(pairs: &Pairs, logs: [&PaperLog; 2], number: u8, outputs: &Outputs) -> Result<(), String> {
    let (log_number, list) = match said(pairs, logs) {
        Ok(list) => (0, list),
        Err(ground) => (ground, Vec::new()),
    };
    if number != log_number {
        return Err(format!("number {number}, by the paper logs {log_number}"));
    }
    if number == 0 && outputs.count() != list.len() as u64 {
        return Err(format!("{} pairs, by the paper logs {}", outputs.count(), list.len()));
    }
    if !outputs.rows.starts_with(list.as_flattened().as_flattened()) {
        return Err("other pairs than by the paper logs".into());
    }
    Ok(())
}
