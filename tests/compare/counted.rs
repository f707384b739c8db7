//! W-210: what a paper log and the tally of the whole store say of the kept counts, and for what they refused a call.
use crate::reached::Reached;
use model::bytes::Expectation;
use model::counts::Counts;
use model::limits::{DAMAGE, LAST_TIME, STATE_BOUND};
use model::paper::Said;
use script::areas::Areas;
use script::calls::{Call, Outputs, Store};
use script::form::Form;
use std::collections::BTreeMap;

/// Lifts that came and went since a format, as long as each append and drop kept counts.
#[derive(Clone, Default)]
pub struct Balance {
    appended: u64,
    dropped: u64,
}

impl Balance {
    /// After an accepted call or an import.
    pub fn after(mut self, call: &Call, said: &Said) -> Option<Balance> {
        match call {
            Call::Append { keeps: false, .. } | Call::Drop { keeps: false, .. } => return None,
            Call::Import { keeps: false, .. } if said.lifts_taken > 0 => return None,
            _ => {}
        }
        self.appended += said.lifts_taken;
        self.dropped += said.lifts_gone;
        Some(self)
    }

    fn retained(&self) -> u64 {
        self.appended - self.dropped
    }

    /// The whole store is read after every call while it holds few lifts, later after every sixteenth append.
    fn is_read_now(&self) -> bool {
        self.retained() <= 100 || self.appended % 16 == 0
    }
}

/// The numbers that the plain call would have had where one that keeps counts was refused for them.
const IN_PLACE: [(&str, u8, &[u8]); 4] = [
    ("appendk", STATE_BOUND, &[0, 4, 5, 7, 8, 10, 11]),
    ("appendk", DAMAGE, &[0, 11]),
    ("dropk", STATE_BOUND, &[0, 9]),
    ("dropk", DAMAGE, &[0]),
];

#[derive(Default)]
pub struct Counted {
    forced_drops: u64,
    drops: u64,
    by_log: u64,
    by_tally: u64,
    by_tally_after_import: u64,
    /// By call, number, and number of the plain call.
    in_place: BTreeMap<(&'static str, u8, u8), u64>,
}

impl Counted {
    /// A refusal that the plain call on the same areas does not meet is for the counts.
    pub fn count_refusal(&mut self, call: &Call, number: u8, areas: &Areas) {
        let plain = match call.clone() {
            Call::Append { keeps: true, slots, time, load, note } => {
                Call::Append { keeps: false, slots, time, load, note }
            }
            Call::Drop { keeps: true, slots } => Call::Drop { keeps: false, slots },
            _ => return,
        };
        if number == STATE_BOUND || number == DAMAGE {
            let mut outputs = Outputs::untouched(Form::New, &plain);
            let plain_number = Expectation.answer(Form::New, &plain, &mut areas.clone(), &mut outputs);
            if plain_number != number {
                *self.in_place.entry((call.name(), number, plain_number)).or_default() += 1;
            }
        }
    }

    pub fn count_said(&mut self, call: &Call, said: &Said) {
        let goes = said.gone.len() as u64;
        match call {
            Call::Append { keeps: true, .. } | Call::Import { keeps: true, .. } => self.forced_drops += goes,
            Call::Drop { keeps: true, .. } => self.drops += goes,
            _ => {}
        }
    }

    /// Holds the counts to the log; "After any accepted calls from a format, each append and drop keeping counts, they equal
    /// a tally of the whole store, and their sum is the lifts appended less those dropped." So they do after every import that
    /// keeps them, accepted or not.
    pub fn check(
        &mut self, after_import: bool, reached: &Reached, areas: &mut Areas, by: &mut impl Store,
    ) -> Result<(), String> {
        let log = &reached.log;
        if log.form() != Form::New {
            return Ok(());
        }
        let counts = Counts::from_bytes(&areas.counts);
        self.by_log += 1;
        if counts != log.counts {
            return Err(format!("counts {:?}, in the paper log {:?}", counts.values(), log.counts.values()));
        }
        let read_now = |balance: &&Balance| after_import || balance.is_read_now();
        let Some(balance) = reached.balance.as_ref().filter(read_now) else { return Ok(()) };
        self.by_tally += 1;
        self.by_tally_after_import += u64::from(after_import);
        if counts.sum() != balance.retained() {
            return Err(format!("the counts add up to {}, not to {}", counts.sum(), balance.retained()));
        }
        if counts != Counts::of(log.lifts().map(|lift| lift.load)) {
            return Err("the counts are not those of the lifts that the paper log holds".into());
        }
        let tally = Call::Tally { slots: log.slots(), t1: 0, t2: LAST_TIME };
        let mut outputs = Outputs::untouched(Form::New, &tally);
        let number = by.answer(Form::New, &tally, areas, &mut outputs);
        if number != 0 || !outputs.values().eq(counts.values()) {
            return Err("the counts are not the tally of the whole store".into());
        }
        Ok(())
    }

    /// Every refusal for counts that was not met.
    pub fn missing(&self) -> impl Iterator<Item = String> + '_ {
        let all = IN_PLACE.iter();
        let all = all.flat_map(|(name, number, plain)| plain.iter().map(move |plain| (*name, *number, *plain)));
        let not_met = all.filter(|refusal| !self.in_place.contains_key(refusal));
        not_met.map(|(name, number, plain)| format!("{name} {number} in place of {plain}"))
    }

    pub fn print(&self) {
        println!(
            "drops that keep counts {}, forced ones {}; counts held to the paper log {}, to the tally of the whole store {}, \
             of these after an import {}",
            self.drops, self.forced_drops, self.by_log, self.by_tally, self.by_tally_after_import
        );
        let told = |((name, number, plain), times): (&(&str, u8, u8), &u64)| {
            format!("{name} {number} in place of {plain} {times}")
        };
        let refused: Vec<String> = self.in_place.iter().map(told).collect();
        println!("refused for counts: {}", refused.join(", "));
    }
}
