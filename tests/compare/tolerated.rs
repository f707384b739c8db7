//! W-209: what the plain search and a paper log say of a tolerant one, and what tolerant searches found.
use model::bytes::widened;
use model::limits::DAMAGE;
use model::paper::PaperLog;
use model::tolerant::of_log;
use script::areas::Areas;
use script::calls::{Call, Outputs, Store, Tolerant, TolerantOutputs, ROW_BYTES};
use script::form::Form;

/// The accepted tolerant searches.
#[derive(Default)]
pub struct Tolerated {
    with_certain: u64,
    /// With possible lifts and none that is certain.
    possible_alone: u64,
    /// With d = 0 and a lift.
    plain: u64,
    /// Certain lifts and possible ones.
    lifts: [u64; 2],
    by_log: u64,
}

impl Tolerated {
    pub fn count(&mut self, call: &Tolerant, outputs: &TolerantOutputs) {
        let [certain, possible] = outputs.counts();
        self.with_certain += u64::from(certain > 0);
        self.possible_alone += u64::from(certain == 0 && possible > 0);
        self.plain += u64::from(call.tolerance == 0 && possible > 0);
        self.lifts[0] += certain;
        self.lifts[1] += possible;
    }

    /// Holds number, counts and rows to what the log says.
    pub fn check_log(
        &mut self, call: &Tolerant, log: &PaperLog, number: u8, outputs: &TolerantOutputs,
    ) -> Result<(), String> {
        self.by_log += 1;
        let (log_number, lists) = match of_log(log, call) {
            Ok(lists) => (0, lists),
            Err(ground) => (ground, Default::default()),
        };
        if number != log_number {
            return Err(format!("number {number}, in the paper log {log_number}"));
        }
        let counts = lists.each_ref().map(|list| list.len() as u64);
        if number == 0 && outputs.counts() != counts {
            return Err(format!("the paper log counts {counts:?}"));
        }
        let begins_with_list = |place: usize| outputs.lists[place].starts_with(lists[place].as_flattened());
        if !(begins_with_list(0) && begins_with_list(1)) {
            return Err("other rows than in the paper log".into());
        }
        Ok(())
    }

    pub fn print(&self) {
        let [certain, possible] = self.lifts;
        println!(
            "tolerant searches with certain lifts {}, with possible ones alone {}, with d = 0 and lifts {}, certain lifts \
             {certain}, possible ones {possible}; calls held to the paper log {}",
            self.with_certain, self.possible_alone, self.plain, self.by_log
        );
    }
}

/// "The certain list is part of the possible one": its rows are among the others, in their order.
pub fn check_part(outputs: &TolerantOutputs) -> Result<(), String> {
    let rows = |place: usize| outputs.lists[place].chunks(ROW_BYTES).take(outputs.counts()[place] as usize);
    let mut possible = rows(1);
    if rows(0).all(|certain| possible.any(|row| row == certain)) {
        return Ok(());
    }
    Err("the certain lifts are no part of the possible ones".into())
}

/// "Both come from one plain search over the widened ends": the possible lifts, and any damage met, are those of that
/// search by the same store. "with d = 0 both equal the plain search", so that the certain ones are, too.
pub fn check_plain(
    call: &Tolerant, number: u8, outputs: &TolerantOutputs, areas: &mut Areas, by: &mut impl Store,
) -> Result<(), String> {
    if number != 0 && number != DAMAGE {
        return Ok(());
    }
    let window = widened(&call.window, call.tolerance);
    let lists = if call.tolerance == 0 { &outputs.lists[..] } else { &outputs.lists[1..] };
    lists.iter().try_for_each(|list| {
        let search = Call::Search { slots: call.slots, window, area_bytes: list.len() };
        let mut plain = Outputs::untouched(Form::New, &search);
        let plain_number = by.answer(Form::New, &search, areas, &mut plain);
        if plain_number != number {
            return Err(format!("number {number}, of the plain search {plain_number}"));
        }
        if plain.rows != *list {
            return Err("other rows than by the plain search".into());
        }
        Ok(())
    })
}
