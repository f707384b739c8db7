//! Lists of calls after a format, on chips that held anything before.
use crate::convert;
use crate::habits::Habits;
use crate::judge::Step;
use crate::lengths;
use crate::pairs;
use crate::trial::Trial;
use model::limits::LAST_TIME;
use script::calls::Call;
use script::command::{Command, Field};

pub fn short_or_long(trial: &mut Trial) -> Step {
    let slots = trial.random.pick(&[2, 2, 2, 3, 3, 4, 5, 8, 64]);
    let longest = if slots == 64 { 500 } else { 4000 };
    let calls = 1 + trial.random.below(longest);
    list(trial, slots, calls)
}

/// The most slots there are; few calls, since each one compares 64 MB.
pub fn on_largest_chip(trial: &mut Trial) -> Step {
    let slots = 4096;
    list(trial, slots, 20)?;
    trial.call(Call::Format { slots })?;
    // Serials that use the last slots, so that the next ones begin again at slot 0.
    trial.set(Field::Oldest, 4095)?;
    trial.set(Field::Open, 4095)?;
    let mut habits = Habits::any(slots, &mut trial.random);
    for _ in 0..4 {
        habits.append(trial)?;
        habits.append(trial)?;
        habits.close(trial)?;
        habits.ask(trial)?;
    }
    habits.search_all(trial)?;
    pairs::beside_largest_chip(trial, slots)?;
    trial.run(Command::Use(0))?;
    convert::there_and_back(trial, slots)
}

fn list(trial: &mut Trial, slots: u64, calls: u64) -> Step {
    trial.lend_chips(slots)?;
    trial.call(Call::Format { slots })?;
    let mut habits = Habits::any(slots, &mut trial.random);
    for _ in 0..calls {
        habits.one_call(trial)?;
        if trial.field(Field::Next) == LAST_TIME && trial.random.once_in(30) {
            break;
        }
        if slots <= 64 && trial.random.once_in(500) {
            lengths::try_wrong_ones(trial, slots)?;
        }
    }
    habits.search_all(trial)
}
