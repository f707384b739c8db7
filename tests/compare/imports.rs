//! Stores that text goes into and comes out of: good files and files with something wrong, short and of several segments, into
//! stores as they are, damaged, at the limit of their counts and near the last serial; exports of one store into another.
use crate::bases;
use crate::counts;
use crate::edges;
use crate::files;
use crate::habits::{odd_load, odd_slots, Habits};
use crate::judge::Step;
use crate::random::Random;
use crate::states;
use crate::trial::Trial;
use model::limits::{EVERYTHING, LAST_TIME, MOST_COUNTED};
use model::paper::Lift;
use script::areas::STORES;
use script::calls::{Call, Window};
use script::command::Command;

/// Records of a file: few, enough for a page, a section, a segment, or two.
const FEW: [u64; 8] = [0, 1, 1, 2, 3, 5, 17, 40];
const MANY: [u64; 4] = [65, 330, 400, 700];
const MEMBERS: [u32; 7] = [0, 1, 7, 40, 65_536, 1 << 31, u32::MAX];

pub fn rounds(trial: &mut Trial) -> Step {
    let mut habits = if trial.random.once_in(2) { counts::steady(trial)? } else { bases::any(trial)? };
    for _ in 0..trial.random.pick(&[1, 2, 5]) {
        let records = if trial.random.once_in(3) { trial.random.pick(&MANY) } else { trial.random.pick(&FEW) };
        import(trial, &mut habits, records)?;
        export_any(trial, &habits)?;
    }
    through_another_store(trial, &habits)?;
    trial.run(Command::Snap)?;
    for _ in 0..30 {
        trial.run(Command::Back)?;
        change(trial, &habits)?;
        for _ in 0..trial.random.pick(&[1, 1, 2, 3]) {
            text_after_change(trial, &mut habits)?;
        }
    }
    Ok(())
}

/// Lifts that suit, one after another, with notes as an import makes them.
fn next_lifts(trial: &mut Trial, habits: &mut Habits, records: u64) -> Vec<Lift> {
    let mut lifts = habits.next_lifts(trial, records);
    for lift in &mut lifts {
        lift.note = [0; 20];
        lift.note[..4].copy_from_slice(&trial.random.pick(&MEMBERS).to_le_bytes());
    }
    lifts
}

/// A file of so many records, now and then with something wrong in it.
pub fn import(trial: &mut Trial, habits: &mut Habits, records: u64) -> Step {
    let lifts = next_lifts(trial, habits, records);
    let mut text = files::good(&lifts, &mut trial.random);
    for _ in 0..trial.random.pick(&[0, 0, 0, 1, 1, 2]) {
        files::spoil(&mut text, &mut trial.random);
    }
    let keeps = habits.keeps(trial);
    let slots = named(habits.slots, &mut trial.random);
    trial.call(Call::Import { keeps, slots, text })
}

/// Now and then another S.
fn named(slots: u64, random: &mut Random) -> u64 {
    if random.once_in(30) {
        return odd_slots(slots, random);
    }
    slots
}

/// An export of all, or of a window, now and then of one that grounds 1 and 4 to 6 are against.
fn export_any(trial: &mut Trial, habits: &Habits) -> Step {
    let random = &mut trial.random;
    let slots = named(habits.slots, random);
    let mut window = if random.once_in(2) { EVERYTHING } else { habits.window(random) };
    if random.once_in(8) {
        let past_limit = [LAST_TIME, LAST_TIME + 1, u64::MAX];
        match random.below(6) {
            0 => window.t1 = random.pick(&past_limit),
            1 => window.t2 = random.pick(&past_limit),
            2 => window.k1 = odd_load(random),
            3 => window.k2 = odd_load(random),
            4 => std::mem::swap(&mut window.t1, &mut window.t2),
            _ => std::mem::swap(&mut window.k1, &mut window.k2),
        }
    }
    export(trial, slots, window)
}

/// Often just as many bytes as the text has, or one less.
pub fn export(trial: &mut Trial, slots: u64, window: Window) -> Step {
    let found = trial.exported(slots, &window).len();
    let random = &mut trial.random;
    let area_bytes = match random.below(8) {
        0 | 1 => found.saturating_sub(1),
        2 => random.index(found + 1),
        3 => found + random.index(200),
        _ => found,
    };
    trial.call(Call::Export { slots, window, area_bytes })
}

/// What one store exports goes into a fresh one, whole or without its end, and comes out again; mostly nothing has to go.
fn through_another_store(trial: &mut Trial, habits: &Habits) -> Step {
    let slots = habits.slots;
    let window = if trial.random.once_in(2) { EVERYTHING } else { habits.window(&mut trial.random) };
    let mut text = trial.exported(slots, &window);
    trial.call(Call::Export { slots, window, area_bytes: text.len() })?;
    if trial.random.once_in(4) {
        text.truncate(trial.random.index(text.len() + 1));
    }
    let first = trial.judge.selected();
    trial.run(Command::Use((first + 1) % STORES))?;
    let slots = trial.random.pick(&[2, slots, slots + 1, slots + 2]);
    trial.lend_chips(slots)?;
    trial.call(Call::Format { slots })?;
    let keeps = !trial.random.once_in(3);
    trial.call(Call::Import { keeps, slots, text })?;
    let area_bytes = trial.exported(slots, &EVERYTHING).len();
    trial.call(Call::Export { slots, window: EVERYTHING, area_bytes })?;
    trial.run(Command::Use(first))
}

/// None, some of those for calls that keep counts, a state at its bounds, or chips of another length.
fn change(trial: &mut Trial, habits: &Habits) -> Step {
    match trial.random.below(8) {
        0 | 1 => Ok(()),
        2 | 3 => sum_near_its_limit(trial),
        4 => states::move_to_bound(trial, habits.slots),
        5 if trial.random.once_in(3) => edges::odd_chips(trial, habits.slots),
        _ => (0..trial.random.pick(&[1, 1, 2])).try_for_each(|_| counts::change(trial, habits)),
    }
}

/// Some records of a file that keeps counts still go in, and then no more, whatever the next one is like.
fn sum_near_its_limit(trial: &mut Trial) -> Step {
    let left = trial.random.pick(&[0, 0, 1, 2, 5, 16]);
    counts::set_sum(trial, MOST_COUNTED - left)
}

fn text_after_change(trial: &mut Trial, habits: &mut Habits) -> Step {
    match trial.random.below(8) {
        0 => export_any(trial, habits),
        1 => {
            let records = trial.random.pick(&MANY);
            import(trial, habits, records)
        }
        2 => habits.one_call(trial),
        _ => {
            let records = trial.random.pick(&FEW);
            import(trial, habits, records)
        }
    }
}
