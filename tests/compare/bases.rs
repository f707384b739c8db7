//! Stores to begin from: some closed segments and an open one of a chosen count.
use crate::habits::Habits;
use crate::judge::Step;
use crate::trial::Trial;
use script::calls::Call;
use script::command::Field;

/// Counts at which the next lift fills a bucket, a page, a section or the segment, and some others.
const OPEN_COUNTS: [u64; 17] = [0, 0, 1, 5, 12, 13, 14, 15, 16, 31, 62, 63, 127, 255, 256, 319, 320];
const CLOSED_COUNTS: [u64; 9] = [1, 2, 14, 16, 40, 65, 256, 257, 320];

pub fn any(trial: &mut Trial) -> Result<Habits, crate::judge::Difference> {
    let slots = trial.random.pick(&[2, 2, 3, 3, 4, 5, 8]);
    trial.lend_chips(slots)?;
    trial.call(Call::Format { slots })?;
    let mut habits = Habits::any(slots, &mut trial.random);
    for _ in 0..trial.random.below(slots + 3) {
        let count = trial.random.pick(&CLOSED_COUNTS);
        fill_open_segment(trial, &mut habits, count)?;
        habits.close(trial)?;
    }
    if trial.random.once_in(5) {
        use_all_buckets(trial, &mut habits)?;
    } else {
        let count = trial.random.pick(&OPEN_COUNTS);
        fill_open_segment(trial, &mut habits, count)?;
    }
    if trial.random.once_in(4) {
        habits.drop(trial)?;
    }
    Ok(habits)
}

/// Appends until the open segment has bucket 35, so that the next new one closes it.
pub fn use_all_buckets(trial: &mut Trial, habits: &mut Habits) -> Step {
    habits.spread_loads();
    append_while(trial, habits, |trial| trial.field(Field::Buckets) < 36 && trial.field(Field::Count) < 320)
}

/// Appends until the open segment has `count` lifts, or would be closed for want of buckets.
pub fn fill_open_segment(trial: &mut Trial, habits: &mut Habits, count: u64) -> Step {
    let serial = trial.field(Field::Open);
    append_while(trial, habits, |trial| trial.field(Field::Open) == serial && trial.field(Field::Count) < count)
}

fn append_while(trial: &mut Trial, habits: &mut Habits, wanted: impl Fn(&Trial) -> bool) -> Step {
    let place = |trial: &Trial| (trial.field(Field::Open), trial.field(Field::Count));
    while wanted(trial) {
        let place_before = place(trial);
        habits.append(trial)?;
        let is_refused = place(trial) == place_before;
        if is_refused {
            break;
        }
    }
    Ok(())
}
