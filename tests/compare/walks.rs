//! Stores whose searches read many pages: short segments that the skip walk moves over, and segments of five sections, which
//! have both Bloom pages.
use crate::bases::fill_open_segment;
use crate::habits::Habits;
use crate::judge::{Difference, Step};
use crate::trial::Trial;
use script::calls::Call;

const FIVE_SECTIONS: [u64; 6] = [257, 258, 272, 300, 319, 320];

pub fn rounds(trial: &mut Trial) -> Step {
    if trial.random.once_in(3) {
        five_sections(trial)
    } else {
        short_segments(trial)
    }
}

fn formatted(trial: &mut Trial, slots: u64) -> Result<Habits, Difference> {
    trial.lend_chips(slots)?;
    trial.call(Call::Format { slots })?;
    Ok(Habits::any(slots, &mut trial.random))
}

/// Closes past S and past 2 S, so that a search begins at every distance from a segment of level 4, with every slot in use.
fn short_segments(trial: &mut Trial) -> Step {
    let slots = trial.random.pick(&[8, 8, 8, 9, 16, 64]);
    let mut habits = formatted(trial, slots)?;
    let drop_in = trial.random.pick(&[4, 1000, 1000]);
    for _ in 0..slots + trial.random.below(2 * slots) {
        let count = trial.random.pick(&[1, 1, 1, 2, 17]);
        fill_open_segment(trial, &mut habits, count)?;
        if trial.random.once_in(4) {
            habits.search_early(trial)?;
        }
        habits.close(trial)?;
        if trial.random.once_in(drop_in) {
            habits.drop(trial)?;
        }
        habits.search_early(trial)?;
    }
    (0..20).try_for_each(|_| habits.search_early(trial))
}

fn five_sections(trial: &mut Trial) -> Step {
    let slots = trial.random.pick(&[2, 3, 4]);
    let mut habits = formatted(trial, slots)?;
    for _ in 0..1 + trial.random.below(slots + 2) {
        let count = trial.random.pick(&FIVE_SECTIONS);
        fill_open_segment(trial, &mut habits, count)?;
        habits.close(trial)?;
        (0..16).try_for_each(|_| habits.search_one_load(trial))?;
    }
    habits.search_all(trial)
}
