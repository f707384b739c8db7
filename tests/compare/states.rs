//! States at and past each bound, and stores near the last serial.
use crate::bases;
use crate::damage::{call_after_damage, change_field};
use crate::habits::Habits;
use crate::judge::Step;
use crate::random::Random;
use crate::trial::Trial;
use model::limits::{GREATEST_LOAD, LAST_SERIAL, LAST_TIME, LEAST_LOAD};
use script::calls::Call;
use script::command::{Command, Field};
use script::form::Form;

pub fn rounds(trial: &mut Trial) -> Step {
    let mut habits = bases::any(trial)?;
    trial.run(Command::Snap)?;
    for _ in 0..80 {
        trial.run(Command::Back)?;
        for _ in 0..trial.random.pick(&[1, 1, 2, 3]) {
            move_to_bound(trial, habits.slots)?;
        }
        for _ in 0..1 + trial.random.below(4) {
            call_after_damage(trial, &mut habits)?;
        }
    }
    near_last_serial(trial)
}

pub fn move_to_bound(trial: &mut Trial, slots: u64) -> Step {
    let (_, field) = trial.random.pick(&Field::ALL);
    let present = i128::from(trial.field(field));
    match trial.random.below(12) {
        0 => any_head_slot(trial, slots),
        1 => any_last_load(trial),
        2 => move_serials(trial),
        11 if trial.form == Form::Old => any_oldest_live(trial),
        3 => change_field(trial, trial.state(), field.place(trial.form).0, field.place(trial.form).1),
        4 => {
            let step = trial.random.pick(&[-1, 1]);
            trial.set(field, present + step)
        }
        _ => {
            let value = bound_of(trial, field, slots);
            trial.set(field, value)
        }
    }
}

/// Both serials moved up to the last ones, as far apart as they were.
pub fn move_serials(trial: &mut Trial) -> Step {
    let apart = trial.field(Field::Open).wrapping_sub(trial.field(Field::Oldest));
    let open = u64::from(LAST_SERIAL) + 1 - trial.random.below(4);
    trial.set(Field::Open, open.into())?;
    trial.set(Field::Oldest, open.wrapping_sub(apart).into())
}

/// A number at a bound of the field, or one past it.
fn bound_of(trial: &mut Trial, field: Field, slots: u64) -> i128 {
    let [oldest, open, start, next] =
        [Field::Oldest, Field::Open, Field::Start, Field::Next].map(|field| i128::from(trial.field(field)));
    let (low, high) = (trial.field(Field::Low) as i32, trial.field(Field::High) as i32);
    let (slots, last, last_time) = (i128::from(slots), i128::from(LAST_SERIAL), i128::from(LAST_TIME));
    let choices: Vec<i128> = match field {
        Field::Oldest => vec![0, 1, open, open + 1, open - slots - 1, open - slots, open - slots + 1, last, last + 1],
        Field::Open => {
            vec![0, 1, oldest, oldest + slots - 1, oldest + slots, oldest + slots + 1, last - 1, last, last + 1]
        }
        Field::Count => vec![0, 1, 12, 13, 15, 16, 63, 64, 319, 320, 321, 65_535],
        Field::Buckets => vec![0, 1, 2, 35, 36, 37, 255],
        Field::Next => {
            vec![0, 1, start - 1, start, start + 1, last_time, last_time + 1, last_time + 2, u64::MAX.into()]
        }
        Field::Start => vec![0, next - 1, next, next + 1, last_time + 1, last_time + 2, u64::MAX.into()],
        Field::Low => vec![high.into(), i128::from(high) + 1, load_bound(&mut trial.random)],
        Field::High => vec![low.into(), i128::from(low) - 1, load_bound(&mut trial.random)],
    };
    trial.random.pick(&choices)
}

fn load_bound(random: &mut Random) -> i128 {
    random.pick(&[LEAST_LOAD - 1, LEAST_LOAD, GREATEST_LOAD, GREATEST_LOAD + 1, i32::MIN, i32::MAX]).into()
}

fn any_head_slot(trial: &mut Trial, slots: u64) -> Step {
    let slots = slots as u16;
    let slot = trial.random.pick(&[0, slots - 1, slots, 65_534, 65_535]);
    let level = trial.random.index(4);
    let form = trial.form;
    trial.poke(trial.state(), form.heads() + form.pointer_bytes() * level, &slot.to_le_bytes())
}

fn any_last_load(trial: &mut Trial) -> Step {
    let load = load_bound(&mut trial.random) as i32;
    let place = trial.random.index(13);
    trial.poke(trial.state(), trial.form.last_loads() + 4 * place, &load.to_le_bytes())
}

/// Form 0's oldest live time, which stands before the heads, at its bound or past it.
fn any_oldest_live(trial: &mut Trial) -> Step {
    let time = trial.random.pick(&[0, LAST_TIME, LAST_TIME + 1, LAST_TIME + 2, u64::MAX]);
    trial.poke(trial.state(), trial.form.heads() - 8, &time.to_le_bytes())
}

/// An empty store that has come up to the last serials, then calls until they are used up.
fn near_last_serial(trial: &mut Trial) -> Step {
    let slots = trial.random.pick(&[2, 3, 5]);
    trial.lend_chips(slots)?;
    trial.call(Call::Format { slots })?;
    let serial = i128::from(LAST_SERIAL) - trial.random.from_to(0, 6) as i128;
    trial.set(Field::Oldest, serial)?;
    trial.set(Field::Open, serial)?;
    let mut habits = Habits::any(slots, &mut trial.random);
    for _ in 0..trial.random.below(400) {
        habits.one_call(trial)?;
        if trial.random.once_in(20) {
            habits.close(trial)?;
        }
    }
    Ok(())
}
