//! Stores that keep counts: short segments that close and go all the time, by force and not; then counts, headers, loads and
//! pages changed before the next segment goes.
use crate::bases;
use crate::damage::{change_count, change_field, damage_header, damage_once, damage_page_due};
use crate::edges;
use crate::habits::{odd_load, Habits};
use crate::judge::{Difference, Step};
use crate::lengths;
use crate::states;
use crate::trial::{Trial, HEADER};
use model::counts::Counts;
use model::limits::{load_past_limit, LAST_TIME, LOAD_SHIFT, MOST_COUNTED, SEGMENT_LIFTS};
use model::plate::plate_of;
use script::areas::SLOT_BYTES;
use script::calls::{Call, ROW_BYTES};
use script::command::{Command, Field, Part};
use script::form::Form;

/// Segments of few lifts, so that many of them go by in a short script.
const CLOSED_COUNTS: [u64; 9] = [1, 1, 1, 2, 3, 5, 15, 16, 17];
/// Stored loads at both limits and past them, and at ends of plates.
const STORED_LOADS: [u32; 10] = [0, 0, 1, 150_001, 150_002, 150_002, u32::MAX, 50_251, 50_252, 60_252];

pub fn rounds(trial: &mut Trial) -> Step {
    let mut habits = steady(trial)?;
    stop_before_a_drop(trial, &mut habits)?;
    trial.run(Command::Snap)?;
    for _ in 0..60 {
        trial.run(Command::Back)?;
        for _ in 0..trial.random.pick(&[0, 1, 1, 1, 2, 2]) {
            change(trial, &habits)?;
        }
        if trial.random.once_in(6) {
            two_grounds(trial, &mut habits)?;
        }
        // Last, since the changes before go by the state and by the chips' lengths.
        if trial.random.once_in(10) {
            states::move_to_bound(trial, habits.slots)?;
        }
        if trial.random.once_in(30) {
            edges::odd_chips(trial, habits.slots)?;
        }
        for _ in 0..trial.random.pick(&[1, 1, 2, 4]) {
            call_after_change(trial, &mut habits)?;
        }
    }
    trial.run(Command::Back)?;
    lengths::try_wrong_ones(trial, habits.slots)
}

/// A store that goes on for more segments than it has slots, mostly with calls alone that keep counts.
pub fn steady(trial: &mut Trial) -> Result<Habits, Difference> {
    let slots = trial.random.pick(&[2, 2, 3, 4, 5]);
    trial.lend_chips(slots)?;
    trial.call(Call::Format { slots })?;
    let mut habits = Habits::any(slots, &mut trial.random);
    let keeping = trial.random.pick(&[4, 4, 4, 3]);
    habits.keep_counts(keeping);
    if trial.random.once_in(2) {
        habits.lift_at_plate_ends();
    }
    let drop_in = trial.random.pick(&[2, 4, 1000]);
    for _ in 0..slots + trial.random.below(4 * slots) {
        let count = trial.random.pick(&CLOSED_COUNTS);
        bases::fill_open_segment(trial, &mut habits, count)?;
        habits.close(trial)?;
        if trial.random.once_in(drop_in) {
            habits.drop(trial)?;
        }
        for _ in 0..trial.random.below(3) {
            habits.one_call(trial)?;
        }
        trial.call(Call::Tally { slots, t1: 0, t2: LAST_TIME })?;
    }
    Ok(habits)
}

/// Mostly the next append drops a segment: all slots are in use and no lift is open, or the open segment is full.
fn stop_before_a_drop(trial: &mut Trial, habits: &mut Habits) -> Step {
    let is_full = trial.random.once_in(3);
    let closed = match is_full {
        true => habits.slots - 1,
        false if trial.random.once_in(4) => return Ok(()),
        false => habits.slots,
    };
    for _ in 0..4 * habits.slots {
        let (held, count) = (trial.field(Field::Open) - trial.field(Field::Oldest), trial.field(Field::Count));
        match count {
            0 if held >= closed => break,
            0 => habits.append(trial)?,
            _ => habits.close(trial)?,
        }
    }
    match is_full {
        true if trial.random.once_in(2) => bases::use_all_buckets(trial, habits),
        true => bases::fill_open_segment(trial, habits, SEGMENT_LIFTS as u64),
        false => Ok(()),
    }
}

pub fn change(trial: &mut Trial, habits: &Habits) -> Step {
    let slots = habits.slots;
    let slot = oldest_slot(trial, slots);
    match trial.random.below(16) {
        0..=2 => sum_at_its_limit(trial),
        3..=5 => count_of_the_oldest(trial, slots),
        6 => on_the_wrong_plate(trial),
        7 => any_count(trial),
        8 => damage_header(trial, slot + HEADER),
        9 => change_count(trial, slot + HEADER),
        10 | 11 => load_of_the_oldest(trial, slot),
        12 => damage_page_due(trial, slots),
        13 => states::move_serials(trial),
        14 => serial_of_the_oldest(trial, slot + HEADER),
        _ => damage_once(trial, slots),
    }
}

/// Where the slot begins that the oldest segment has.
fn oldest_slot(trial: &Trial, slots: u64) -> usize {
    (trial.field(Field::Oldest).wrapping_sub(1) % slots) as usize * SLOT_BYTES
}

fn counts(trial: &Trial) -> [u64; Form::New.counts()] {
    Counts::from_bytes(&trial.areas().counts).values()
}

fn any_plate(trial: &mut Trial) -> usize {
    trial.random.index(Form::New.counts())
}

fn set_count(trial: &mut Trial, plate: usize, value: u64) -> Step {
    trial.run(Command::SetCount { plate, value: value as u32 })
}

/// A sum that is just good, one less, or one more.
fn sum_at_its_limit(trial: &mut Trial) -> Step {
    let sum = MOST_COUNTED - 1 + trial.random.pick(&[0, 0, 1, 2, 2]);
    set_sum(trial, sum)
}

pub fn set_sum(trial: &mut Trial, sum: u64) -> Step {
    let plate = any_plate(trial);
    let others = counts(trial).iter().sum::<u64>() - counts(trial)[plate];
    set_count(trial, plate, sum.saturating_sub(others))
}

/// Counts too large or too small, and another ground beside them.
fn two_grounds(trial: &mut Trial, habits: &mut Habits) -> Step {
    match trial.random.below(2) {
        0 => set_sum(trial, MOST_COUNTED + 1)?,
        _ => (0..Form::New.counts()).try_for_each(|plate| set_count(trial, plate, 0))?,
    }
    match trial.random.below(5) {
        0 | 1 => damage_page_due(trial, habits.slots)?,
        2 => states::move_serials(trial)?,
        3 => change_field(trial, Part::Nor, 0, 4)?,
        _ => {
            let open = trial.field(Field::Open);
            trial.set(Field::Oldest, open.into())?
        }
    }
    habits.append(trial)?;
    trial.call(Call::Drop { keeps: true, slots: habits.slots })
}

/// A lift goes from one plate's count to another's.
fn on_the_wrong_plate(trial: &mut Trial) -> Step {
    let (from, to) = (any_plate(trial), any_plate(trial));
    let counts = counts(trial);
    set_count(trial, from, counts[from].saturating_sub(1))?;
    set_count(trial, to, counts[to] + 1)
}

fn any_count(trial: &mut Trial) -> Step {
    let plate = any_plate(trial);
    let present = counts(trial)[plate];
    let value = trial.random.pick(&[0, 1, present.wrapping_sub(1), present + 1, u32::MAX.into(), MOST_COUNTED + 1]);
    set_count(trial, plate, value)
}

/// As many lifts as a header counts, or as may be.
fn lifts_in(trial: &Trial, slot: usize) -> usize {
    let count = &trial.areas().nand[slot + HEADER + 4..slot + HEADER + 6];
    usize::from(u16::from_le_bytes(count.try_into().unwrap())).clamp(1, SEGMENT_LIFTS)
}

/// The count of a plate just enough for the oldest segment, one short, or 0; then the segment goes for a lift on this very
/// plate, or by itself.
fn count_of_the_oldest(trial: &mut Trial, slots: u64) -> Step {
    let slot = oldest_slot(trial, slots);
    let load_at = |position: usize| {
        let load = slot + ROW_BYTES * position + 8;
        let stored_load = u32::from_le_bytes(trial.areas().nand[load..load + 4].try_into().unwrap());
        (i64::from(stored_load) - LOAD_SHIFT) as i32
    };
    let loads: Vec<i32> = (0..lifts_in(trial, slot)).map(load_at).collect();
    let load = trial.random.pick(&loads);
    if load_past_limit(load) {
        return Ok(());
    }
    let plate = plate_of(Form::New, load);
    let on_it = loads.iter().filter(|load| plate_of(Form::New, **load) == plate).count() as u64;
    let missing = trial.random.pick(&[0, 1, 1, on_it]);
    set_count(trial, plate, on_it - missing)?;
    if trial.random.once_in(2) {
        let (time, note) = (trial.field(Field::Next), trial.random.note());
        trial.call(Call::Append { keeps: true, slots, time, load, note })?;
    }
    trial.call(Call::Drop { keeps: true, slots })
}

/// Its serial in the header about the open one, which is one more once the same append has closed a segment.
fn serial_of_the_oldest(trial: &mut Trial, header: usize) -> Step {
    let open = trial.field(Field::Open) as u32;
    let serial = trial.random.pick(&[open - 1, open, open, open + 1]);
    trial.poke(Part::Nand, header, &serial.to_le_bytes())
}

/// Of its first lift, its last one, the one behind it, which is not read, or any.
fn load_of_the_oldest(trial: &mut Trial, slot: usize) -> Step {
    let lifts = lifts_in(trial, slot);
    let any = trial.random.index(lifts);
    let position = trial.random.pick(&[0, lifts - 1, lifts.min(SEGMENT_LIFTS - 1), any]);
    let stored_load = trial.random.pick(&STORED_LOADS);
    trial.poke(Part::Nand, slot + ROW_BYTES * position + 8, &stored_load.to_le_bytes())
}

fn call_after_change(trial: &mut Trial, habits: &mut Habits) -> Step {
    let slots = habits.slots;
    let keeps = !trial.random.once_in(6);
    if trial.random.once_in(30) {
        // Looks at no counts.
        return trial.call(Call::Format { slots });
    }
    match trial.random.below(12) {
        0..=2 => trial.call(Call::Drop { keeps, slots }),
        3..=6 => habits.append(trial),
        7 | 8 => append_past_a_limit(trial, slots),
        9 => habits.close(trial),
        10 => trial.call(Call::Tally { slots, t1: 0, t2: LAST_TIME }),
        _ => habits.one_call(trial),
    }
}

/// Grounds 4, 5 and 7, of which some come together.
fn append_past_a_limit(trial: &mut Trial, slots: u64) -> Step {
    let next = trial.field(Field::Next);
    let random = &mut trial.random;
    let time = random.pick(&[next, next.saturating_sub(1), next.saturating_sub(1), LAST_TIME + 1, u64::MAX]);
    let load = if random.once_in(2) { odd_load(random) } else { 100 };
    let note = random.note();
    trial.call(Call::Append { keeps: true, slots, time, load, note })
}
