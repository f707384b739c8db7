//! Stores of old cells: loads at both limits, close together and a tolerance apart, searched between ends that lie just as
//! far from a lift; whole, damaged, with states at their bounds, and on chips of odd lengths.
use crate::bases;
use crate::convert::lift_at;
use crate::damage::{change_field, damage_once};
use crate::edges;
use crate::habits::{odd_load, odd_slots, Habits};
use crate::judge::{Difference, Step};
use crate::lengths;
use crate::mids;
use crate::random::Random;
use crate::states;
use crate::trial::{Trial, BUCKET_BYTES, TREE};
use model::limits::{GREATEST_LOAD, LAST_TIME, LEAST_LOAD, LOAD_SHIFT, MOST_TOLERANCE, SEGMENT_LIFTS};
use script::areas::SLOT_BYTES;
use script::calls::{Call, Tolerant, Window, ROW_BYTES};
use script::command::{Command, Field, Part};

const TOLERANCES: [u64; 8] = [0, 1, 2, 3, 10, 100, 999, MOST_TOLERANCE];
/// Past the limit; in fewer bits, or with a sign, most of them are not.
const TOO_MUCH: [u64; 9] = [1_001, 1_002, 65_536, 65_546, 1 << 32, 1 << 32 | 1_000, 1 << 63, u64::MAX - 999, u64::MAX];

/// Loads that a record can be made to hold. One below the least is the lowest of all.
const ABOUT_THE_LIMITS: [i32; 8] = [
    LEAST_LOAD - 1,
    LEAST_LOAD - 1,
    LEAST_LOAD,
    GREATEST_LOAD - 1,
    GREATEST_LOAD,
    GREATEST_LOAD + 1,
    GREATEST_LOAD + 2,
    GREATEST_LOAD + 1_000,
];

pub fn rounds(trial: &mut Trial) -> Step {
    let usual = any_tolerance(&mut trial.random);
    let habits = if trial.random.once_in(3) { bases::any(trial)? } else { loads_apart(trial, usual)? };
    search(trial, &habits, usual, 40)?;
    trial.run(Command::Snap)?;
    for _ in 0..40 {
        trial.run(Command::Back)?;
        change(trial, &habits, usual)?;
        search(trial, &habits, usual, 4)?;
    }
    trial.run(Command::Back)?;
    let mut call = any_call(trial, &habits, usual);
    call.area_bytes = trial.tolerant_found(&call).map(|lifts| (lifts + 1) * ROW_BYTES);
    lengths::try_wrong_tolerant(trial, &call)
}

/// Within the limit.
pub fn any_tolerance(random: &mut Random) -> u64 {
    random.pick(&TOLERANCES)
}

/// Closes and drops among lifts whose loads lie a tolerance apart.
fn loads_apart(trial: &mut Trial, tolerance: u64) -> Result<Habits, Difference> {
    let slots = trial.random.pick(&[2, 2, 3, 4, 5, 8]);
    trial.lend_chips(slots)?;
    trial.call(Call::Format { slots })?;
    let mut habits = Habits::any(slots, &mut trial.random);
    habits.set_loads_apart(tolerance as i32, &mut trial.random);
    let close_in = trial.random.pick(&[3, 20, 100, 4000]);
    let drop_in = trial.random.pick(&[20, 200, 4000]);
    for _ in 0..trial.random.pick(&[1, 2, 5]) {
        for _ in 0..trial.random.pick(&[1, 4, 30, 60, 200]) {
            habits.append(trial)?;
            if trial.random.once_in(close_in) {
                habits.close(trial)?;
            }
            if trial.random.once_in(drop_in) {
                habits.drop(trial)?;
            }
        }
        search(trial, &habits, tolerance, 8)?;
    }
    Ok(habits)
}

/// So many searches, mostly with the store's usual tolerance.
fn search(trial: &mut Trial, habits: &Habits, usual: u64, times: u64) -> Step {
    (0..times).try_for_each(|_| {
        let call = any_call(trial, habits, usual);
        run(trial, call)
    })
}

fn any_call(trial: &mut Trial, habits: &Habits, usual: u64) -> Tolerant {
    let random = &mut trial.random;
    let tolerance = if random.once_in(3) { any_tolerance(random) } else { usual };
    let (mut window, other) = (habits.window(random), habits.window(random));
    if random.once_in(2) {
        // From the loads of one window to those of another, so that lifts are certain.
        (window.k1, window.k2) = (window.k1.min(other.k1), window.k2.max(other.k2));
    }
    call_about(random, habits.slots, window, tolerance)
}

/// A search about the loads of a window.
pub fn search_about(trial: &mut Trial, slots: u64, window: Window, tolerance: u64) -> Step {
    let call = call_about(&mut trial.random, slots, window, tolerance);
    run(trial, call)
}

fn call_about(random: &mut Random, slots: u64, window: Window, tolerance: u64) -> Tolerant {
    let window = with_ends_moved(&window, tolerance as i32, random);
    let mut call = Tolerant { slots, window, tolerance, area_bytes: [0; 2] };
    // One ground or two.
    for _ in 0..random.pick(&[0, 0, 0, 0, 0, 0, 0, 0, 0, 1, 1, 2]) {
        spoil(&mut call, slots, random);
    }
    call
}

/// Either end, or both alike, moved by the tolerance, give or take one: there a lift just comes in or just stays out. Ranges
/// wider and narrower than twice the tolerance come of it.
fn with_ends_moved(window: &Window, tolerance: i32, random: &mut Random) -> Window {
    let mut step = || random.pick(&[-tolerance, 0, tolerance]) + random.load(-1, 1);
    let (first, second) = (step(), step());
    let (low, high) = random.pick(&[(0, 0), (first, first), (first, second), (first, second)]);
    let [k1, k2] = [window.k1 + low, window.k2 + high].map(|load| load.clamp(LEAST_LOAD, GREATEST_LOAD));
    Window { k1: k1.min(k2), k2: k1.max(k2), ..*window }
}

/// Something that grounds 1, 4, 5, 6 or 17 are against, or that looks like it.
fn spoil(call: &mut Tolerant, slots: u64, random: &mut Random) {
    let window = &mut call.window;
    let past_limit = [LAST_TIME, LAST_TIME + 1, u64::MAX];
    match random.below(9) {
        0 => call.slots = odd_slots(slots, random),
        1 => window.t1 = random.pick(&past_limit),
        2 => window.t2 = random.pick(&past_limit),
        3 => window.k1 = odd_load(random),
        4 => window.k2 = odd_load(random),
        5 => std::mem::swap(&mut window.t1, &mut window.t2),
        6 => std::mem::swap(&mut window.k1, &mut window.k2),
        _ => call.tolerance = random.pick(&TOO_MUCH),
    }
}

fn run(trial: &mut Trial, mut call: Tolerant) -> Step {
    let found = trial.tolerant_found(&call);
    call.area_bytes = found.map(|lifts| any_room(lifts * ROW_BYTES, &mut trial.random));
    trial.run(Command::Tolerant(call))
}

/// Often just as many bytes as the rows take.
fn any_room(found: usize, random: &mut Random) -> usize {
    match random.below(12) {
        0 => 0,
        1 => found.saturating_sub(1),
        2 => random.index(found + 1),
        3 | 4 => found + ROW_BYTES - 1,
        5 | 6 => found + random.index(200),
        _ => found,
    }
}

/// Damage of every kind, another load in a record alone or in its entry, too, a state at its bounds, or chips of another
/// length.
fn change(trial: &mut Trial, habits: &Habits, usual: u64) -> Step {
    let slots = habits.slots;
    match trial.random.below(9) {
        0 => states::move_to_bound(trial, slots),
        1 => edges::odd_chips(trial, slots),
        2 => search_beside_damage(trial, slots, usual),
        3 => change_a_load(trial, slots),
        4 | 5 => (0..4).try_for_each(|_| move_a_load(trial, slots)),
        _ => (0..trial.random.pick(&[1, 1, 2, 3])).try_for_each(|_| damage_once(trial, slots)),
    }
}

fn change_a_load(trial: &mut Trial, slots: u64) -> Step {
    let slot = trial.random.index(slots as usize) * SLOT_BYTES;
    let places = trial.random.pick(&[8, 24, 320]);
    let place = trial.random.index(places);
    let (part, record) = lift_at(trial, slot, place);
    change_field(trial, part, record + 8, 4)
}

/// Another load for a lift, in its entry and in its record: no damage. Past a limit it is out of reach, since the widened
/// ends stop there.
fn move_a_load(trial: &mut Trial, slots: u64) -> Step {
    let slot = trial.random.index(slots as usize) * SLOT_BYTES;
    let (part, tree) = trial.random.pick(&[(Part::Nor, 0), (Part::Nand, slot + TREE)]);
    let entry = tree + BUCKET_BYTES * trial.random.index(3) + 24 + 8 * trial.random.index(13);
    let position = &trial.areas().part(part)[entry + 4..entry + 6];
    let position = usize::from(u16::from_le_bytes(position.try_into().unwrap()));
    if position >= SEGMENT_LIFTS {
        return Ok(());
    }
    let load = trial.random.pick(&ABOUT_THE_LIMITS);
    let stored_load = ((i64::from(load) + LOAD_SHIFT) as u32).to_le_bytes();
    let (record_in, record) = match part {
        Part::Nor => place_in_open_segment(trial, slots, position),
        _ => (Part::Nand, slot + ROW_BYTES * position),
    };
    trial.poke(part, entry, &stored_load)?;
    trial.poke(record_in, record + 8, &stored_load)
}

/// Where a record of the open segment stands: in its slot or in the page buffer.
fn place_in_open_segment(trial: &Trial, slots: u64, position: usize) -> (Part, usize) {
    if position / 16 >= trial.field(Field::Count) as usize / 16 {
        return (trial.state(), trial.form.page_buffer() + ROW_BYTES * (position % 16));
    }
    let slot = ((trial.field(Field::Open) - 1) % slots) as usize;
    (Part::Nand, slot * SLOT_BYTES + ROW_BYTES * position)
}

/// A search whose widened end just takes in a damaged part of a tree, or just leaves it out.
fn search_beside_damage(trial: &mut Trial, slots: u64, tolerance: u64) -> Step {
    let Some((k1, k2)) = mids::damage_a_child(trial, slots)? else { return Ok(()) };
    let d = tolerance as i32;
    let [k1, k2] = match (k1, k2) {
        (LEAST_LOAD, end) => [LEAST_LOAD, (end - d).max(LEAST_LOAD)],
        (end, _) => [(end + d).min(GREATEST_LOAD), GREATEST_LOAD],
    };
    let window = Window { t1: 0, t2: LAST_TIME, k1, k2 };
    run(trial, Tolerant { slots, window, tolerance, area_bytes: [0; 2] })
}
