//! Conversions: stores of either form carried into the other, there and back, whole and damaged, into second stores that
//! hold anything.
use crate::bases;
use crate::damage::{change_field, damage_header, damage_once, damage_pointer, BYTE_TEN, POINTERS};
use crate::edges;
use crate::habits::{odd_slots, Habits};
use crate::judge::{Difference, Step};
use crate::lengths;
use crate::states;
use crate::trial::{Trial, HEADER};
use model::limits::LAST_TIME;
use script::areas::SLOT_BYTES;
use script::calls::{Call, Carry};
use script::command::{Command, Field, Part};
use script::form::Form;

/// Segments of few lifts, so that many of them go by in a short script.
const CLOSED_COUNTS: [u64; 9] = [1, 1, 1, 2, 3, 5, 15, 16, 17];
const OPEN_COUNTS: [u64; 9] = [0, 0, 0, 1, 2, 15, 16, 17, 33];
/// The stores that a script uses: the first one in store 0, what comes of it in those after it.
const STORES: usize = 4;

pub fn rounds(trial: &mut Trial) -> Step {
    let form = trial.random.pick(&[Form::Old, Form::New]);
    trial.form = form;
    let mut habits = if trial.random.once_in(4) { bases::any(trial)? } else { short_segments(trial)? };
    trial.run(Command::Snap)?;
    for _ in 0..24 {
        trial.run(Command::Back)?;
        trial.form = form;
        match trial.random.below(8) {
            0..=2 => from_store_to_store(trial, &mut habits)?,
            3 => with_odd_chips(trial, habits.slots)?,
            _ => damaged(trial, &mut habits)?,
        }
    }
    trial.run(Command::Back)?;
    trial.form = form;
    lengths::try_wrong_conversions(trial, habits.slots)
}

/// Serials of every level go by; some segments are dropped, in form 1 often with starts that equal those of later ones.
fn short_segments(trial: &mut Trial) -> Result<Habits, Difference> {
    let slots = trial.random.pick(&[2, 2, 3, 3, 5, 8, 8, 17]);
    trial.lend_chips(slots)?;
    trial.call(Call::Format { slots })?;
    let mut habits = Habits::any(slots, &mut trial.random);
    let closes = if trial.random.once_in(6) { 0 } else { trial.random.below(2 * slots + 9) };
    let times_rise_from = trial.random.below(closes + 2);
    let drop_in = trial.random.pick(&[2, 4, 1000]);
    for close in 0..closes {
        if close == times_rise_from {
            habits.let_times_rise();
        }
        let count = trial.random.pick(&CLOSED_COUNTS);
        bases::fill_open_segment(trial, &mut habits, count)?;
        habits.close(trial)?;
        if trial.random.once_in(drop_in) {
            habits.drop(trial)?;
        }
    }
    let count = trial.random.pick(&OPEN_COUNTS);
    bases::fill_open_segment(trial, &mut habits, count)?;
    Ok(habits)
}

/// Carries the selected store over, into the form that it is not in.
fn carry(trial: &mut Trial, slots: u64, second: usize) -> Step {
    trial.run(Command::Carry(Carry { into: trial.form.other(), slots, second }))
}

/// Goes on with the second store, where the conversion was accepted.
fn follow(trial: &mut Trial, second: usize) -> Result<bool, Difference> {
    let accepted = trial.judge.number == 0;
    if accepted {
        trial.run(Command::Use(second))?;
        trial.form = trial.form.other();
    }
    Ok(accepted)
}

/// Chips that hold anything, and now and then a state that does, for a store that is to be written.
fn lend_second(trial: &mut Trial, slots: u64, second: usize) -> Step {
    let first = trial.judge.selected();
    trial.run(Command::Use(second))?;
    trial.lend_chips(slots)?;
    if trial.random.once_in(8) {
        trial.form = trial.form.other();
        edges::any_state(trial)?;
        trial.form = trial.form.other();
    }
    trial.run(Command::Use(first))
}

/// There, back and there again, with calls between some of the conversions.
fn from_store_to_store(trial: &mut Trial, habits: &mut Habits) -> Step {
    let slots = habits.slots;
    for second in (1..STORES).cycle().take(2 + trial.random.index(3)) {
        lend_second(trial, slots, second)?;
        habits.search_all(trial)?;
        carry(trial, slots, second)?;
        if !follow(trial, second)? {
            return Ok(());
        }
        habits.search_all(trial)?;
        habits.ask(trial)?;
        for _ in 0..trial.random.pick(&[0, 0, 1, 4]) {
            habits.one_call(trial)?;
        }
    }
    Ok(())
}

/// Into the second store and back into a third, once each.
pub fn there_and_back(trial: &mut Trial, slots: u64) -> Step {
    for second in 1..=2 {
        lend_second(trial, slots, second)?;
        carry(trial, slots, second)?;
        if !follow(trial, second)? {
            break;
        }
    }
    Ok(())
}

/// Another S, or chips of other lengths, of the first store, of the second, or of both.
fn with_odd_chips(trial: &mut Trial, slots: u64) -> Step {
    let named = if trial.random.once_in(3) { odd_slots(slots, &mut trial.random) } else { slots };
    lend_second(trial, slots, 1)?;
    let odd = trial.random.pick(&[[true, false], [false, true], [false, true], [true, true]]);
    for store in (0..2).filter(|store| odd[*store]) {
        trial.run(Command::Use(store))?;
        edges::odd_chips(trial, slots)?;
    }
    trial.run(Command::Use(0))?;
    if trial.random.once_in(3) {
        states::move_to_bound(trial, slots)?;
    }
    carry(trial, named, 1)
}

/// A damaged store is carried over; where that is accepted, so are calls on the second one, and it is carried on.
fn damaged(trial: &mut Trial, habits: &mut Habits) -> Step {
    let slots = habits.slots;
    lend_second(trial, slots, 1)?;
    lend_second(trial, slots, 2)?;
    for _ in 0..trial.random.pick(&[1, 1, 2, 3]) {
        damage_what_is_read(trial, slots)?;
    }
    if trial.random.once_in(3) {
        states::move_to_bound(trial, slots)?;
    }
    for second in 1..=2 {
        carry(trial, slots, second)?;
        if !follow(trial, second)? {
            break;
        }
        habits.ask(trial)?;
        habits.one_call(trial)?;
    }
    Ok(())
}

fn damage_what_is_read(trial: &mut Trial, slots: u64) -> Step {
    let slot = retained_slot(trial, slots) * SLOT_BYTES;
    match trial.random.below(16) {
        0..=3 => damage_header(trial, slot + HEADER),
        4 | 5 => change_byte_ten(trial, slot + HEADER),
        6 => change_level(trial, slot + HEADER),
        7 => damage_unused_bytes(trial, slot + HEADER),
        8 => damage_pointer(trial, Part::Nand, slot + HEADER + POINTERS),
        9 => damage_pointer(trial, trial.state(), trial.form.heads()),
        10..=12 if trial.form == Form::New => doubtful_pointer(trial, slots, slot + HEADER),
        13 | 14 => move_a_time(trial, slot),
        _ => damage_once(trial, slots),
    }
}

/// The slot of a retained segment or of the open one.
fn retained_slot(trial: &mut Trial, slots: u64) -> usize {
    let (oldest, open) = (trial.field(Field::Oldest), trial.field(Field::Open));
    let serial = oldest + trial.random.below(open - oldest + 1);
    ((serial - 1) % slots) as usize
}

fn change_byte_ten(trial: &mut Trial, header: usize) -> Step {
    let other = trial.form.other().byte_ten();
    let value = trial.random.pick(&[other, other, 0, 1, 2, 255]);
    trial.poke(Part::Nand, header + BYTE_TEN, &[value])
}

/// A pointer of a header or a head that is just live or just dead, with a time about the oldest live one.
fn doubtful_pointer(trial: &mut Trial, slots: u64, header: usize) -> Step {
    let (part, pointers) = match trial.random.below(2) {
        0 => (trial.state(), trial.form.heads()),
        _ => (Part::Nand, header + POINTERS),
    };
    let serial = trial.field(Field::Oldest) - trial.random.pick(&[0, 1, 1, 1]);
    let time = (first_time(trial, slots).min(LAST_TIME) + trial.random.below(3)).saturating_sub(1);
    let pointer = pointers + trial.form.pointer_bytes() * trial.random.index(4);
    if trial.random.once_in(2) {
        trial.poke(part, pointer, &[0, 0])?;
    }
    trial.poke(part, pointer + 2, &(serial as u32).to_le_bytes())?;
    trial.poke(part, pointer + 6, &time.to_le_bytes())
}

/// The start of the oldest retained lift, or next time if there is none.
fn first_time(trial: &Trial, slots: u64) -> u64 {
    let oldest = trial.field(Field::Oldest);
    if oldest == trial.field(Field::Open) {
        return trial.field(if trial.field(Field::Count) > 0 { Field::Start } else { Field::Next });
    }
    let start = ((oldest - 1) % slots) as usize * SLOT_BYTES + HEADER + 16;
    u64::from_le_bytes(trial.areas().nand[start..start + 8].try_into().unwrap())
}

/// No search reads a segment's level.
fn change_level(trial: &mut Trial, header: usize) -> Step {
    change_field(trial, Part::Nand, header + 9, 1)
}

/// Bytes 11 to 15, and those past the pointers: no damage, and 0 in the second store.
fn damage_unused_bytes(trial: &mut Trial, header: usize) -> Step {
    let end = POINTERS + 4 * trial.form.pointer_bytes();
    let past = end + trial.random.index(512 - end);
    let place = trial.random.pick(&[11, 12, 15, end, past, 511]);
    change_field(trial, Part::Nand, header + place, 1)
}

/// Where the record of a lift stands: in its segment's slot or, once in three, in the page buffer.
pub fn lift_at(trial: &mut Trial, slot: usize, place: usize) -> (Part, usize) {
    match trial.random.below(3) {
        0 => (trial.state(), trial.form.page_buffer() + 32 * (place % 16)),
        _ => (Part::Nand, slot + 32 * place),
    }
}

/// The time of a lift becomes that of the one before, is moved by one, or by more.
fn move_a_time(trial: &mut Trial, slot: usize) -> Step {
    let place = trial.random.pick(&[0, 0, 1, 1, 2, 14, 15, 16, 31]);
    let (part, record) = lift_at(trial, slot, place);
    if place % 16 > 0 && trial.random.once_in(2) {
        let before = trial.areas().part(part)[record - 32..record - 24].to_vec();
        return trial.poke(part, record, &before);
    }
    change_field(trial, part, record, 8)
}
