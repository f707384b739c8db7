//! State, counts and answer areas of wrong lengths: number 20 before everything else, nothing changed.
use crate::judge::{Difference, Step};
use crate::random::Random;
use crate::trial::{Trial, NOR_BYTES};
use abi::LentStore;
use script::areas::{COUNTS_BYTES, SLOT_BYTES};
use script::calls::{Call, Carry, Outputs, Pairs, Tolerant, Window, UNTOUCHED};
use script::command::Command;
use script::form::Form;

const WRONG_LENGTH: u8 = 20;
/// Of one number, as a search of form 0 has it; of a tolerant search; of a search; of a tally and of a page, each with a
/// plate less and as it is.
const ANSWER_LENGTHS: [usize; 7] = [8, 16, 32, 168, 176, 943, 984];

/// A length that a state area of this form does not have; it may be the other form's.
fn wrong_length(form: Form, random: &mut Random) -> usize {
    let right = form.state_bytes();
    random.pick(&[0, 1, right - 1, right + 1, 2 * right, form.other().state_bytes()])
}

/// A length that no counts have: of a plate less or more, of a tally's counts, of a state.
fn wrong_counts_length(random: &mut Random) -> usize {
    let right = COUNTS_BYTES;
    random.pick(&[0, 1, right - 4, right - 1, right + 1, right + 4, 2 * right, Form::New.state_bytes()])
}

/// A length that this answer area does not have; it may be another call's.
fn wrong_answer_length(right: usize, random: &mut Random) -> usize {
    let others = ANSWER_LENGTHS.into_iter().filter(|length| *length != right);
    let choices: Vec<usize> = [0, 1, right - 1, right + 1, 2 * right].into_iter().chain(others).collect();
    random.pick(&choices)
}

/// Number 20, and no area that was lent has changed.
fn check_refusal(trial: &mut Trial, number: u8, changed: bool, lengths: &str) -> Step {
    if number != WRONG_LENGTH {
        return Err(Difference(format!("{lengths}: number {number}, expected {WRONG_LENGTH}")));
    }
    if changed {
        return Err(Difference(format!("{lengths}: refused, but an area changed")));
    }
    trial.judge.figures.wrong_lengths += 1;
    Ok(())
}

/// Tries every call of one store on the present areas, with one wrong length or two.
pub fn try_wrong_ones(trial: &mut Trial, slots: u64) -> Step {
    let slots = if trial.random.once_in(4) { slots + 1 } else { slots };
    let time = trial.random.below(1000);
    let window = Window { t1: 0, t2: time, k1: -10, k2: 10 };
    let text =
        trial.random.pick(&[&b"time,load,member\r\n999999999999999,100,1\r\n"[..], b"time,load,member", b""]).to_vec();
    let calls = [
        Call::Format { slots },
        Call::Append { keeps: false, slots, time, load: 100, note: trial.random.note() },
        Call::Append { keeps: true, slots, time, load: 100, note: trial.random.note() },
        Call::Close { slots },
        Call::Drop { keeps: false, slots },
        Call::Drop { keeps: true, slots },
        Call::Search { slots, window, area_bytes: 64 },
        Call::Tally { slots, t1: 0, t2: time },
        Call::Page { slots, t1: 0, t2: time },
        Call::Plate { place: trial.random.below(3), load: 251 },
        Call::Export { slots, window, area_bytes: 64 },
        Call::Import { keeps: false, slots, text: text.clone() },
        Call::Import { keeps: true, slots, text },
    ];
    calls.iter().try_for_each(|call| try_wrong_one(trial, call))?;
    try_wrong_plain_format(trial, slots)?;
    let tolerance = trial.random.pick(&[0, 1, 1_000, 1_001]);
    try_wrong_tolerant(trial, &Tolerant { slots, window, tolerance, area_bytes: [64; 2] })
}

/// Whether the state area, the counts and the answer area get a wrong length; one of those that the call has does.
fn which_are_wrong(call: &Call, random: &mut Random) -> [bool; 3] {
    let [yes, no] = [true, false];
    match call {
        Call::Plate { .. } => [no, no, yes],
        Call::Import { keeps: true, .. } => {
            random.pick(&[[yes, no, no], [no, yes, no], [no, no, yes], [yes, yes, no], [no, yes, yes], [yes; 3]])
        }
        Call::Search { .. } | Call::Tally { .. } | Call::Page { .. } | Call::Export { .. } | Call::Import { .. } => {
            random.pick(&[[yes, no, no], [no, no, yes], [yes, no, yes]])
        }
        _ if call.has_counts() => random.pick(&[[yes, no, no], [no, yes, no], [yes, yes, no]]),
        _ => [yes, no, no],
    }
}

fn try_wrong_one(trial: &mut Trial, call: &Call) -> Step {
    let mut outputs = Outputs::untouched(Form::New, call);
    let mut state = trial.areas().state.clone();
    let mut counts = trial.areas().counts.clone();
    let [wrong_state, wrong_counts, wrong_answer] = which_are_wrong(call, &mut trial.random);
    if wrong_state {
        state.resize(wrong_length(Form::New, &mut trial.random), 0);
    }
    if wrong_counts {
        counts.resize(wrong_counts_length(&mut trial.random), 0);
    }
    if wrong_answer {
        let length = wrong_answer_length(outputs.answer.len(), &mut trial.random);
        outputs.answer.resize(length, UNTOUCHED);
    }
    let before = (state.clone(), counts.clone(), outputs.clone());
    let Some(number) = trial.judge.call_with(call, &mut state, &mut counts, &mut outputs) else { return Ok(()) };
    let lengths = format!(
        "{} {call} with a state area of {}, counts of {} and an answer area of {} bytes",
        call.name(),
        state.len(),
        counts.len(),
        outputs.answer.len()
    );
    check_refusal(trial, number, (state, counts, outputs) != before, &lengths)?;
    trial.judge.compare_areas(&Command::Call(Form::New, call.clone()))
}

/// The format of a script sets counts to 0; this is the one that knows of none.
fn try_wrong_plain_format(trial: &mut Trial, slots: u64) -> Step {
    let mut state = trial.areas().state.clone();
    state.resize(wrong_length(Form::New, &mut trial.random), 0);
    let before = state.clone();
    let Some(number) = trial.judge.plain_format_with(slots, &mut state) else { return Ok(()) };
    let lengths = format!("a format without counts with a state area of {} bytes", state.len());
    check_refusal(trial, number, state != before, &lengths)?;
    trial.judge.compare_areas(&Command::Call(Form::New, Call::Format { slots }))
}

/// Tries both conversions on the present areas, with one state area of a wrong length or with two.
pub fn try_wrong_conversions(trial: &mut Trial, slots: u64) -> Step {
    let slots = if trial.random.once_in(4) { slots + 1 } else { slots };
    for into in [Form::New, Form::Old] {
        for wrong in [[true, false], [false, true], [true, true]] {
            try_wrong_conversion(trial, &Carry { into, slots, second: 1 }, wrong)?;
        }
    }
    Ok(())
}

fn try_wrong_conversion(trial: &mut Trial, carry: &Carry, wrong: [bool; 2]) -> Step {
    let forms = [carry.into.other(), carry.into];
    let mut state = trial.areas().state_of(forms[0]).to_vec();
    let mut to_state = vec![UNTOUCHED; forms[1].state_bytes()];
    if wrong[0] {
        state.resize(wrong_length(forms[0], &mut trial.random), 0);
    }
    if wrong[1] {
        to_state.resize(wrong_length(forms[1], &mut trial.random), UNTOUCHED);
    }
    let nand_bytes = trial.areas().nand.len();
    let mut nand = vec![UNTOUCHED; trial.random.pick(&[nand_bytes, nand_bytes, 0, nand_bytes + SLOT_BYTES])];
    let mut nor = vec![UNTOUCHED; trial.random.pick(&[NOR_BYTES, NOR_BYTES, 0])];
    let state_before = state.clone();
    let second = LentStore { state: &mut to_state, nand: &mut nand, nor: &mut nor };
    let Some(number) = trial.judge.carry_with(carry.into, carry.slots, &mut state, second) else { return Ok(()) };
    let command = Command::Carry(carry.clone());
    let lengths = format!("{command} with state areas of {} and {} bytes", state.len(), to_state.len());
    let written = to_state.iter().chain(&nand).chain(&nor).any(|byte| *byte != UNTOUCHED);
    check_refusal(trial, number, state != state_before || written, &lengths)?;
    trial.judge.compare_areas(&command)
}

/// Tries the pairs of the present store and another, with one of both state areas and the answer area of a wrong length, or
/// with more of them.
pub fn try_wrong_pairs(trial: &mut Trial, pairs: &Pairs) -> Step {
    let [yes, no] = [true, false];
    let all = [[yes, no, no], [no, yes, no], [no, no, yes], [yes, yes, no], [yes, no, yes], [no, yes, yes], [yes; 3]];
    all.iter().try_for_each(|wrong| try_wrong_pair(trial, pairs, wrong))
}

fn try_wrong_pair(trial: &mut Trial, pairs: &Pairs, wrong: &[bool; 3]) -> Step {
    let mut outputs = pairs.outputs();
    let mut states = [trial.areas(), trial.judge.store(pairs.second)].map(|areas| areas.state.clone());
    for place in (0..2).filter(|place| wrong[*place]) {
        states[place].resize(wrong_length(Form::New, &mut trial.random), 0);
    }
    if wrong[2] {
        let length = wrong_answer_length(outputs.answer.len(), &mut trial.random);
        outputs.answer.resize(length, UNTOUCHED);
    }
    let (states_before, outputs_before) = (states.clone(), outputs.clone());
    let number = trial.judge.pairs_with(pairs, states.each_ref().map(|state| &state[..]), &mut outputs);
    let Some(number) = number else { return Ok(()) };
    let command = Command::Pairs(pairs.clone());
    let [first, second] = states.each_ref().map(Vec::len);
    let answer = outputs.answer.len();
    let lengths = format!("{command} with state areas of {first} and {second} and an answer area of {answer} bytes");
    check_refusal(trial, number, states != states_before || outputs != outputs_before, &lengths)?;
    trial.judge.compare_stores(&command, pairs.second)
}

/// Tries a tolerant search of the present store, with a state area or an answer area of a wrong length, or with both.
pub fn try_wrong_tolerant(trial: &mut Trial, call: &Tolerant) -> Step {
    let wrong = [(true, false), (false, true), (true, true)];
    wrong.into_iter().try_for_each(|(state, answer)| try_wrong_tolerance(trial, call, state, answer))
}

fn try_wrong_tolerance(trial: &mut Trial, call: &Tolerant, wrong_state: bool, wrong_answer: bool) -> Step {
    let mut outputs = call.outputs();
    let mut state = trial.areas().state.clone();
    if wrong_state {
        state.resize(wrong_length(Form::New, &mut trial.random), 0);
    }
    if wrong_answer {
        let length = wrong_answer_length(outputs.answer.len(), &mut trial.random);
        outputs.answer.resize(length, UNTOUCHED);
    }
    let (state_before, outputs_before) = (state.clone(), outputs.clone());
    let Some(number) = trial.judge.tolerant_with(call, &state, &mut outputs) else { return Ok(()) };
    let command = Command::Tolerant(call.clone());
    let answer = outputs.answer.len();
    let lengths = format!("{command} with a state area of {} and an answer area of {answer} bytes", state.len());
    check_refusal(trial, number, state != state_before || outputs != outputs_before, &lengths)?;
    trial.judge.compare_areas(&command)
}
