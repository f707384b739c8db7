//! Compares what a call left with what was expected, and says what differs.
use model::paper::Said;
use script::areas::Areas;
use script::calls::Outputs;
use script::command::{Command, Part};
use script::form::Form;

/// What differs, in words.
pub struct Difference(pub String);
pub type Step = Result<(), Difference>;

pub fn differ(command: &Command, what: String) -> Step {
    Err(Difference(format!("{command}: {what}")))
}

pub fn compare_numbers(command: &Command, number: u8, expected: u8) -> Step {
    if number == expected {
        return Ok(());
    }
    differ(command, format!("number {number}, expected {expected}"))
}

/// The pages that a search reads stand behind its count, and the log has no word on them.
pub fn compare_with_log(command: &Command, outputs: &Outputs, said: &Said) -> Step {
    if !outputs.answer.starts_with(&said.answer()) {
        return differ(command, format!("the paper log answers {:?}", said.values));
    }
    if outputs.rows[..said.rows.len()] != said.rows[..] {
        return differ(command, "other rows than in the paper log".into());
    }
    Ok(())
}

pub fn compare_outputs(command: &Command, got: &Outputs, expected: &Outputs) -> Step {
    compare_bytes(command, "answer area", &got.answer, &expected.answer)?;
    compare_bytes(command, "result area", &got.rows, &expected.rows)
}

pub fn compare_areas(command: &Command, of: &str, got: &Areas, expected: &Areas) -> Step {
    let parts = [
        ("state of form 1", Part::State(Form::New)),
        ("state of form 0", Part::State(Form::Old)),
        ("NOR", Part::Nor),
        ("NAND", Part::Nand),
    ];
    parts.iter().try_for_each(|(name, part)| {
        compare_bytes(command, &format!("{of}{name}"), got.part(*part), expected.part(*part))
    })?;
    compare_bytes(command, &format!("{of}counts"), &got.counts, &expected.counts)
}

pub fn compare_bytes(command: &Command, area: &str, got: &[u8], expected: &[u8]) -> Step {
    match first_difference(got, expected) {
        Some(difference) => differ(command, format!("{area} {difference}")),
        None => Ok(()),
    }
}

/// The first byte in which two areas of one length differ.
pub fn first_difference(got: &[u8], expected: &[u8]) -> Option<String> {
    if got == expected {
        return None;
    }
    let place = got.iter().zip(expected).position(|(got, expected)| got != expected).unwrap_or(0);
    Some(format!("byte {place} is {}, expected {}", got[place], expected[place]))
}
