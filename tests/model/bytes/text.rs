//! Document 02, W-211: the export of a store and the import into one, with their grounds.
use super::calls::{append, checked_state, found, put_values};
use super::counts::kept_counts;
use crate::limits::Outcome;
use crate::paper::Lift;
use crate::text::{check_area, import, text_of, Importing};
use script::areas::Areas;
use script::calls::{Outputs, Window};
use script::form::Form;

/// What an export writes, unless a ground before 12 is against it.
pub fn exported(areas: &Areas, slots: u64, window: &Window) -> Outcome<Vec<u8>> {
    let lifts: Vec<Lift> = found(Form::New, areas, slots, window)?.records.iter().map(Lift::of_record).collect();
    Ok(text_of(lifts.iter()))
}

/// "Export a search"; "the length is returned"
pub fn export(areas: &Areas, slots: u64, window: &Window, outputs: &mut Outputs) -> Outcome<()> {
    let text = exported(areas, slots, window)?;
    check_area(&text, outputs.rows.len())?;
    outputs.rows[..text.len()].copy_from_slice(&text);
    put_values(outputs, &[text.len() as u64]);
    Ok(())
}

/// A store under import.
struct Target<'a> {
    areas: &'a mut Areas,
    keeps: bool,
    slots: u64,
}

impl Importing for Target<'_> {
    fn check(&self) -> Outcome<()> {
        checked_state(Form::New, self.areas, self.slots)?;
        kept_counts(self.keeps, self.areas)?;
        Ok(())
    }

    fn append(&mut self, lift: Lift) -> Outcome<()> {
        append(Form::New, self.areas, self.keeps, self.slots, &lift)
    }
}

/// "only earlier ones remain": of a refused import the areas are those after the records before. The line is written in any
/// case.
pub fn import_text(areas: &mut Areas, keeps: bool, slots: u64, text: &[u8], outputs: &mut Outputs) -> Outcome<()> {
    let (number, line) = import(text, &mut Target { areas, keeps, slots });
    put_values(outputs, &[line]);
    match number {
        0 => Ok(()),
        number => Err(number),
    }
}
