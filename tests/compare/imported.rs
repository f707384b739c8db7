//! W-211: what the plain search says of an export, a fresh store of its text, and the earlier records of an import that ended;
//! and how much text there was.
use model::counts::Counts;
use model::limits::{EVERYTHING, LAST_TIME, STATE_BOUND, TOO_MANY_ROWS};
use model::paper::{Lift, Said};
use model::text::text_of;
use script::areas::{Areas, SLOT_BYTES};
use script::calls::{Call, Outputs, Store, ROW_BYTES};
use script::form::Form;

const NOR_BYTES: usize = 6_144;
/// Chips are copied up to this size alone, and texts tried on a fresh store up to so many lifts.
const MOST_NAND: usize = 64 * SLOT_BYTES;
const MOST_LIFTS: usize = 1_000;
/// `time,load,member` and the shortest record, each with its CRLF.
const HEADER_BYTES: usize = 18;
const LEAST_RECORD_BYTES: usize = 7;
/// Fewer lifts never need bucket 36: 17 buckets that are split and full, and 19 with a lift each.
const LIFTS_IN_36_BUCKETS: usize = 17 * 13 + 19;

#[derive(Default)]
pub struct Imported {
    /// Accepted exports with a lift, and the bytes of all.
    exports_with_lifts: u64,
    bytes: u64,
    /// On stores reached from a format: lifts that imports appended, and imports with a forced drop.
    lifts: u64,
    with_drops: u64,
    /// Imports that ended after a lift; those that ended since their own lifts took the counts past the limit.
    ended_after_lifts: u64,
    past_the_limit: u64,
    by_search: u64,
    by_earlier_records: u64,
    by_fresh_store: u64,
}

impl Imported {
    pub fn count(&mut self, call: &Call, number: u8, outputs: &Outputs) {
        match call {
            Call::Export { .. } if number == 0 => {
                self.exports_with_lifts += u64::from(outputs.count() > HEADER_BYTES as u64);
                self.bytes += outputs.count();
            }
            Call::Import { .. } if number != 0 => {
                self.ended_after_lifts += u64::from(outputs.count() > 2);
                self.past_the_limit += u64::from(number == STATE_BOUND && outputs.count() > 2);
            }
            _ => {}
        }
    }

    pub fn count_said(&mut self, call: &Call, said: &Said) {
        if let Call::Import { .. } = call {
            self.lifts += said.lifts_taken;
            self.with_drops += u64::from(!said.gone.is_empty());
        }
    }

    /// "Export a search": by the same store, the search over this window finds the lifts of the text, or is refused as the
    /// export is, ground 12 aside.
    pub fn check_search(
        &mut self, call: &Call, number: u8, outputs: &Outputs, areas: &mut Areas, by: &mut impl Store,
    ) -> Result<(), String> {
        let Call::Export { slots, window, .. } = *call else { return Ok(()) };
        if number == TOO_MANY_ROWS {
            return Ok(());
        }
        self.by_search += 1;
        let text = exported(number, outputs);
        let search = Call::Search { slots, window, area_bytes: text.len() / LEAST_RECORD_BYTES * ROW_BYTES };
        let mut found = Outputs::untouched(Form::New, &search);
        let plain_number = by.answer(Form::New, &search, areas, &mut found);
        if plain_number != number {
            return Err(format!("number {number}, of the plain search {plain_number}"));
        }
        let rows = found.rows.chunks(ROW_BYTES).take(if number == 0 { found.count() as usize } else { 0 });
        let lifts: Vec<Lift> = rows.map(|row| Lift::of_record(row.try_into().unwrap())).collect();
        if number == 0 && text_of(lifts.iter()) != text {
            return Err("the text is not that of the rows of the plain search".into());
        }
        Ok(())
    }

    /// "An export from a store reached from a format, imported into a fresh store and exported whole, gives the same bytes,
    /// provided the import drops nothing." The fresh store has slots enough; its counts are kept.
    pub fn check_fresh_store(&mut self, text: &[u8], by: &mut impl Store) -> Result<(), String> {
        let lifts = text.iter().filter(|byte| **byte == b'\n').count() - 1;
        if lifts > MOST_LIFTS {
            return Ok(());
        }
        self.by_fresh_store += 1;
        let slots = (lifts / LIFTS_IN_36_BUCKETS + 2) as u64;
        let nand = vec![0; slots as usize * SLOT_BYTES];
        let mut areas = Areas { nand, nor: vec![0; NOR_BYTES], ..Areas::empty() };
        let mut answered = |call: Call| {
            let mut outputs = Outputs::untouched(Form::New, &call);
            let number = by.answer(Form::New, &call, &mut areas, &mut outputs);
            match number {
                0 => Ok((outputs, Counts::from_bytes(&areas.counts))),
                number => Err(format!("number {number} on a fresh store: {} {call}", call.name())),
            }
        };
        answered(Call::Format { slots })?;
        answered(Call::Import { keeps: true, slots, text: text.to_vec() })?;
        let (tally, counts) = answered(Call::Tally { slots, t1: 0, t2: LAST_TIME })?;
        if !tally.values().eq(counts.values()) {
            return Err("on a fresh store the counts after the import are no tally".into());
        }
        let (whole, _) = answered(Call::Export { slots, window: EVERYTHING, area_bytes: text.len() })?;
        if exported(0, &whole) != text {
            return Err("from a fresh store comes another text".into());
        }
        Ok(())
    }

    /// "A bad record, or a refused append, ends the import" "and only earlier ones remain": those lines by themselves are
    /// accepted and leave the same store. An import that ends before the first record changes nothing.
    pub fn check_earlier_records(
        &mut self, call: &Call, number: u8, outputs: &Outputs, [before, after]: [&Areas; 2], by: &mut impl Store,
    ) -> Result<(), String> {
        let (Call::Import { keeps, slots, text }, 1..) = (call, number) else { return Ok(()) };
        self.by_earlier_records += 1;
        let line = outputs.count() as usize;
        let mut areas = before.clone();
        if line >= 2 {
            let earlier = Call::Import { keeps: *keeps, slots: *slots, text: first_lines(text, line - 1).to_vec() };
            let mut outputs = Outputs::untouched(Form::New, &earlier);
            let answer = (by.answer(Form::New, &earlier, &mut areas, &mut outputs), outputs.count());
            if answer != (0, 0) {
                return Err(format!("ended at line {line}, the lines before it by themselves: {answer:?}"));
            }
        }
        if areas != *after {
            return Err(format!("ended at line {line}, but it is not the earlier records alone that remain"));
        }
        Ok(())
    }

    /// What the stored scripts did not meet.
    pub fn missing(&self) -> Option<String> {
        (self.past_the_limit == 0).then(|| "importk 3 at a record".to_string())
    }

    pub fn print(&self) {
        println!(
            "exports with lifts {}, bytes of text {}; lifts imported {}, imports with forced drops {}, ended after lifts {}, \
             by counts past their limit {}",
            self.exports_with_lifts,
            self.bytes,
            self.lifts,
            self.with_drops,
            self.ended_after_lifts,
            self.past_the_limit
        );
        println!(
            "exports held to the plain search {}, taken through a fresh store {}; imports held to their earlier records {}",
            self.by_search, self.by_fresh_store, self.by_earlier_records
        );
    }
}

/// A copy of the areas, to hold an import to afterwards.
pub fn remembered(call: &Call, areas: &Areas) -> Option<Areas> {
    let is_wanted = matches!(call, Call::Import { .. }) && areas.nand.len() <= MOST_NAND;
    is_wanted.then(|| areas.clone())
}

/// The text of an accepted export; none of a refused one.
pub fn exported(number: u8, outputs: &Outputs) -> &[u8] {
    match number {
        0 => &outputs.rows[..outputs.count() as usize],
        _ => &[],
    }
}

/// So many lines of a text that has one more, each with its CRLF.
fn first_lines(text: &[u8], lines: usize) -> &[u8] {
    let mut ends = (2..=text.len()).filter(|end| text[..*end].ends_with(b"\r\n"));
    let end = ends.nth(lines - 1).expect("a line that ends");
    &text[..end]
}
