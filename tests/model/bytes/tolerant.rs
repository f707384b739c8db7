//! Document 02, W-209: the tolerant search of a store, with its grounds.
use super::calls::{bytes_of, checked_state, put_rows};
use super::search::{find, load_of};
use crate::limits::*;
use crate::tolerant::{check_areas, check_ranges, Lists};
use script::areas::Areas;
use script::calls::{Tolerant, TolerantOutputs, Window};
use script::form::Form;

/// "the widened ends, which stop at the load limits", of a range and a tolerance that no ground is against
pub fn widened(window: &Window, tolerance: u64) -> Window {
    let tolerance = tolerance as i32;
    let (k1, k2) = (LEAST_LOAD.max(window.k1 - tolerance), GREATEST_LOAD.min(window.k2 + tolerance));
    Window { k1, k2, ..*window }
}

/// "Both come from one plain search over the widened ends": all that it finds is possible; certain is what would also lie
/// between ends moved inwards, if any load does.
pub fn tolerant_found(areas: &Areas, call: &Tolerant) -> Outcome<Lists> {
    let Tolerant { slots, ref window, tolerance, .. } = *call;
    let state = checked_state(Form::New, areas, slots)?;
    check_ranges(window, tolerance)?;
    let possible = find(areas, &state, slots, &widened(window, tolerance))?.records;
    let (k1, k2, d) = (i64::from(window.k1), i64::from(window.k2), tolerance as i64);
    let certain = possible.iter().filter(|record| (k1 + d..=k2 - d).contains(&load_of(record)));
    Ok([certain.copied().collect(), possible])
}

/// "A tolerant search gives two lists with their counts"
pub fn search_with_tolerance(areas: &Areas, call: &Tolerant, outputs: &mut TolerantOutputs) -> Outcome<()> {
    let lists = tolerant_found(areas, call)?;
    check_areas(&lists, outputs.lists.each_ref().map(Vec::len))?;
    for (area, records) in outputs.lists.iter_mut().zip(&lists) {
        put_rows(area, records);
    }
    outputs.answer = bytes_of(&lists.each_ref().map(|records| records.len() as u64));
    Ok(())
}
