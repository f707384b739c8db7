//! Document 02, W-208: the pairs of two stores, with their grounds.
use super::calls::{check_nand, check_nor, put_values, state_in_bounds};
use super::search::find;
use crate::limits::*;
use crate::pairs::{check_area, pairs, Pair};
use script::areas::Areas;
use script::calls::{Outputs, PAIR_BYTES};
use script::form::Form;

/// A store and its S.
type Machine<'a> = (&'a Areas, u64);

/// "Take both logs as a search over all times and loads gives or refuses them, ground 12 aside", each ground tried on both
/// stores before the next.
pub fn pairs_found(first: Machine, second: Machine) -> Outcome<Vec<Pair>> {
    let machines = [first, second];
    machines.iter().try_for_each(|(areas, slots)| check_nand(areas, *slots))?;
    machines.iter().try_for_each(|(areas, _)| check_nor(areas))?;
    let states = machines.iter().map(|(areas, slots)| state_in_bounds(Form::New, areas, *slots));
    let states: Vec<_> = states.collect::<Outcome<_>>()?;
    let logs = machines.iter().zip(&states);
    let logs = logs.map(|((areas, slots), state)| find(areas, state, *slots, &EVERYTHING));
    let logs: Vec<_> = logs.collect::<Outcome<_>>()?;
    Ok(pairs(&logs[0].records, &logs[1].records))
}

/// "The list, with its count, shows each pair once"
pub fn pair_up(first: Machine, second: Machine, outputs: &mut Outputs) -> Outcome<()> {
    let pairs = pairs_found(first, second)?;
    check_area(&pairs, outputs.rows.len())?;
    for (row, pair) in outputs.rows.chunks_mut(PAIR_BYTES).zip(&pairs) {
        row.copy_from_slice(pair.as_flattened());
    }
    put_values(outputs, &[pairs.len() as u64]);
    Ok(())
}
