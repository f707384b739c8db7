//! The page and bit rules of a call in a list: what may change on the two chips.
use model::paper::Said;
use script::areas::{PAGE_BYTES, SLOT_BYTES};

/// Holds the chips before and after a call to what the paper log says of it.
pub fn check(nand: [&Vec<u8>; 2], nor: [&Vec<u8>; 2], said: &Said) -> Result<(), String> {
    let [nand_before, nand_after] = nand;
    let slots = nand_after.len() / SLOT_BYTES;
    let erased_slots: Vec<usize> = said.gone.iter().map(|serial| (*serial as usize - 1) % slots).collect();
    for slot in 0..slots {
        let range = slot * SLOT_BYTES..(slot + 1) * SLOT_BYTES;
        let (before, after) = (&nand_before[range.clone()], &nand_after[range]);
        if before != after && !erased_slots.contains(&slot) {
            check_slot(slot, before, after)?;
        }
    }
    let [nor_before, nor_after] = nor;
    let sets_a_bit = nor_before.iter().zip(nor_after).position(|(before, after)| after & !before != 0);
    match sets_a_bit {
        Some(place) if said.closed.is_empty() => {
            Err(format!("NOR byte {place} turns zeros to ones and no segment closed"))
        }
        _ => Ok(()),
    }
}

/// A page that changes was erased before.
fn check_slot(slot: usize, before: &[u8], after: &[u8]) -> Result<(), String> {
    let pages = before.chunks(PAGE_BYTES).zip(after.chunks(PAGE_BYTES)).enumerate();
    for (page, (before, after)) in pages {
        if before != after && before.iter().any(|byte| *byte != 255) {
            return Err(format!("page {page} of slot {slot} changes, was not erased and its serial has not gone"));
        }
    }
    Ok(())
}
