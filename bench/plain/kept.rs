//! W-210: counts by plate, kept beside the state: a lift counts up, a drop counts the lifts of its segment down.
use crate::bytes::{slot, slot_of, u32_at};
use crate::header::Header;
use crate::plate::{plate_of_code, PLATES};
use crate::state::State;
use crate::{stored, Ground, CODE_MAX, RECORD_BYTES};

/// How many retained lifts belong to each plate.
pub type Kept = [u32; PLATES];

/// As many lifts as 4,096 segments hold.
const KEPT_MOST: u64 = 1_310_720;

impl State {
    pub fn format_kept(
        &mut self,
        counts: &mut Kept,
        nand: &mut [u8],
        nor: &mut [u8],
        slots: u64,
    ) -> Result<(), Ground> {
        self.format(nand, nor, slots)?;
        *counts = [0; PLATES];
        Ok(())
    }

    pub fn append_kept(
        &mut self,
        counts: &mut Kept,
        nand: &mut [u8],
        nor: &mut [u8],
        slots: u64,
        time: u64,
        load: i32,
        note: &[u8; 20],
    ) -> Result<(), Ground> {
        self.check_kept(counts, nand, nor, slots)?;
        let mut rest = None;
        self.append_unless(nand, nor, slots, time, load, note, |state, nand, open| {
            rest = Some(state.without_oldest(counts, nand, slots, open)?);
            Ok(())
        })?;
        if let Some(rest) = rest {
            *counts = rest;
        }
        counts[plate_of_code(stored(load))] += 1;
        Ok(())
    }

    pub fn drop_kept(&mut self, counts: &mut Kept, nand: &mut [u8], nor: &[u8], slots: u64) -> Result<(), Ground> {
        self.check_kept(counts, nand, nor, slots)?;
        if self.oldest == self.open {
            return Err(Ground::NothingThere);
        }
        *counts = self.without_oldest(counts, nand, slots, self.open)?;
        self.forget_oldest(nand, slots);
        Ok(())
    }

    /// Grounds 1 to 3, the counts among them.
    fn check_kept(&self, counts: &Kept, nand: &[u8], nor: &[u8], slots: u64) -> Result<(), Ground> {
        self.check(nand, nor, slots)?;
        if counts.iter().map(|&count| u64::from(count)).sum::<u64>() > KEPT_MOST {
            return Err(Ground::StateBound);
        }
        Ok(())
    }

    /// The counts once the oldest segment is gone; ground 10 over its header, its loads and these counts.
    fn without_oldest(&self, counts: &Kept, nand: &[u8], slots: u64, open: u32) -> Result<Kept, Ground> {
        let number = slot_of(self.oldest, slots);
        let header = Header::load(nand, number, slots, open)?;
        let records = &slot(nand, number)[..usize::from(header.count) * RECORD_BYTES];
        let mut gone = [0; PLATES];
        let mut damaged = false;
        for record in records.chunks_exact(RECORD_BYTES) {
            let code = u32_at(record, 8);
            damaged |= !(1..=CODE_MAX).contains(&code);
            gone[plate_of_code(code)] += 1;
        }
        let mut rest = *counts;
        for (count, gone) in rest.iter_mut().zip(gone) {
            damaged |= *count < gone;
            *count = count.wrapping_sub(gone);
        }
        if damaged {
            Err(Ground::Damage)
        } else {
            Ok(rest)
        }
    }
}
