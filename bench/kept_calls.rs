//! W-210: the store's calls that keep counts, over its C interface.
use crate::lift::{Contender, Lift};
use crate::proved::Proved;
use plain::{STATE_BYTES, TIME_MAX};

extern "C" {
    fn store_format_kept(
        state: *mut u8,
        state_len: usize,
        counts: *mut u8,
        counts_len: usize,
        nand: *mut u8,
        nand_len: usize,
        nor: *mut u8,
        nor_len: usize,
        slots: u64,
    ) -> u8;
    fn store_append_kept(
        state: *mut u8,
        state_len: usize,
        counts: *mut u8,
        counts_len: usize,
        nand: *mut u8,
        nand_len: usize,
        nor: *mut u8,
        nor_len: usize,
        slots: u64,
        time: u64,
        load: i32,
        note: *const u8,
    ) -> u8;
    fn store_drop_kept(
        state: *mut u8,
        state_len: usize,
        counts: *mut u8,
        counts_len: usize,
        nand: *mut u8,
        nand_len: usize,
        nor: *const u8,
        nor_len: usize,
        slots: u64,
    ) -> u8;
}

/// The area of the kept counts: 22 of four bytes, by plate.
pub type KeptArea = [u8; 88];

/// The counts as an area.
pub fn area_of(counts: &[u32; 22]) -> KeptArea {
    let mut area = [0; size_of::<KeptArea>()];
    for (bytes, count) in area.chunks_exact_mut(4).zip(counts) {
        bytes.copy_from_slice(&count.to_le_bytes());
    }
    area
}

/// The counts of an area.
pub fn counts_in(area: &KeptArea) -> [u32; 22] {
    std::array::from_fn(|i| u32::from_le_bytes(area[4 * i..4 * i + 4].try_into().unwrap()))
}

// Every pointer below comes with the length of the area that it points to, and no two areas overlap.
impl Proved {
    pub fn format_kept(&mut self, counts: &mut KeptArea) -> u8 {
        let Proved { state, nand, nor, slots } = self;
        unsafe {
            store_format_kept(
                state.as_mut_ptr(),
                STATE_BYTES,
                counts.as_mut_ptr(),
                counts.len(),
                nand.as_mut_ptr(),
                nand.len(),
                nor.as_mut_ptr(),
                nor.len(),
                *slots,
            )
        }
    }

    pub fn put_kept(&mut self, counts: &mut KeptArea, lift: &Lift) -> u8 {
        let Proved { state, nand, nor, slots } = self;
        unsafe {
            store_append_kept(
                state.as_mut_ptr(),
                STATE_BYTES,
                counts.as_mut_ptr(),
                counts.len(),
                nand.as_mut_ptr(),
                nand.len(),
                nor.as_mut_ptr(),
                nor.len(),
                *slots,
                lift.time,
                lift.load,
                lift.note.as_ptr(),
            )
        }
    }

    pub fn drop_kept(&mut self, counts: &mut KeptArea) -> u8 {
        let Proved { state, nand, nor, slots } = self;
        unsafe {
            store_drop_kept(
                state.as_mut_ptr(),
                STATE_BYTES,
                counts.as_mut_ptr(),
                counts.len(),
                nand.as_mut_ptr(),
                nand.len(),
                nor.as_ptr(),
                nor.len(),
                *slots,
            )
        }
    }

    /// What the counts of this store have to be: a tally of the whole log.
    pub fn counts_due(&mut self) -> KeptArea {
        area_of(&self.tally(0, TIME_MAX).map(|count| count as u32))
    }
}
