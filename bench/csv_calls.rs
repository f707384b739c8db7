//! W-211: the store's export and imports, over its C interface.
use crate::kept_calls::KeptArea;
use crate::proved::Proved;
use plain::{Window, STATE_BYTES};

extern "C" {
    fn store_export(
        state: *const u8,
        state_len: usize,
        nand: *const u8,
        nand_len: usize,
        nor: *const u8,
        nor_len: usize,
        slots: u64,
        t1: u64,
        t2: u64,
        k1: i32,
        k2: i32,
        text: *mut u8,
        text_len: usize,
        answer: *mut u8,
        answer_len: usize,
    ) -> u8;
    fn store_import(
        state: *mut u8,
        state_len: usize,
        nand: *mut u8,
        nand_len: usize,
        nor: *mut u8,
        nor_len: usize,
        slots: u64,
        text: *const u8,
        text_len: usize,
        answer: *mut u8,
        answer_len: usize,
    ) -> u8;
    fn store_import_kept(
        state: *mut u8,
        state_len: usize,
        counts: *mut u8,
        counts_len: usize,
        nand: *mut u8,
        nand_len: usize,
        nor: *mut u8,
        nor_len: usize,
        slots: u64,
        text: *const u8,
        text_len: usize,
        answer: *mut u8,
        answer_len: usize,
    ) -> u8;
}

/// The answer area of these calls: a length or a line.
type NumberArea = [u8; 8];

// Every pointer below comes with the length of the area that it points to, and no two areas overlap.
impl Proved {
    /// Its number, and the length of the text.
    pub fn export(&self, w: &Window, text: &mut [u8]) -> (u8, usize) {
        let Proved { state, nand, nor, slots } = self;
        let mut answer: NumberArea = [0; 8];
        let number = unsafe {
            store_export(
                state.as_ptr(),
                STATE_BYTES,
                nand.as_ptr(),
                nand.len(),
                nor.as_ptr(),
                nor.len(),
                *slots,
                w.t1,
                w.t2,
                w.k1,
                w.k2,
                text.as_mut_ptr(),
                text.len(),
                answer.as_mut_ptr(),
                answer.len(),
            )
        };
        (number, u64::from_le_bytes(answer) as usize)
    }

    /// Its number, and the line that it is reported with.
    pub fn import(&mut self, text: &[u8]) -> (u8, u64) {
        let Proved { state, nand, nor, slots } = self;
        let mut answer: NumberArea = [0; 8];
        let number = unsafe {
            store_import(
                state.as_mut_ptr(),
                STATE_BYTES,
                nand.as_mut_ptr(),
                nand.len(),
                nor.as_mut_ptr(),
                nor.len(),
                *slots,
                text.as_ptr(),
                text.len(),
                answer.as_mut_ptr(),
                answer.len(),
            )
        };
        (number, u64::from_le_bytes(answer))
    }

    pub fn import_kept(&mut self, counts: &mut KeptArea, text: &[u8]) -> (u8, u64) {
        let Proved { state, nand, nor, slots } = self;
        let mut answer: NumberArea = [0; 8];
        let number = unsafe {
            store_import_kept(
                state.as_mut_ptr(),
                STATE_BYTES,
                counts.as_mut_ptr(),
                counts.len(),
                nand.as_mut_ptr(),
                nand.len(),
                nor.as_mut_ptr(),
                nor.len(),
                *slots,
                text.as_ptr(),
                text.len(),
                answer.as_mut_ptr(),
                answer.len(),
            )
        };
        (number, u64::from_le_bytes(answer))
    }
}
