//! Little-endian numbers in byte areas, and parts of the chips.
use crate::{PAGE_BYTES, SLOT_BYTES};

pub fn u16_at(area: &[u8], at: usize) -> u16 {
    u16::from_le_bytes(area[at..at + 2].try_into().unwrap())
}

pub fn u32_at(area: &[u8], at: usize) -> u32 {
    u32::from_le_bytes(area[at..at + 4].try_into().unwrap())
}

pub fn u64_at(area: &[u8], at: usize) -> u64 {
    u64::from_le_bytes(area[at..at + 8].try_into().unwrap())
}

pub fn i32_at(area: &[u8], at: usize) -> i32 {
    u32_at(area, at) as i32
}

pub fn put<const N: usize>(area: &mut [u8], at: usize, bytes: [u8; N]) {
    area[at..at + N].copy_from_slice(&bytes);
}

pub fn is_erased(area: &[u8]) -> bool {
    const ERASED: [u8; PAGE_BYTES] = [255; PAGE_BYTES];
    *area == ERASED[..area.len()]
}

pub fn slot_of(serial: u32, slots: u64) -> usize {
    ((u64::from(serial) - 1) % slots) as usize
}

pub fn slot(nand: &[u8], number: usize) -> &[u8; SLOT_BYTES] {
    let at = number * SLOT_BYTES;
    (&nand[at..at + SLOT_BYTES]).try_into().unwrap()
}

pub fn slot_mut(nand: &mut [u8], number: usize) -> &mut [u8; SLOT_BYTES] {
    let at = number * SLOT_BYTES;
    (&mut nand[at..at + SLOT_BYTES]).try_into().unwrap()
}

pub fn page(slot: &[u8; SLOT_BYTES], number: usize) -> &[u8; PAGE_BYTES] {
    let at = number * PAGE_BYTES;
    slot[at..at + PAGE_BYTES].try_into().unwrap()
}

pub fn program(slot: &mut [u8; SLOT_BYTES], number: usize, image: &[u8; PAGE_BYTES]) {
    let at = number * PAGE_BYTES;
    slot[at..at + PAGE_BYTES].copy_from_slice(image);
}
