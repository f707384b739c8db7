//! Bloom sections of 1,024 bits and the two Bloom pages.
use crate::bytes::page;
use crate::{BLOOM_PAGE, LIFTS_PER_SECTION, PAGE_BYTES, SLOT_BYTES};

pub const SECTION_BYTES: usize = 128;
/// Where the sections stand in NOR.
pub const SECTIONS_AT: usize = 4_608;

pub fn sections_of(count: u16) -> usize {
    usize::from(count).div_ceil(LIFTS_PER_SECTION)
}

pub fn fragment_of(sections: usize) -> usize {
    SECTION_BYTES.min(PAGE_BYTES / sections)
}

/// Byte and mask of each of the three bits of a stored load.
fn bits_of(code: u32) -> [(usize, u8); 3] {
    [2_654_435_761u32, 2_246_822_519, 3_266_489_917].map(|factor| {
        let bit = (code - 1).wrapping_mul(factor) >> 22;
        ((bit / 8) as usize, 128 >> (bit % 8))
    })
}

pub fn note(section: &mut [u8; SECTION_BYTES], code: u32) {
    for (byte, mask) in bits_of(code) {
        section[byte] |= mask;
    }
}

/// Whether each bit of the load is set in some section of the closed segment. Bits are tried up to the first that is not;
/// `pages_read` grows by the pages that hold them.
pub fn may_hold(slot: &[u8; SLOT_BYTES], count: u16, code: u32, pages_read: &mut u32) -> bool {
    let sections = sections_of(count);
    let length = fragment_of(sections);
    let mut tried = 0u32;
    let held = bits_of(code).iter().all(|&(byte, mask)| {
        tried |= 1 << (byte / length);
        let fragments = page(slot, BLOOM_PAGE + byte / length);
        (0..sections).any(|j| fragments[j * length + byte % length] & mask != 0)
    });
    *pages_read += tried.count_ones();
    held
}

/// Bloom page i of the open segment: whole sections from NOR, a part-filled one from the buffer.
pub fn image(nor: &[u8], buffer: &[u8; SECTION_BYTES], count: u16, i: usize) -> [u8; PAGE_BYTES] {
    let sections = sections_of(count);
    let length = fragment_of(sections);
    let from = i * length;
    let to = SECTION_BYTES.min(from + length);
    let mut image = [0; PAGE_BYTES];
    for j in 0..sections {
        let section = if (j + 1) * LIFTS_PER_SECTION <= usize::from(count) {
            let at = SECTIONS_AT + j * SECTION_BYTES;
            &nor[at..at + SECTION_BYTES]
        } else {
            &buffer[..]
        };
        image[j * length..][..to - from].copy_from_slice(&section[from..to]);
    }
    image
}
