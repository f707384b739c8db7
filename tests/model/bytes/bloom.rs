//! Document 01, "Bloom": the bits of a load, the sections, and the pages that hold them.
use super::work::{page_of, BLOOM_PAGE, SECTION_BYTES};
use script::areas::PAGE_BYTES;
use std::collections::BTreeSet;

const MULTIPLIERS: [u64; 3] = [2_654_435_761, 2_246_822_519, 3_266_489_917];

pub fn sections_of(count: usize) -> usize {
    count.div_ceil(64)
}

/// The smaller of 128 and 512 div s.
pub fn fragment_length(sections: usize) -> usize {
    (PAGE_BYTES / sections).min(SECTION_BYTES)
}

/// The three bits of a load.
pub fn bits(load: i32) -> [usize; 3] {
    let u = (i64::from(load) + 50_000) as u64;
    MULTIPLIERS.map(|a| ((u * a) % (1 << 32) / (1 << 22)) as usize)
}

fn mask(bit: usize) -> u8 {
    128 >> (bit % 8)
}

pub fn set_bits(section: &mut [u8; SECTION_BYTES], load: i32) {
    for bit in bits(load) {
        section[bit / 8] |= mask(bit);
    }
}

/// Bloom page i holds bytes iL to iL+L-1 of each section in turn, then 0.
pub fn bloom_page(sections: &[Vec<u8>], index: usize) -> Vec<u8> {
    let length = fragment_length(sections.len());
    let mut page = vec![0; PAGE_BYTES];
    for (j, section) in sections.iter().enumerate() {
        for i in 0..length {
            page[j * length + i] = section.get(index * length + i).copied().unwrap_or(0);
        }
    }
    page
}

/// What the bits of a load tell of a closed segment.
pub struct Tried {
    /// Some bit is clear in all sections.
    pub rules_out: bool,
    /// The Bloom pages that hold a bit tried.
    pub pages: BTreeSet<usize>,
}

/// "Bloom bits are tried in the order of document 01, up to the first that is clear in all sections." (W-207)
pub fn try_bits(nand: &[u8], slot: usize, sections: usize, load: i32) -> Tried {
    let length = fragment_length(sections);
    let mut pages = BTreeSet::new();
    for bit in bits(load) {
        let (index, byte) = (bit / 8 / length, bit / 8 % length);
        let page = page_of(nand, slot, BLOOM_PAGE + index);
        pages.insert(BLOOM_PAGE + index);
        if (0..sections).all(|section| page[section * length + byte] & mask(bit) == 0) {
            return Tried { rules_out: true, pages };
        }
    }
    Tried { rules_out: false, pages }
}

#[cfg(test)]
mod tests {
    #[test]
    fn the_worked_example_of_document_01() {
        assert_eq!(super::bits(-49_999), [632, 535, 778]);
    }
}
