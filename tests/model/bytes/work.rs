//! The chips during a call: what is written can be taken back if a ground turns up later.
use super::numbers::all_255;
use super::state::State;
use crate::counts::Counts;
use crate::limits::{Outcome, DAMAGE, PAGE_NOT_ERASED};
use script::areas::{Areas, PAGE_BYTES, SLOT_BYTES};
use script::command::Part;

pub const HEADER_PAGE: usize = 31;
pub const BLOOM_PAGE: usize = 29;
pub const TREE_PAGE: usize = 20;
pub const BUCKET_BYTES: usize = 128;
pub const TREE_BYTES: usize = 36 * BUCKET_BYTES;
pub const SECTION_BYTES: usize = 128;
pub const SECTIONS_IN_NOR: usize = 4_608;

/// Serial n uses slot (n-1) mod S.
pub fn slot_of(serial: u32, slots: u64) -> usize {
    (u64::from(serial - 1) % slots) as usize
}

pub fn page_of(nand: &[u8], slot: usize, page: usize) -> &[u8] {
    let offset = slot * SLOT_BYTES + page * PAGE_BYTES;
    &nand[offset..offset + PAGE_BYTES]
}

/// The state goes into the area of its form.
pub fn put_state(areas: &mut Areas, state: &State) {
    areas.part_mut(Part::State(state.form)).copy_from_slice(&state.to_bytes());
}

pub struct Work<'a> {
    pub slots: u64,
    pub state: State,
    /// None if the call keeps no counts.
    pub counts: Option<Counts>,
    pub nor: Vec<u8>,
    areas: &'a mut Areas,
    /// Stretches of NAND as they were, in order of writing.
    replaced: Vec<(usize, Vec<u8>)>,
    met_unerased_page: bool,
}

impl<'a> Work<'a> {
    pub fn new(areas: &'a mut Areas, slots: u64, state: State) -> Work<'a> {
        Work::keeping(None, areas, slots, state)
    }

    pub fn keeping(counts: Option<Counts>, areas: &'a mut Areas, slots: u64, state: State) -> Work<'a> {
        let nor = areas.nor.clone();
        Work { slots, state, counts, nor, areas, replaced: Vec::new(), met_unerased_page: false }
    }

    pub fn page(&self, slot: usize, page: usize) -> &[u8] {
        page_of(&self.areas.nand, slot, page)
    }

    fn write_nand(&mut self, offset: usize, bytes: &[u8]) {
        let stretch = &mut self.areas.nand[offset..offset + bytes.len()];
        self.replaced.push((offset, stretch.to_vec()));
        stretch.copy_from_slice(bytes);
    }

    pub fn erase_slot(&mut self, slot: usize) {
        self.write_nand(slot * SLOT_BYTES, &[255; SLOT_BYTES]);
    }

    /// Programs a page. Ground 11 comes after 10, so an unerased page only counts at the end.
    pub fn program(&mut self, slot: usize, page: usize, bytes: &[u8]) {
        assert_eq!(bytes.len(), PAGE_BYTES, "a page is programmed whole");
        if !all_255(self.page(slot, page)) {
            self.met_unerased_page = true;
        }
        self.write_nand(slot * SLOT_BYTES + page * PAGE_BYTES, bytes);
    }

    /// Writes NOR bytes, which must be 255.
    pub fn write_nor(&mut self, offset: usize, bytes: &[u8]) -> Outcome<()> {
        let due = &mut self.nor[offset..offset + bytes.len()];
        if !all_255(due) {
            return Err(DAMAGE);
        }
        due.copy_from_slice(bytes);
        Ok(())
    }

    pub fn erase_nor(&mut self) {
        self.nor.fill(255);
    }

    /// Ends the call: keeps all that was written if no ground was met, else takes it back.
    pub fn end(mut self, result: Outcome<()>) -> Outcome<()> {
        let result = match result {
            Ok(()) if self.met_unerased_page => Err(PAGE_NOT_ERASED),
            other => other,
        };
        if result.is_ok() {
            self.areas.nor = self.nor;
            put_state(self.areas, &self.state);
            if let Some(counts) = &self.counts {
                self.areas.counts = counts.to_bytes();
            }
        } else {
            while let Some((offset, bytes)) = self.replaced.pop() {
                self.areas.nand[offset..offset + bytes.len()].copy_from_slice(&bytes);
            }
        }
        result
    }
}
