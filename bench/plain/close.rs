//! Closing the open segment: the pages it programs, in rising order.
use crate::bytes::{is_erased, page, program, slot, slot_mut, slot_of};
use crate::header::level_of;
use crate::state::{Pointer, State};
use crate::tree::BUCKET_BYTES;
use crate::{bloom, header, Ground, BLOOM_PAGE, HEADER_PAGE, LIFTS_PER_PAGE, PAGE_BYTES, TREE_PAGE};

impl State {
    pub fn close(&mut self, nand: &mut [u8], nor: &mut [u8], slots: u64) -> Result<(), Ground> {
        self.check(nand, nor, slots)?;
        if self.count == 0 {
            return Err(Ground::NothingThere);
        }
        self.check_pages_due(nand, slots)?;
        self.close_segment(nand, nor, slots);
        Ok(())
    }

    fn tree_pages(&self) -> usize {
        usize::from(self.buckets).div_ceil(PAGE_BYTES / BUCKET_BYTES)
    }

    /// Ground 11 over all pages that a close programs.
    pub(crate) fn check_pages_due(&self, nand: &[u8], slots: u64) -> Result<(), Ground> {
        let slot = slot(nand, slot_of(self.open, slots));
        let count = usize::from(self.count);
        let lifts = (count % LIFTS_PER_PAGE != 0).then_some(count / LIFTS_PER_PAGE);
        let tree = TREE_PAGE..TREE_PAGE + self.tree_pages();
        let bloom = BLOOM_PAGE..BLOOM_PAGE + self.bloom_pages();
        let mut due = lifts.into_iter().chain(tree).chain(bloom).chain([HEADER_PAGE]);
        if due.all(|p| is_erased(page(slot, p))) {
            Ok(())
        } else {
            Err(Ground::PageNotErased)
        }
    }

    /// The second Bloom page is used only for five sections.
    fn bloom_pages(&self) -> usize {
        if bloom::sections_of(self.count) == 5 {
            2
        } else {
            1
        }
    }

    pub(crate) fn close_segment(&mut self, nand: &mut [u8], nor: &mut [u8], slots: u64) {
        let number = slot_of(self.open, slots);
        let slot = slot_mut(nand, number);
        let count = usize::from(self.count);
        if count % LIFTS_PER_PAGE != 0 {
            program(slot, count / LIFTS_PER_PAGE, &self.page);
        }
        let used = usize::from(self.buckets) * BUCKET_BYTES;
        slot[TREE_PAGE * PAGE_BYTES..][..used].copy_from_slice(&nor[..used]);
        for i in 0..self.bloom_pages() {
            program(slot, BLOOM_PAGE + i, &bloom::image(nor, &self.bloom, self.count, i));
        }
        program(slot, HEADER_PAGE, &header::image(self));
        nor.fill(255);
        let pointer = Pointer { slot: number as u16, serial: self.open, time: self.start };
        self.heads[..level_of(self.open)].fill(pointer);
        self.open_next();
    }

    fn open_next(&mut self) {
        self.open += 1;
        self.count = 0;
        self.buckets = 0;
        self.loads = [0; 13];
        self.page = [255; PAGE_BYTES];
        self.bloom = [0; 128];
        self.start = 0;
        self.low = 0;
        self.high = 0;
    }
}
