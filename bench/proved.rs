//! The store over its C interface, `store_abi`.
use crate::lift::{Contender, Lift};
use crate::service_page::ServicePage;
use plain::{Counts, Found, PagesRead, Window, NOR_BYTES, SLOT_BYTES, STATE_BYTES, TIME_MAX};
use plain_tolerant::Tolerated;

extern "C" {
    fn store_format(
        state: *mut u8,
        state_len: usize,
        nand: *mut u8,
        nand_len: usize,
        nor: *mut u8,
        nor_len: usize,
        slots: u64,
    ) -> u8;
    fn store_append(
        state: *mut u8,
        state_len: usize,
        nand: *mut u8,
        nand_len: usize,
        nor: *mut u8,
        nor_len: usize,
        slots: u64,
        time: u64,
        load: i32,
        note: *const u8,
    ) -> u8;
    fn store_close(
        state: *mut u8,
        state_len: usize,
        nand: *mut u8,
        nand_len: usize,
        nor: *mut u8,
        nor_len: usize,
        slots: u64,
    ) -> u8;
    fn store_drop(
        state: *mut u8,
        state_len: usize,
        nand: *mut u8,
        nand_len: usize,
        nor: *const u8,
        nor_len: usize,
        slots: u64,
    ) -> u8;
    fn store_search(
        state: *const u8,
        state_len: usize,
        nand: *const u8,
        nand_len: usize,
        nor: *const u8,
        nor_len: usize,
        slots: u64,
        t1: u64,
        t2: u64,
        k1: i32,
        k2: i32,
        rows: *mut u8,
        rows_len: usize,
        answer: *mut u8,
        answer_len: usize,
    ) -> u8;
    fn store_tally(
        state: *const u8,
        state_len: usize,
        nand: *const u8,
        nand_len: usize,
        nor: *const u8,
        nor_len: usize,
        slots: u64,
        t1: u64,
        t2: u64,
        answer: *mut u8,
        answer_len: usize,
    ) -> u8;
    fn store_page(
        state: *const u8,
        state_len: usize,
        nand: *const u8,
        nand_len: usize,
        nor: *const u8,
        nor_len: usize,
        slots: u64,
        t1: u64,
        t2: u64,
        page: *mut u8,
        page_len: usize,
    ) -> u8;
    fn store_plate(place: u64, load: i32, answer: *mut u8, answer_len: usize) -> u8;
    fn store_tolerant(
        state: *const u8,
        state_len: usize,
        nand: *const u8,
        nand_len: usize,
        nor: *const u8,
        nor_len: usize,
        slots: u64,
        t1: u64,
        t2: u64,
        k1: i32,
        k2: i32,
        tolerance: u64,
        certain: *mut u8,
        certain_len: usize,
        possible: *mut u8,
        possible_len: usize,
        answer: *mut u8,
        answer_len: usize,
    ) -> u8;
}

/// A search's answer area: rows, header pages, Bloom pages and tree pages, eight bytes each.
pub type FoundArea = [u8; 32];
/// A tolerant search's answer area: certain lifts and possible ones, eight bytes each.
pub type ListedArea = [u8; 16];
/// A tally's answer area.
pub type CountsArea = [u8; size_of::<Counts>()];

/// Number i of an answer area.
fn number_in(area: &[u8], i: usize) -> u64 {
    u64::from_le_bytes(area[8 * i..8 * i + 8].try_into().unwrap())
}

/// What an accepted search wrote into its answer area.
pub fn found_in(area: &FoundArea) -> Found {
    let pages = |i| number_in(area, i).try_into().expect("a count of pages");
    Found { rows: number_in(area, 0) as usize, pages: PagesRead { header: pages(1), bloom: pages(2), tree: pages(3) } }
}

/// The same of a tolerant search: how many lifts are certain and how many possible.
pub fn listed_in(area: &ListedArea) -> Tolerated {
    Tolerated { certain: number_in(area, 0) as usize, possible: number_in(area, 1) as usize }
}

/// State and chips as the console holds them; each call hands back its number.
#[derive(Clone, PartialEq)]
pub struct Proved {
    pub state: [u8; STATE_BYTES],
    pub nand: Vec<u8>,
    pub nor: Vec<u8>,
    pub slots: u64,
}

// Every pointer below comes with the length of the area that it points to, and no two areas overlap.
impl Proved {
    pub fn new(slots: u64) -> Proved {
        let nand = vec![0; slots as usize * SLOT_BYTES];
        let mut store = Proved { state: [0; STATE_BYTES], nand, nor: vec![0; NOR_BYTES], slots };
        assert_eq!(store.format(), 0, "the store refuses a format");
        store
    }

    pub fn format(&mut self) -> u8 {
        let Proved { state, nand, nor, slots } = self;
        unsafe {
            store_format(
                state.as_mut_ptr(),
                STATE_BYTES,
                nand.as_mut_ptr(),
                nand.len(),
                nor.as_mut_ptr(),
                nor.len(),
                *slots,
            )
        }
    }

    pub fn put(&mut self, lift: &Lift) -> u8 {
        let Proved { state, nand, nor, slots } = self;
        unsafe {
            store_append(
                state.as_mut_ptr(),
                STATE_BYTES,
                nand.as_mut_ptr(),
                nand.len(),
                nor.as_mut_ptr(),
                nor.len(),
                *slots,
                lift.time,
                lift.load,
                lift.note.as_ptr(),
            )
        }
    }

    pub fn close(&mut self) -> u8 {
        let Proved { state, nand, nor, slots } = self;
        unsafe {
            store_close(
                state.as_mut_ptr(),
                STATE_BYTES,
                nand.as_mut_ptr(),
                nand.len(),
                nor.as_mut_ptr(),
                nor.len(),
                *slots,
            )
        }
    }

    pub fn drop_oldest(&mut self) -> u8 {
        let Proved { state, nand, nor, slots } = self;
        unsafe {
            store_drop(state.as_mut_ptr(), STATE_BYTES, nand.as_mut_ptr(), nand.len(), nor.as_ptr(), nor.len(), *slots)
        }
    }

    pub fn find(&self, w: &Window, rows: &mut [u8], answer: &mut FoundArea) -> u8 {
        let Proved { state, nand, nor, slots } = self;
        unsafe {
            store_search(
                state.as_ptr(),
                STATE_BYTES,
                nand.as_ptr(),
                nand.len(),
                nor.as_ptr(),
                nor.len(),
                *slots,
                w.t1,
                w.t2,
                w.k1,
                w.k2,
                rows.as_mut_ptr(),
                rows.len(),
                answer.as_mut_ptr(),
                answer.len(),
            )
        }
    }

    pub fn by_plate(&self, t1: u64, t2: u64, answer: &mut CountsArea) -> u8 {
        let Proved { state, nand, nor, slots } = self;
        unsafe {
            store_tally(
                state.as_ptr(),
                STATE_BYTES,
                nand.as_ptr(),
                nand.len(),
                nor.as_ptr(),
                nor.len(),
                *slots,
                t1,
                t2,
                answer.as_mut_ptr(),
                answer.len(),
            )
        }
    }

    pub fn page(&self, t1: u64, t2: u64, page: &mut ServicePage) -> u8 {
        let Proved { state, nand, nor, slots } = self;
        unsafe {
            store_page(
                state.as_ptr(),
                STATE_BYTES,
                nand.as_ptr(),
                nand.len(),
                nor.as_ptr(),
                nor.len(),
                *slots,
                t1,
                t2,
                page.as_mut_ptr(),
                page.len(),
            )
        }
    }

    pub fn plate(place: u64, load: i32, answer: &mut [u8; 8]) -> u8 {
        unsafe { store_plate(place, load, answer.as_mut_ptr(), answer.len()) }
    }

    pub fn tolerant(
        &self,
        w: &Window,
        tolerance: u64,
        certain: &mut [u8],
        possible: &mut [u8],
        answer: &mut ListedArea,
    ) -> u8 {
        let Proved { state, nand, nor, slots } = self;
        unsafe {
            store_tolerant(
                state.as_ptr(),
                STATE_BYTES,
                nand.as_ptr(),
                nand.len(),
                nor.as_ptr(),
                nor.len(),
                *slots,
                w.t1,
                w.t2,
                w.k1,
                w.k2,
                tolerance,
                certain.as_mut_ptr(),
                certain.len(),
                possible.as_mut_ptr(),
                possible.len(),
                answer.as_mut_ptr(),
                answer.len(),
            )
        }
    }

    /// How many lifts are retained.
    pub fn retained(&mut self) -> usize {
        self.tally(0, TIME_MAX).iter().sum::<u64>() as usize
    }
}

impl Contender for Proved {
    fn append(&mut self, lift: &Lift) {
        assert_eq!(self.put(lift), 0, "the store refuses an append");
    }

    fn search(&mut self, window: &Window, rows: &mut [u8]) -> usize {
        let mut answer = [0; size_of::<FoundArea>()];
        assert_eq!(self.find(window, rows, &mut answer), 0, "the store refuses a search");
        number_in(&answer, 0) as usize
    }

    fn tally(&mut self, t1: u64, t2: u64) -> Counts {
        let mut answer = [0; size_of::<Counts>()];
        assert_eq!(self.by_plate(t1, t2, &mut answer), 0, "the store refuses a tally");
        std::array::from_fn(|i| number_in(&answer, i))
    }
}
