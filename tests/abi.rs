//! The store's C interface, called with areas that have margins.
use model::bytes::Expectation;
use script::areas::Areas;
use script::calls::{Call, Carry, Outputs, Pairs, Store, Tolerant, TolerantOutputs, Window};
use script::command::Part;
use script::form::Form;

mod c {
    #[link(name = "store_abi", kind = "static")]
    extern "C" {
        pub fn store_format(
            state: *mut u8, state_len: usize, nand: *mut u8, nand_len: usize, nor: *mut u8, nor_len: usize, slots: u64,
        ) -> u8;
        pub fn store_append(
            state: *mut u8, state_len: usize, nand: *mut u8, nand_len: usize, nor: *mut u8, nor_len: usize, slots: u64,
            time: u64, load: i32, note: *const u8,
        ) -> u8;
        pub fn store_close(
            state: *mut u8, state_len: usize, nand: *mut u8, nand_len: usize, nor: *mut u8, nor_len: usize, slots: u64,
        ) -> u8;
        pub fn store_drop(
            state: *mut u8, state_len: usize, nand: *mut u8, nand_len: usize, nor: *const u8, nor_len: usize,
            slots: u64,
        ) -> u8;
        pub fn store_format_kept(
            state: *mut u8, state_len: usize, counts: *mut u8, counts_len: usize, nand: *mut u8, nand_len: usize,
            nor: *mut u8, nor_len: usize, slots: u64,
        ) -> u8;
        pub fn store_append_kept(
            state: *mut u8, state_len: usize, counts: *mut u8, counts_len: usize, nand: *mut u8, nand_len: usize,
            nor: *mut u8, nor_len: usize, slots: u64, time: u64, load: i32, note: *const u8,
        ) -> u8;
        pub fn store_drop_kept(
            state: *mut u8, state_len: usize, counts: *mut u8, counts_len: usize, nand: *mut u8, nand_len: usize,
            nor: *const u8, nor_len: usize, slots: u64,
        ) -> u8;
        pub fn store_search(
            state: *const u8, state_len: usize, nand: *const u8, nand_len: usize, nor: *const u8, nor_len: usize,
            slots: u64, t1: u64, t2: u64, k1: i32, k2: i32, rows: *mut u8, rows_len: usize, answer: *mut u8,
            answer_len: usize,
        ) -> u8;
        pub fn store_tally(
            state: *const u8, state_len: usize, nand: *const u8, nand_len: usize, nor: *const u8, nor_len: usize,
            slots: u64, t1: u64, t2: u64, answer: *mut u8, answer_len: usize,
        ) -> u8;
        pub fn store_page(
            state: *const u8, state_len: usize, nand: *const u8, nand_len: usize, nor: *const u8, nor_len: usize,
            slots: u64, t1: u64, t2: u64, page: *mut u8, page_len: usize,
        ) -> u8;
        pub fn store_plate(place: u64, load: i32, answer: *mut u8, answer_len: usize) -> u8;
        pub fn store_forward(
            old: *const u8, old_len: usize, nand: *const u8, nand_len: usize, nor: *const u8, nor_len: usize,
            slots: u64, state: *mut u8, state_len: usize, to_nand: *mut u8, to_nand_len: usize, to_nor: *mut u8,
            to_nor_len: usize,
        ) -> u8;
        pub fn store_backward(
            state: *const u8, state_len: usize, nand: *const u8, nand_len: usize, nor: *const u8, nor_len: usize,
            slots: u64, old: *mut u8, old_len: usize, to_nand: *mut u8, to_nand_len: usize, to_nor: *mut u8,
            to_nor_len: usize,
        ) -> u8;
        pub fn store_pairs(
            first: *const u8, first_len: usize, first_nand: *const u8, first_nand_len: usize, first_nor: *const u8,
            first_nor_len: usize, first_slots: u64, second: *const u8, second_len: usize, second_nand: *const u8,
            second_nand_len: usize, second_nor: *const u8, second_nor_len: usize, second_slots: u64, rows: *mut u8,
            rows_len: usize, answer: *mut u8, answer_len: usize,
        ) -> u8;
        pub fn store_tolerant(
            state: *const u8, state_len: usize, nand: *const u8, nand_len: usize, nor: *const u8, nor_len: usize,
            slots: u64, t1: u64, t2: u64, k1: i32, k2: i32, d: u64, certain: *mut u8, certain_len: usize,
            possible: *mut u8, possible_len: usize, answer: *mut u8, answer_len: usize,
        ) -> u8;
        pub fn store_export(
            state: *const u8, state_len: usize, nand: *const u8, nand_len: usize, nor: *const u8, nor_len: usize,
            slots: u64, t1: u64, t2: u64, k1: i32, k2: i32, text: *mut u8, text_len: usize, answer: *mut u8,
            answer_len: usize,
        ) -> u8;
        pub fn store_import(
            state: *mut u8, state_len: usize, nand: *mut u8, nand_len: usize, nor: *mut u8, nor_len: usize, slots: u64,
            text: *const u8, text_len: usize, answer: *mut u8, answer_len: usize,
        ) -> u8;
        pub fn store_import_kept(
            state: *mut u8, state_len: usize, counts: *mut u8, counts_len: usize, nand: *mut u8, nand_len: usize,
            nor: *mut u8, nor_len: usize, slots: u64, text: *const u8, text_len: usize, answer: *mut u8,
            answer_len: usize,
        ) -> u8;
    }
}

/// The number reported for a call that wrote outside an area it was lent; no call has it.
pub const WROTE_OUTSIDE: u8 = 255;

const MARGIN: usize = 61;
const MARGIN_BYTE: u8 = 0x5C;

/// A copy of an area between two margins, at an odd place.
struct Lent {
    bytes: Vec<u8>,
}

impl Lent {
    fn new(area: &[u8]) -> Lent {
        let mut bytes = Vec::with_capacity(area.len() + 2 * MARGIN);
        bytes.resize(MARGIN, MARGIN_BYTE);
        bytes.extend_from_slice(area);
        bytes.resize(area.len() + 2 * MARGIN, MARGIN_BYTE);
        Lent { bytes }
    }

    fn area(&mut self) -> &mut [u8] {
        let end = self.bytes.len() - MARGIN;
        &mut self.bytes[MARGIN..end]
    }

    /// Copies the area back and tells whether its margins are whole.
    fn hand_back(mut self, area: &mut [u8]) -> bool {
        area.copy_from_slice(self.area());
        let end = self.bytes.len() - MARGIN;
        self.bytes[..MARGIN].iter().chain(&self.bytes[end..]).all(|byte| *byte == MARGIN_BYTE)
    }

    /// Tells whether the area, which was lent to be read alone, and its margins are as they were.
    fn is_untouched(self, area: &[u8]) -> bool {
        self.bytes == Lent::new(area).bytes
    }
}

/// The built library. NAND is lent as it is, since it may have 64 MB. No call of the library runs a store of form 0: such
/// calls are answered by the model. Inputs of the generator go to the built program.
pub struct Library;

impl Store for Library {
    fn answer(&mut self, form: Form, call: &Call, areas: &mut Areas, outputs: &mut Outputs) -> u8 {
        if form == Form::Old {
            return Expectation.answer(form, call, areas, outputs);
        }
        let plain_format = match call {
            Call::Format { slots } => Some(formatted_without_counts(areas, *slots)),
            _ => None,
        };
        let [mut state, mut counts, mut nor] = [&areas.state, &areas.counts, &areas.nor].map(|area| Lent::new(area));
        let [mut rows, mut answer] = [&outputs.rows, &outputs.answer].map(|area| Lent::new(area));
        let store = LentStore { state: state.area(), nand: &mut areas.nand, nor: nor.area() };
        let number = enter(call, store, counts.area(), rows.area(), answer.area());
        let whole = [
            state.hand_back(&mut areas.state),
            counts.hand_back(&mut areas.counts),
            nor.hand_back(&mut areas.nor),
            rows.hand_back(&mut outputs.rows),
            answer.hand_back(&mut outputs.answer),
        ];
        if let Some((plain_number, plain)) = plain_format {
            assert_eq!(plain_number, number, "number of store_format, and of store_format_kept on the same areas");
            let is_same = plain.state == areas.state && plain.nand == areas.nand && plain.nor == areas.nor;
            assert!(is_same, "store_format and store_format_kept leave different chips or states of the same areas");
        }
        number_if(whole, number)
    }

    fn carry(&mut self, carry: &Carry, first: &mut Areas, second: &mut Areas) -> u8 {
        let (from, into) = (Part::State(carry.into.other()), Part::State(carry.into));
        let [mut state, mut to_state] = [first.part(from), second.part(into)].map(Lent::new);
        let [mut nor, mut to_nor] = [&first.nor, &second.nor].map(|nor| Lent::new(nor));
        let one = LentStore { state: state.area(), nand: &mut first.nand, nor: nor.area() };
        let other = LentStore { state: to_state.area(), nand: &mut second.nand, nor: to_nor.area() };
        let number = enter_carry(carry.into, carry.slots, one, other);
        let whole = [
            state.hand_back(first.part_mut(from)),
            nor.hand_back(&mut first.nor),
            to_state.hand_back(second.part_mut(into)),
            to_nor.hand_back(&mut second.nor),
        ];
        number_if(whole, number)
    }

    /// A store named twice is lent once: the library gets the same areas for both.
    fn pairs(&mut self, pairs: &Pairs, first: &Areas, second: &Areas, outputs: &mut Outputs) -> u8 {
        let [mut state, mut second_state] = [first, second].map(|areas| Lent::new(&areas.state));
        let [mut nor, mut second_nor] = [first, second].map(|areas| Lent::new(&areas.nor));
        let mut rows = Lent::new(&outputs.rows);
        let mut answer = Lent::new(&outputs.answer);
        let one = ReadStore { state: state.area(), nand: &first.nand, nor: nor.area(), slots: pairs.slots };
        let slots = pairs.second_slots;
        let other = if std::ptr::eq(first, second) {
            ReadStore { slots, ..one }
        } else {
            ReadStore { state: second_state.area(), nand: &second.nand, nor: second_nor.area(), slots }
        };
        let number = enter_pairs(&one, &other, rows.area(), answer.area());
        let whole = [
            state.is_untouched(&first.state) && nor.is_untouched(&first.nor),
            second_state.is_untouched(&second.state) && second_nor.is_untouched(&second.nor),
            rows.hand_back(&mut outputs.rows),
            answer.hand_back(&mut outputs.answer),
        ];
        number_if(whole, number)
    }

    fn tolerant(&mut self, tolerant: &Tolerant, areas: &Areas, outputs: &mut TolerantOutputs) -> u8 {
        let [mut state, mut nor, mut answer] = [&areas.state, &areas.nor, &outputs.answer].map(|area| Lent::new(area));
        let [mut certain, mut possible] = outputs.lists.each_ref().map(|list| Lent::new(list));
        let store = ReadStore { state: state.area(), nand: &areas.nand, nor: nor.area(), slots: tolerant.slots };
        let number = enter_tolerant(tolerant, &store, [certain.area(), possible.area()], answer.area());
        let whole = [
            state.is_untouched(&areas.state) && nor.is_untouched(&areas.nor),
            certain.hand_back(&mut outputs.lists[0]),
            possible.hand_back(&mut outputs.lists[1]),
            answer.hand_back(&mut outputs.answer),
        ];
        number_if(whole, number)
    }

    fn generate(&mut self, input: &[u8]) -> Result<Vec<u8>, String> {
        program::printed(&program::beside("plate_ends")?, input)
    }
}

fn number_if<const N: usize>(margins_whole: [bool; N], number: u8) -> u8 {
    if margins_whole.contains(&false) {
        return WROTE_OUTSIDE;
    }
    number
}

/// What the format that knows of no counts makes of copies of these areas, with its number.
fn formatted_without_counts(areas: &Areas, slots: u64) -> (u8, Areas) {
    let mut areas = areas.clone();
    let [mut state, mut nor] = [&areas.state, &areas.nor].map(|area| Lent::new(area));
    let store = LentStore { state: state.area(), nand: &mut areas.nand, nor: nor.area() };
    let number = enter_plain_format(slots, store);
    let whole = [state.hand_back(&mut areas.state), nor.hand_back(&mut areas.nor)];
    assert_eq!(whole, [true; 2], "store_format wrote outside the state or NOR that it was lent");
    (number, areas)
}

/// The areas of a store that may be written, of whatever lengths.
pub struct LentStore<'a> {
    pub state: &'a mut [u8],
    pub nand: &'a mut [u8],
    pub nor: &'a mut [u8],
}

impl LentStore<'_> {
    /// State, NAND and NOR, each as the library is told it.
    fn told(self) -> [(*mut u8, usize); 3] {
        [self.state, self.nand, self.nor].map(|area| (area.as_mut_ptr(), area.len()))
    }
}

/// Has the library carry one store into another.
pub fn enter_carry(into: Form, slots: u64, first: LentStore, second: LentStore) -> u8 {
    let [(st, st_len), (na, na_len), (no, no_len)] = first.told();
    let [(to, to_len), (ta, ta_len), (tn, tn_len)] = second.told();
    let call = match into {
        Form::New => c::store_forward,
        Form::Old => c::store_backward,
    };
    // Sound if the library keeps to the areas whose lengths it is told, which is what is under test. The first store's
    // pointers come from areas that may be changed, so that a write there shows as a difference.
    unsafe { call(st, st_len, na, na_len, no, no_len, slots, to, to_len, ta, ta_len, tn, tn_len) }
}

/// A store that is only read, as one of the two machines of a pairing, of whatever lengths.
pub struct ReadStore<'a> {
    pub state: &'a [u8],
    pub nand: &'a [u8],
    pub nor: &'a [u8],
    pub slots: u64,
}

impl ReadStore<'_> {
    /// State, NAND and NOR, each as the library is told it.
    fn told(&self) -> [(*const u8, usize); 3] {
        [self.state, self.nand, self.nor].map(|area| (area.as_ptr(), area.len()))
    }
}

/// Has the library pair the lifts of two stores.
pub fn enter_pairs(first: &ReadStore, second: &ReadStore, rows: &mut [u8], answer: &mut [u8]) -> u8 {
    let (s, t) = (first.slots, second.slots);
    let [(u, u_len), (v, v_len), (w, w_len)] = first.told();
    let [(x, x_len), (y, y_len), (z, z_len)] = second.told();
    let (ro, ro_len) = (rows.as_mut_ptr(), rows.len());
    let (an, an_len) = (answer.as_mut_ptr(), answer.len());
    let pairs = c::store_pairs;
    // Sound if the library keeps to the areas whose lengths it is told and writes to the last two alone, which is what is
    // under test.
    unsafe { pairs(u, u_len, v, v_len, w, w_len, s, x, x_len, y, y_len, z, z_len, t, ro, ro_len, an, an_len) }
}

/// Has the library search a store with a tolerance, into the areas of certain and of possible lifts.
pub fn enter_tolerant(call: &Tolerant, store: &ReadStore, lists: [&mut [u8]; 2], answer: &mut [u8]) -> u8 {
    let Window { t1, t2, k1, k2 } = call.window;
    let (s, d) = (store.slots, call.tolerance);
    let [(st, st_len), (na, na_len), (no, no_len)] = store.told();
    let [(ce, ce_len), (po, po_len)] = lists.map(|list| (list.as_mut_ptr(), list.len()));
    let (an, an_len) = (answer.as_mut_ptr(), answer.len());
    let tolerant = c::store_tolerant;
    // Sound if the library keeps to the areas whose lengths it is told and writes to the last three alone, which is what is
    // under test.
    unsafe { tolerant(st, st_len, na, na_len, no, no_len, s, t1, t2, k1, k2, d, ce, ce_len, po, po_len, an, an_len) }
}

/// Has the library format a store beside which no counts are kept.
pub fn enter_plain_format(slots: u64, store: LentStore) -> u8 {
    let [(st, st_len), (na, na_len), (no, no_len)] = store.told();
    // Sound if the library keeps to the areas whose lengths it is told, which is what is under test.
    unsafe { c::store_format(st, st_len, na, na_len, no, no_len, slots) }
}

/// Calls the library with areas of whatever lengths; a format is the one that sets the counts to 0.
pub fn enter(call: &Call, store: LentStore, counts: &mut [u8], rows: &mut [u8], answer: &mut [u8]) -> u8 {
    let [(st, st_len), (na, na_len), (no, no_len)] = store.told();
    let (co, co_len) = (counts.as_mut_ptr(), counts.len());
    let (ro, ro_len) = (rows.as_mut_ptr(), rows.len());
    let (an, an_len) = (answer.as_mut_ptr(), answer.len());
    // Sound if the library keeps to the areas whose lengths it is told, which is what is under test.
    unsafe {
        match *call {
            Call::Format { slots } => c::store_format_kept(st, st_len, co, co_len, na, na_len, no, no_len, slots),
            Call::Append { keeps: false, slots, time, load, ref note } => {
                c::store_append(st, st_len, na, na_len, no, no_len, slots, time, load, note.as_ptr())
            }
            Call::Append { keeps: true, slots, time, load, ref note } => {
                let append = c::store_append_kept;
                append(st, st_len, co, co_len, na, na_len, no, no_len, slots, time, load, note.as_ptr())
            }
            Call::Close { slots } => c::store_close(st, st_len, na, na_len, no, no_len, slots),
            Call::Drop { keeps: false, slots } => c::store_drop(st, st_len, na, na_len, no, no_len, slots),
            Call::Drop { keeps: true, slots } => {
                c::store_drop_kept(st, st_len, co, co_len, na, na_len, no, no_len, slots)
            }
            Call::Search { slots, window: Window { t1, t2, k1, k2 }, .. } => {
                let search = c::store_search;
                search(st, st_len, na, na_len, no, no_len, slots, t1, t2, k1, k2, ro, ro_len, an, an_len)
            }
            Call::Tally { slots, t1, t2 } => {
                c::store_tally(st, st_len, na, na_len, no, no_len, slots, t1, t2, an, an_len)
            }
            Call::Page { slots, t1, t2 } => {
                c::store_page(st, st_len, na, na_len, no, no_len, slots, t1, t2, an, an_len)
            }
            Call::Plate { place, load } => c::store_plate(place, load, an, an_len),
            Call::Export { slots, window: Window { t1, t2, k1, k2 }, .. } => {
                let export = c::store_export;
                export(st, st_len, na, na_len, no, no_len, slots, t1, t2, k1, k2, ro, ro_len, an, an_len)
            }
            Call::Import { keeps: false, slots, .. } => {
                c::store_import(st, st_len, na, na_len, no, no_len, slots, ro, ro_len, an, an_len)
            }
            Call::Import { keeps: true, slots, .. } => {
                let import = c::store_import_kept;
                import(st, st_len, co, co_len, na, na_len, no, no_len, slots, ro, ro_len, an, an_len)
            }
        }
    }
}
