//! The calls as values, and what answers them: the built library or the model.
use crate::areas::Areas;
use crate::form::Form;

pub const ROW_BYTES: usize = 32;
/// "its two records side by side (64 bytes)" (W-208)
pub const PAIR_BYTES: usize = 2 * ROW_BYTES;
/// "a page 40 columns wide" (W-201); a line feed follows each line.
pub const PAGE_COLUMNS: usize = 40;
/// Result and answer areas hold this byte before a call, so that bytes left alone can be told.
pub const UNTOUCHED: u8 = 0xAA;

#[derive(Clone, Copy, Debug, PartialEq)]
pub struct Window {
    pub t1: u64,
    pub t2: u64,
    pub k1: i32,
    pub k2: i32,
}

/// The seven calls of document 01 and the service page (W-201), which form 0 has not; a plate is looked up on the stack at a
/// place (W-205). In form 1 an append and a drop may keep counts, and a format sets them to 0 (W-210); a search may be written
/// as text, and a text appended, keeping counts or not (W-211).
#[derive(Clone, Debug, PartialEq)]
pub enum Call {
    Format { slots: u64 },
    Append { keeps: bool, slots: u64, time: u64, load: i32, note: [u8; 20] },
    Close { slots: u64 },
    Drop { keeps: bool, slots: u64 },
    Search { slots: u64, window: Window, area_bytes: usize },
    Tally { slots: u64, t1: u64, t2: u64 },
    Page { slots: u64, t1: u64, t2: u64 },
    Plate { place: u64, load: i32 },
    Export { slots: u64, window: Window, area_bytes: usize },
    Import { keeps: bool, slots: u64, text: Vec<u8> },
}

impl Call {
    pub const NAMES: [&'static str; 13] = [
        "format", "append", "close", "drop", "search", "tally", "page", "plate", "appendk", "dropk", "export",
        "import", "importk",
    ];

    /// The call's place in `NAMES`.
    pub fn kind(&self) -> usize {
        match self {
            Call::Format { .. } => 0,
            Call::Append { keeps: false, .. } => 1,
            Call::Close { .. } => 2,
            Call::Drop { keeps: false, .. } => 3,
            Call::Search { .. } => 4,
            Call::Tally { .. } => 5,
            Call::Page { .. } => 6,
            Call::Plate { .. } => 7,
            Call::Append { keeps: true, .. } => 8,
            Call::Drop { keeps: true, .. } => 9,
            Call::Export { .. } => 10,
            Call::Import { keeps: false, .. } => 11,
            Call::Import { keeps: true, .. } => 12,
        }
    }

    pub fn name(&self) -> &'static str {
        Self::NAMES[self.kind()]
    }

    /// Whether it is lent the counts, in form 1.
    pub fn has_counts(&self) -> bool {
        match self {
            Call::Format { .. } => true,
            Call::Append { keeps, .. } | Call::Drop { keeps, .. } | Call::Import { keeps, .. } => *keeps,
            _ => false,
        }
    }

    /// Of a search count and pages read, of an export the length, of an import the line. A page has a heading, a line for each
    /// plate and a total.
    fn answer_bytes(&self, form: Form) -> usize {
        match self {
            Call::Search { .. } => 8 * (1 + form.page_counts()),
            Call::Plate { .. } | Call::Export { .. } | Call::Import { .. } => 8,
            Call::Tally { .. } => 8 * form.counts(),
            Call::Page { .. } => (1 + form.counts() + 1) * (PAGE_COLUMNS + 1),
            _ => 0,
        }
    }
}

/// W-203: the selected store is carried into the second one, into a form.
#[derive(Clone, Debug, PartialEq)]
pub struct Carry {
    pub into: Form,
    pub slots: u64,
    pub second: usize,
}

impl Carry {
    pub const NAMES: [&'static str; 2] = ["forward", "backward"];

    /// The call's place in `NAMES`.
    pub fn kind(&self) -> usize {
        match self.into {
            Form::New => 0,
            Form::Old => 1,
        }
    }

    pub fn name(&self) -> &'static str {
        Self::NAMES[self.kind()]
    }
}

/// W-208: the selected store is the first machine, the second one has an S of its own.
#[derive(Clone, Debug, PartialEq)]
pub struct Pairs {
    pub slots: u64,
    pub second: usize,
    pub second_slots: u64,
    pub area_bytes: usize,
}

impl Pairs {
    pub const NAME: &'static str = "pairs";

    /// Room for the pairs and, in the answer, for their count.
    pub fn outputs(&self) -> Outputs {
        Outputs::of_lengths(self.area_bytes, 8)
    }
}

/// W-209: a search of the selected store whose loads are good to `tolerance` units.
#[derive(Clone, Debug, PartialEq)]
pub struct Tolerant {
    pub slots: u64,
    pub window: Window,
    pub tolerance: u64,
    /// Of the area for certain lifts and of that for possible ones.
    pub area_bytes: [usize; 2],
}

impl Tolerant {
    pub const NAME: &'static str = "tolerant";

    pub fn outputs(&self) -> TolerantOutputs {
        let lists = self.area_bytes.map(|bytes| vec![UNTOUCHED; bytes]);
        TolerantOutputs { lists, answer: vec![UNTOUCHED; 16] }
    }
}

/// The three areas that a tolerant search writes into.
#[derive(Clone, Debug, PartialEq)]
pub struct TolerantOutputs {
    /// The rows of the certain lifts, and those of the possible ones.
    pub lists: [Vec<u8>; 2],
    /// Both counts, of eight bytes each.
    pub answer: Vec<u8>,
}

impl TolerantOutputs {
    pub fn counts(&self) -> [u64; 2] {
        [0, 8].map(|offset| u64::from_le_bytes(self.answer[offset..offset + 8].try_into().unwrap()))
    }
}

/// The two areas that any other call writes its answer into.
#[derive(Clone, Debug, PartialEq)]
pub struct Outputs {
    /// Rows, or the text of an export. An import reads its text here, and leaves it as it is.
    pub rows: Vec<u8>,
    /// Numbers of eight bytes: a search's count and pages read, a tally's counts, a plate, a count of pairs, the length of an
    /// export, the line of an import; or the lines of a page.
    pub answer: Vec<u8>,
}

impl Outputs {
    pub fn untouched(form: Form, call: &Call) -> Outputs {
        let answer_bytes = call.answer_bytes(form);
        match call {
            Call::Search { area_bytes, .. } | Call::Export { area_bytes, .. } => {
                Outputs::of_lengths(*area_bytes, answer_bytes)
            }
            Call::Import { text, .. } => Outputs { rows: text.clone(), ..Outputs::of_lengths(0, answer_bytes) },
            _ => Outputs::of_lengths(0, answer_bytes),
        }
    }

    fn of_lengths(rows: usize, answer: usize) -> Outputs {
        Outputs { rows: vec![UNTOUCHED; rows], answer: vec![UNTOUCHED; answer] }
    }

    /// The numbers of the answer, one after another.
    pub fn values(&self) -> impl Iterator<Item = u64> + '_ {
        self.answer.chunks_exact(8).map(|bytes| u64::from_le_bytes(bytes.try_into().unwrap()))
    }

    /// How many rows a search found, pairs there are or bytes an export has, or which line ended an import: the first number
    /// of the answer.
    pub fn count(&self) -> u64 {
        self.values().next().expect("an answer with a count")
    }
}

/// Whoever answers a call gives its number and changes the areas as the call does.
pub trait Store {
    /// A call on a store of that form.
    fn answer(&mut self, form: Form, call: &Call, areas: &mut Areas, outputs: &mut Outputs) -> u8;

    /// The first store is only read; it is lent to be changed so that a byte written there can be seen.
    fn carry(&mut self, carry: &Carry, first: &mut Areas, second: &mut Areas) -> u8;

    /// Both stores are only read, and may be one and the same.
    fn pairs(&mut self, pairs: &Pairs, first: &Areas, second: &Areas, outputs: &mut Outputs) -> u8;

    /// The store is only read.
    fn tolerant(&mut self, tolerant: &Tolerant, areas: &Areas, outputs: &mut TolerantOutputs) -> u8;

    /// What the generator of W-205 prints for an input; an error tells why it does not come to its end.
    fn generate(&mut self, input: &[u8]) -> Result<Vec<u8>, String>;
}
