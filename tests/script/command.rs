//! One line of a script as a value, and its text.
use crate::calls::{Call, Carry, Pairs, Tolerant, Window};
use crate::form::Form;
use std::fmt;

#[derive(Clone, Copy, Debug, PartialEq)]
pub enum Part {
    Nand,
    Nor,
    State(Form),
}

impl Part {
    fn name(self) -> &'static str {
        Shown::Part(self).name()
    }
}

/// What `dump` prints bytes of: an area of the store, or the result area of the last search, of the last pairs or of the last
/// export; of a tolerant search the area of the certain lifts.
#[derive(Clone, Copy, Debug, PartialEq)]
pub enum Shown {
    Part(Part),
    ResultArea,
}

impl Shown {
    pub const ALL: [(&'static str, Shown); 5] = [
        ("nand", Shown::Part(Part::Nand)),
        ("nor", Shown::Part(Part::Nor)),
        ("state0", Shown::Part(Part::State(Form::Old))),
        ("state1", Shown::Part(Part::State(Form::New))),
        ("area", Shown::ResultArea),
    ];

    fn name(self) -> &'static str {
        Shown::ALL.iter().find(|(_, shown)| *shown == self).unwrap().0
    }
}

#[derive(Clone, Copy, Debug, PartialEq)]
pub enum Fill {
    Byte(u8),
    /// Bytes that vary from place to place, one run of them for each number.
    Mixed(u64),
}

#[derive(Clone, Copy, Debug, PartialEq)]
pub enum Field {
    Oldest,
    Open,
    Count,
    Buckets,
    Next,
    Start,
    Low,
    High,
}

impl Field {
    pub const ALL: [(&'static str, Field); 8] = [
        ("oldest", Field::Oldest),
        ("open", Field::Open),
        ("count", Field::Count),
        ("buckets", Field::Buckets),
        ("next", Field::Next),
        ("start", Field::Start),
        ("low", Field::Low),
        ("high", Field::High),
    ];

    fn name(self) -> &'static str {
        Field::ALL.iter().find(|(_, field)| *field == self).unwrap().0
    }

    /// Offset and width in the state area of a form.
    pub fn place(self, form: Form) -> (usize, usize) {
        let start = form.start();
        match self {
            Field::Oldest => (0, 4),
            Field::Open => (4, 4),
            Field::Count => (8, 2),
            Field::Buckets => (10, 1),
            Field::Next => (11, 8),
            Field::Start => (start, 8),
            Field::Low => (start + 8, 4),
            Field::High => (start + 12, 4),
        }
    }
}

/// A call of document 01 is of a form, a page, an export and an import of form 1; a plate is looked up without a store, and
/// counts as form 1's. `Gen` has an input of the generator, which works on no store either.
#[derive(Clone, Debug, PartialEq)]
pub enum Command {
    Use(usize),
    Areas { nand_bytes: usize, nor_bytes: usize, fill: Fill },
    Poke { part: Part, offset: usize, value: u8 },
    SetField { field: Field, value: i128 },
    SetCount { plate: usize, value: u32 },
    Snap,
    Back,
    Call(Form, Call),
    Carry(Carry),
    Pairs(Pairs),
    Tolerant(Tolerant),
    Gen(Vec<u8>),
    Rows,
    Text,
    Dump { shown: Shown, offset: usize, length: usize },
    Changed,
}

impl fmt::Display for Fill {
    fn fmt(&self, out: &mut fmt::Formatter) -> fmt::Result {
        match self {
            Fill::Byte(value) => write!(out, "{value}"),
            Fill::Mixed(number) => write!(out, "r{number}"),
        }
    }
}

pub fn hex(bytes: &[u8]) -> String {
    bytes.iter().map(|byte| format!("{byte:02x}")).collect()
}

/// The bytes of an input as a word; '-' stands for none.
fn input_word(bytes: &[u8]) -> String {
    if bytes.is_empty() {
        return "-".to_string();
    }
    hex(bytes)
}

/// The word that a line begins with: a call of form 0 has a 0 after its name.
pub fn command_name(form: Form, call: &Call) -> String {
    match form {
        Form::Old => format!("{}0", call.name()),
        Form::New => call.name().to_string(),
    }
}

/// What follows the name.
impl fmt::Display for Call {
    fn fmt(&self, out: &mut fmt::Formatter) -> fmt::Result {
        match self {
            Call::Format { slots } | Call::Close { slots } | Call::Drop { slots, .. } => write!(out, "{slots}"),
            Call::Append { slots, time, load, note, .. } => write!(out, "{slots} {time} {load} {}", hex(note)),
            Call::Search { slots, window, area_bytes } | Call::Export { slots, window, area_bytes } => {
                write!(out, "{slots} {window} {area_bytes}")
            }
            Call::Import { slots, text, .. } => write!(out, "{slots} {}", input_word(text)),
            Call::Tally { slots, t1, t2 } | Call::Page { slots, t1, t2 } => write!(out, "{slots} {t1} {t2}"),
            Call::Plate { place, load } => write!(out, "{place} {load}"),
        }
    }
}

impl fmt::Display for Window {
    fn fmt(&self, out: &mut fmt::Formatter) -> fmt::Result {
        let Window { t1, t2, k1, k2 } = self;
        write!(out, "{t1} {t2} {k1} {k2}")
    }
}

impl fmt::Display for Command {
    fn fmt(&self, out: &mut fmt::Formatter) -> fmt::Result {
        match self {
            Command::Use(store) => write!(out, "use {store}"),
            Command::Areas { nand_bytes, nor_bytes, fill } => write!(out, "areas {nand_bytes} {nor_bytes} {fill}"),
            Command::Poke { part, offset, value } => write!(out, "{} {offset} {value}", part.name()),
            Command::SetField { field, value } => write!(out, "fields {} {value}", field.name()),
            Command::SetCount { plate, value } => write!(out, "counts {plate} {value}"),
            Command::Snap => write!(out, "snap"),
            Command::Back => write!(out, "back"),
            Command::Call(form, call) => write!(out, "{} {call}", command_name(*form, call)),
            Command::Carry(carry) => write!(out, "{} {} {}", carry.name(), carry.slots, carry.second),
            Command::Pairs(Pairs { slots, second, second_slots, area_bytes }) => {
                write!(out, "{} {slots} {second} {second_slots} {area_bytes}", Pairs::NAME)
            }
            Command::Tolerant(Tolerant { slots, window, tolerance, area_bytes: [certain, possible] }) => {
                write!(out, "{} {slots} {window} {tolerance} {certain} {possible}", Tolerant::NAME)
            }
            Command::Gen(input) => write!(out, "gen {}", input_word(input)),
            Command::Rows => write!(out, "rows"),
            Command::Text => write!(out, "text"),
            Command::Dump { shown, offset, length } => write!(out, "dump {} {offset} {length}", shown.name()),
            Command::Changed => write!(out, "changed"),
        }
    }
}
