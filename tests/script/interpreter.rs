//! Runs a script over a store and writes the lines that answer it.
use crate::areas::{Areas, World, PAGE_BYTES, SLOT_BYTES};
use crate::calls::{Call, Carry, Outputs, Pairs, Store, Tolerant, ROW_BYTES};
use crate::command::{command_name, hex, Command, Shown};
use crate::form::Form;
use crate::hash::{copy_changed, fnv1a, KeptHash};
use crate::parse::parse;
use std::io::{BufRead, Write};

pub struct Interpreter<S: Store> {
    store: S,
    world: World,
    found: Vec<u8>,
    exported: Vec<u8>,
    result_area: Vec<u8>,
    nand_before: Vec<u8>,
    nor_before: Vec<u8>,
    nand_hash: KeptHash,
}

impl<S: Store> Interpreter<S> {
    pub fn new(store: S) -> Self {
        Interpreter {
            store,
            world: World::empty(),
            found: Vec::new(),
            exported: Vec::new(),
            result_area: Vec::new(),
            nand_before: Vec::new(),
            nor_before: Vec::new(),
            nand_hash: KeptHash::default(),
        }
    }

    /// Answers every line of `script` on `out`; an error names the line that has no meaning.
    pub fn run(&mut self, script: impl BufRead, out: &mut impl Write) -> Result<(), String> {
        for (index, line) in script.lines().enumerate() {
            let told = |problem: String| format!("line {}: {problem}", index + 1);
            let line = line.map_err(|error| told(error.to_string()))?;
            if let Some(command) = parse(&line).map_err(told)? {
                let text = self.perform(&command).map_err(told)?;
                out.write_all(text.as_bytes()).map_err(|error| error.to_string())?;
            }
        }
        out.flush().map_err(|error| error.to_string())
    }

    fn perform(&mut self, command: &Command) -> Result<String, String> {
        let text = match command {
            Command::Call(form, call) => self.call(*form, call),
            Command::Carry(carry) => self.carry(carry),
            Command::Pairs(pairs) => self.pairs(pairs),
            Command::Tolerant(tolerant) => self.tolerant(tolerant),
            Command::Gen(input) => format!("gen {}\n", hex(&self.store.generate(input)?)),
            Command::Rows => self.rows(),
            Command::Text => self.text(),
            Command::Dump { shown, offset, length } => {
                let bytes = match shown {
                    Shown::Part(part) => self.world.areas.part(*part),
                    Shown::ResultArea => &self.result_area,
                };
                let from = (*offset).min(bytes.len());
                let to = offset.saturating_add(*length).min(bytes.len());
                format!("dump {}\n", hex(&bytes[from..to]))
            }
            Command::Changed => self.changed(),
            other => {
                self.world.apply(other);
                String::new()
            }
        };
        Ok(text)
    }

    fn remember_chips(&mut self) {
        copy_changed(&self.world.areas.nand, &mut self.nand_before);
        copy_changed(&self.world.areas.nor, &mut self.nor_before);
    }

    fn carry(&mut self, carry: &Carry) -> String {
        self.remember_chips();
        let number = self.world.carry(carry, &mut self.store);
        let second = hashes(self.world.store(carry.second), carry.into, &mut self.nand_hash);
        format!("{} {number}{second}\n", carry.name())
    }

    fn pairs(&mut self, pairs: &Pairs) -> String {
        self.remember_chips();
        let mut outputs = pairs.outputs();
        let number = self.world.pairs(pairs, &mut self.store, &mut outputs);
        let count = if number == 0 { outputs.count() } else { 0 };
        let line = format!("{} {number} {count} {:016x}\n", Pairs::NAME, fnv1a(&outputs.rows));
        self.result_area = outputs.rows;
        line
    }

    /// `rows` goes on to print those of the last search.
    fn tolerant(&mut self, tolerant: &Tolerant) -> String {
        self.remember_chips();
        let mut outputs = tolerant.outputs();
        let number = self.store.tolerant(tolerant, &self.world.areas, &mut outputs);
        let counts = if number == 0 { outputs.counts() } else { [0; 2] };
        let mut line = format!("{} {number}", Tolerant::NAME);
        for (count, list) in counts.iter().zip(&outputs.lists) {
            line += &format!(" {count} {:016x}", fnv1a(list));
        }
        [self.result_area, _] = outputs.lists;
        line + "\n"
    }

    fn call(&mut self, form: Form, call: &Call) -> String {
        if !matches!(call, Call::Plate { .. }) {
            self.remember_chips();
        }
        let mut outputs = Outputs::untouched(form, call);
        let number = self.store.answer(form, call, &mut self.world.areas, &mut outputs);
        let accepted = number == 0;
        let mut line = format!("{} {number}", answer_name(form, call));
        match call {
            Call::Search { .. } => {
                let values: Vec<u64> = outputs.values().map(|value| if accepted { value } else { 0 }).collect();
                let (count, pages_read) = values.split_first().expect("the answer of a search");
                let found = (*count as usize).saturating_mul(ROW_BYTES).min(outputs.rows.len());
                self.found = outputs.rows[..found].to_vec();
                line += &format!(" {count} {:016x}", fnv1a(&outputs.rows));
                pages_read.iter().for_each(|pages| line += &format!(" {pages}"));
                self.result_area = outputs.rows;
            }
            Call::Export { .. } => {
                let length = if accepted { outputs.count() } else { 0 };
                line += &format!(" {length} {:016x}", fnv1a(&outputs.rows));
                self.exported = outputs.rows[..(length as usize).min(outputs.rows.len())].to_vec();
                self.result_area = outputs.rows;
            }
            Call::Import { .. } => line += &format!(" {}", outputs.count()),
            Call::Tally { .. } | Call::Plate { .. } if accepted => {
                outputs.values().for_each(|value| line += &format!(" {value}"));
            }
            // Its line feeds are its own.
            Call::Page { .. } if accepted => return format!("{line}\n{}", String::from_utf8_lossy(&outputs.answer)),
            _ => {}
        }
        if !matches!(call, Call::Plate { .. } | Call::Page { .. } | Call::Export { .. }) {
            line += &hashes(&self.world.areas, form, &mut self.nand_hash);
        }
        if form == Form::New && (call.has_counts() || matches!(call, Call::Import { .. })) {
            line += &format!(" counts={:016x}", fnv1a(&self.world.areas.counts));
        }
        line + "\n"
    }

    fn rows(&self) -> String {
        let row = |row: &[u8]| {
            let time = u64::from_le_bytes(row[..8].try_into().unwrap());
            let stored_load = u32::from_le_bytes(row[8..12].try_into().unwrap());
            format!("  {time} {} {}\n", i64::from(stored_load) - 50_001, hex(&row[12..]))
        };
        self.found.chunks(ROW_BYTES).map(row).collect()
    }

    /// Each line of the last export with its CRLF, in which no byte is hidden: other than printable ones have a backslash.
    fn text(&self) -> String {
        let lines = self.exported.split_inclusive(|byte| *byte == b'\n');
        lines.map(|line| format!("  {}\n", line.escape_ascii())).collect()
    }

    fn changed(&self) -> String {
        let areas = &self.world.areas;
        let shared = areas.nand.len().min(self.nand_before.len());
        let pages = areas.nand[..shared].chunks(PAGE_BYTES).zip(self.nand_before[..shared].chunks(PAGE_BYTES));
        let mut line = String::from("changed");
        for (page, _) in pages.enumerate().filter(|(_, (now, before))| now != before) {
            let pages_per_slot = SLOT_BYTES / PAGE_BYTES;
            line += &format!(" {}.{}", page / pages_per_slot, page % pages_per_slot);
        }
        let nor = areas.nor.iter().zip(&self.nor_before).filter(|(now, before)| now != before).count();
        format!("{line}\nnorchanged {nor}\n")
    }
}

/// An import has one answer, whether it keeps counts or not.
fn answer_name(form: Form, call: &Call) -> String {
    match call {
        Call::Import { .. } => "import".to_string(),
        _ => command_name(form, call),
    }
}

fn hashes(areas: &Areas, form: Form, nand_hash: &mut KeptHash) -> String {
    let (nand, nor, state) = (nand_hash.of(&areas.nand), fnv1a(&areas.nor), fnv1a(areas.state_of(form)));
    format!(" nand={nand:016x} nor={nor:016x} state={state:016x}")
}
