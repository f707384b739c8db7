//! A script under way: every command goes to the judge and into the record.
use crate::judge::{Judge, Step};
use crate::random::Random;
use model::bytes::{exported, found, pairs_found, tolerant_found};
use script::areas::{Areas, PAGE_BYTES, SLOT_BYTES};
use script::calls::{Call, Pairs, Tolerant, Window};
use script::command::{Command, Field, Fill, Part};
use script::form::Form;

pub const NOR_BYTES: usize = 6_144;
pub const BUCKET_BYTES: usize = 128;
pub const BUCKETS: usize = 36;
/// Where the Bloom sections begin in NOR.
pub const SECTIONS: usize = 4_608;
/// Where the tree and the header begin in a slot.
pub const TREE: usize = 20 * PAGE_BYTES;
pub const HEADER: usize = 31 * PAGE_BYTES;

pub struct Trial<'a> {
    pub judge: &'a mut Judge,
    pub random: Random,
    pub commands: Vec<Command>,
    /// The form of the selected store.
    pub form: Form,
}

impl<'a> Trial<'a> {
    pub fn new(judge: &'a mut Judge, seed: u64) -> Trial<'a> {
        judge.begin_anew();
        Trial { judge, random: Random::new(seed), commands: Vec::new(), form: Form::New }
    }

    pub fn run(&mut self, command: Command) -> Step {
        self.commands.push(command);
        self.judge.perform(self.commands.last().unwrap())
    }

    pub fn call(&mut self, call: Call) -> Step {
        let form = match call {
            Call::Plate { .. } => Form::New,
            _ => self.form,
        };
        self.run(Command::Call(form, call))
    }

    /// Chips of the right lengths that hold anything.
    pub fn lend_chips(&mut self, slots: u64) -> Step {
        let fill = match self.random.below(3) {
            0 => Fill::Byte(self.random.pick(&[0, 255, 170])),
            _ => Fill::Mixed(self.random.below(1000)),
        };
        self.run(Command::Areas { nand_bytes: slots as usize * SLOT_BYTES, nor_bytes: NOR_BYTES, fill })
    }

    pub fn poke(&mut self, part: Part, offset: usize, bytes: &[u8]) -> Step {
        for (offset, value) in (offset..).zip(bytes) {
            self.run(Command::Poke { part, offset, value: *value })?;
        }
        Ok(())
    }

    pub fn set(&mut self, field: Field, value: i128) -> Step {
        match self.form {
            Form::New => self.run(Command::SetField { field, value }),
            Form::Old => {
                let (offset, width) = field.place(Form::Old);
                self.poke(Part::State(Form::Old), offset, &value.to_le_bytes()[..width])
            }
        }
    }

    pub fn state(&self) -> Part {
        Part::State(self.form)
    }

    pub fn areas(&self) -> &Areas {
        self.judge.expected()
    }

    pub fn field(&self, field: Field) -> u64 {
        let (offset, width) = field.place(self.form);
        let mut bytes = [0; 8];
        bytes[..width].copy_from_slice(&self.areas().part(self.state())[offset..offset + width]);
        u64::from_le_bytes(bytes)
    }

    /// How many pairs the selected store has with another one, 0 if they would be refused.
    pub fn pairs_found(&self, pairs: &Pairs) -> usize {
        let second = self.judge.store(pairs.second);
        pairs_found((self.areas(), pairs.slots), (second, pairs.second_slots)).map_or(0, |pairs| pairs.len())
    }

    /// How many certain and possible lifts a tolerant search would find, 0 of each if it would be refused.
    pub fn tolerant_found(&self, call: &Tolerant) -> [usize; 2] {
        tolerant_found(self.areas(), call).map_or([0; 2], |lists| lists.each_ref().map(Vec::len))
    }

    /// The text of an export, empty if it would be refused.
    pub fn exported(&self, slots: u64, window: &Window) -> Vec<u8> {
        exported(self.areas(), slots, window).unwrap_or_default()
    }

    /// How many rows a search would find, 0 if it would be refused.
    pub fn rows_found(&self, slots: u64, window: &Window) -> usize {
        match self.judge.log(self.form) {
            Some(log) => log.found(window).map_or(0, |found| found.len()),
            None => found(self.form, self.areas(), slots, window).map_or(0, |found| found.records.len()),
        }
    }
}
