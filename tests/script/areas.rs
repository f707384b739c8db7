//! The areas that a store is lent, and the commands that change them from outside.
use crate::calls::{Carry, Outputs, Pairs, Store};
use crate::command::{Command, Field, Fill, Part};
use crate::form::Form;

pub const PAGE_BYTES: usize = 512;
pub const SLOT_BYTES: usize = 32 * PAGE_BYTES;
/// "Kept counts are an area of 88 bytes, 4 each" (W-214)
pub const COUNT_BYTES: usize = 4;
pub const COUNTS_BYTES: usize = COUNT_BYTES * Form::New.counts();

/// Two chips, a state of either form, and the kept counts beside that of form 1.
#[derive(Clone, PartialEq)]
pub struct Areas {
    pub old_state: Vec<u8>,
    pub state: Vec<u8>,
    pub counts: Vec<u8>,
    pub nand: Vec<u8>,
    pub nor: Vec<u8>,
}

/// A state of zeros whose heads are none.
fn empty_state(form: Form) -> Vec<u8> {
    let mut state = vec![0; form.state_bytes()];
    for level in 0..4 {
        let slot = form.heads() + form.pointer_bytes() * level;
        state[slot..slot + 2].fill(255);
    }
    state
}

impl Areas {
    /// Where a script begins: no chips, empty states, counts of 0.
    pub fn empty() -> Areas {
        let [old_state, state] = [Form::Old, Form::New].map(empty_state);
        Areas { old_state, state, counts: vec![0; COUNTS_BYTES], nand: Vec::new(), nor: Vec::new() }
    }

    pub fn state_of(&self, form: Form) -> &[u8] {
        self.part(Part::State(form))
    }

    pub fn part(&self, part: Part) -> &[u8] {
        match part {
            Part::Nand => &self.nand,
            Part::Nor => &self.nor,
            Part::State(Form::Old) => &self.old_state,
            Part::State(Form::New) => &self.state,
        }
    }

    pub fn part_mut(&mut self, part: Part) -> &mut [u8] {
        match part {
            Part::Nand => &mut self.nand,
            Part::Nor => &mut self.nor,
            Part::State(Form::Old) => &mut self.old_state,
            Part::State(Form::New) => &mut self.state,
        }
    }

    fn set_field(&mut self, field: Field, value: i128) {
        let (offset, width) = field.place(Form::New);
        self.state[offset..offset + width].copy_from_slice(&value.to_le_bytes()[..width]);
    }

    fn set_count(&mut self, plate: usize, value: u32) {
        if let Some(count) = self.counts.chunks_mut(COUNT_BYTES).nth(plate) {
            count.copy_from_slice(&value.to_le_bytes());
        }
    }
}

fn filled(length: usize, fill: Fill) -> Vec<u8> {
    match fill {
        Fill::Byte(value) => vec![value; length],
        Fill::Mixed(number) => {
            let shift = 12345u64.wrapping_mul(number.wrapping_add(1));
            let byte = |i: u64| (i.wrapping_mul(1_103_515_245).wrapping_add(shift) >> 16) as u8;
            (0..length as u64).map(byte).collect()
        }
    }
}

/// So many stores stand side by side; `use` selects one.
pub const STORES: usize = 8;

/// All stores; the areas of the selected one stand apart.
struct Stores {
    areas: Areas,
    others: Vec<Areas>,
    selected: usize,
}

/// The present stores and those that `snap` remembered.
pub struct World {
    pub areas: Areas,
    others: Vec<Areas>,
    selected: usize,
    kept: Option<Stores>,
}

impl World {
    pub fn empty() -> World {
        World { areas: Areas::empty(), others: vec![Areas::empty(); STORES], selected: 0, kept: None }
    }

    pub fn selected(&self) -> usize {
        self.selected
    }

    pub fn store(&self, store: usize) -> &Areas {
        if store == self.selected {
            &self.areas
        } else {
            &self.others[store]
        }
    }

    fn select(&mut self, store: usize) {
        std::mem::swap(&mut self.areas, &mut self.others[self.selected]);
        std::mem::swap(&mut self.areas, &mut self.others[store]);
        self.selected = store;
    }

    /// Has the selected store carried into another one. Into itself it is carried from a copy, since the areas of a
    /// call do not overlap.
    pub fn carry(&mut self, carry: &Carry, by: &mut impl Store) -> u8 {
        if carry.second == self.selected {
            by.carry(carry, &mut self.areas.clone(), &mut self.areas)
        } else {
            by.carry(carry, &mut self.areas, &mut self.others[carry.second])
        }
    }

    /// Has the lifts of the selected store paired with those of another one, or of itself.
    pub fn pairs(&self, pairs: &Pairs, by: &mut impl Store, outputs: &mut Outputs) -> u8 {
        by.pairs(pairs, &self.areas, self.store(pairs.second), outputs)
    }

    /// Carries out a command that changes areas without a call; others are left to the caller.
    pub fn apply(&mut self, command: &Command) {
        match command {
            Command::Areas { nand_bytes, nor_bytes, fill } => {
                self.areas.nand = filled(*nand_bytes, *fill);
                self.areas.nor = filled(*nor_bytes, *fill);
            }
            Command::Poke { part, offset, value } => {
                if let Some(byte) = self.areas.part_mut(*part).get_mut(*offset) {
                    *byte = *value;
                }
            }
            Command::SetField { field, value } => self.areas.set_field(*field, *value),
            Command::SetCount { plate, value } => self.areas.set_count(*plate, *value),
            Command::Use(store) => self.select(*store),
            Command::Snap => {
                let (areas, others) = (self.areas.clone(), self.others.clone());
                self.kept = Some(Stores { areas, others, selected: self.selected });
            }
            Command::Back => {
                if let Some(kept) = &self.kept {
                    self.areas.clone_from(&kept.areas);
                    self.others.clone_from(&kept.others);
                    self.selected = kept.selected;
                }
            }
            Command::Call(..) | Command::Carry(_) | Command::Pairs(_) | Command::Tolerant(_) | Command::Gen(_) => {}
            Command::Rows | Command::Text | Command::Dump { .. } | Command::Changed => {}
        }
    }
}
