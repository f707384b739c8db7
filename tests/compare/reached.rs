//! A store reached from a format: its paper log, which goes along where it is carried over, and W-203's claims of it.
use crate::counted::Balance;
use crate::difference::first_difference;
use crate::trial::NOR_BYTES;
use model::counts::Counts;
use model::limits::NO_WAY_BACK;
use model::paper::{PaperLog, Said};
use script::areas::{Areas, SLOT_BYTES};
use script::calls::{Call, Carry};
use script::command::Part;
use script::form::Form;
use std::rc::Rc;

#[derive(Clone)]
pub struct Reached {
    pub log: PaperLog,
    /// The store that it was carried from, as long as no call has changed it since.
    carried_from: Option<Rc<Areas>>,
    /// None once an append or a drop has kept no counts, or these were changed from outside.
    pub balance: Option<Balance>,
}

impl Reached {
    pub fn from_format(form: Form, slots: u64) -> Reached {
        Reached { log: PaperLog::formatted(form, slots), carried_from: None, balance: Some(Balance::default()) }
    }

    pub fn call(&mut self, call: &Call) -> Said {
        let said = self.log.call(call);
        let is_import = matches!(call, Call::Import { .. });
        if said.number != 0 && !is_import {
            return said;
        }
        if is_import || matches!(call, Call::Append { .. } | Call::Close { .. } | Call::Drop { .. }) {
            self.carried_from = None;
        }
        self.balance = self.balance.take().and_then(|balance| balance.after(call, &said));
        said
    }

    pub fn set_count(&mut self, plate: usize, value: u32) {
        self.log.counts.set(plate, value);
        self.balance = None;
    }

    /// Holds a conversion of this store, which was `first` before, to W-203; what is then known of the second store, whose
    /// counts stay as they are.
    pub fn carried(&self, carry: &Carry, number: u8, first: Rc<Areas>, second: &Areas) -> Result<Reached, String> {
        if carry.slots == self.log.slots() && fits(second, carry.slots) {
            self.check_number(carry.into, number)?;
        }
        if let (0, Some(origin)) = (number, &self.carried_from) {
            check_round_trip(origin, second, carry.into)?;
        }
        let mut log = self.log.clone().carried_into(carry.into);
        log.counts = Counts::from_bytes(&second.counts);
        Ok(Reached { log, carried_from: Some(first), balance: None })
    }

    /// "14: going back, a retained lift is no later than the one before it, or" by pointers that no log knows of
    fn check_number(&self, into: Form, number: u8) -> Result<(), String> {
        let fits = match into {
            Form::New => number == 0,
            Form::Old if self.log.times_rise() => number == 0 || number == NO_WAY_BACK,
            Form::Old => number == NO_WAY_BACK,
        };
        if fits {
            return Ok(());
        }
        Err(format!("number {number} for a store reached from a format"))
    }
}

fn fits(areas: &Areas, slots: u64) -> bool {
    areas.nand.len() as u64 == slots * SLOT_BYTES as u64 && areas.nor.len() == NOR_BYTES
}

/// "going there and back yields the first store's bytes and state; so does back and there"
fn check_round_trip(origin: &Areas, second: &Areas, form: Form) -> Result<(), String> {
    let parts = [("state", Part::State(form)), ("NOR", Part::Nor), ("NAND", Part::Nand)];
    let differing = parts.iter().find_map(|(name, part)| {
        first_difference(second.part(*part), origin.part(*part)).map(|difference| format!("{name} {difference}"))
    });
    match differing {
        Some(difference) => Err(format!("there and back it is another store: {difference}")),
        None => Ok(()),
    }
}
