//! Gives every command to the store and to the model, and compares all that they leave.
use crate::difference::{compare_areas, compare_bytes, compare_numbers, compare_outputs, compare_with_log, differ};
use crate::figures::Figures;
use crate::imported;
use crate::page_rules;
use crate::paired;
use crate::programs;
use crate::reached::Reached;
use crate::tolerated;
use abi::{LentStore, Library, ReadStore};
use model::bytes::Expectation;
use model::paper::PaperLog;
use script::areas::{Areas, World, STORES};
use script::calls::{Call, Carry, Outputs, Pairs, Store, Tolerant, TolerantOutputs};
use script::command::Command;
use script::form::Form;
use script::hash::copy_changed;
use std::rc::Rc;

pub use crate::difference::{Difference, Step};

/// The library with the areas it is lent.
struct Tested {
    world: World,
    nand_before: Vec<u8>,
    nor_before: Vec<u8>,
}

/// Of each store, what is known while calls alone have changed it since a format.
type AllReached = [Option<Reached>; STORES];

pub struct Judge {
    /// None if a script is only to be written, not tried.
    tested: Option<Tested>,
    expected: World,
    reached: AllReached,
    kept: AllReached,
    /// The number of the last call.
    pub number: u8,
    pub figures: Figures,
}

impl Judge {
    pub fn of_library() -> Judge {
        let tested = Tested { world: World::empty(), nand_before: Vec::new(), nor_before: Vec::new() };
        Judge { tested: Some(tested), ..Judge::of_model_alone() }
    }

    pub fn of_model_alone() -> Judge {
        Judge {
            tested: None,
            expected: World::empty(),
            reached: AllReached::default(),
            kept: AllReached::default(),
            number: 0,
            figures: Figures::default(),
        }
    }

    /// Forgets areas and logs; keeps the figures.
    pub fn begin_anew(&mut self) {
        let fresh = if self.tested.is_some() { Judge::of_library() } else { Judge::of_model_alone() };
        let figures = std::mem::take(&mut self.figures);
        *self = Judge { figures, ..fresh };
    }

    pub fn expected(&self) -> &Areas {
        &self.expected.areas
    }

    pub fn selected(&self) -> usize {
        self.expected.selected()
    }

    pub fn store(&self, store: usize) -> &Areas {
        self.expected.store(store)
    }

    /// Calls the library on the present chips with other areas of any length, past the script format.
    pub fn call_with(&mut self, call: &Call, state: &mut [u8], counts: &mut [u8], outputs: &mut Outputs) -> Option<u8> {
        let Areas { nand, nor, .. } = &mut self.tested.as_mut()?.world.areas;
        let Outputs { rows, answer } = outputs;
        Some(abi::enter(call, LentStore { state, nand, nor }, counts, rows, answer))
    }

    /// Has the library format the present chips with another state area of any length, and without counts.
    pub fn plain_format_with(&mut self, slots: u64, state: &mut [u8]) -> Option<u8> {
        let Areas { nand, nor, .. } = &mut self.tested.as_mut()?.world.areas;
        Some(abi::enter_plain_format(slots, LentStore { state, nand, nor }))
    }

    /// Has the library carry the present store into these areas, with another state area of any length.
    pub fn carry_with(&mut self, into: Form, slots: u64, state: &mut [u8], second: LentStore) -> Option<u8> {
        let Areas { nand, nor, .. } = &mut self.tested.as_mut()?.world.areas;
        Some(abi::enter_carry(into, slots, LentStore { state, nand, nor }, second))
    }

    /// Has the library pair the present store with another one, with state areas of any length.
    pub fn pairs_with(&self, pairs: &Pairs, states: [&[u8]; 2], outputs: &mut Outputs) -> Option<u8> {
        let world = &self.tested.as_ref()?.world;
        let stores = [&world.areas, world.store(pairs.second)];
        let slots = [pairs.slots, pairs.second_slots];
        let [first, second] = [0, 1].map(|i| {
            let Areas { nand, nor, .. } = stores[i];
            ReadStore { state: states[i], nand, nor, slots: slots[i] }
        });
        Some(abi::enter_pairs(&first, &second, &mut outputs.rows, &mut outputs.answer))
    }

    /// Has the library search the present store with a tolerance, with state and answer areas of any length.
    pub fn tolerant_with(&self, call: &Tolerant, state: &[u8], outputs: &mut TolerantOutputs) -> Option<u8> {
        let Areas { nand, nor, .. } = &self.tested.as_ref()?.world.areas;
        let store = ReadStore { state, nand, nor, slots: call.slots };
        let lists = outputs.lists.each_mut().map(|list| &mut list[..]);
        Some(abi::enter_tolerant(call, &store, lists, &mut outputs.answer))
    }

    pub fn compare_areas(&self, command: &Command) -> Step {
        self.compare_store(command, self.expected.selected(), "")
    }

    /// The two stores of a call, the selected one first.
    pub fn compare_stores(&self, command: &Command, second: usize) -> Step {
        self.compare_store(command, self.expected.selected(), "first store's ")?;
        self.compare_store(command, second, "second store's ")
    }

    fn compare_store(&self, command: &Command, store: usize, of: &str) -> Step {
        match &self.tested {
            Some(tested) => compare_areas(command, of, tested.world.store(store), self.expected.store(store)),
            None => Ok(()),
        }
    }

    fn reached(&self) -> Option<&Reached> {
        self.reached[self.expected.selected()].as_ref()
    }

    /// The log of the selected store, if it is one in that form.
    pub fn log(&self, form: Form) -> Option<&PaperLog> {
        self.reached().map(|reached| &reached.log).filter(|log| log.form() == form)
    }

    pub fn perform(&mut self, command: &Command) -> Step {
        match command {
            Command::Call(form, call) => return self.call(command, *form, call),
            Command::Carry(carry) => return self.carry(command, carry),
            Command::Pairs(pairs) => return self.pairs(command, pairs),
            Command::Tolerant(tolerant) => return self.tolerant(command, tolerant),
            Command::Gen(input) => return self.generate(input),
            Command::Rows | Command::Text | Command::Dump { .. } | Command::Changed => return Ok(()),
            Command::Use(_) => {}
            Command::Snap => self.kept.clone_from(&self.reached),
            Command::Back => self.reached.clone_from(&self.kept),
            Command::Areas { .. } | Command::Poke { .. } | Command::SetField { .. } => {
                self.reached[self.expected.selected()] = None
            }
            Command::SetCount { plate, value } => {
                if let Some(reached) = &mut self.reached[self.expected.selected()] {
                    reached.set_count(*plate, *value);
                }
            }
        }
        self.expected.apply(command);
        if let Some(tested) = &mut self.tested {
            tested.world.apply(command);
        }
        Ok(())
    }

    fn call(&mut self, command: &Command, form: Form, call: &Call) -> Step {
        let mut expected_outputs = Outputs::untouched(form, call);
        let expected_number = Expectation.answer(form, call, &mut self.expected.areas, &mut expected_outputs);
        self.number = expected_number;
        self.figures.count_call(form, call, expected_number);
        self.figures.counted.count_refusal(call, expected_number, &self.expected.areas);
        let is_reached = self.reached().is_some();
        if let Some(tested) = &mut self.tested {
            if is_reached {
                copy_changed(&tested.world.areas.nand, &mut tested.nand_before);
                copy_changed(&tested.world.areas.nor, &mut tested.nor_before);
            }
            let before = imported::remembered(call, &tested.world.areas);
            let mut outputs = Outputs::untouched(form, call);
            let number = Library.answer(form, call, &mut tested.world.areas, &mut outputs);
            compare_numbers(command, number, expected_number)?;
            compare_outputs(command, &outputs, &expected_outputs)?;
            self.compare_areas(command)?;
            self.hold_text(command, call, number, &outputs, before)?;
        }
        if let (Call::Search { .. }, 0) = (call, expected_number) {
            self.figures.rows += expected_outputs.count();
        }
        self.hold_to_log(command, form, call, expected_number, &expected_outputs)
    }

    /// The store's own search has its word on an export, a fresh store on the text of one that is reached from a format; an
    /// import that ended is held to the records before.
    fn hold_text(
        &mut self, command: &Command, call: &Call, number: u8, outputs: &Outputs, before: Option<Areas>,
    ) -> Step {
        let is_reached = self.reached().is_some_and(|reached| reached.log.form() == Form::New);
        let Some(tested) = &mut self.tested else { return Ok(()) };
        let (areas, held) = (&mut tested.world.areas, &mut self.figures.imported);
        let broken = |what: String| Difference(format!("{command}: {what}"));
        held.count(call, number, outputs);
        held.check_search(call, number, outputs, areas, &mut Library).map_err(broken)?;
        if let (Call::Export { .. }, 0, true) = (call, number, is_reached) {
            held.check_fresh_store(imported::exported(number, outputs), &mut Library).map_err(broken)?;
        }
        let Some(before) = before else { return Ok(()) };
        held.check_earlier_records(call, number, outputs, [&before, areas], &mut Library).map_err(broken)
    }

    /// By now the store's answer is the expected one; the paper log has its own word on both.
    fn hold_to_log(&mut self, command: &Command, form: Form, call: &Call, number: u8, outputs: &Outputs) -> Step {
        let store = self.expected.selected();
        if let (Call::Format { slots }, 0) = (call, number) {
            self.reached[store] = Some(Reached::from_format(form, *slots));
            return self.hold_counts(command);
        }
        let Some(reached) = &mut self.reached[store] else { return Ok(()) };
        if !matches!(call, Call::Plate { .. }) && reached.log.form() != form {
            // A call of the other form, which the log has no word on.
            self.reached[store] = None;
            return Ok(());
        }
        let said = reached.call(call);
        if number != said.number {
            return differ(command, format!("number {number}, in the paper log {}", said.number));
        }
        compare_with_log(command, outputs, &said)?;
        if let (Call::Search { window, .. }, Form::New, 0) = (call, form, number) {
            let bounds_kept = self.figures.pages_read.check(&reached.log, window, outputs);
            bounds_kept.or_else(|broken| differ(command, broken))?;
        }
        self.figures.count_said(form, call, &said);
        let Some(tested) = &self.tested else { return Ok(()) };
        let rules_kept = page_rules::check(
            [&tested.nand_before, &tested.world.areas.nand],
            [&tested.nor_before, &tested.world.areas.nor],
            &said,
        );
        rules_kept.or_else(|broken| differ(command, broken))?;
        self.hold_counts(command)
    }

    /// The counts of a store reached from a format.
    fn hold_counts(&mut self, command: &Command) -> Step {
        let reached = self.reached[self.expected.selected()].as_ref();
        let (Some(tested), Some(reached)) = (&mut self.tested, reached) else { return Ok(()) };
        let after_import = matches!(command, Command::Call(_, Call::Import { .. }));
        let held = self.figures.counted.check(after_import, reached, &mut tested.world.areas, &mut Library);
        held.or_else(|broken| differ(command, broken))
    }

    /// The second store is compared, and the first, which no call changes.
    fn carry(&mut self, command: &Command, carry: &Carry) -> Step {
        let first = self.expected.selected();
        let first_before = self.reached().map(|_| Rc::new(self.expected.areas.clone()));
        let number = self.expected.carry(carry, &mut Expectation);
        self.number = number;
        self.figures.count_carry(carry, number);
        if let Some(tested) = &mut self.tested {
            let given = tested.world.carry(carry, &mut Library);
            compare_numbers(command, given, number)?;
            self.compare_stores(command, carry.second)?;
        }
        let second = self.expected.store(carry.second);
        let reached = match (&self.reached[first], first_before) {
            (Some(reached), Some(before)) if reached.log.form() == carry.into.other() => {
                let held = reached.carried(carry, number, before, second);
                Some(held.map_err(|broken| Difference(format!("{command}: {broken}")))?)
            }
            _ => None,
        };
        if number == 0 {
            self.reached[carry.second] = reached;
        }
        Ok(())
    }

    /// Neither store changes. Where both have a paper log, these have their own word on the list.
    fn pairs(&mut self, command: &Command, pairs: &Pairs) -> Step {
        let mut expected_outputs = pairs.outputs();
        let number = self.expected.pairs(pairs, &mut Expectation, &mut expected_outputs);
        self.number = number;
        if let Some(tested) = &self.tested {
            let mut outputs = pairs.outputs();
            let given = tested.world.pairs(pairs, &mut Library, &mut outputs);
            compare_numbers(command, given, number)?;
            compare_outputs(command, &outputs, &expected_outputs)?;
            self.compare_stores(command, pairs.second)?;
        }
        let first = self.expected.selected();
        self.figures.count_pairs(number, pairs.second == first, &expected_outputs);
        let log = |store: usize| self.reached[store].as_ref().map(|reached| &reached.log);
        let (Some(one), Some(two)) = (log(first), log(pairs.second)) else { return Ok(()) };
        if one.form() != Form::New || two.form() != Form::New {
            return Ok(());
        }
        self.figures.paired.count_by_logs();
        paired::check(pairs, [one, two], number, &expected_outputs).or_else(|broken| differ(command, broken))
    }

    /// The store does not change. Its own plain search has its word on the lists, and so has the paper log.
    fn tolerant(&mut self, command: &Command, call: &Tolerant) -> Step {
        let mut expected = call.outputs();
        let number = Expectation.tolerant(call, &self.expected.areas, &mut expected);
        self.number = number;
        self.figures.count_tolerant(call, number, &expected);
        if let Some(tested) = &self.tested {
            let mut outputs = call.outputs();
            let given = Library.tolerant(call, &tested.world.areas, &mut outputs);
            compare_numbers(command, given, number)?;
            compare_bytes(command, "answer area", &outputs.answer, &expected.answer)?;
            compare_bytes(command, "certain lifts' area", &outputs.lists[0], &expected.lists[0])?;
            compare_bytes(command, "possible lifts' area", &outputs.lists[1], &expected.lists[1])?;
            self.compare_areas(command)?;
        }
        let broken = |what: String| Difference(format!("{command}: {what}"));
        if number == 0 {
            tolerated::check_part(&expected).map_err(broken)?;
        }
        if let Some(tested) = &mut self.tested {
            tolerated::check_plain(call, number, &expected, &mut tested.world.areas, &mut Library).map_err(broken)?;
        }
        let reached = self.reached[self.expected.selected()].as_ref();
        match reached.map(|reached| &reached.log).filter(|log| log.form() == Form::New) {
            Some(log) => self.figures.tolerated.check_log(call, log, number, &expected).map_err(broken),
            None => Ok(()),
        }
    }

    /// The generator works on no store; what it prints is compared.
    fn generate(&mut self, input: &[u8]) -> Step {
        let told = |what: String| Difference(format!("gen: {what}"));
        let expected = Expectation.generate(input).map_err(told)?;
        self.figures.lists.count(&expected);
        if self.tested.is_some() {
            let printed = Library.generate(input).map_err(told)?;
            programs::compare(&printed, &expected).map_err(told)?;
        }
        Ok(())
    }
}
