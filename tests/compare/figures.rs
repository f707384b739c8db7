//! What was compared, counted, and which ground each call can meet.
use crate::counted::Counted;
use crate::imported::Imported;
use crate::pages_read::PagesRead;
use crate::paired::Paired;
use crate::stacks::ListFigures;
use crate::tolerated::Tolerated;
use model::paper::{Closed, Said};
use script::calls::{Call, Carry, Outputs, Pairs, Tolerant, TolerantOutputs};
use script::form::Form;

/// How often each number was given, the last one being `N` - 1.
pub type Numbers<const N: usize> = [u64; N];

/// Prints a row for each name.
pub fn print_numbers<'a, const N: usize>(rows: impl Iterator<Item = (&'static str, &'a Numbers<N>)>) {
    print!("{:8}", "number");
    (0..N).for_each(|number| print!("{number:9}"));
    println!();
    for (name, counts) in rows {
        print!("{name:8}");
        counts.iter().for_each(|count| print!("{count:9}"));
        println!();
    }
}

/// What calls brought about in the paper log: closes, drops, times that repeat and lifts beyond the stack.
#[derive(Default)]
pub struct Turns {
    closes_at_320_lifts: u64,
    closes_for_bucket_36: u64,
    forced_drops: u64,
    repeated_times: u64,
    /// Tallies and pages that count a lift on the last plate.
    beyond_the_stack: u64,
}

impl Turns {
    pub fn count(&mut self, call: &Call, said: &Said) {
        let closes = |wanted: Closed| said.closed.iter().filter(|closed| **closed == wanted).count() as u64;
        self.closes_at_320_lifts += closes(Closed::At320Lifts);
        self.closes_for_bucket_36 += closes(Closed::ForBucket36);
        if let Call::Append { .. } | Call::Import { .. } = call {
            self.forced_drops += said.gone.len() as u64;
        }
        self.repeated_times += said.repeated_times;
        if let Call::Tally { .. } | Call::Page { .. } = call {
            self.beyond_the_stack += u64::from(said.values.last().is_some_and(|count| *count > 0));
        }
    }

    pub fn print(&self) {
        println!(
            "closes at 320 lifts {}, closes for bucket 36 {}, forced drops {}, lifts at the time of the one before {}",
            self.closes_at_320_lifts, self.closes_for_bucket_36, self.forced_drops, self.repeated_times
        );
        println!("tallies and pages with a lift beyond the stack {}", self.beyond_the_stack);
    }
}

/// Up to 18; 20 is counted apart, since no script has an area of a wrong length.
const NUMBERS: usize = 19;
/// The places of calls in the table: in the order of `Call::NAMES` and then of `Carry::NAMES`, last these two.
const PAIRS: usize = Call::NAMES.len() + Carry::NAMES.len();
const TOLERANT: usize = PAIRS + 1;
const CALLS: usize = TOLERANT + 1;

/// The numbers of each call, in the order of the table.
const NUMBERS_OF_CALLS: [&[usize]; CALLS] = [
    &[0, 1, 2],
    &[0, 1, 2, 3, 4, 5, 7, 8, 10, 11],
    &[0, 1, 2, 3, 9, 11],
    &[0, 1, 2, 3, 9],
    &[0, 1, 2, 3, 4, 5, 6, 10, 12],
    &[0, 1, 2, 3, 4, 6, 10],
    &[0, 1, 2, 3, 4, 6, 10],
    &[0, 5, 15],
    &[0, 1, 2, 3, 4, 5, 7, 8, 10, 11],
    &[0, 1, 2, 3, 9, 10],
    &[0, 1, 2, 3, 4, 5, 6, 10, 12],
    &[0, 1, 2, 3, 5, 7, 8, 10, 11, 18],
    &[0, 1, 2, 3, 5, 7, 8, 10, 11, 18],
    &[0, 1, 2, 3, 10, 13],
    &[0, 1, 2, 3, 10, 13, 14],
    &[0, 1, 2, 3, 10, 16],
    &[0, 1, 2, 3, 4, 5, 6, 10, 12, 17],
];

#[derive(Default)]
pub struct Figures {
    calls: [Numbers<NUMBERS>; CALLS],
    by_paper_log: u64,
    pub rows: u64,
    turns: Turns,
    pub pages_read: PagesRead,
    pub paired: Paired,
    pub tolerated: Tolerated,
    pub counted: Counted,
    pub imported: Imported,
    pub wrong_lengths: u64,
    /// Calls on stores of form 0, which the model alone answers.
    of_form_0: u64,
    /// Inputs of the generator in scripts.
    pub lists: ListFigures,
}

impl Figures {
    pub fn count_call(&mut self, form: Form, call: &Call, number: u8) {
        match form {
            Form::Old => self.of_form_0 += 1,
            Form::New => self.count(call.kind(), number),
        }
    }

    pub fn count_carry(&mut self, carry: &Carry, number: u8) {
        self.count(Call::NAMES.len() + carry.kind(), number);
    }

    pub fn count_pairs(&mut self, number: u8, with_itself: bool, outputs: &Outputs) {
        self.count(PAIRS, number);
        if number == 0 {
            self.paired.count(with_itself, outputs);
        }
    }

    pub fn count_tolerant(&mut self, call: &Tolerant, number: u8, outputs: &TolerantOutputs) {
        self.count(TOLERANT, number);
        if number == 0 {
            self.tolerated.count(call, outputs);
        }
    }

    fn count(&mut self, kind: usize, number: u8) {
        if let Some(count) = self.calls[kind].get_mut(usize::from(number)) {
            *count += 1;
        }
    }

    /// Counts what an accepted call of the library, or any import, does in the paper log.
    pub fn count_said(&mut self, form: Form, call: &Call, said: &Said) {
        if form == Form::New {
            self.by_paper_log += 1;
            self.turns.count(call, said);
            self.counted.count_said(call, said);
            self.imported.count_said(call, said);
        }
    }

    pub fn total_calls(&self) -> u64 {
        self.calls.iter().flatten().sum()
    }

    fn rows(&self) -> impl Iterator<Item = (&'static str, &Numbers<NUMBERS>)> {
        Call::NAMES.into_iter().chain(Carry::NAMES).chain([Pairs::NAME, Tolerant::NAME]).zip(&self.calls)
    }

    /// Every pair of call and number that was not met, the generator's among them, every refusal for counts, and the end of an
    /// import by its own lifts.
    pub fn missing(&self) -> Vec<String> {
        let rows = self.rows().zip(NUMBERS_OF_CALLS);
        let pairs = rows.flat_map(|((name, counts), numbers)| numbers.iter().map(move |n| (name, *n, counts[*n])));
        let pairs = pairs.chain(self.lists.pairs());
        let missing = pairs.filter(|(_, _, count)| *count == 0).map(|(name, number, _)| format!("{name} {number}"));
        missing.chain(self.counted.missing()).chain(self.imported.missing()).collect()
    }

    pub fn print(&self) {
        print_numbers(self.rows());
        println!(
            "calls {}, also held to the paper log {}, rows compared {}, calls with a wrong length {}",
            self.total_calls(),
            self.by_paper_log,
            self.rows,
            self.wrong_lengths
        );
        println!("calls on stores of form 0, answered by the model, to be carried over {}", self.of_form_0);
        self.turns.print();
        self.pages_read.print();
        self.paired.print();
        self.tolerated.print();
        self.counted.print();
        self.imported.print();
    }
}
