//! What the inputs of `plate_ends` had, counted by what is printed for them.
use model::limits::NO_STACK;

#[derive(Default)]
pub struct ListFigures {
    accepted: u64,
    refused: u64,
    ends: u64,
}

impl ListFigures {
    /// Takes in all that was printed for one input.
    pub fn count(&mut self, printed: &[u8]) {
        if printed == format!("{NO_STACK}\n").as_bytes() {
            self.refused += 1;
            return;
        }
        self.accepted += 1;
        self.ends += printed.split(|byte| *byte == b'\n').filter(|line| !line.is_empty()).count() as u64;
    }

    pub fn lists(&self) -> u64 {
        self.accepted + self.refused
    }

    /// The name, the numbers and how often each was met, as in the table of the calls.
    pub fn pairs(&self) -> [(&'static str, usize, u64); 2] {
        [("gen", 0, self.accepted), ("gen", NO_STACK.into(), self.refused)]
    }

    pub fn print(&self) {
        println!(
            "lists of stacks {}, accepted {}, ends printed {}, refused with {NO_STACK} {}",
            self.lists(),
            self.accepted,
            self.ends,
            self.refused
        );
    }
}
