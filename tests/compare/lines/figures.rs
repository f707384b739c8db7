//! What the inputs of `slotlist` had, counted by their answers.
use crate::figures::{print_numbers, Numbers, Turns};

const LETTERS: [&str; 6] = ["A", "C", "G", "Q", "T", "P"];
const PAGE: usize = 5;

#[derive(Default)]
pub struct LineFigures {
    pub inputs: u64,
    numbers: [Numbers<13>; 6],
    other_forms: u64,
    bytes: u64,
    pub turns: Turns,
}

impl LineFigures {
    /// Takes in all that was printed for one input.
    pub fn count(&mut self, printed: &[u8]) {
        self.inputs += 1;
        self.bytes += printed.len() as u64;
        printed.split(|byte| *byte == b'\n').for_each(|line| self.count_line(line));
    }

    /// Lifts and the lines of a page begin with a space or a digit.
    fn count_line(&mut self, line: &[u8]) {
        self.other_forms += u64::from(line == b"?");
        let line = String::from_utf8_lossy(line);
        let letter = LETTERS.iter().position(|letter| line.starts_with(letter));
        let number = line.get(1..4).and_then(|number| number.trim_start().parse::<usize>().ok());
        if let (Some(letter), Some(number)) = (letter, number) {
            self.numbers[letter][number] += 1;
        }
    }

    pub fn lines(&self) -> u64 {
        self.numbers.iter().flatten().sum::<u64>() + self.other_forms
    }

    pub fn pages(&self) -> u64 {
        self.numbers[PAGE][0]
    }

    pub fn print(&self) {
        print_numbers(LETTERS.into_iter().zip(&self.numbers));
        println!("lines of another form {}, bytes printed {}", self.other_forms, self.bytes);
        self.turns.print();
    }
}
