//! A program under test: what it prints for an input, held to what it should print.
use crate::shorten::shortened;
use std::path::Path;

pub struct Program<'a> {
    /// The kind of work, which the names of files have.
    pub mode: &'static str,
    pub name: &'static str,
    /// What should be printed for an input.
    pub expected: fn(&[u8]) -> Vec<u8>,
    /// Where the program and the files are.
    pub folder: &'a str,
}

impl Program<'_> {
    /// What the program prints, or what differs. The input under way stays in a file, should the program not end.
    pub fn printed(&self, input: &[u8]) -> Result<Vec<u8>, String> {
        let file = format!("{}/{}.input", self.folder, self.mode);
        std::fs::write(&file, input).map_err(|error| format!("{file}: {error}"))?;
        let printed = program::printed(&Path::new(self.folder).join(self.name), input)?;
        compare(&printed, &(self.expected)(input))?;
        Ok(printed)
    }

    /// Keeps the lines that show a difference, as few as can be, and tells the file.
    pub fn report(&self, seed: u64, what: &str, input: &[u8]) -> String {
        let mut told = format!("DIFFERENCE in {}, seed {seed}: {what}\n", self.mode);
        let lines = input.split_inclusive(|byte| *byte == b'\n').collect();
        let taken = |lines: &[&[u8]]| self.printed(&lines.concat()).err().map(|_| lines.len());
        let lines = shortened(lines, taken);
        let shown = lines.concat();
        if let Err(what) = self.printed(&shown) {
            told += &format!("shown by the file: {what}\n");
        }
        let name = format!("{}/difference-{}-{seed}.input", self.folder, self.mode);
        told += &match std::fs::write(&name, shown) {
            Ok(()) => format!("input of {} lines: {name}", lines.len()),
            Err(error) => format!("{name}: {error}"),
        };
        told
    }
}

/// An error tells the first line that differs.
pub fn compare(printed: &[u8], expected: &[u8]) -> Result<(), String> {
    if printed == expected {
        return Ok(());
    }
    let lines = |printed: &[u8]| String::from_utf8_lossy(printed).split('\n').map(String::from).collect::<Vec<_>>();
    let (got, expected) = (lines(printed), lines(expected));
    let place = got.iter().zip(&expected).take_while(|(got, expected)| got == expected).count();
    let shown = |lines: &[String]| lines.get(place).map_or("missing".to_string(), |line| format!("'{line}'"));
    Err(format!("line {} of what is printed is {}, expected {}", place + 1, shown(&got), shown(&expected)))
}
