//! Reads one line of a script.
use crate::areas::STORES;
use crate::calls::{Call, Carry, Pairs, Tolerant, Window};
use crate::command::{Command, Field, Fill, Part, Shown};
use crate::form::Form;
use std::str::{FromStr, SplitWhitespace};

struct Words<'a>(SplitWhitespace<'a>);

impl<'a> Words<'a> {
    fn word(&mut self) -> Result<&'a str, String> {
        self.0.next().ok_or_else(|| "a word is missing".to_string())
    }

    fn number<T: FromStr>(&mut self) -> Result<T, String> {
        let word = self.word()?;
        word.parse().map_err(|_| format!("'{word}' is not a number that fits"))
    }

    fn named<T: Copy>(&mut self, names: &[(&str, T)]) -> Result<T, String> {
        let word = self.word()?;
        let found = names.iter().find(|(name, _)| *name == word);
        found.map(|(_, value)| *value).ok_or_else(|| format!("'{word}' has no meaning here"))
    }

    fn fill(&mut self) -> Result<Fill, String> {
        let word = self.word()?;
        let bad = || format!("'{word}' is no fill");
        match word.strip_prefix('r') {
            Some(number) => number.parse().map(Fill::Mixed).map_err(|_| bad()),
            None => word.parse().map(Fill::Byte).map_err(|_| bad()),
        }
    }

    fn note(&mut self) -> Result<[u8; 20], String> {
        let word = self.word()?;
        let bytes = bytes_in(word).and_then(|bytes| bytes.try_into().ok());
        bytes.ok_or_else(|| format!("'{word}' is not 40 hex digits"))
    }

    /// The bytes of an input; '-' stands for none.
    fn input(&mut self) -> Result<Vec<u8>, String> {
        match self.word()? {
            "-" => Ok(Vec::new()),
            word => bytes_in(word).ok_or_else(|| format!("'{word}' is not of hex digits in pairs")),
        }
    }

    fn window(&mut self) -> Result<Window, String> {
        Ok(Window { t1: self.number()?, t2: self.number()?, k1: self.number()?, k2: self.number()? })
    }

    fn store(&mut self) -> Result<usize, String> {
        let store = self.number()?;
        if store < STORES {
            Ok(store)
        } else {
            Err(format!("there is no store {store}"))
        }
    }

    fn poke(&mut self, part: Part) -> Result<Command, String> {
        Ok(Command::Poke { part, offset: self.number()?, value: self.number()? })
    }

    fn call(&mut self, name: &str) -> Result<Call, String> {
        if name == "plate" {
            return Ok(Call::Plate { place: self.number()?, load: self.number()? });
        }
        let slots = self.number()?;
        match name {
            "format" => Ok(Call::Format { slots }),
            "append" | "appendk" => {
                let (time, load, note) = (self.number()?, self.number()?, self.note()?);
                Ok(Call::Append { keeps: name == "appendk", slots, time, load, note })
            }
            "close" => Ok(Call::Close { slots }),
            "drop" | "dropk" => Ok(Call::Drop { keeps: name == "dropk", slots }),
            "search" => Ok(Call::Search { slots, window: self.window()?, area_bytes: self.number()? }),
            "tally" => Ok(Call::Tally { slots, t1: self.number()?, t2: self.number()? }),
            "page" => Ok(Call::Page { slots, t1: self.number()?, t2: self.number()? }),
            "export" => Ok(Call::Export { slots, window: self.window()?, area_bytes: self.number()? }),
            "import" | "importk" => Ok(Call::Import { keeps: name == "importk", slots, text: self.input()? }),
            other => Err(format!("'{other}' is no command")),
        }
    }

    /// A call of form 0 has a 0 after its name; it has no page and no text, keeps no counts, and a plate is looked up without
    /// a store.
    fn call_of_form(&mut self, name: &str) -> Result<Command, String> {
        let of_form_1 = ["page", "plate", "appendk", "dropk", "export", "import", "importk"];
        match name.strip_suffix('0') {
            Some(old) if !of_form_1.contains(&old) => Ok(Command::Call(Form::Old, self.call(old)?)),
            _ => Ok(Command::Call(Form::New, self.call(name)?)),
        }
    }

    fn carry(&mut self, into: Form) -> Result<Command, String> {
        Ok(Command::Carry(Carry { into, slots: self.number()?, second: self.store()? }))
    }

    fn pairs(&mut self) -> Result<Command, String> {
        let (slots, second) = (self.number()?, self.store()?);
        Ok(Command::Pairs(Pairs { slots, second, second_slots: self.number()?, area_bytes: self.number()? }))
    }

    fn tolerant(&mut self) -> Result<Command, String> {
        let (slots, window, tolerance) = (self.number()?, self.window()?, self.number()?);
        Ok(Command::Tolerant(Tolerant { slots, window, tolerance, area_bytes: [self.number()?, self.number()?] }))
    }

    fn command(&mut self) -> Result<Command, String> {
        match self.word()? {
            "use" => self.store().map(Command::Use),
            "areas" => Ok(Command::Areas { nand_bytes: self.number()?, nor_bytes: self.number()?, fill: self.fill()? }),
            "nand" => self.poke(Part::Nand),
            "nor" => self.poke(Part::Nor),
            "state0" => self.poke(Part::State(Form::Old)),
            "state1" => self.poke(Part::State(Form::New)),
            "fields" => Ok(Command::SetField { field: self.named(&Field::ALL)?, value: self.number()? }),
            "counts" => Ok(Command::SetCount { plate: self.number()?, value: self.number()? }),
            "snap" => Ok(Command::Snap),
            "back" => Ok(Command::Back),
            "rows" => Ok(Command::Rows),
            "text" => Ok(Command::Text),
            "dump" => {
                Ok(Command::Dump { shown: self.named(&Shown::ALL)?, offset: self.number()?, length: self.number()? })
            }
            "changed" => Ok(Command::Changed),
            "forward" => self.carry(Form::New),
            "backward" => self.carry(Form::Old),
            Pairs::NAME => self.pairs(),
            Tolerant::NAME => self.tolerant(),
            "gen" => self.input().map(Command::Gen),
            name => self.call_of_form(name),
        }
    }
}

/// The bytes that a word of hex digits has, two digits each.
fn bytes_in(word: &str) -> Option<Vec<u8>> {
    let digits: Option<Vec<u8>> = word.chars().map(|digit| digit.to_digit(16).map(|digit| digit as u8)).collect();
    let digits = digits.filter(|digits| digits.len() % 2 == 0)?;
    Some(digits.chunks(2).map(|pair| 16 * pair[0] + pair[1]).collect())
}

/// The command of a line; none for an empty line and for a note, which begins with '#'.
pub fn parse(line: &str) -> Result<Option<Command>, String> {
    if line.trim().is_empty() || line.starts_with('#') {
        return Ok(None);
    }
    let mut words = Words(line.split_whitespace());
    let command = words.command()?;
    match words.0.next() {
        Some(word) => Err(format!("'{word}' is too much")),
        None => Ok(Some(command)),
    }
}
