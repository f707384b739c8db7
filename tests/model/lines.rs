//! Document 01, "Program", and W-201: the forms of the lines that `slotlist` reads.
use script::calls::{Call, Window, ROW_BYTES};

/// "`slotlist`, S = 2, 320 result rows"
pub const SLOTS: u64 = 2;
pub const RESULT_ROWS: usize = 320;
/// "times in 15 columns and loads in 8"
const TIME_COLUMNS: usize = 15;
const LOAD_COLUMNS: usize = 8;

/// What a line asks for, and the letter of its answer.
#[derive(Debug, PartialEq)]
pub struct Asked {
    pub letter: char,
    pub call: Call,
}

/// The lines of an input; a last one without its line feed counts.
pub fn lines_of(input: &[u8]) -> impl Iterator<Item = &[u8]> {
    input.split_inclusive(|byte| *byte == b'\n').map(|line| line.strip_suffix(b"\n").unwrap_or(line))
}

/// What a line without its line feed asks for; none for "a line of another form".
pub fn asked(line: &[u8]) -> Option<Asked> {
    let (letter, rest) = line.split_first()?;
    let mut columns = Columns(rest);
    let call = match letter {
        b'A' => {
            Call::Append { keeps: false, slots: SLOTS, time: columns.time()?, load: columns.load()?, note: [0; 20] }
        }
        b'C' => Call::Close { slots: SLOTS },
        b'G' => Call::Drop { keeps: false, slots: SLOTS },
        b'Q' => Call::Search { slots: SLOTS, window: columns.window()?, area_bytes: RESULT_ROWS * ROW_BYTES },
        b'T' => Call::Tally { slots: SLOTS, t1: columns.time()?, t2: columns.time()? },
        b'P' => Call::Page { slots: SLOTS, t1: columns.time()?, t2: columns.time()? },
        _ => return None,
    };
    columns.0.is_empty().then_some(Asked { letter: char::from(*letter), call })
}

/// What is still to be read of a line.
struct Columns<'a>(&'a [u8]);

impl Columns<'_> {
    fn field(&mut self, width: usize) -> Option<i64> {
        if self.0.len() < width {
            return None;
        }
        let (field, rest) = self.0.split_at(width);
        self.0 = rest;
        number_in(field)
    }

    /// Only a load has a minus.
    fn time(&mut self) -> Option<u64> {
        self.field(TIME_COLUMNS)?.try_into().ok()
    }

    fn load(&mut self) -> Option<i32> {
        self.field(LOAD_COLUMNS)?.try_into().ok()
    }

    fn window(&mut self) -> Option<Window> {
        Some(Window { t1: self.time()?, t2: self.time()?, k1: self.load()?, k2: self.load()? })
    }
}

/// "a field is spaces, a minus for a load below zero, then digits"
fn number_in(field: &[u8]) -> Option<i64> {
    let spaces = field.iter().take_while(|byte| **byte == b' ').count();
    match field[spaces..].split_first() {
        Some((b'-', digits)) => digits_in(digits).filter(|size| *size > 0).map(|size| -size),
        _ => digits_in(&field[spaces..]),
    }
}

/// At least one digit, and nothing else.
pub fn digits_in(text: &[u8]) -> Option<i64> {
    let are_digits = !text.is_empty() && text.iter().all(u8::is_ascii_digit);
    are_digits.then(|| text.iter().fold(0, |number, digit| 10 * number + i64::from(digit - b'0')))
}

#[cfg(test)]
mod tests {
    use super::*;

    #[test]
    fn lines_end_at_line_feeds() {
        let lines = |input: &'static str| lines_of(input.as_bytes()).collect::<Vec<_>>();
        assert!(lines("").is_empty());
        assert_eq!(lines("\n"), [b""]);
        assert_eq!(lines("C\n\nG"), [&b"C"[..], b"", b"G"]);
        assert_eq!(lines("C\r\n"), [b"C\r"]);
    }

    #[test]
    fn each_form_is_read() {
        let (t1, t2) = (7, 999_999_999_999_999);
        let window = Window { t1: 0, t2: 3000, k1: -251, k2: 1000 };
        let forms = [
            ("A           1000     250", Call::Append { keeps: false, slots: 2, time: 1000, load: 250, note: [0; 20] }),
            ("A000000000000000-0000001", Call::Append { keeps: false, slots: 2, time: 0, load: -1, note: [0; 20] }),
            ("C", Call::Close { slots: 2 }),
            ("G", Call::Drop { keeps: false, slots: 2 }),
            ("Q              0           3000    -251    1000", Call::Search { slots: 2, window, area_bytes: 10_240 }),
            ("T              7999999999999999", Call::Tally { slots: 2, t1, t2 }),
            ("P              7999999999999999", Call::Page { slots: 2, t1, t2 }),
        ];
        for (line, call) in forms {
            let letter = line.chars().next().unwrap();
            assert_eq!(asked(line.as_bytes()), Some(Asked { letter, call }), "{line}");
        }
    }

    #[test]
    fn other_forms_are_told() {
        let others = [
            "",
            " ",
            "c",
            "C ",
            "C\r",
            " C",
            "P",
            "A           1000      -0",
            "A           1000        ",
            "A           1000    - 25",
            "A           1000     25 ",
            "A           1000     +25",
            "A           1000    --25",
            "A          -1000     250",
            "A\t           100     250",
            "A           1000    250",
            "A           1000      250",
            "P              0             -1",
            "P              0               ",
            "P              0            10 ",
            "P              0             10 ",
            "p              0             10",
        ];
        for line in others {
            assert_eq!(asked(line.as_bytes()), None, "{line:?}");
        }
    }
}
