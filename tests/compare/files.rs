//! Texts for an import: lifts as one spreadsheet or another writes them, and texts with something wrong in them.
use crate::random::Random;
use model::paper::Lift;
use model::text::member_of;

const HEADER: &str = "time,load,member";
/// "fields of 1 to 15 digits"
const MOST_DIGITS: usize = 15;

const OTHER_HEADERS: [&str; 12] = [
    "",
    "\"time\",\"load\",\"member\"",
    "\"time,load,member\"",
    "Time,Load,Member",
    "time,load",
    "time,load,member,",
    "time,load,member ",
    " time,load,member",
    "time;load;member",
    "time, load, member",
    "\u{feff}time,load,member",
    "time,load,member\n",
];

/// At limits, just past them, and of another form.
const ODD_FIELDS: [&str; 40] = [
    "",
    "\"\"",
    "\"",
    "\"\"\"",
    "-",
    "\"-\"",
    "-0",
    "\"-0\"",
    "-\"0\"",
    "--1",
    "+1",
    "-1",
    "\"-1\"",
    " 1",
    "1 ",
    "1.0",
    "1e3",
    "0x10",
    "a",
    "0",
    "00",
    "000000000000000",
    "0000000000000000",
    "999999999999999",
    "1000000000000000",
    "-999999999999999",
    "-0000000000000001",
    "\"000000000000001\"",
    "4294967295",
    "4294967296",
    "\"4294967296\"",
    "100000",
    "100001",
    "-50000",
    "-50001",
    "2147483648",
    "1\"",
    "\"1",
    "\"1\"\"\"",
    "1\"2",
];
const ODD_BYTES: &[u8] = b"\"\",,-+ \r\n\t0919.a\0\xff";
const ODD_LINE_ENDS: [&str; 6] = ["\n", "\r", "\n\r", "\r\r\n", "\r\n\r\n", ""];

/// How a program writes numbers: of eight fields so many have quotes, so many leading zeros.
struct Style {
    quotes: u64,
    zeros: u64,
}

impl Style {
    fn any(random: &mut Random) -> Style {
        Style { quotes: random.pick(&[0, 0, 1, 4, 8]), zeros: random.pick(&[0, 0, 0, 2]) }
    }

    fn number(&self, sign: &str, number: u64, random: &mut Random) -> String {
        let mut field = number.to_string();
        if random.below(8) < self.zeros {
            let spare = MOST_DIGITS.saturating_sub(field.len());
            let digits = field.len() + random.index(spare + 1);
            field = format!("{number:0digits$}");
        }
        match random.below(8) < self.quotes {
            true => format!("\"{sign}{field}\""),
            false => format!("{sign}{field}"),
        }
    }

    fn record(&self, lift: &Lift, random: &mut Random) -> String {
        let sign = match lift.load {
            load if load < 0 => "-",
            0 if random.below(8) < self.zeros => "-",
            _ => "",
        };
        let time = self.number("", lift.time, random);
        let load = self.number(sign, lift.load.unsigned_abs().into(), random);
        format!("{time},{load},{}", self.number("", member_of(&lift.note).into(), random))
    }
}

/// A text that an import reads to the end, as far as its form goes.
pub fn good(lifts: &[Lift], random: &mut Random) -> Vec<u8> {
    let style = Style::any(random);
    let records = lifts.iter().map(|lift| style.record(lift, random));
    let lines: Vec<String> = std::iter::once(HEADER.to_string()).chain(records).collect();
    let last_end = random.pick(&["\r\n", "\r\n", ""]);
    (lines.join("\r\n") + last_end).into_bytes()
}

/// One line, one field or one byte otherwise; now and then the text is good all the same.
pub fn spoil(text: &mut Vec<u8>, random: &mut Random) {
    match random.below(8) {
        0 => change_a_byte(text, random),
        1 => text.truncate(random.index(text.len() + 1)),
        2 => *text = text.iter().copied().filter(|byte| *byte != b'\r').collect(),
        _ => {
            let mut lines: Vec<String> = String::from_utf8_lossy(text).split("\r\n").map(str::to_string).collect();
            let end = change_a_line(&mut lines, random);
            *text = lines.join("\r\n").into_bytes();
            if let Some((line, end)) = end {
                end_line_otherwise(text, line, end);
            }
        }
    }
}

fn change_a_byte(text: &mut Vec<u8>, random: &mut Random) {
    let (place, byte) = (random.index(text.len() + 1), random.pick(ODD_BYTES));
    match random.below(3) {
        0 => text.insert(place, byte),
        _ if place == text.len() => text.push(byte),
        1 => text[place] = byte,
        _ => drop(text.remove(place)),
    }
}

/// What it does to a line's end is handed back.
fn change_a_line(lines: &mut Vec<String>, random: &mut Random) -> Option<(usize, &'static str)> {
    let line = random.index(lines.len());
    match random.below(12) {
        0 => lines[0] = random.pick(&OTHER_HEADERS).to_string(),
        1 => lines.insert(line, String::new()),
        2 => lines.push(String::new()),
        3 => drop(lines.remove(line)),
        4 => lines.insert(line, lines[line].clone()),
        5 => {
            let other = random.index(lines.len());
            lines.swap(line, other);
        }
        6 => lines[line] = format!("\"{}\"", lines[line]),
        7 => return Some((line, random.pick(&ODD_LINE_ENDS))),
        _ => change_a_field(&mut lines[line], random),
    }
    None
}

fn change_a_field(line: &mut String, random: &mut Random) {
    let mut fields: Vec<&str> = line.split(',').collect();
    let place = random.index(fields.len());
    match random.below(8) {
        0 => drop(fields.remove(place)),
        1 => fields.insert(place, random.pick(&ODD_FIELDS)),
        _ => fields[place] = random.pick(&ODD_FIELDS),
    }
    *line = fields.join(",");
}

/// In place of the CRLF behind this line, if it has one.
fn end_line_otherwise(text: &mut Vec<u8>, line: usize, end: &str) {
    let mut places = (0..text.len()).filter(|place| text[*place..].starts_with(b"\r\n"));
    if let Some(place) = places.nth(line) {
        text.splice(place..place + 2, end.bytes());
    }
}
