//! Lists of another form, or nearly so: made from a list by one change.
use super::inputs::COLUMNS;
use crate::random::Random;

/// Right-justified in the columns none of these is a plate.
const BAD_NUMBERS: [&str; 18] = [
    "-1", "-500", "--500", "+500", "500-", "500 ", "5 00", "5.00", "5,000", "0x1F4", "5e2", "500\t", "\t500", "500\r",
    "500\0", "", "15", "x",
];
/// What digits, spaces and line feeds may be taken for, or stand beside in the code.
const BYTES: &[u8] = b" \t\r\n\x0B\x0C-+.,0159:/x\0\x1A\x7F\x80\x8A\xA0\xB0\xFF";
/// What may follow a list.
const TAILS: [&[u8]; 9] = [b"\n", b"\n\n", b"\r\n", b" ", b"\0", b"15\n", b"   500", b"\n   500\n", b"      \n"];

/// The change may leave a list of good form, as a blank line between two plates does.
pub fn changed(mut list: Vec<u8>, random: &mut Random) -> Vec<u8> {
    let place = random.index(list.len());
    match random.below(10) {
        0 => list.insert(place, random.pick(BYTES)),
        1 | 2 => list[place] = random.pick(BYTES),
        3 => {
            list.remove(place);
        }
        4 => list.truncate(place),
        5 => list.extend_from_slice(random.pick(&TAILS)),
        6 => list = list.repeat(2 + random.index(3)),
        7 => list = with_carriage_returns(&list, random),
        _ => list = with_a_line(&list, random),
    }
    list
}

/// Before every line feed, or before one in some.
fn with_carriage_returns(list: &[u8], random: &mut Random) -> Vec<u8> {
    let once_in = random.pick(&[1, 1, 4]);
    let line_end = |byte: &u8| match byte {
        b'\n' if random.once_in(once_in) => b"\r\n".to_vec(),
        byte => vec![*byte],
    };
    list.iter().flat_map(line_end).collect()
}

/// A line more, from before the first to after the last, or one in another's place: blank, of spaces, too narrow, too wide,
/// or with no plate in it.
fn with_a_line(list: &[u8], random: &mut Random) -> Vec<u8> {
    let mut lines: Vec<&[u8]> = list.split_inclusive(|byte| *byte == b'\n').collect();
    let place = random.index(lines.len() + 1);
    let columns = random.pick(&[1, COLUMNS - 1, COLUMNS + 1, 2 * COLUMNS, 300]);
    let line = match random.below(6) {
        0 | 1 => String::new(),
        2 => " ".repeat(COLUMNS),
        3 => format!("{:columns$}", 500),
        4 => format!("{:0columns$}", 500),
        _ => format!("{:>COLUMNS$}", random.pick(&BAD_NUMBERS)),
    };
    let line = line + "\n";
    if place < lines.len() && random.once_in(2) {
        lines.remove(place);
    }
    lines.insert(place, line.as_bytes());
    lines.concat()
}

/// A good list with as many bytes as there can be, and then more.
pub fn longer_than_any(mut list: Vec<u8>, random: &mut Random) -> Vec<u8> {
    match random.below(4) {
        0 => list.extend(any_bytes(random)),
        1 => list.extend_from_slice(random.pick(&TAILS)),
        2 => list = list.repeat(2 + random.index(40)),
        _ => list.resize(list.len() + random.pick(&[1, 2, 7, 4_096, 70_000]), random.pick(b"\n 5\0")),
    }
    list
}

/// Bytes of all kinds, or those of lists alone in any order.
pub fn any_bytes(random: &mut Random) -> Vec<u8> {
    let most = random.pick(&[2, 8, 60, 3_000]);
    let length = random.index(most);
    match random.below(2) {
        0 => (0..length).map(|_| random.bits() as u8).collect(),
        _ => (0..length).map(|_| random.pick(b"  0125\n")).collect(),
    }
}
