//! Lines of another form, or nearly so: made from a line of good form by one change.
use super::spelling;
use crate::random::Random;

/// Right-justified in a time's columns none of these is a time, in a load's only the first is a load.
const BAD_NUMBERS: [&str; 17] =
    ["-1", "-0", "-00", "--1", "- 1", "1-", "+1", "1 ", "1\t", "\t1", "1 1", "-", "", "1.5", "0x1", "1e3", "1\r"];
/// Among these and the next are letters, spaces and digits with a bit more, or beside them in the code.
const LETTERS: &[u8] = b"acgqtpBDPRSUZ ?01\t\0\xC1\xC3\xD0\xFF";
const BYTES: &[u8] = b" \t\r-+.0:/x\0\x7F\x80\xA0\xAD\xB0\xFF";
/// Lengths round those of the forms, and past one reading of the input.
const LENGTHS: [usize; 12] = [2, 23, 24, 25, 31, 32, 47, 48, 49, 256, 4096, 9000];

/// The change may leave a line of good form, as a space that becomes a leading zero does.
pub fn changed(mut line: Vec<u8>, random: &mut Random) -> Vec<u8> {
    let place = random.index(line.len());
    match random.below(12) {
        0 => line.clear(),
        1 => line.truncate(place),
        2 => {
            line.remove(place);
        }
        3 => line.insert(place, random.pick(BYTES)),
        4 => line.push(random.pick(BYTES)),
        5 => line[0] = random.pick(LETTERS),
        6 | 7 => line[place] = random.pick(BYTES),
        8 => line.resize(random.pick(&LENGTHS), random.pick(b" 0")),
        9 => line = line.repeat(2 + random.index(3)),
        10 => line = bad_number(random).into_bytes(),
        _ => line = any_bytes(random),
    }
    line
}

/// A line with one field that has no number, the other fields good.
fn bad_number(random: &mut Random) -> String {
    let bad = random.pick(&BAD_NUMBERS);
    let bad_time = format!("{bad:>15}");
    let bad_load = format!("{bad:>8}");
    let time = spelling::time(random, 5);
    let load = spelling::load(random, -5);
    let letter = random.pick(&['T', 'P']);
    match random.below(8) {
        0 => format!("A{bad_time}{load}"),
        1 => format!("A{time}{bad_load}"),
        2 => format!("{letter}{bad_time}{time}"),
        3 => format!("{letter}{time}{bad_time}"),
        4 => format!("Q{bad_time}{time}{load}{load}"),
        5 => format!("Q{time}{bad_time}{load}{load}"),
        6 => format!("Q{time}{time}{bad_load}{load}"),
        _ => format!("Q{time}{time}{load}{bad_load}"),
    }
}

/// Anything but a line feed.
fn any_bytes(random: &mut Random) -> Vec<u8> {
    let length = random.index(60);
    (0..length).map(|_| random.bits() as u8).filter(|byte| *byte != b'\n').collect()
}
