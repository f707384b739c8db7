//! Document 02, W-211: lifts as comma-separated text, written and read.
use crate::limits::*;
use crate::paper::Lift;

const HEADER: &[u8] = b"time,load,member";
const LINE_END: &[u8] = b"\r\n";
/// "decimal fields of 1 to 15 digits"
const MOST_DIGITS: usize = 15;
/// A member number has four note bytes (W-208).
const MEMBER_BYTES: usize = 4;

/// The number of an import and the line it is reported with: 0 unless it is that of the header or of a record.
pub type Ending = (u8, u64);

/// What an import goes into.
pub trait Importing {
    /// The first of grounds 1 to 3 that holds now.
    fn check(&self) -> Outcome<()>;
    fn append(&mut self, lift: Lift) -> Outcome<()>;
}

/// "header `time,load,member`, then one record per lift", "with CRLF after each"
pub fn text_of<'a>(lifts: impl Iterator<Item = &'a Lift>) -> Vec<u8> {
    let records = lifts.map(|lift| format!("{},{},{}", lift.time, lift.load, member_of(&lift.note)).into_bytes());
    std::iter::once(HEADER.to_vec()).chain(records).flat_map(|line| [line, LINE_END.to_vec()].concat()).collect()
}

/// "For an export ground 12 counts the area's bytes"
pub fn check_area(text: &[u8], area_bytes: usize) -> Outcome<()> {
    refuse_if(text.len() > area_bytes, TOO_MANY_ROWS)
}

/// "appends each in turn"; "A bad record, or a refused append, ends the import, reported with its line"
pub fn import(text: &[u8], into: &mut impl Importing) -> Ending {
    let ended = |line: u64| move |number: u8| (number, line);
    let lines = lines_in(text);
    let header = refuse_if(lines[0] != HEADER, OTHER_TEXT);
    let begun = into.check().map_err(ended(0)).and_then(|()| header.map_err(ended(1)));
    let records = (2..).zip(&lines[1..]);
    let result = begun.and_then(|()| {
        records.into_iter().try_for_each(|(line, record)| append_record(record, into).map_err(ended(line)))
    });
    result.err().unwrap_or((0, 0))
}

/// "after 3 and before that record's other grounds": the counts may have passed their limit by the record before.
fn append_record(record: &[u8], into: &mut impl Importing) -> Outcome<()> {
    into.check()?;
    into.append(lift_in(record).ok_or(OTHER_TEXT)?)
}

/// The lines between one CRLF and the next, of which the last one may be missing; a CR or an LF alone ends none.
fn lines_in(text: &[u8]) -> Vec<&[u8]> {
    let mut rest = text.strip_suffix(LINE_END).unwrap_or(text);
    let mut lines = Vec::new();
    while let Some(end) = rest.windows(LINE_END.len()).position(|bytes| bytes == LINE_END) {
        lines.push(&rest[..end]);
        rest = &rest[end + LINE_END.len()..];
    }
    lines.push(rest);
    lines
}

/// Time, load and member; "the other note bytes 0".
fn lift_in(record: &[u8]) -> Option<Lift> {
    let fields: Vec<&[u8]> = record.split(|byte| *byte == b',').map(unquoted).collect();
    let [time, load, member] = fields[..] else { return None };
    let (time, load, member) = (digits_in(time)?, load_in(load)?, u32::try_from(digits_in(member)?).ok()?);
    let mut note = [0; 20];
    note[..MEMBER_BYTES].copy_from_slice(&member.to_le_bytes());
    Some(Lift { time, load, note })
}

/// Each field "with or without quotes".
fn unquoted(field: &[u8]) -> &[u8] {
    field.strip_prefix(b"\"").and_then(|field| field.strip_suffix(b"\"")).unwrap_or(field)
}

fn digits_in(field: &[u8]) -> Option<u64> {
    let are_digits = (1..=MOST_DIGITS).contains(&field.len()) && field.iter().all(u8::is_ascii_digit);
    are_digits.then(|| field.iter().fold(0, |number, digit| 10 * number + u64::from(digit - b'0')))
}

/// "without sign (a minus for loads)". A load too large for a call is past its limit, as the greatest one is that a call can
/// have.
fn load_in(field: &[u8]) -> Option<i32> {
    let load = match field.strip_prefix(b"-") {
        Some(size) => -(digits_in(size)? as i64),
        None => digits_in(field)? as i64,
    };
    Some(load.clamp(i32::MIN.into(), i32::MAX.into()) as i32)
}

pub fn member_of(note: &[u8; 20]) -> u32 {
    u32::from_le_bytes(note[..MEMBER_BYTES].try_into().unwrap())
}

#[cfg(test)]
mod tests {
    use super::*;

    fn lift(time: u64, load: i32, member: u32) -> Lift {
        let mut note = [0; 20];
        note[..4].copy_from_slice(&member.to_le_bytes());
        Lift { time, load, note }
    }

    #[test]
    fn lifts_are_written() {
        assert_eq!(text_of([].iter()), b"time,load,member\r\n");
        let mut last = lift(LAST_TIME, -50_000, u32::MAX);
        last.note[4..].fill(255);
        let text = b"time,load,member\r\n0,0,0\r\n999999999999999,-50000,4294967295\r\n";
        assert_eq!(text_of([lift(0, 0, 0), last].iter()), text);
        assert_eq!((check_area(text, 63), check_area(text, text.len())), (Ok(()), Ok(())));
        assert_eq!(check_area(text, text.len() - 1), Err(TOO_MANY_ROWS));
    }

    #[test]
    fn lines_end_at_crlf() {
        let cut = |text: &'static str| lines_in(text.as_bytes()).iter().map(|line| line.len()).collect::<Vec<_>>();
        assert_eq!(cut(""), [0]);
        assert_eq!(cut("\r\n"), [0]);
        assert_eq!(cut("ab"), [2]);
        assert_eq!(cut("ab\r\nc"), [2, 1]);
        assert_eq!(cut("ab\r\nc\r\n"), [2, 1]);
        assert_eq!(cut("ab\r\nc\r\n\r\n"), [2, 1, 0]);
        assert_eq!(cut("ab\n\rc\r\r\nd\r"), [6, 2]);
    }

    #[test]
    fn records_are_read() {
        let records = [
            ("0,0,0", lift(0, 0, 0)),
            ("\"1000\",-250,7", lift(1000, -250, 7)),
            ("1000,\"-250\",7", lift(1000, -250, 7)),
            ("1000,-250,\"7\"", lift(1000, -250, 7)),
            ("000000000001000,-000000000000250,000000000000007", lift(1000, -250, 7)),
            ("5,-0,4294967295", lift(5, 0, u32::MAX)),
            ("999999999999999,999999999999999,0", lift(LAST_TIME, i32::MAX, 0)),
            ("1,-999999999999999,0", lift(1, i32::MIN, 0)),
        ];
        for (record, lift) in records {
            assert_eq!(lift_in(record.as_bytes()), Some(lift), "{record}");
        }
    }

    #[test]
    fn bad_records_are_told() {
        let records = [
            "",
            "1",
            "1,2",
            "1,2,",
            ",2,3",
            "1,,3",
            "1,2,3,",
            "1,2,3,4",
            "-1,2,3",
            "1,2,-3",
            "+1,2,3",
            "1,+2,3",
            "1,--2,3",
            "1,-,3",
            "1,2-,3",
            " 1,2,3",
            "1,2,3 ",
            "1,2,3\r",
            "1,2,3\n",
            "1,2,4294967296",
            "0000000000000001,2,3",
            "1,-0000000000000002,3",
            "1,2,0000000000000003",
            "\"1,2,3",
            "1\",2,3",
            "\"\",2,3",
            "\",2,3",
            "1,-\"2\",3",
            "1,\"\"2\"\",3",
            "1,\"2\"\"\",3",
            "\"1,2,3\"",
            "1;2;3",
            "0x1,2,3",
            "1.0,2,3",
            "time,load,member",
        ];
        for record in records {
            assert_eq!(lift_in(record.as_bytes()), None, "{record:?}");
        }
    }
}
