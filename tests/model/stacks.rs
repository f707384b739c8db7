//! W-205 and W-206: stacks of uneven plates, up to which load the band of each plate goes, and the list of stacks that the
//! generator reads.
use crate::limits::*;
use crate::lines::digits_in;
use std::ops::RangeInclusive;

/// "a list of 1 to 16 stacks", "1 to 24 plates of 100 to 5,000 units each"
const STACKS: RangeInclusive<usize> = 1..=16;
const PLATES: RangeInclusive<usize> = 1..=24;
const UNITS: RangeInclusive<i64> = 100..=5_000;
/// "one plate in 6 columns per line"
const COLUMNS: usize = 6;

/// The units of each plate, top first.
pub type Stack = Vec<i64>;

/// "We carry twenty plates of 500, then four of 250 over sixteen of 500."
pub fn carried() -> [Stack; 2] {
    [vec![500; 20], [vec![250; 4], vec![500; 16]].concat()]
}

/// The last load of each plate's band, plate 0 first. "Plate 0 ends at half the first plate, rounded down. A plate's band
/// ends halfway, rounded down, between the sum down to it and the sum down to the next"; then "a last end half the last
/// plate, rounded down, above the full sum" (W-206).
pub fn ends(stack: &[i64]) -> Vec<i64> {
    let sum_down_to = |plate: usize| stack[..plate].iter().sum::<i64>();
    let halfway_to_next = |plate: usize| (sum_down_to(plate) + sum_down_to(plate + 1)) / 2;
    let last_end = sum_down_to(stack.len()) + stack[stack.len() - 1] / 2;
    (0..stack.len()).map(halfway_to_next).chain([last_end]).collect()
}

/// "The lookup takes a stack's place in the list, from 0"; the load is looked at before the place. Above the last end it is
/// a plate more than the stack has.
pub fn plate_at(place: u64, load: i32) -> Outcome<usize> {
    refuse_if(load_past_limit(load), LOAD_LIMIT)?;
    let stacks = carried();
    let stack = usize::try_from(place).ok().and_then(|place| stacks.get(place)).ok_or(NO_STACK)?;
    let in_band = |end: &i64| i64::from(load) <= *end;
    Ok(ends(stack).iter().position(in_band).unwrap_or(stack.len() + 1))
}

/// What the generator prints for an input: the ends in the list's own form, or the number alone.
pub fn generated(input: &[u8]) -> Vec<u8> {
    let lines_of = |stack: &Stack| ends(stack).iter().map(|end| format!("{end:COLUMNS$}\n")).collect::<String>();
    let printed = match stacks_in(input) {
        Some(stacks) => stacks.iter().map(lines_of).collect::<Vec<_>>().join("\n"),
        None => format!("{NO_STACK}\n"),
    };
    printed.into_bytes()
}

/// "a blank line between stacks": before the first, after the last and beside a blank one it would part a stack without
/// plates from the others. The last line feed may be missing.
fn stacks_in(input: &[u8]) -> Option<Vec<Stack>> {
    let text = input.strip_suffix(b"\n").unwrap_or(input);
    let lines: Vec<&[u8]> = text.split(|byte| *byte == b'\n').collect();
    let stacks: Option<Vec<Stack>> = lines.split(|line| line.is_empty()).map(stack_in).collect();
    stacks.filter(|stacks| STACKS.contains(&stacks.len()))
}

fn stack_in(lines: &[&[u8]]) -> Option<Stack> {
    let stack: Option<Stack> = lines.iter().map(|line| plate_in(line)).collect();
    stack.filter(|stack| PLATES.contains(&stack.len()))
}

/// Spaces, then digits, right-justified in the columns.
fn plate_in(line: &[u8]) -> Option<i64> {
    if line.len() != COLUMNS {
        return None;
    }
    let spaces = line.iter().take_while(|byte| **byte == b' ').count();
    digits_in(&line[spaces..]).filter(|units| UNITS.contains(units))
}

#[cfg(test)]
mod tests {
    use super::*;
    use crate::plate::plate_of;
    use script::form::Form;

    fn printed(input: &str) -> String {
        String::from_utf8(generated(input.as_bytes())).unwrap()
    }

    #[test]
    fn the_sticker_of_w_204() {
        let sticker: Vec<i64> = (0..20).map(|plate| 250 + 500 * plate).collect();
        assert_eq!(carried()[0], [500; 20]);
        assert_eq!(ends(&[500; 20])[..20], sticker);
        assert_eq!(ends(&[500; 20])[20..], [10_250]);
    }

    #[test]
    fn light_plates_at_the_top() {
        let stack = &carried()[1];
        assert_eq!(stack.iter().sum::<i64>(), 9_000);
        assert_eq!(ends(stack)[..7], [125, 375, 625, 875, 1_250, 1_750, 2_250]);
        assert_eq!(ends(stack)[19..], [8_750, 9_250]);
    }

    #[test]
    fn halves_are_rounded_down() {
        assert_eq!(ends(&[101]), [50, 151]);
        assert_eq!(ends(&[101, 101]), [50, 151, 252]);
        assert_eq!(ends(&[101, 100, 103]), [50, 151, 252, 355]);
        assert_eq!(ends(&[5_000; 24])[23..], [117_500, 122_500]);
    }

    #[test]
    fn a_lookup_by_place() {
        (-1_000..11_000).for_each(|load| assert_eq!(plate_at(0, load), Ok(plate_of(Form::New, load))));
        let at_the_top = [(-1, 0), (125, 0), (126, 1), (875, 3), (876, 4), (1_250, 4), (1_251, 5)];
        let at_the_end = [(8_750, 19), (8_751, 20), (9_250, 20), (9_251, 21), (100_000, 21)];
        let on_second = at_the_top.iter().chain(&at_the_end);
        on_second.for_each(|(load, plate)| assert_eq!(plate_at(1, *load), Ok(*plate)));
        assert_eq!([2, 1 << 32, u64::MAX].map(|place| plate_at(place, 0)), [Err(15); 3]);
        assert_eq!([100_001, -50_001].map(|load| plate_at(2, load)), [Err(5); 2]);
    }

    #[test]
    fn lists_are_read() {
        assert_eq!(printed("   101\n"), "    50\n   151\n");
        assert_eq!(printed("   101"), "    50\n   151\n");
        assert_eq!(printed("000101\n 00500\n\n  5000\n"), "    50\n   351\n   851\n\n  2500\n  7500\n");
        assert_eq!(printed(&"   100\n".repeat(24)).lines().count(), 25);
        assert_eq!(printed(&["   100\n"; 16].join("\n")), ["    50\n   150\n"; 16].join("\n"));
    }

    #[test]
    fn other_forms_and_sizes_are_told() {
        let others = [
            "",
            "\n",
            "\n\n",
            "\n   500\n",
            "   500\n\n",
            "   500\n\n\n   500\n",
            "   500\r\n",
            "      \n",
            "   500\n      \n",
            "  500\n",
            "    500\n",
            "  \t500\n",
            "  -500\n",
            "  500 \n",
            "50 500\n",
            "+00500\n",
            "    99\n",
            "  5001\n",
            "999999\n",
        ];
        others.iter().for_each(|input| assert_eq!(printed(input), "15\n", "{input:?}"));
        assert_eq!(printed(&"   100\n".repeat(25)), "15\n");
        assert_eq!(printed(&["   100\n"; 17].join("\n")), "15\n");
    }
}
