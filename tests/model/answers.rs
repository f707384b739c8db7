//! Document 01, "Program", and W-201: what `slotlist` prints.
use crate::lines::{asked, lines_of, Asked, SLOTS};
use crate::paper::{PaperLog, Said};
use script::calls::Call;
use script::form::Form;

/// The answers to the lines of an input, one after another. "It starts from a format."
pub fn answers(input: &[u8]) -> impl Iterator<Item = String> + '_ {
    let mut log = PaperLog::formatted(Form::New, SLOTS);
    lines_of(input).map(move |line| match asked(line) {
        Some(asked) => {
            let said = log.call(&asked.call);
            answer(&asked, &said, &log)
        }
        None => "?\n".to_string(),
    })
}

/// "It prints letter and number (3 columns, 0 accepted)", then what an accepted line adds.
fn answer(asked: &Asked, said: &Said, log: &PaperLog) -> String {
    let letter = asked.letter;
    match said.number {
        0 => format!("{letter}  0{}\n", added(asked, said, log)),
        number => format!("{letter}{number:3}\n"),
    }
}

fn added(asked: &Asked, said: &Said, log: &PaperLog) -> String {
    let counts: String = said.values.iter().map(|count| format!("{count:7}")).collect();
    match asked.call {
        Call::Search { window, .. } => {
            let lifts = log.found(&window).expect("the search is accepted");
            let lines = lifts.iter().map(|lift| format!("\n{:15}{:8}", lift.time, lift.load));
            counts + &lines.collect::<String>()
        }
        Call::Page { .. } => said.page.iter().map(|line| format!("\n{line}")).collect(),
        _ => counts,
    }
}

#[cfg(test)]
mod tests {
    use super::*;

    fn answered(input: &str) -> String {
        answers(input.as_bytes()).collect()
    }

    #[test]
    fn the_example_of_document_01() {
        let input = "\
A           1000     250
A           2000     751
Q              0           3000     251    1000
";
        let output = "\
A  0
A  0
Q  0      1
           2000     751
";
        assert_eq!(answered(input), output);
    }

    #[test]
    fn a_refusal_is_its_number_alone() {
        let input = "\
C
A              0  100001
Q              2              1       0       0
T              2              1
P              2              1
P              2
";
        assert_eq!(answered(input), "C  9\nA  5\nQ  6\nT  6\nP  6\n?\n");
    }

    #[test]
    fn p_prints_the_tally_of_t_as_a_page() {
        let input = "\
A              5     250
A              6   10251
T              5              5
P              5              5";
        let counts = "      0".repeat(21);
        let plates: String = (1..=21).rev().map(|plate| format!("{plate:4}        0    0{:22}\n", "")).collect();
        let page = format!("{:14}5{:24}5\n{plates}   0        1  100{:22}\n{:12}1{:27}\n", "", "", "", "", "");
        assert_eq!(answered(input), format!("A  0\nA  0\nT  0      1{counts}\nP  0\n{page}"));
    }
}
