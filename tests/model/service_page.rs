//! W-201: the service page, a tally laid out to be pinned up.
use script::calls::PAGE_COLUMNS;

/// The lines of a window's page, without line feeds. It has a plate for each count, plate 0 counted first.
pub fn page(t1: u64, t2: u64, counts: &[u64]) -> Vec<String> {
    let total = counts.iter().sum();
    let mut lines = vec![format!("{t1:15}{:10}{t2:15}", "")];
    let heaviest_first = counts.iter().enumerate().rev();
    lines.extend(heaviest_first.map(|(plate, count)| plate_line(plate, *count, total)));
    lines.push(format!("{:4}{total:9}", ""));
    lines.iter().map(|line| format!("{line:PAGE_COLUMNS$}")).collect()
}

/// The lines, each with its line feed.
pub fn text_of(page: &[String]) -> String {
    page.iter().map(|line| format!("{line}\n")).collect()
}

/// "plate in 4 columns, count in 9, percentage rounded down in 5"
fn plate_line(plate: usize, count: u64, total: u64) -> String {
    format!("{plate:4}{count:9}{:5}", percentage(count, total))
}

/// "With a total of zero every percentage is zero."
fn percentage(count: u64, total: u64) -> u64 {
    (100 * count).checked_div(total).unwrap_or(0)
}

#[cfg(test)]
mod tests {
    use super::*;
    use script::form::Form;

    const NO_COUNTS: [u64; Form::New.counts()] = [0; Form::New.counts()];
    /// "the service page one line more at the top, numbered 21" (W-206)
    const NO_LIFT: [&str; 24] = [
        "              0          999999999999999",
        "  21        0    0                      ",
        "  20        0    0                      ",
        "  19        0    0                      ",
        "  18        0    0                      ",
        "  17        0    0                      ",
        "  16        0    0                      ",
        "  15        0    0                      ",
        "  14        0    0                      ",
        "  13        0    0                      ",
        "  12        0    0                      ",
        "  11        0    0                      ",
        "  10        0    0                      ",
        "   9        0    0                      ",
        "   8        0    0                      ",
        "   7        0    0                      ",
        "   6        0    0                      ",
        "   5        0    0                      ",
        "   4        0    0                      ",
        "   3        0    0                      ",
        "   2        0    0                      ",
        "   1        0    0                      ",
        "   0        0    0                      ",
        "            0                           ",
    ];

    /// The page of no lift with other lines at some places.
    fn with_lines(lines: &[(usize, &'static str)]) -> [&'static str; 24] {
        let mut page = NO_LIFT;
        lines.iter().for_each(|(place, line)| page[*place] = line);
        page
    }

    #[test]
    fn a_page_of_no_lift() {
        assert_eq!(page(0, 999_999_999_999_999, &NO_COUNTS), NO_LIFT);
    }

    #[test]
    fn a_page_of_one_lift() {
        let mut counts = NO_COUNTS;
        counts[21] = 1;
        let expected = with_lines(&[
            (0, "       25500000                 25500000"),
            (1, "  21        1  100                      "),
            (23, "            1                           "),
        ]);
        assert_eq!(page(25_500_000, 25_500_000, &counts), expected);
    }

    #[test]
    fn a_page_of_three_lifts() {
        let mut counts = NO_COUNTS;
        counts[5] = 2;
        counts[0] = 1;
        let expected = with_lines(&[
            (0, "           1000                     3000"),
            (17, "   5        2   66                      "),
            (22, "   0        1   33                      "),
            (23, "            3                           "),
        ]);
        assert_eq!(page(1000, 3000, &counts), expected);
    }

    #[test]
    fn every_line_has_40_characters() {
        let page = page(0, 999_999_999_999_999, &NO_COUNTS.map(|_| 999_999_999 / 22));
        assert!(page.iter().all(|line| line.chars().count() == 40));
    }

    #[test]
    fn a_page_has_984_bytes() {
        let page = text_of(&page(0, 0, &NO_COUNTS));
        assert_eq!(page.len(), 984);
        assert_eq!(page.lines().count(), 24);
    }
}
