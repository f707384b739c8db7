//! The tables, as Markdown, and the targets with what was measured.
use crate::field::{CONTENDERS, NAMES};
use crate::measure::{ratio, spread, Line, Rounds};
use crate::SIZES;

pub const APPEND: &str = "append";
pub const RECENT_DAY: &str = "search, a day of the last 30";
pub const ANY_DAY: &str = "search, any day";
pub const WHOLE_LOG: &str = "search, whole log";
pub const ABSENT: &str = "search, absent load";
pub const TALLY_DAY: &str = "tally, any day";
pub const TALLY_ALL: &str = "tally, whole log";
pub const PAGE_ALL: &str = "page, whole log";
pub const CONVERSIONS: [&str; 2] = ["forward", "backward"];
/// By the stack's place.
pub const LOOKUPS: [&str; 2] = ["plate, twenty of 500", "plate, four of 250 over sixteen of 500"];

pub const TOLERANT_RECENT_DAY: &str = "tolerant, a day of the last 30";
pub const TOLERANT_ANY_DAY: &str = "tolerant, any day";
pub const TOLERANT_WHOLE_LOG: &str = "tolerant, whole log";

pub const APPEND_KEPT: &str = "append keeping counts";
pub const DROP_KEPT: &str = "drop keeping counts";

pub const IMPORT: &str = "import";
pub const IMPORT_KEPT: &str = "import keeping counts";
pub const EXPORT_DAY: &str = "export, any day";
pub const EXPORT_ALL: &str = "export, whole log";
/// So many times the same without them an export and an import may take.
pub const CSV_MOST: f64 = 1.3;

/// The stacks of these two are measured apart, at this S.
pub const PAIRS_STACK: &str = "pairs, S = 4096";
pub const TOLERANT_STACK: &str = "tolerant, S = 4096";

const STACK_MOST: usize = 8_192;
/// Pairs keep a bit for each lift that the second store can hold.
const PAIRS_STACK_MOST: usize = 196_608;

/// A whole number with its thousands apart.
pub fn grouped(number: f64) -> String {
    let digits = format!("{number:.0}");
    let mut text = String::new();
    for (i, digit) in digits.chars().enumerate() {
        if i > 0 && (digits.len() - i) % 3 == 0 {
            text.push(',');
        }
        text.push(digit);
    }
    text
}

pub fn cell(rounds: &Rounds) -> String {
    spread(rounds.clone()).map_or("-".into(), |values| {
        let [least, median, most] = values.map(grouped);
        format!("{median} ({least} to {most})")
    })
}

pub fn ratio_cell(above: &Rounds, below: &Rounds) -> String {
    ratio(above, below).map_or("-".into(), |r| match r {
        r if r < 0.01 => format!("{r:.4}"),
        r => format!("{r:.2}"),
    })
}

pub fn slots_cell(line: &Line) -> String {
    line.slots.map_or("-".into(), |slots| slots.to_string())
}

pub fn table(lines: &[Line]) {
    let names = NAMES.join(" | ");
    println!("| S | call | lifts | {names} | store/(a) | (b)/store | (c)/store | (d)/store |");
    println!("|---|---|---|---|---|---|---|---|---|---|---|---|");
    for line in lines {
        let cells = line.rounds.each_ref().map(cell).join(" | ");
        let ratios = [(0, 1), (2, 0), (3, 0), (4, 0)];
        let ratios = ratios.map(|(above, below)| ratio_cell(&line.rounds[above], &line.rounds[below]));
        let found = grouped(line.found);
        println!("| {} | {} | {found} | {cells} | {} |", slots_cell(line), line.call, ratios.join(" | "));
    }
}

/// How SQLite goes about each kind of question, where it was measured.
pub fn plans(plans: &[(&str, String)]) {
    if plans.is_empty() {
        return;
    }
    println!("\n| SQLite is asked for | its plan |");
    println!("|---|---|");
    for (what, plan) in plans {
        println!("| {what} | {plan} |");
    }
}

/// The lines in which (b), (c) or (d) is faster than the store, and how many times, by the median round.
pub fn faster(lines: &[Line]) {
    println!("| S | call | faster than the store |");
    println!("|---|---|---|");
    for line in lines {
        let faster = |other: usize| ratio(&line.rounds[0], &line.rounds[other]).filter(|&times| times > 1.0);
        let others = (2..CONTENDERS).filter_map(|other| Some((NAMES[other], faster(other)?)));
        let others: Vec<String> = others.map(|(name, times)| format!("{name} {} times", times_cell(times))).collect();
        if !others.is_empty() {
            println!("| {} | {} | {} |", slots_cell(line), line.call, others.join(", "));
        }
    }
}

/// Two digits behind the point for small numbers, none for large ones.
fn times_cell(times: f64) -> String {
    match times {
        t if t < 10.0 => format!("{t:.2}"),
        t => grouped(t),
    }
}

pub fn stacks(depths: &[(&str, usize)]) {
    println!("| call | stack, bytes |");
    println!("|---|---|");
    for (call, bytes) in depths {
        println!("| {call} | {} |", grouped(*bytes as f64));
    }
}

fn target(what: &str, measured: String, reached: bool) {
    println!("| {what} | {measured} | {} |", if reached { "reached" } else { "missed" });
}

fn find<'a>(lines: &'a [Line], slots: u64, call: &str) -> &'a Line {
    lines.iter().find(|line| line.slots == Some(slots) && line.call == call).expect("a measured line")
}

/// What the counts of all retained lifts cost that are kept, and what those that are not.
pub fn front_screen(lines: &[Line]) {
    let tallies = SIZES.map(|slots| {
        let [_, median, _] = spread(find(lines, slots, TALLY_ALL).rounds[0].clone()).expect("some rounds");
        format!("{} ns at S = {slots}", grouped(median))
    });
    println!("The counts that the front screen shows stand in their area, and no call is made for them; a tally of the whole");
    println!("log takes the store {}.", tallies.join(", "));
}

/// Ratios of the store's own calls, each measured in turns.
pub struct Ratios {
    /// At S = 4,096 to those at S = 2.
    pub large_to_small: f64,
    /// Those that keep counts to plain ones, at each S.
    pub kept_to_plain: [f64; SIZES.len()],
    /// Imports to appends and exports to searches with text by hand, each in its words.
    pub csv: Vec<(String, f64)>,
}

/// The outside functions that an archive without a heap may call.
const MEMORY_FUNCTIONS: [&str; 5] = ["memcpy", "memmove", "memset", "memcmp", "bcmp"];

pub fn targets(lines: &[Line], ratios: &Ratios, depths: &[(&str, usize)], symbols: &str) {
    println!("| target | measured | |");
    println!("|---|---|---|");
    time_targets(lines, ratios);
    let heapless = symbols.split_whitespace().all(|symbol| MEMORY_FUNCTIONS.contains(&symbol));
    target("no heap: the archive calls nothing outside but memory functions", symbols.trim().to_string(), heapless);
    let (pairs, others): (Vec<_>, Vec<_>) = depths.iter().partition(|(call, _)| *call == PAIRS_STACK);
    stack_target("a call's stack: under 8 KiB, pairs apart", &others, STACK_MOST);
    stack_target("the stack of pairs: under 192 KiB", &pairs, PAIRS_STACK_MOST);
}

fn stack_target(what: &str, depths: &[&(&str, usize)], most: usize) {
    let deepest = depths.iter().map(|(_, bytes)| *bytes).max().expect("some calls");
    target(what, format!("{} bytes", grouped(deepest as f64)), deepest < most);
}

/// How many times the implementation in place a call may take.
fn most(call: &str) -> f64 {
    match call {
        APPEND => 1.05,
        _ if CONVERSIONS.contains(&call) => 1.5,
        _ => 1.1,
    }
}

fn time_targets(lines: &[Line], ratios: &Ratios) {
    for line in lines {
        let ratio = ratio(&line.rounds[0], &line.rounds[1]).expect("both are always measured");
        let most = most(line.call);
        let size = line.slots.map_or(String::new(), |slots| format!(", S = {slots}"));
        let what = format!("{}{size}: at most {most} times (a)", line.call);
        target(&what, format!("{ratio:.2} times"), ratio <= most);
    }
    let what = "append at S = 4096: within 1.3 times of S = 2, measured in turns";
    target(what, format!("{:.2} times", ratios.large_to_small), ratios.large_to_small <= 1.3);
    for (slots, ratio) in SIZES.into_iter().zip(ratios.kept_to_plain) {
        let what = format!("{APPEND_KEPT}, S = {slots}: at most 1.1 times the store's plain append, measured in turns");
        target(&what, format!("{ratio:.2} times"), ratio <= 1.1);
    }
    for (what, times) in &ratios.csv {
        target(what, format!("{times:.2} times"), *times <= CSV_MOST);
    }
    for call in [RECENT_DAY, ANY_DAY] {
        for (other, name) in [(2, "(b)"), (3, "(c)")] {
            let what = format!("{call}, S = 4096: ten times faster than {name}");
            let rounds = &find(lines, 4_096, call).rounds;
            match ratio(&rounds[other], &rounds[0]) {
                Some(faster) => target(&what, format!("{faster:.1} times"), faster >= 10.0),
                None => println!("| {what} | not measured | skipped |"),
            }
        }
    }
}
