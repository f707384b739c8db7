//! W-209: tolerant searches by the store and by (a), beside the plain searches that one would make without them.
use crate::filled::Filled;
use crate::lift::RECORD_BYTES;
use crate::measure::{in_turns_of, of_both, of_each, Line, Rounds};
use crate::proved::{found_in, listed_in, FoundArea, ListedArea, Proved};
use crate::questions::Asked;
use crate::report::{self, cell, grouped, ratio_cell, slots_cell};
use crate::stack;
use crate::tolerant_in_place::TolerantInPlace;
use plain::Window;
use plain_tolerant::Tolerated;
use std::hint::black_box;

/// A cell that is good to a quarter of a kilogram.
const TOLERANCE: i32 = 25;
/// The ranges of the other searches end between two plates, where no lift is; moved by half a plate they end at one.
const HALF_A_PLATE: i32 = 250;

/// The range of a tolerant search, and those of the plain searches for its certain and for its possible lifts.
struct Question {
    asked: Window,
    narrowed: Window,
    widened: Window,
}

impl Question {
    fn of(searched: &Window) -> Question {
        let moved = |w: &Window, low: i32, high: i32| Window { k1: w.k1 + low, k2: w.k2 + high, ..*w };
        let asked = moved(searched, HALF_A_PLATE, HALF_A_PLATE);
        let (narrowed, widened) = (moved(&asked, TOLERANCE, -TOLERANCE), moved(&asked, -TOLERANCE, TOLERANCE));
        Question { asked, narrowed, widened }
    }
}

/// The areas of both lists, each with a row for every retained lift.
struct Lists {
    certain: Vec<u8>,
    possible: Vec<u8>,
}

impl Lists {
    fn room_for(filled: &Filled) -> Lists {
        Lists { certain: filled.result_area(), possible: filled.result_area() }
    }

    fn by_store(&mut self, store: &Proved, question: &Question) -> Tolerated {
        let Lists { certain, possible } = self;
        let mut answer = [0; size_of::<ListedArea>()];
        let number = store.tolerant(&question.asked, TOLERANCE as u64, certain, possible, &mut answer);
        assert_eq!(number, 0, "the store refuses a tolerant search");
        listed_in(&answer)
    }

    fn in_place(&mut self, store: &TolerantInPlace, question: &Question) -> Tolerated {
        let Lists { certain, possible } = self;
        store.tolerant(&question.asked, TOLERANCE as u64, certain, possible).expect("a tolerant search")
    }

    /// How many lifts of the widened range there are.
    fn by_one_search(&mut self, store: &Proved, question: &Question) -> usize {
        search(store, &question.widened, &mut self.possible)
    }

    fn by_two_searches(&mut self, store: &Proved, question: &Question) -> Tolerated {
        let certain = search(store, &question.narrowed, &mut self.certain);
        Tolerated { certain, possible: self.by_one_search(store, question) }
    }

    /// The rows that were found.
    fn rows(&self, found: Tolerated) -> [&[u8]; 2] {
        [&self.certain[..found.certain * RECORD_BYTES], &self.possible[..found.possible * RECORD_BYTES]]
    }
}

fn search(store: &Proved, window: &Window, rows: &mut [u8]) -> usize {
    let mut answer = [0; size_of::<FoundArea>()];
    assert_eq!(store.find(window, rows, &mut answer), 0, "the store refuses a search");
    found_in(&answer).rows
}

/// Store, (a) and two searches give the same lists; how many lifts, over all questions.
fn check(filled: &Filled, questions: &[Question]) -> Tolerated {
    let [mut known, mut others] = [Lists::room_for(filled), Lists::room_for(filled)];
    let store = &filled.proved;
    let in_place = TolerantInPlace::of(store);
    let mut total = Tolerated::default();
    for question in questions {
        let found = known.by_store(store, question);
        let alike = others.in_place(&in_place, question) == found && others.rows(found) == known.rows(found);
        assert!(alike, "lists differ at {:?}", question.asked);
        let alike = others.by_two_searches(store, question) == found && others.rows(found) == known.rows(found);
        assert!(alike, "two searches differ at {:?}", question.asked);
        total.certain += found.certain;
        total.possible += found.possible;
    }
    total
}

/// One kind of tolerant search at one S.
pub struct TolerantLine {
    /// The store and (a); the lifts found are the possible ones.
    pub line: Line,
    /// How many of them are certain, on average.
    certain: f64,
    one_search: Rounds,
    two_searches: Rounds,
}

/// All four kinds read the store's chips, so that none finds them colder than another.
fn line(filled: &Filled, lists: &mut Lists, call: &'static str, questions: &[Question]) -> TolerantLine {
    let total = check(filled, questions);
    let [certain, found] = [total.certain, total.possible].map(|lifts| lifts as f64 / questions.len() as f64);
    let store = &filled.proved;
    let in_place = TolerantInPlace::of(store);
    let rounds = in_turns_of(|kind| {
        for question in questions {
            black_box(match kind {
                0 => lists.by_store(store, question).possible,
                1 => lists.in_place(&in_place, question).possible,
                2 => lists.by_one_search(store, question),
                _ => lists.by_two_searches(store, question).possible,
            });
        }
    });
    let [by_store, by_hand, one_search, two_searches] = rounds.map(|rounds| of_each(questions.len(), rounds));
    let line = Line { slots: Some(store.slots), call, found, rounds: of_both([by_store, by_hand]) };
    TolerantLine { line, certain, one_search, two_searches }
}

/// What was measured at one S.
pub struct AtOneSize {
    pub lines: [TolerantLine; 3],
    /// The bytes of stack that the store's call takes.
    pub stack: usize,
}

pub fn measured(slots: u64) -> AtOneSize {
    let filled = Filled::new(slots);
    let Asked { recent_days, any_days, whole_log, .. } = Asked::of(slots, filled.span());
    let questions =
        [recent_days, any_days, whole_log].map(|windows| windows.iter().map(Question::of).collect::<Vec<_>>());
    let mut lists = Lists::room_for(&filled);
    let stack = stack::depth(|| {
        for question in questions.iter().flatten() {
            lists.by_store(&filled.proved, question);
        }
    });
    let [recent_days, any_days, whole_log] = &questions;
    let calls = [
        (report::TOLERANT_RECENT_DAY, recent_days),
        (report::TOLERANT_ANY_DAY, any_days),
        (report::TOLERANT_WHOLE_LOG, whole_log),
    ];
    AtOneSize { lines: calls.map(|(call, questions)| line(&filled, &mut lists, call, questions)), stack }
}

pub fn table(sizes: &[AtOneSize]) {
    println!(
        "| S | call | certain | possible | store | (a) in place | one search | two searches | store/(a) | store/one \
         | store/two |"
    );
    println!("|---|---|---|---|---|---|---|---|---|---|---|");
    for TolerantLine { line, certain, one_search, two_searches } in sizes.iter().flat_map(|size| &size.lines) {
        let [store, in_place, ..] = &line.rounds;
        let lifts = [*certain, line.found].map(grouped).join(" | ");
        let times = [store, in_place, one_search, two_searches].map(cell).join(" | ");
        let ratios = [in_place, one_search, two_searches].map(|below| ratio_cell(store, below)).join(" | ");
        println!("| {} | {} | {lifts} | {times} | {ratios} |", slots_cell(line), line.call);
    }
}
