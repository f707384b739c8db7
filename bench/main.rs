//! The store against an in-place implementation, SQLite, a plain array and LMDB, on the same lifts and questions.
mod agree;
mod agree_kept;
mod carried;
mod clock;
mod csv;
mod csv_by_hand;
mod csv_calls;
mod field;
mod filled;
mod gym;
mod in_place;
mod kept;
mod kept_calls;
mod kept_in_place;
#[cfg(any(sqlite, lmdb))]
mod key;
mod lift;
#[cfg(lmdb)]
mod lmdb;
mod measure;
mod pages_read;
mod paired_by_hand;
mod pairs;
mod proved;
mod questions;
mod report;
mod scan;
mod search_lines;
mod service_page;
#[cfg(sqlite)]
mod sqlite;
#[cfg(sqlite)]
mod sqlite_calls;
mod stack;
mod tolerant;
mod tolerant_in_place;
mod twins;

use carried::{backward, Carried, OldStore};
use field::Field;
use measure::{append_ratio, appends, conversions, lookups, page, searches, tallies, Line};
use plain::Counts;
use proved::{FoundArea, Proved};
use questions::{everything, five_plates, Asked};
use service_page::ServicePage;

const SIZES: [u64; 3] = [2, 64, 4_096];
const PAGED_SIZE: u64 = 64;
const CONVERTED_SIZES: [u64; 2] = [64, 4_096];
const CSV_SIZES: [u64; 2] = [64, 4_096];

fn measured(slots: u64) -> (Field, Vec<Line>) {
    let mut field = Field::filled(slots);
    field.check_bytes();
    field.check_searches(&[everything(&field), five_plates(&field)]);
    let append = appends(&mut field, report::APPEND);
    let Asked { recent_days, any_days, whole_log, absent } = Asked::of(slots, field.span);
    println!(
        "S = {slots}: {} lifts retained; chips and state of (a) are the store's, byte for byte.",
        field.retained()
    );
    let mut lines = vec![
        append,
        searches(&mut field, report::RECENT_DAY, &recent_days),
        searches(&mut field, report::ANY_DAY, &any_days),
        searches(&mut field, report::WHOLE_LOG, &whole_log),
        searches(&mut field, report::ABSENT, &absent),
        tallies(&mut field, report::TALLY_DAY, &any_days),
        tallies(&mut field, report::TALLY_ALL, &whole_log[..1]),
    ];
    if slots == PAGED_SIZE {
        lines.push(page(&field, report::PAGE_ALL, &whole_log[0]));
    }
    (field, lines)
}

/// The stack of each call but pairs and tolerant searches on a filled store: the deepest of many.
fn depths() -> Vec<(&'static str, usize)> {
    let mut field = Field::filled(2);
    let window = everything(&field);
    let lifts = field.next_lifts(700);
    let mut rows = vec![0; field.rows.len()];
    let mut store = field.proved.clone();
    let append = stack::depth(|| assert!(lifts.iter().all(|lift| store.put(lift) == 0)));
    let mut keeping = field.proved.clone();
    let mut kept = keeping.counts_due();
    let append_kept = stack::depth(|| assert!(lifts.iter().all(|lift| keeping.put_kept(&mut kept, lift) == 0)));
    let text = csv_by_hand::text_of(&lifts);
    let mut text_area = vec![0; csv_by_hand::room_for(field.retained())];
    let (mut importing, mut import_keeping) = (field.proved.clone(), field.proved.clone());
    let mut import_kept = import_keeping.counts_due();
    let (mut found, mut plate) = ([0; size_of::<FoundArea>()], [0; 8]);
    let (mut counts, mut page) = ([0; size_of::<Counts>()], [0; size_of::<ServicePage>()]);
    let old: &Proved = &field.proved;
    let mut closing = old.clone();
    let mut dropping = old.clone();
    let carried = Carried::filled(2);
    let (mut to_new, mut to_old) = (carried.new.clone(), OldStore::room_for(&carried.new));
    vec![
        ("format", stack::depth(|| assert_eq!(store.format(), 0))),
        ("append, closing and dropping among 700", append),
        ("close", stack::depth(|| assert_eq!(closing.close(), 0))),
        ("drop", stack::depth(|| assert_eq!(dropping.drop_oldest(), 0))),
        ("append keeping counts, closing and dropping among 700", append_kept),
        ("drop keeping counts", stack::depth(|| assert_eq!(keeping.drop_kept(&mut kept), 0))),
        ("format keeping counts", stack::depth(|| assert_eq!(keeping.format_kept(&mut kept), 0))),
        ("import, closing and dropping among 700", stack::depth(|| assert_eq!(importing.import(&text), (0, 0)))),
        (
            "import keeping counts, closing and dropping among 700",
            stack::depth(|| assert_eq!(import_keeping.import_kept(&mut import_kept, &text), (0, 0))),
        ),
        ("export", stack::depth(|| assert_eq!(old.export(&window, &mut text_area).0, 0))),
        ("search", stack::depth(|| assert_eq!(old.find(&window, &mut rows, &mut found), 0))),
        ("tally", stack::depth(|| assert_eq!(old.by_plate(window.t1, window.t2, &mut counts), 0))),
        ("page", stack::depth(|| assert_eq!(old.page(window.t1, window.t2, &mut page), 0))),
        (
            "plate, on either stack",
            stack::depth(|| (0..2).for_each(|at| assert_eq!(Proved::plate(at, 2_500, &mut plate), 0))),
        ),
        ("forward", stack::depth(|| assert_eq!(carried.old.forward(&mut to_new), 0))),
        ("backward", stack::depth(|| assert_eq!(backward(&carried.new, &mut to_old), 0))),
    ]
}

fn main() {
    let words: Vec<String> = std::env::args().skip(1).collect();
    let words: Vec<&str> = words.iter().map(String::as_str).collect();
    match words[..] {
        ["report", symbols] => report(symbols),
        ["pages"] => pages_read::print(),
        ["searches"] => search_lines::print(),
        ["pairs"] => pairs::table(&SIZES.map(pairs::measured)),
        ["tolerant"] => tolerant::table(&SIZES.map(tolerant::measured)),
        ["kept"] => kept::table(&SIZES.map(kept::measured)),
        ["csv"] => csv::table(&CSV_SIZES.map(csv::measured)),
        _ => {
            eprintln!("bench report SYMBOLS | bench pages | searches | pairs | tolerant | kept | csv");
            std::process::exit(2);
        }
    }
}

/// All contenders; `symbols` are the archive's undefined ones.
fn report(symbols: &str) {
    let seen = agree::check();
    println!(
        "Store and (a) give the same numbers, bytes, rows, counts and pages on damaged chips, odd states, odd arguments;"
    );
    println!("answers by number, 0 first: {seen:?}.");
    let [(mut small, first), (_, second), (mut large, third)] = SIZES.map(measured);
    let carried = CONVERTED_SIZES.map(|slots| conversions(slots, report::CONVERSIONS));
    let lookups = [0, 1].map(|place| lookups(place, report::LOOKUPS[place as usize]));
    let by_size = first.into_iter().chain(second).chain(third);
    let lines: Vec<Line> = by_size.chain(carried.into_iter().flatten()).chain(lookups).collect();
    println!("All contenders find the same rows and counts.\n");
    println!("Nanoseconds of processor time a call: the median round (the smallest to the largest).");
    println!(
        "Lifts: found, counted or carried over by a call, on average. Ratios: the median of the rounds' ratios.\n"
    );
    report::table(&lines);
    let paired = SIZES.map(pairs::measured);
    println!(
        "\nPairs of two machines, in the same manner: the store's call, a search of each whole log by the store, and"
    );
    println!("the pairing alone by hand on two arrays of the rows that these searches give. Store and hand agree.\n");
    pairs::table(&paired);
    let tolerated = SIZES.map(tolerant::measured);
    println!(
        "\nTolerant searches, in the same manner, of loads good to 25: the store's call and (a)'s; by the store, one"
    );
    println!("search of the widened range, and two, of the narrowed and of the widened. All find the same rows.\n");
    tolerant::table(&tolerated);
    let kept = SIZES.map(kept::measured);
    println!("\nAppends and drops that keep counts, by the store and by (a), in turns with the plain calls. Counts and chips");
    println!("are the same for all, and the counts are those of a tally of the whole log.\n");
    kept::table(&kept);
    let csv = CSV_SIZES.map(csv::measured);
    println!(
        "\nExports and imports, in the same manner but in nanoseconds a lift: an import in turns with the appends that"
    );
    println!(
        "it makes, one by one on a twin; an export in turns with a search whose rows are written as text by hand."
    );
    println!("Stores, counts and texts are the same for both.\n");
    csv::table(&csv);
    println!();
    report::front_screen(&lines);
    let mut depths = depths();
    depths.extend(paired.last().map(|line| (report::PAIRS_STACK, line.stack)));
    depths.extend(tolerated.last().map(|size| (report::TOLERANT_STACK, size.stack)));
    let tolerant_lines = tolerated.into_iter().flat_map(|size| size.lines).map(|line| line.line);
    let times_plain = kept.each_ref().map(|[append, _]| append.times_plain());
    let kept_lines = kept.into_iter().flatten().map(|line| line.line);
    let lines: Vec<Line> = lines.into_iter().chain(tolerant_lines).chain(kept_lines).collect();
    println!();
    report::stacks(&depths);
    report::plans(&large.sqlite_plans());
    println!();
    let ratios = report::Ratios {
        large_to_small: append_ratio(&mut small, &mut large),
        kept_to_plain: times_plain,
        csv: csv.iter().flatten().map(|line| line.times()).collect(),
    };
    report::targets(&lines, &ratios, &depths, symbols);
    println!("\n## Where others are faster\n");
    report::faster(&lines);
}
