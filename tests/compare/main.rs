//! Holds the built library and the programs to the model: random lists, damaged stores and conversions, one script,
//! random inputs.
mod bases;
mod convert;
mod counted;
mod counts;
mod damage;
mod difference;
mod edges;
mod figures;
mod files;
mod habits;
mod imported;
mod imports;
mod judge;
mod lengths;
mod lines;
mod lists;
mod mids;
mod page_rules;
mod pages_read;
mod paired;
mod pairs;
mod patterns;
mod programs;
mod random;
mod reached;
mod shorten;
mod stacks;
mod states;
mod tolerant;
mod tolerated;
mod trial;
mod walks;

use judge::{Difference, Judge, Step};
use script::command::Command;
use script::parse::parse;
use std::process::ExitCode;
use std::time::{Duration, Instant};
use trial::Trial;

const USAGE: &str = "compare random SECONDS SEED FOLDER | compare fixed SCRIPT.. | compare write SEED KIND | \
                     compare lines SECONDS SEED FOLDER | compare input SEED | \
                     compare stacks SECONDS SEED FOLDER | compare stack_list SEED";

type Kind = (&'static str, fn(&mut Trial) -> Step);
const LARGE: Kind = ("large", lists::on_largest_chip);
const KINDS: [Kind; 11] = [
    ("list", lists::short_or_long),
    ("damage", damage::rounds),
    ("state", states::rounds),
    ("edge", edges::rounds),
    ("convert", convert::rounds),
    ("walk", walks::rounds),
    ("pairs", pairs::rounds),
    ("tolerant", tolerant::rounds),
    ("counts", counts::rounds),
    ("imports", imports::rounds),
    LARGE,
];

/// The kind of the list at a place in the run. The largest chip is slow, so it comes seldom.
fn kind_at(place: u64) -> Kind {
    match place {
        place if place % 1000 == 100 => LARGE,
        place => KINDS[[0, 1, 4, 6, 7, 8, 9, 0, 5, 1, 2, 9, 0, 8, 6, 7, 4, 1, 3][(place % 19) as usize]],
    }
}

fn main() -> ExitCode {
    let words: Vec<String> = std::env::args().skip(1).collect();
    let words: Vec<&str> = words.iter().map(String::as_str).collect();
    match run(&words) {
        Ok(()) => ExitCode::SUCCESS,
        Err(problem) => {
            println!("{problem}");
            ExitCode::FAILURE
        }
    }
}

fn run(words: &[&str]) -> Result<(), String> {
    let usage = || USAGE.to_string();
    let number = |word: &str| word.parse().map_err(|_| usage());
    match *words {
        ["random", seconds, seed, folder] => random_run(number(seconds)?, number(seed)?, folder),
        ["fixed", ref scripts @ ..] => fixed_run(scripts),
        ["write", seed, kind] => {
            let kind = KINDS.iter().find(|(name, _)| *name == kind);
            write_script(number(seed)?, kind.ok_or_else(usage)?)
        }
        ["lines", seconds, seed, folder] => lines::random_run(number(seconds)?, number(seed)?, folder),
        ["input", seed] => lines::write_input(number(seed)?),
        ["stacks", seconds, seed, folder] => stacks::random_run(number(seconds)?, number(seed)?, folder),
        ["stack_list", seed] => stacks::write_list(number(seed)?),
        _ => Err(usage()),
    }
}

fn text_of(commands: &[Command]) -> String {
    commands.iter().map(|command| format!("{command}\n")).collect()
}

/// Prints the script of a seed, made with the model alone.
fn write_script(seed: u64, (_, generate): &Kind) -> Result<(), String> {
    let mut judge = Judge::of_model_alone();
    let mut trial = Trial::new(&mut judge, seed);
    generate(&mut trial).map_err(|Difference(what)| what)?;
    print!("{}", text_of(&trial.commands));
    Ok(())
}

/// Runs stored scripts; together they must meet every number of every call and of the generator.
fn fixed_run(scripts: &[&str]) -> Result<(), String> {
    let mut judge = Judge::of_library();
    for script in scripts {
        judge.begin_anew();
        let text = std::fs::read_to_string(script).map_err(|error| format!("{script}: {error}"))?;
        for (index, line) in text.lines().enumerate() {
            let told = |what: String| format!("{script}, line {}: {what}", index + 1);
            let Some(command) = parse(line).map_err(told)? else { continue };
            judge.perform(&command).map_err(|Difference(what)| told(what))?;
        }
    }
    judge.figures.print();
    judge.figures.lists.print();
    let missing = judge.figures.missing();
    if !missing.is_empty() {
        return Err(format!("the scripts never meet: {}", missing.join(", ")));
    }
    Ok(())
}

fn random_run(seconds: u64, first_seed: u64, folder: &str) -> Result<(), String> {
    let begun = Instant::now();
    let mut judge = Judge::of_library();
    let mut lists = 0;
    while begun.elapsed() < Duration::from_secs(seconds) {
        let seed = first_seed.wrapping_add(lists);
        let (name, generate) = kind_at(lists);
        note_list_under_way(folder, seed, name)?;
        let mut trial = Trial::new(&mut judge, seed);
        if let Err(Difference(what)) = generate(&mut trial) {
            return Err(report(seed, name, &what, trial.commands, folder));
        }
        lists += 1;
    }
    judge.figures.print();
    print_seeds(first_seed, lists, begun);
    println!("{} calls in {lists} scripts, no difference", judge.figures.total_calls());
    Ok(())
}

fn print_seeds(first_seed: u64, seeds: u64, begun: Instant) {
    let last_seed = first_seed.wrapping_add(seeds).wrapping_sub(1);
    println!("seeds {first_seed} to {last_seed}, {:.1} seconds", begun.elapsed().as_secs_f64());
}

/// If the library stops the whole program, the file tells which list it was.
fn note_list_under_way(folder: &str, seed: u64, kind: &str) -> Result<(), String> {
    std::fs::write(format!("{folder}/under_way"), format!("{seed} {kind}\n")).map_err(|error| error.to_string())
}

/// Writes the script that shows a difference, shortened, and tells its name.
fn report(seed: u64, kind: &str, what: &str, commands: Vec<Command>, folder: &str) -> String {
    let mut told = format!("DIFFERENCE in {kind}, seed {seed}: {what}\n");
    let taken = |commands: &[Command]| shorten::first_difference(commands).map(|(taken, _)| taken);
    let commands = shorten::shortened(commands, taken);
    told += &match shorten::first_difference(&commands) {
        Some((_, Difference(what))) => format!("shown by the script: {what}\n"),
        None => "no line of the script shows it: it leads up to the call with wrong lengths\n".to_string(),
    };
    let name = format!("{folder}/difference-{kind}-{seed}.script");
    told += &match std::fs::write(&name, text_of(&commands)) {
        Ok(()) => format!("script of {} lines: {name}", commands.len()),
        Err(error) => format!("{name}: {error}"),
    };
    told
}
