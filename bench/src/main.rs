//! Measures the library against the Rust, plain Rust on bytes and memcpy.
//!
//! - `bench race FOLDER [ROUNDS]` times all in one run, interleaved, and takes the best of each. It prints tables
//!   of ratios and writes them to FOLDER/goals.md and FOLDER/tables.md, and a plot to FOLDER/growth.svg. Times
//!   themselves say more of a machine than of the library, so there are none. `bench/run` starts this.
//! - `bench messages FOLDER [ROUNDS]` measures the router messages alone, and writes FOLDER/messages.md.
//! - `bench appliance ITEMS RUNS` prints a table of 384 queries in one call.
//! - `bench judge FOLDER [ROUNDS [MOST]]` times the judge of other caches' messages, up to MOST of them, and writes
//!   FOLDER/judge.md. `bench/run` starts this too.
//! - `bench names` prints what can be counted, and `bench count ENTRY KIND WHO TIMES` runs one of those so many
//!   times and prints how many fields its inputs have. `bench/count` starts these.
mod appliance;
mod data;
mod entries;
mod goals;
mod judge;
mod messages;
mod plain;
mod plot;
mod race;
#[cfg_attr(not(routinator), path = "no_rust.rs")]
mod rust;
mod tables;

use std::path::Path;

use data::{Data, Shape};
use entries::{entries_of, Entry, ENTRIES, KINDS, SMALL};
use race::Who;

fn main() {
    let words: Vec<String> = std::env::args().skip(1).collect();
    match words.iter().map(String::as_str).collect::<Vec<_>>()[..] {
        ["race", folder] => race_all(Path::new(folder), 15),
        ["race", folder, rounds] => race_all(Path::new(folder), rounds.parse().expect("a number of rounds")),
        ["messages", folder] => messages(Path::new(folder), 15),
        ["messages", folder, rounds] => {
            messages(Path::new(folder), rounds.parse().expect("a number of rounds"))
        }
        ["appliance", items, runs] => {
            let number = |word: &str| word.parse().expect("a number");
            print!("{}", appliance::run(number(items), number(runs)));
        }
        ["judge", folder] => judge(Path::new(folder), 3, usize::MAX),
        ["judge", folder, rounds] => judge(Path::new(folder), rounds.parse().expect("a number"), usize::MAX),
        ["judge", folder, rounds, most] => {
            judge(Path::new(folder), rounds.parse().expect("a number"), most.parse().expect("a number"))
        }
        ["names"] => names(),
        ["count", entry, kind, who, times] => {
            count(entry, kind, who, times.parse().expect("a number of times"))
        }
        _ => {
            eprintln!("usage: bench race FOLDER [ROUNDS] | messages FOLDER [ROUNDS] | appliance ITEMS RUNS | judge FOLDER [ROUNDS [MOST]] | names | count ENTRY KIND WHO TIMES");
            std::process::exit(2);
        }
    }
}

fn race_all(folder: &Path, rounds: u32) {
    let sets = tables::sets(rounds);
    let distances = [1, 2, 4, 8, 16, 32, 63].map(Entry::Query);
    // 23, and not a divisor of 63: else d = 63 is a whole turn of the changes, and nothing is left of them
    let cancels = Data { shape: Shape::Origins4, items: SMALL, every: 23 };
    let grows = Data::new(Shape::Growing, 65_000);
    let together = Data::new(Shape::Together, 65_000);
    let walks = [
        ("most changes cancel", cancels),
        ("nothing cancels", grows),
        ("nothing cancels, changes come in runs of 50", together),
    ]
    .map(|(name, data)| (name, tables::measure(&distances, data, rounds)));
    let growing = &walks[1].1;
    let goals = tables::goals(rounds, &sets, growing);
    let mut panels = Vec::new();
    let tables = [
        tables::others(&sets),
        tables::kinds(&sets),
        tables::beyond_checks(&sets, growing),
        tables::growth_of_items(rounds, &mut panels),
        tables::growth_of_distance(&walks, &mut panels),
    ]
    .concat();
    print!("{goals}{tables}");
    for (name, text) in [("goals.md", goals), ("tables.md", tables), ("growth.svg", plot::plot(&panels))] {
        std::fs::write(folder.join(name), text).expect("the folder can be written");
    }
}

fn messages(folder: &Path, rounds: u32) {
    let tables = messages::tables(rounds);
    print!("{tables}");
    std::fs::write(folder.join("messages.md"), tables).expect("the folder can be written");
}

fn judge(folder: &Path, rounds: u32, most: usize) {
    let text = judge::judge(rounds, most);
    print!("{text}");
    std::fs::write(folder.join("judge.md"), text).expect("the folder can be written");
}

/// Who is counted.
const COUNTED: [Who; 4] = [Who::Library, Who::Checks, Who::Parsed, Who::Plain];

/// Each that is there, its words parted by tabs. The plain check is left out where the Rust is beside the library.
fn names() {
    for (kind, shape, _) in KINDS {
        entries::run(&entries_of(shape), Data::new(shape, SMALL), &mut |entry, contest| {
            let there = |who: Who| contest.contenders[who as usize].is_some();
            let left_out = |who: Who| who == Who::Plain && there(Who::Parsed);
            for who in COUNTED.into_iter().filter(|who| there(*who) && !left_out(*who)) {
                println!("{entry}\t{kind}\t{who}");
            }
        });
    }
}

fn count(entry: &str, kind: &str, who: &str, times: u32) {
    let named = |words: &str, name: &dyn ToString| name.to_string() == words;
    let entry = *ENTRIES.iter().find(|e| named(entry, e)).expect("a name of an entry");
    let (_, shape, _) = *KINDS.iter().find(|k| k.0 == kind).expect("a name of a kind");
    let who = *COUNTED.iter().find(|w| named(who, w)).expect("a name of a contender");
    entries::run(&[entry], Data::new(shape, SMALL), &mut |_, mut contest| {
        let run = contest.contenders[who as usize].as_mut().expect("it is there");
        for _ in 0..times {
            run();
        }
        println!("{}", contest.fields);
    });
}
