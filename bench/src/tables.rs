//! The measurements, and the tables of them in Markdown.
use std::fmt::Write;

use crate::data::{Data, Shape};
use crate::entries::{entries_of, in_full, run, Entry, KINDS, SMALL};
use crate::goals::{Inputs, BASE, GOALS};
use crate::plot::{thousands, Line, Panel};
use crate::race::{race, Rounds, Times, Who, CACHED, MIDDLE};
use crate::rust;

/// The best times for each entry on one set of inputs.
pub struct Set {
    /// Of `KINDS`.
    pub kind: usize,
    pub items: u32,
    times: Vec<(Entry, Times)>,
}

impl Set {
    fn name(&self) -> String {
        let name = match KINDS[self.kind].1 {
            Shape::Mixed => "the mix: four fifths origins of both families, 4% router keys, the rest ASPAs",
            _ => KINDS[self.kind].0,
        };
        format!("{} items, {name}", thousands(self.items.into()))
    }
}

fn of(times: &[(Entry, Times)], entry: Entry) -> Times {
    times.iter().find(|(e, _)| *e == entry).map_or(Times::default(), |(_, times)| *times)
}

pub fn measure(entries: &[Entry], data: Data, rounds: u32) -> Vec<(Entry, Times)> {
    let mut times = Vec::new();
    run(entries, data, &mut |entry, mut contest| {
        eprintln!("{} items: {entry}", data.items);
        times.push((entry, race(Rounds::new(rounds, contest.fields), &mut contest)));
    });
    times
}

/// Each kind, large and small.
pub fn sets(rounds: u32) -> Vec<Set> {
    let both = (0..KINDS.len()).flat_map(|kind| [(kind, KINDS[kind].2), (kind, SMALL)]);
    both.map(|(kind, items)| {
        let shape = KINDS[kind].1;
        Set { kind, items, times: measure(&entries_of(shape), Data::new(shape, items), rounds) }
    })
    .collect()
}

//------------ Tables --------------------------------------------------------

/// A table: the heads, and in each row as many cells.
pub fn table(heads: &[String], rows: impl Iterator<Item = Vec<String>>) -> String {
    let line = |cells: &[String]| format!("| {} |\n", cells.join(" | "));
    let mut out = line(heads) + &"|---".repeat(heads.len()) + "|\n";
    rows.for_each(|row| out += &line(&row));
    out + "\n"
}

pub fn strings<T: ToString>(first: &str, rest: impl IntoIterator<Item = T>) -> Vec<String> {
    std::iter::once(first.to_string()).chain(rest.into_iter().map(|c| c.to_string())).collect()
}

pub fn number(ratio: Option<f64>) -> String {
    match ratio {
        None => "-".into(),
        Some(r) if r >= 100.0 => format!("{r:.0}"),
        Some(r) if r >= 10.0 => format!("{r:.1}"),
        Some(r) if r < 0.01 => "< 0.01".into(),
        Some(r) => format!("{r:.2}"),
    }
}

pub fn goals(rounds: u32, sets: &[Set], growing: &[(Entry, Times)]) -> String {
    let large = |shape: Shape| {
        sets.iter().find(|s| KINDS[s.kind].1 == shape && s.items == KINDS[s.kind].2).expect("it is measured")
    };
    let rows = GOALS.iter().map(|goal| {
        let (which, measured) = match (goal.inputs, goal.entry) {
            (Inputs::Growing, _) => (", nothing cancels", vec![growing]),
            (Inputs::Large, entry) => (
                if matches!(entry, Entry::Query(_)) { ", most cancels" } else { "" },
                vec![&large(Shape::Origins4).times[..], &large(Shape::Mixed).times],
            ),
        };
        let ratios = measured.iter().map(|times| of(times, goal.entry).against(goal.against));
        let ratios: Vec<Option<f64>> = ratios.collect();
        let verdict = |ratio: &Option<f64>| match ratio.map(|r| goal.limit.met(r)) {
            Some(true) => "met".into(),
            Some(false) => "missed".into(),
            None => "-".into(),
        };
        vec![
            format!("{}{which} : {}", goal.entry, goal.against),
            goal.base.into(),
            bracketed(ratios.iter().map(|r| number(*r)).collect()),
            goal.limit.to_string(),
            bracketed(ratios.iter().map(verdict).collect()),
        ]
    });
    let heads = strings("library : other", [&format!("base ({BASE})"), "now", "goal", "met"]);
    let missing = if rust::THERE { "" } else { "The Rust's source was not there.\n\n" };
    let [small, middle, large] =
        [CACHED, MIDDLE, MIDDLE + 1].map(|fields| Rounds::new(rounds, fields).runs());
    format!(
        "## Goals\n\n500,000 IPv4 origins, of which about 1,000 change at each step, and in brackets the mix, held against the same goals. Where nothing cancels: 65,000 IPv4 origins, 1,000 more at each step. These and all ratios below are of one run, interleaved, the best of {large} runs of each, of {middle} on inputs of at most 250,000 fields, and of {small} on at most 25,000, which stay in the cache; who worked for more than a second ran less often.\n\n{missing}{}",
        table(&heads, rows)
    )
}

/// The first, and the second in brackets.
fn bracketed(cells: Vec<String>) -> String {
    match &cells[..] {
        [first, second] => format!("{first} ({second})"),
        _ => cells.concat(),
    }
}

pub fn others(sets: &[Set]) -> String {
    let mut out = String::from("## The library against others\n\nHow many times as long as each the library takes. The Rust on parsed values checks nothing; from bytes it parses, and encodes what it made; the plain check is plain Rust for 01's rules over the same inputs; memcpy copies them. The check is a call that checks its first argument and then refuses the second, one bad byte. Merges are of two deltas of about 1,000 changes, and of two with as many fields as the snapshot has items. A query and an update check the whole history that they are lent, here of 64 deltas and of 2. The Rust has no application and no query from bytes, its query at d = 1 copies a pointer, and it has no way to parse a delta but by way of snapshots.\n\n");
    let against = [Who::Parsed, Who::Bytes, Who::Plain, Who::Memcpy];
    for set in sets.iter().filter(|s| in_full(KINDS[s.kind].1)) {
        let row = |(entry, times): &(Entry, Times)| {
            strings(&entry.to_string(), against.map(|who| number(times.against(who))))
        };
        write!(out, "### {}\n\n", set.name()).expect("a string takes all");
        out += &table(&strings("", against), set.times.iter().map(row));
    }
    out
}

pub fn kinds(sets: &[Set]) -> String {
    let columns = [
        (Entry::Check, Who::Plain),
        (Entry::Check, Who::Memcpy),
        (Entry::CheckDelta, Who::Plain),
        (Entry::CheckDelta, Who::Memcpy),
        (Entry::Construct, Who::Parsed),
        (Entry::Merge, Who::Parsed),
        (Entry::MergeLong, Who::Parsed),
        (Entry::Apply, Who::Plain),
        (Entry::Update, Who::Parsed),
    ];
    let rows = sets.iter().map(|set| {
        let name = format!("{}, {}", KINDS[set.kind].0, thousands(set.items.into()));
        strings(&name, columns.map(|(entry, who)| number(of(&set.times, entry).against(who))))
    });
    let heads = strings("", columns.map(|(entry, who)| format!("{entry} : {who}")));
    format!("## Each kind alone\n\nLibrary : other, of large snapshots and of small ones that stay in the cache.\n\n{}", table(&heads, rows))
}

pub fn beyond_checks(sets: &[Set], growing: &[(Entry, Times)]) -> String {
    let mut out = String::from("## The walk apart from the check\n\nThe checks of a call, measured in the same race: the same call with one bad byte behind its last input, which is refused when all before it is checked; for a query the one at d = 0, which walks nothing. What the call takes beyond that is its own work (the difference; the walk; for an update the difference and the stores), here in units of the Rust on parsed values, which checks nothing, and of memcpy of the inputs. A dash where there is no such other, or where less than 3% of the call is left, which is too little to be measured so.\n\n");
    let row = |(entry, times): &(Entry, Times)| {
        let share = times.against(Who::Checks).map_or("-".into(), |r| format!("{:.0}%", 100.0 / r));
        let beyond = [Who::Parsed, Who::Memcpy].map(|who| number(times.beyond_checks(who)));
        strings(&entry.to_string(), std::iter::once(share).chain(beyond))
    };
    let heads = strings("", ["checks, of the whole call", "the rest : Rust, parsed", "the rest : memcpy"]);
    let table_of = |times: &[(Entry, Times)]| {
        table(&heads, times.iter().filter(|(_, times)| times.of(Who::Checks).is_some()).map(row))
    };
    for set in sets.iter().filter(|s| in_full(KINDS[s.kind].1)) {
        write!(out, "### {}\n\n{}", set.name(), table_of(&set.times)).expect("a string takes all");
    }
    out + "### 65,000 IPv4 origins, nothing cancels\n\n" + &table_of(growing)
}

//------------ Growth --------------------------------------------------------

const RACERS: [Who; 5] = [Who::Library, Who::Parsed, Who::Bytes, Who::Plain, Who::Memcpy];

/// The table and plot of growth with the items of a snapshot, up to what a snapshot can hold.
pub fn growth_of_items(rounds: u32, panels: &mut Vec<Panel>) -> String {
    let mut out = String::from("## Growth\n\n![how time grows](growth.svg)\n\nTime for each item of a snapshot, in units of the time at the fewest items. A snapshot of 16,777,216 bytes is the limit: 645,277 origins; 1,500,000 ASPAs of one provider are near it. In the plot both axes are logarithmic. Across stand the items of a snapshot, or how many serials the router is behind; up stands the time of one whole call, in units of the library's at the fewest items or at d = 1. Up to 10,000 items the inputs stay in the nearest caches; beyond that they do not, and every contender takes longer for each item, memcpy most.\n\n");
    for (kind, shape, sizes) in [
        ("IPv4 origins", Shape::Origins4, [1_000, 10_000, 100_000, 645_277]),
        ("ASPAs of one provider", Shape::Aspas(1), [1_000, 10_000, 100_000, 1_500_000]),
    ] {
        let entries = [Entry::Check, Entry::Construct];
        let measured = sizes.map(|n| measure(&entries, Data::new(shape, n), rounds));
        for (i, entry) in entries.iter().enumerate() {
            let title = format!("{entry}, {kind}");
            let times = sizes.iter().zip(&measured).map(|(n, m)| (f64::from(*n), m[i].1));
            let times: Vec<(f64, Times)> = times.collect();
            let each = |who| times.iter().map(move |(n, t)| t.of(who).map(|t| t / n));
            let racers = RACERS.iter().filter(|who| times[0].1.of(**who).is_some());
            let rows = racers.map(|who| {
                let first = each(*who).next().flatten();
                strings(&who.to_string(), each(*who).map(|t| number(t.zip(first).map(|(t, f)| t / f))))
            });
            out += &table(&strings(&title, sizes.map(|n| thousands(n.into()))), rows);
            panels.push(panel(
                title,
                "items of a snapshot",
                "time of a call (library, fewest items = 1)",
                &times,
            ));
        }
    }
    out
}

/// The same with how far behind a router is.
pub fn growth_of_distance(sets: &[(&str, Vec<(Entry, Times)>)], panels: &mut Vec<Panel>) -> String {
    let mut out = String::from("Times of a query, in units of the library's at d = 1; its walk, which is what it takes beyond its checks, in units of the Rust's whole query.\n\n");
    for (name, measured) in sets {
        let title = format!("query, {name}");
        let times: Vec<(f64, Times)> = measured.iter().map(|(e, t)| (distance(*e), *t)).collect();
        let unit = times[0].1.of(Who::Library);
        let row = |name: &str, cell: &dyn Fn(&Times) -> Option<f64>| {
            strings(name, times.iter().map(|(_, t)| number(cell(t))))
        };
        let per_unit = |who| move |t: &Times| Some(t.of(who)? / unit?);
        let rows = [
            row("library", &per_unit(Who::Library)),
            row("its checks", &per_unit(Who::Checks)),
            row("Rust, parsed", &per_unit(Who::Parsed)),
            row("library : Rust", &|t| t.against(Who::Parsed)),
            row("walk : Rust", &|t| t.beyond_checks(Who::Parsed)),
        ];
        out += &table(&strings(&title, times.iter().map(|(d, _)| format!("d = {d}"))), rows.into_iter());
        panels.push(panel(
            title,
            "d: how many serials the router is behind",
            "time of a query (library, d = 1 is 1)",
            &times,
        ));
    }
    out
}

fn distance(entry: Entry) -> f64 {
    match entry {
        Entry::Query(d) => d.into(),
        _ => unreachable!("only queries have a distance"),
    }
}

/// The lines of all that ran, in units of the library's first.
fn panel(title: String, x: &'static str, y: &'static str, times: &[(f64, Times)]) -> Panel {
    let unit = times[0].1.of(Who::Library).expect("the library ran");
    let points = |who| times.iter().filter_map(move |(x, t)| Some((*x, t.of(who)? / unit))).collect();
    let lines = RACERS.iter().map(|who| Line { name: who.to_string(), points: points(*who) });
    Panel { title, x, y, lines: lines.filter(|l| !l.points.is_empty()).collect() }
}
