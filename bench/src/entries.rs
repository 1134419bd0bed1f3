//! What is measured: the library's entries and their contenders, in one table that all modes share.
use std::fmt;
use std::hint::black_box;

use oracle::field::fields;
use taplevung::{raw, Serial, Session, DELTA_LIMIT, SNAPSHOT_LIMIT};

use crate::data::{Data, Shape};
use crate::plain;
use crate::race::{just, Contender, Contest};
use crate::rust;

#[derive(Clone, Copy, Debug, PartialEq)]
pub enum Entry {
    /// Of a snapshot.
    Check,
    /// Of a delta with as many fields as the snapshot has; of ASPAs two thirds.
    CheckDelta,
    Construct,
    /// Of deltas of about 1,000 changes, whatever the snapshots: the time depends on the deltas alone.
    Merge,
    /// Of deltas as long as that of `CheckDelta`.
    MergeLong,
    Apply,
    Update,
    /// Of a router that is so many serials behind, in a history of 64 deltas.
    Query(u32),
}

pub const ENTRIES: [Entry; 10] = [
    Entry::Check,
    Entry::CheckDelta,
    Entry::Construct,
    Entry::Merge,
    Entry::MergeLong,
    Entry::Apply,
    Entry::Update,
    Entry::Query(1),
    Entry::Query(8),
    Entry::Query(63),
];

impl fmt::Display for Entry {
    fn fmt(&self, f: &mut fmt::Formatter<'_>) -> fmt::Result {
        f.pad(match self {
            Entry::Check => "check",
            Entry::CheckDelta => "check of a delta",
            Entry::Construct => "construct",
            Entry::Merge => "merge",
            Entry::MergeLong => "merge of long deltas",
            Entry::Apply => "apply",
            Entry::Update => "update",
            Entry::Query(d) => return write!(f, "query, d = {d}"),
        })
    }
}

/// The kinds of items, and how many are a large snapshot.
pub const KINDS: [(&str, Shape, u32); 5] = [
    ("IPv4 origins", Shape::Origins4, 500_000),
    ("IPv6 origins", Shape::Origins6, 500_000),
    ("router keys", Shape::Keys, 100_000),
    ("ASPAs", Shape::Aspas(6), 500_000),
    ("the mix", Shape::Mixed, 500_000),
];

/// Whether a kind is measured with queries, whose histories take long to make.
pub fn in_full(shape: Shape) -> bool {
    matches!(shape, Shape::Origins4 | Shape::Mixed)
}

pub fn entries_of(shape: Shape) -> Vec<Entry> {
    ENTRIES.iter().copied().filter(|e| in_full(shape) || !matches!(e, Entry::Query(_))).collect()
}

/// How many items are a small snapshot.
pub const SMALL: u32 = 10_000;

/// What is done with the contenders for an entry.
pub type Judge<'j> = dyn FnMut(Entry, Contest<'_>) + 'j;

/// Prepares each entry on this data and hands it to the judge.
pub fn run(entries: &[Entry], data: Data, judge: &mut Judge<'_>) {
    for entry in entries {
        match entry {
            Entry::Check => check(data, judge),
            Entry::CheckDelta => check_delta(data.changing(data.items), judge),
            Entry::Construct => construct(data, judge),
            Entry::Merge => merge(*entry, data.changing(1000), judge),
            Entry::MergeLong => merge(*entry, data.changing(data.items), judge),
            Entry::Apply => apply(data, judge),
            Entry::Update => update(data, judge),
            Entry::Query(_) => {} // all on one history, below
        }
    }
    let distances: Vec<u32> =
        entries.iter().filter_map(|e| if let Entry::Query(d) = e { Some(*d) } else { None }).collect();
    if !distances.is_empty() {
        queries(data, &distances, judge);
    }
}

/// An input: a delta or a snapshot.
type Part<'a> = (bool, &'a [u8]);

fn contest<'a>(
    parts: &'a [Part<'a>],
    library: Contender<'a>,
    checks: Contender<'a>,
    [parsed, bytes]: [Contender<'a>; 2],
) -> Contest<'a> {
    let plain =
        just(|| parts.iter().for_each(|(delta, part)| plain::check(*delta, part).expect("a good input")));
    let mut copy: Vec<Vec<u8>> = parts.iter().map(|(_, part)| vec![1; part.len()]).collect();
    let memcpy = just(move || {
        copy.iter_mut().zip(parts).for_each(|(to, (_, from))| to.copy_from_slice(black_box(from)));
        black_box(&copy);
    });
    Contest {
        fields: parts.iter().map(|(_, part)| fields(part).count()).sum(),
        contenders: [library, checks, parsed, bytes, plain, memcpy],
    }
}

/// The input with one byte more, which is no field: whatever comes before is checked, and nothing else is done.
fn spoilt(input: &[u8]) -> Vec<u8> {
    [input, &[0xff]].concat()
}

fn refused(answer: raw::Answer, argument: u32, offset: usize) {
    let wanted = (0, 1, argument, offset as u64);
    assert_eq!((answer.kind, answer.number, answer.argument, answer.offset), wanted);
}

fn check(data: Data, judge: &mut Judge<'_>) {
    let snapshot = data.snapshot(0);
    let library = just(|| refused(raw::construct(&snapshot, &[0xff], Serial(0), &mut []), 2, 0));
    judge(Entry::Check, contest(&[(false, &snapshot)], library, None, [None, None]));
}

fn check_delta(data: Data, judge: &mut Judge<'_>) {
    let delta = data.delta(0);
    let library = just(|| refused(raw::merge(&delta, &[0xff], Serial(0), &mut []), 2, 0));
    judge(Entry::CheckDelta, contest(&[(true, &delta)], library, None, [None, None]));
}

fn construct(data: Data, judge: &mut Judge<'_>) {
    let (old, new) = (data.snapshot(0), data.snapshot(1));
    let bad = spoilt(&new);
    let mut out = vec![0; old.len() + new.len()];
    let library = just(|| assert_eq!(raw::construct(&old, &new, Serial(0), &mut out).kind, 1));
    let checks = just(|| refused(raw::construct(&old, &bad, Serial(0), &mut []), 2, new.len()));
    let parts = [(false, &old[..]), (false, &new)];
    judge(Entry::Construct, contest(&parts, library, checks, rust::construct(&old, &new)));
}

fn merge(entry: Entry, data: Data, judge: &mut Judge<'_>) {
    let (earlier, later) = (data.delta(0), data.delta(1));
    let bad = spoilt(&later);
    let mut out = vec![0; earlier.len() + later.len()];
    let library = just(|| assert_eq!(raw::merge(&earlier, &later, Serial(2), &mut out).kind, 1));
    let checks = just(|| refused(raw::merge(&earlier, &bad, Serial(2), &mut []), 2, later.len()));
    let parts = [(true, &earlier[..]), (true, &later)];
    judge(entry, contest(&parts, library, checks, rust::merge(&earlier, &later)));
}

/// The Rust applies no deltas.
fn apply(data: Data, judge: &mut Judge<'_>) {
    let (snapshot, delta) = (data.snapshot(0), data.delta(0));
    let bad = spoilt(&delta);
    let mut out = vec![0; snapshot.len() + delta.len()];
    let library = just(|| assert_eq!(raw::apply(&snapshot, &delta, &mut out).kind, 1));
    let checks = just(|| refused(raw::apply(&snapshot, &bad, &mut []), 2, delta.len()));
    let parts = [(false, &snapshot[..]), (true, &delta)];
    judge(Entry::Apply, contest(&parts, library, checks, [None, None]));
}

/// From the second step's snapshot back to the first's, and so on.
fn update(data: Data, judge: &mut Judge<'_>) {
    let (old, new) = (data.snapshot(0), data.snapshot(1));
    let (two, bad) = ([&old[..], &new], spoilt(&old));
    let (mut held, mut kept) = (Held::new(data, 2, 1), Held::new(data, 2, 1));
    let mut step = 0;
    let library = just(|| {
        held.update(two[step % 2]);
        step += 1;
    });
    let checks = just(|| refused(kept.try_update(&bad).answer, 1, old.len()));
    let parts = two.map(|part| (false, part));
    judge(Entry::Update, contest(&parts, library, checks, rust::update(two)));
}

/// With d = 0 the history is checked and nothing walked.
fn queries(data: Data, distances: &[u32], judge: &mut Judge<'_>) {
    let held = Held::new(data, 64, 64);
    let length = held.state.deltas.iter().sum::<u32>() as usize;
    let (snapshot, mut rest) = (&held.snapshots[..held.state.snapshot as usize], &held.deltas[..length]);
    let mut parts = vec![(false, snapshot)];
    for n in held.state.deltas {
        let (delta, later) = rest.split_at(n as usize);
        parts.push((true, delta));
        rest = later;
    }
    let ask = |d: u32, out: &mut [u8]| {
        let serial = Serial(held.state.newest.0 - d);
        let told = raw::query(held.state, Session(7), serial, &held.snapshots, &held.deltas[..length], out);
        assert_eq!(told.answer.kind, 1);
        assert!(d > 0 || told.answer.length == 0);
    };
    let rust = rust::Queried::new(data);
    for &d in distances {
        let mut out = vec![0; length];
        let (library, checks) = (just(|| ask(d, &mut out)), just(|| ask(0, &mut [])));
        judge(Entry::Query(d), contest(&parts, library, checks, rust.query(held.state.newest.0 - d)));
    }
}

/// A history of the library.
pub struct Held {
    pub state: raw::State,
    pub snapshots: Vec<u8>,
    pub deltas: Vec<u8>,
}

impl Held {
    /// It keeps this many deltas and has taken `n` after its first snapshot.
    pub fn new(data: Data, keep: u32, n: u32) -> Self {
        let (snapshots, deltas) = (vec![0; SNAPSHOT_LIMIT], vec![0; DELTA_LIMIT]);
        let state = raw::create(7, keep, Serial(0), &snapshots, &deltas).state;
        let mut held = Held { state, snapshots, deltas };
        (0..=n).for_each(|step| held.update(&data.snapshot(step)));
        held
    }

    fn try_update(&mut self, new: &[u8]) -> raw::Made {
        raw::update(self.state, new, &mut self.snapshots, &mut self.deltas)
    }

    fn update(&mut self, new: &[u8]) {
        let made = self.try_update(new);
        assert!(made.answer.kind != 0 && made.answer.kind != 2, "{:?}", made.answer);
        self.state = made.state;
    }
}
