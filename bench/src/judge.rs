//! The judge against plain Rust that applies the same messages to a set and encodes it: growth, orders, adversaries.
use std::collections::BTreeSet;
use std::time::Instant;

use oracle::answers::{cache_response, end_of_data, payload};
use oracle::field::{fields, put};
use oracle::rng::Rng;
use taplevung::raw;

use crate::plain::good_origin;
use crate::plot::thousands;
use crate::tables::{number, strings, table};

/// A record: its kind, then its body.
type Key = Vec<u8>;

/// What is judged: the snapshot and the answer.
struct Input {
    snapshot: Vec<u8>,
    messages: Vec<u8>,
    /// How many messages there are.
    count: usize,
}

impl Input {
    /// These records come, or go where they are in the snapshot; a record that is named again goes, and comes again.
    fn new(held: &[Key], named: &[Key]) -> Self {
        let mut snapshot = Vec::new();
        held.iter().for_each(|key| put(&mut snapshot, key[0], &[&key[1..]]));
        let mut set: BTreeSet<&Key> = held.iter().collect();
        let mut messages = cache_response(1, 7);
        for key in named {
            let flags = u8::from(!set.remove(key));
            if flags == 1 {
                set.insert(key);
            }
            messages.extend(payload(1, flags, key));
        }
        messages.extend(end_of_data(1, 7, 1, [3600, 600, 7200]));
        Input { snapshot, messages, count: named.len() }
    }
}

//------------ Records and orders --------------------------------------------

/// The IPv4 origin with this number, ascending.
fn origin4(i: u32) -> Key {
    let mut key = vec![1, 4];
    key.extend((i << 8).to_be_bytes());
    key.resize(18, 0);
    key.extend([24, 24, 0, 0, 0xFB, 0xF0]);
    key
}

/// The IPv6 origin with this number, ascending: four to a /32.
fn origin6(i: u32) -> Key {
    ipv6(0x2001_0000 + i / 4, (i % 4) << 16, 0, [48, 64])
}

/// Another, which differs in its last bytes alone.
fn close6(i: u32) -> Key {
    ipv6(0x2001_0db8, 0, i, [128, 128])
}

/// An IPv6 origin: the first eight bytes of its address, the last four, and its two lengths.
fn ipv6(first: u32, second: u32, last: u32, lengths: [u8; 2]) -> Key {
    let address = [first, second, 0, last].map(u32::to_be_bytes).concat();
    [&[1, 6], &address[..], &lengths, &[0, 0, 0xFB, 0xF0]].concat()
}

/// The router key with this number: all but its last bytes are those of the others.
fn router_key(i: u32) -> Key {
    let mut key = vec![2];
    key.resize(1 + 24 + 1020, 0x5A);
    key.extend(i.to_be_bytes());
    key
}

/// So many origins, three in four of IPv4, ascending.
fn origins(n: usize) -> Vec<Key> {
    let four = n / 4 * 3;
    (0..four as u32).map(origin4).chain((0..(n - four) as u32).map(origin6)).collect()
}

fn shuffled(mut keys: Vec<Key>) -> Vec<Key> {
    let mut rng = Rng::new(7, keys.len() as u64);
    (1..keys.len()).rev().for_each(|i| keys.swap(i, rng.below(i + 1)));
    keys
}

/// In eight runs that ascend, as a cache sends them that keeps its records by some other order first.
fn runs(keys: Vec<Key>) -> Vec<Key> {
    (0..8).flat_map(|run| keys.iter().skip(run).step_by(8).cloned().collect::<Vec<_>>()).collect()
}

fn descending(mut keys: Vec<Key>) -> Vec<Key> {
    keys.reverse();
    keys
}

/// One in `every` is taken from the ascending order in place of the one that stands there.
fn with_decoys(keys: Vec<Key>, every: usize) -> Vec<Key> {
    let decoys = keys.len() / every;
    let (mut low, mut rest) = (keys[..decoys].iter(), keys[decoys..].iter().rev());
    (0..keys.len())
        .filter_map(|i| if i % every == 0 { low.next().or_else(|| rest.next()) } else { rest.next() })
        .cloned()
        .collect()
}

/// A way to order records.
type Order = (&'static str, fn(Vec<Key>) -> Vec<Key>);

const ORDERS: [Order; 3] = [("ascending", |keys| keys), ("8 runs", runs), ("shuffled", shuffled)];

/// So many messages to one who holds so many origins: with none held all are announced, else half are withdrawn.
fn growth(held: usize, n: usize, order: fn(Vec<Key>) -> Vec<Key>) -> Input {
    if held == 0 {
        return Input::new(&[], &order(origins(n)));
    }
    // one record in three is not held
    let all = origins(held / 2 * 3);
    let (mut kept, mut absent) = (Vec::new(), Vec::new());
    for (i, key) in all.into_iter().enumerate() {
        if i % 3 == 2 { &mut absent } else { &mut kept }.push(key);
    }
    let some = |keys: &[Key]| keys.iter().step_by(keys.len() / (n / 2)).take(n / 2).cloned().collect();
    let (goes, comes): (Vec<Key>, Vec<Key>) = (some(&kept), some(&absent));
    let mut named = [goes, comes].concat();
    named.sort();
    Input::new(&kept, &order(named))
}

/// Each with its name, at `n` messages; of router keys a twentieth.
fn adversaries(n: usize) -> Vec<(&'static str, Input)> {
    let (few, one) = (n / 300, origins(4));
    let close = || (0..n as u32).map(close6).collect::<Vec<_>>();
    let keys: Vec<Key> = (0..n as u32 / 20).map(router_key).collect();
    let often: Vec<Key> = (0..300).flat_map(|_| shuffled(origins(few))).collect();
    let over = |named: Vec<Key>| Input::new(&[], &named);
    vec![
        ("one record each time", over(vec![one[0].clone(); n])),
        ("300 times each record", over(often)),
        ("IPv6, all but the last bytes equal, shuffled", over(shuffled(close()))),
        ("IPv6, all but the last bytes equal, descending", over(descending(close()))),
        ("descending", over(descending(origins(n)))),
        ("descending, one in 16 ascending", over(with_decoys(origins(n), 16))),
        ("descending, one in 9 ascending", over(with_decoys(origins(n), 9))),
        ("router keys of 1,048 bytes, all but the last equal, shuffled", over(shuffled(keys))),
    ]
}

//------------ Plain Rust ----------------------------------------------------

/// The result, by a set of fixed arrays. For origins alone.
fn by_arrays(input: &Input) -> Vec<u8> {
    let body = |field: &[u8]| field[3..].try_into().expect("23 bytes");
    let mut set: BTreeSet<[u8; 23]> = input.snapshot.chunks_exact(26).map(body).collect();
    taken(&input.messages, |flags, kind, message| {
        let mut key = [0; 23];
        let n = message.len() - 4;
        key[0] = kind;
        key[1..1 + n - 12].copy_from_slice(&message[12..n]);
        key[17..19].copy_from_slice(&message[9..11]);
        key[19..].copy_from_slice(&message[n..]);
        assert!(good_origin(&key) && if flags == 1 { set.insert(key) } else { set.remove(&key) });
    });
    let mut out = Vec::with_capacity(26 * set.len());
    for key in &set {
        out.extend([1, 0, 23]);
        out.extend(key);
    }
    out
}

/// The same by a set of vectors. For router keys alone.
fn by_vectors(input: &Input) -> Vec<u8> {
    let mut set: BTreeSet<Vec<u8>> = fields(&input.snapshot).map(|(_, body)| body.to_vec()).collect();
    taken(&input.messages, |flags, _, message| {
        let key = message[8..].to_vec();
        assert!(
            (24..=1048).contains(&key.len()) && if flags == 1 { set.insert(key) } else { set.remove(&key) }
        );
    });
    let mut out = Vec::new();
    set.iter().for_each(|key| put(&mut out, 2, &[key]));
    out
}

/// Hands over the flags, the type and the bytes of each message between the first and the End of Data.
fn taken(messages: &[u8], mut take: impl FnMut(u8, u8, &[u8])) {
    let mut rest = &messages[8..];
    loop {
        let length = u32::from_be_bytes(rest[4..8].try_into().expect("4 bytes")) as usize;
        let (message, behind) = rest.split_at(length);
        let flags = match (message[0], message[1], length) {
            (1, 4, 20) | (1, 6, 32) => message[8],
            (1, 9, 32..) => message[2],
            (1, 7, 24) if behind.is_empty() => return,
            _ => panic!("a faulty message"),
        };
        assert!(flags <= 1);
        take(flags, message[1], message);
        rest = behind;
    }
}

//------------ The race ------------------------------------------------------

/// The best times of the library and of plain Rust, in seconds.
#[derive(Clone, Copy)]
struct Best {
    library: f64,
    plain: f64,
}

impl Best {
    fn ratio(self) -> f64 {
        self.library / self.plain
    }
}

/// Who takes longer than so many seconds has one turn.
const LONG: f64 = 2.0;

/// Both take turns, so often; of few messages more often. They must give the same.
fn race(name: &str, input: &Input, rounds: u32) -> Best {
    let plain = if input.messages.get(9) == Some(&9) { by_vectors } else { by_arrays };
    let mut out = vec![0; input.snapshot.len() + 2 * input.messages.len()];
    let mut best = Best { library: f64::MAX, plain: f64::MAX };
    let turns = if input.snapshot.is_empty() {
        rounds * (600_000 / input.count as u32).clamp(1, 100)
    } else {
        rounds
    };
    for turn in 0..turns {
        if turn > 0 && best.library > LONG {
            break;
        }
        let start = Instant::now();
        let judged = raw::judge(1, &input.snapshot, &input.messages, &mut out);
        best.library = best.library.min(start.elapsed().as_secs_f64());
        assert_eq!((judged.answer.kind, judged.answer.number), (1, 0), "{name}");
        let start = Instant::now();
        let made = plain(input);
        best.plain = best.plain.min(start.elapsed().as_secs_f64());
        assert!(out[..judged.answer.length as usize] == made, "{name}");
    }
    let [library, plain] = [best.library, best.plain].map(|seconds| 1000.0 * seconds);
    eprintln!("judge, {} messages, {name}: {library:.2} : {plain:.2} ms", thousands(input.count as f64));
    best
}

const COUNTS: [usize; 4] = [1000, 10_000, 100_000, 600_000];

/// The tables, with the goals.
pub fn judge(rounds: u32, most: usize) -> String {
    let counts: Vec<usize> = COUNTS.into_iter().filter(|n| *n <= most).collect();
    let largest = *counts.last().expect("a count");
    let mut rows = Vec::new();
    for held in [0, 600_000] {
        for &n in &counts {
            rows.push((held, n, ORDERS.map(|(name, order)| race(name, &growth(held, n, order), rounds))));
        }
    }
    let hard: Vec<(&str, Best)> =
        adversaries(largest).iter().map(|(name, input)| (*name, race(name, input, rounds))).collect();

    let name = |held: usize, n: usize| format!("{}, {}", thousands(held as f64), thousands(n as f64));
    let orders = ORDERS.map(|(name, _)| name);
    let ratios = rows
        .iter()
        .map(|(held, n, best)| strings(&name(*held, *n), best.map(|best| number(Some(best.ratio())))));
    let each = |best: Best, n: usize| best.library / n as f64;
    let unit = each(rows[0].2[0], rows[0].1);
    let grown = rows.iter().filter(|row| row.0 == 0).map(|(held, n, best)| {
        strings(&name(*held, *n), best.map(|best| number(Some(each(best, *n) / unit))))
    });
    let worst = |which: usize, n: usize| {
        rows.iter().filter(|row| row.1 >= n).map(|row| row.2[which].ratio()).fold(0.0, f64::max)
    };
    let hardest = hard.iter().map(|(_, best)| best.ratio()).fold(0.0, f64::max);
    let goals = [
        ("ascending", worst(0, 0), 0.5),
        ("8 runs", worst(1, 0), 1.5),
        ("the most messages, shuffled", worst(2, largest), 4.0),
        ("the worst adversary", hardest, 10.0),
    ];
    let met = goals.into_iter().map(|(what, ratio, goal)| {
        let verdict = if ratio <= goal { "met" } else { "missed" };
        strings(what, [number(Some(ratio)), format!("at most {goal}"), verdict.into()])
    });
    let adversaries = hard.iter().map(|(name, best)| strings(name, [number(Some(best.ratio()))]));
    [
        format!("## Judging\n\nLibrary : plain Rust that takes the same messages into a `BTreeSet` of fixed arrays (of router keys, of vectors) and encodes it. The library's time is that of the whole call, the check of the snapshot with it; the plain Rust checks each message but not the snapshot. Three origins in four are IPv4. Of one run, in turns, the best of {rounds}, of up to a hundred times as many on few messages. The worst over all rows for each goal:\n\n"),
        table(&strings("library : plain Rust", ["now", "goal", "met"]), met),
        "How many origins are held, and how many messages come: with none held all announce, else half of them withdraw.\n\n".into(),
        table(&strings("held, messages", orders), ratios),
        "Growth: the library's time for a message, in units of that at the fewest messages, ascending, none held.\n\n".into(),
        table(&strings("held, messages", orders), grown),
        format!("Adversaries, {} messages (of router keys a twentieth), none held.\n\n", thousands(largest as f64)),
        table(&strings("", ["library : plain Rust"]), adversaries),
    ]
    .concat()
}
