//! Router messages: the full answer against plain Rust that encodes parsed values and against memcpy of what is written,
//! and a query's messages against the query.
use std::hint::black_box;

use oracle::field::fields;
use taplevung::{raw, Serial, Session, Timing};

use crate::data::{Data, Shape};
use crate::entries::{Held, SMALL};
use crate::plot::thousands;
use crate::race::{just, race, Contest, Rounds, Times, Who};
use crate::tables::{number, strings, table};

const TIMES: Timing = Timing { refresh: 3600, retry: 600, expire: 7200 };

/// An item as a server holds it that has parsed it.
enum Item {
    Origin4 { address: u32, prefix: u8, max: u8, asn: u32 },
    Origin6 { address: u128, prefix: u8, max: u8, asn: u32 },
    Key { identifier: [u8; 20], asn: u32, info: Vec<u8> },
    Aspa,
}

fn parse(snapshot: &[u8]) -> Vec<Item> {
    let number = |bytes: &[u8]| u32::from_be_bytes(bytes.try_into().expect("4 bytes"));
    let item = |(tag, body): (u8, &[u8])| match (tag, body[0]) {
        (1, 4) => Item::Origin4 {
            address: number(&body[1..5]),
            prefix: body[17],
            max: body[18],
            asn: number(&body[19..]),
        },
        (1, _) => Item::Origin6 {
            address: u128::from_be_bytes(body[1..17].try_into().expect("16 bytes")),
            prefix: body[17],
            max: body[18],
            asn: number(&body[19..]),
        },
        (2, _) => Item::Key {
            identifier: body[..20].try_into().expect("20 bytes"),
            asn: number(&body[20..24]),
            info: body[24..].to_vec(),
        },
        _ => Item::Aspa,
    };
    fields(snapshot).map(item).collect()
}

/// The messages of all these announced, as one would write it.
fn encode(items: &[Item], session: u16, serial: u32, out: &mut Vec<u8>) {
    let [high, low] = session.to_be_bytes();
    out.extend_from_slice(&[1, 3, high, low, 0, 0, 0, 8]);
    for item in items {
        match item {
            Item::Origin4 { address, prefix, max, asn } => {
                out.extend_from_slice(&[1, 4, 0, 0, 0, 0, 0, 20, 1, *prefix, *max, 0]);
                out.extend_from_slice(&address.to_be_bytes());
                out.extend_from_slice(&asn.to_be_bytes());
            }
            Item::Origin6 { address, prefix, max, asn } => {
                out.extend_from_slice(&[1, 6, 0, 0, 0, 0, 0, 32, 1, *prefix, *max, 0]);
                out.extend_from_slice(&address.to_be_bytes());
                out.extend_from_slice(&asn.to_be_bytes());
            }
            Item::Key { identifier, asn, info } => {
                out.extend_from_slice(&[1, 9, 1, 0]);
                out.extend_from_slice(&(32 + info.len() as u32).to_be_bytes());
                out.extend_from_slice(identifier);
                out.extend_from_slice(&asn.to_be_bytes());
                out.extend_from_slice(info);
            }
            Item::Aspa => {}
        }
    }
    out.extend_from_slice(&[1, 7, high, low, 0, 0, 0, 24]);
    for word in [serial, TIMES.refresh, TIMES.retry, TIMES.expire] {
        out.extend_from_slice(&word.to_be_bytes());
    }
}

/// The full answer of a history that holds one snapshot; its check is the call that says how long that is.
fn full(data: Data, rounds: u32) -> Times {
    let held = Held::new(data, 1, 0);
    let snapshot = &held.snapshots[..held.state.snapshot as usize];
    let items = parse(snapshot);
    let (mut out, mut plain) = (vec![0; 2 * snapshot.len()], Vec::with_capacity(2 * snapshot.len()));
    let sent = raw::full_messages(1, held.state, TIMES, snapshot, &[], &mut out);
    encode(&items, 7, 0, &mut plain);
    assert!(out[..sent.answer.length as usize] == plain, "both write the same");
    let (from, mut copy) = (plain.clone(), vec![0; plain.len()]);
    let mut contest = Contest {
        fields: items.len(),
        contenders: [
            just(|| {
                assert_eq!(raw::full_messages(1, held.state, TIMES, snapshot, &[], &mut out).answer.kind, 1)
            }),
            just(|| assert_eq!(raw::full(held.state, snapshot, &[]).answer.kind, 1)),
            just(|| {
                plain.clear();
                encode(black_box(&items), 7, 0, &mut plain);
                black_box(&plain);
            }),
            None,
            None,
            just(|| {
                copy.copy_from_slice(black_box(&from));
                black_box(&copy);
            }),
        ],
    };
    race(Rounds::new(rounds, items.len()), &mut contest)
}

/// The messages of queries in a history of 64 deltas; in the place of the check stands the query itself.
fn queries(data: Data, distances: &[u32], rounds: u32) -> Vec<Times> {
    let held = Held::new(data, 64, 64);
    let length = held.state.deltas.iter().sum::<u32>() as usize;
    let (snapshots, deltas) = (&held.snapshots[..held.state.snapshot as usize], &held.deltas[..length]);
    let all: usize = fields(snapshots).count() + fields(deltas).count();
    let times = distances.iter().map(|d| {
        let serial = Serial(held.state.newest.0 - d);
        let [mut first, mut second] = [(); 2].map(|_| vec![0; 2 * length + 32]);
        let messages = |out: &mut [u8]| {
            let sent = raw::query_messages(1, held.state, Session(7), serial, TIMES, snapshots, deltas, out);
            assert_eq!(sent.answer.kind, 1);
        };
        let query = |out: &mut [u8]| {
            assert_eq!(raw::query(held.state, Session(7), serial, snapshots, deltas, out).answer.kind, 1);
        };
        let (library, beneath) = (just(|| messages(&mut first)), just(|| query(&mut second)));
        let mut contest = Contest { fields: all, contenders: [library, beneath, None, None, None, None] };
        race(Rounds::new(rounds, all), &mut contest)
    });
    times.collect()
}

const KINDS: [(&str, Shape, u32); 4] = [
    ("IPv4 origins", Shape::Origins4, 500_000),
    ("the mix", Shape::Mixed, 500_000),
    ("IPv4 origins", Shape::Origins4, SMALL),
    ("the mix", Shape::Mixed, SMALL),
];

pub fn tables(rounds: u32) -> String {
    let rows = KINDS.map(|(kind, shape, items)| {
        eprintln!("{items} items: full messages");
        let times = full(Data::new(shape, items), rounds);
        let share = times.against(Who::Checks).map_or("-".into(), |r| format!("{:.0}%", 100.0 / r));
        let beyond = [Who::Parsed, Who::Memcpy].map(|who| number(times.beyond_checks(who)));
        let whole = [Who::Parsed, Who::Memcpy].map(|who| number(times.against(who)));
        let name = format!("{kind}, {}", thousands(items.into()));
        strings(&name, std::iter::once(share).chain(beyond).chain(whole))
    });
    let heads = strings(
        "full answer",
        [
            "check, of the call",
            "the rest : plain Rust",
            "the rest : memcpy",
            "all : plain Rust",
            "all : memcpy",
        ],
    );
    let distances = [1, 8, 63];
    let asked = [
        ("IPv4 origins, 500,000, most changes cancel", Data::new(Shape::Origins4, 500_000)),
        ("the mix, 500,000", Data::new(Shape::Mixed, 500_000)),
        ("IPv4 origins, 65,000, nothing cancels", Data::new(Shape::Growing, 65_000)),
    ];
    let queried = asked.map(|(name, data)| {
        eprintln!("{name}: messages of queries");
        let times = queries(data, &distances, rounds);
        strings(name, times.iter().map(|t| number(t.against(Who::Checks))))
    });
    let second = strings("messages : the query's delta", distances.map(|d| format!("d = {d}")));
    format!(
        "## Router messages\n\nThe full answer as messages, beyond the check of the history, against plain Rust that encodes values parsed before, and against memcpy of what is written (goal: at most 1.5 times the plain Rust); then a query's messages against the query, each with its check of a history of 64 deltas (goal: at most 1.3).\n\n{}{}",
        table(&heads, rows.into_iter()),
        table(&second, queried.into_iter())
    )
}
