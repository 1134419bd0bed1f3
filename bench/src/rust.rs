//! The Rust as a contender. What it needs parsed is parsed at first use, which no race counts.
use std::cell::LazyCell;

use oracle::field::put;
use oracle::rust::{delta, snapshot, History, PayloadDelta, PayloadSnapshot, Serial};

use crate::data::Data;
use crate::race::{just, timed, Contender};

pub const THERE: bool = true;

/// On parsed values, and from bytes.
type Two<'a> = [Contender<'a>; 2];

fn difference(old: &PayloadSnapshot, new: &PayloadSnapshot) -> PayloadDelta {
    PayloadDelta::construct(old, new, Serial(0)).expect("they differ")
}

pub fn construct<'a>(old: &'a [u8], new: &'a [u8]) -> Two<'a> {
    let parsed = LazyCell::new(move || (snapshot(old), snapshot(new)));
    [
        just(move || difference(&parsed.0, &parsed.1)),
        just(move || encode(&difference(&snapshot(old), &snapshot(new)))),
    ]
}

pub fn merge<'a>(earlier: &'a [u8], later: &'a [u8]) -> Two<'a> {
    let parsed = LazyCell::new(move || (delta(earlier, 1), delta(later, 2)));
    [
        just(move || parsed.0.merge(&parsed.1)),
        just(move || encode(&delta(earlier, 1).merge(&delta(later, 2)))),
    ]
}

/// From the second of these snapshots to the first and back.
pub fn update<'a>(two: [&'a [u8]; 2]) -> Two<'a> {
    let held = move || {
        let history = History::new(2, 0);
        two.iter().for_each(|s| assert!(history.update(s)));
        history
    };
    let parsed = LazyCell::new(move || (held(), two.map(snapshot)));
    let from_bytes = LazyCell::new(held);
    let (mut a, mut b) = (0, 0);
    [
        Some(Box::new(move || {
            let mut new = Some(parsed.1[a % 2].clone());
            a += 1;
            timed(&mut || assert!(parsed.0.update_to(new.take().expect("it works once"))))
        })),
        just(move || {
            assert!(from_bytes.update(two[b % 2]));
            b += 1;
        }),
    ]
}

/// A history after 64 updates.
pub struct Queried(LazyCell<History, Box<dyn FnOnce() -> History>>);

impl Queried {
    pub fn new(data: Data) -> Self {
        Queried(LazyCell::new(Box::new(move || {
            let history = History::new(64, 0);
            (0..=64).for_each(|step| assert!(history.update(&data.snapshot(step))));
            history
        })))
    }

    pub fn query(&self, serial: u32) -> Two<'_> {
        [just(move || self.0.delta_since(serial).expect("served")), None]
    }
}

/// What a server sends: the public actions. (Former providers are not public, so this writes less than the
/// library does.)
fn encode(delta: &PayloadDelta) -> Vec<u8> {
    let mut out = Vec::new();
    for (item, action) in delta.actions() {
        let (tag, body) = oracle::rust::payload(&item);
        put(&mut out, tag * 16 + 1 + action as u8, &[&body]);
    }
    out
}
