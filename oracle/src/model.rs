//! Document 01, and the requests that changed it, as plain functions, written from the documents and not from the Rust.
//!
//! A snapshot is a map from keys to values, a delta a map from keys to changes. A key is the kind (1
//! origin, 2 router key, 3 ASPA) and then the key bytes; the value of an ASPA is its providers, that of
//! any other item is empty.
use std::collections::BTreeMap;

use crate::call::{Answer, Call, Entry, Outcome, Reply, State};
use crate::field::{put, split_update};
use crate::judge::{judge, Judged};
use crate::message;

pub const SNAPSHOT_LIMIT: usize = 16_777_216;
pub const DELTA_LIMIT: usize = 33_554_432;

pub type Key = Vec<u8>;
pub type Value = Vec<u8>;
pub type Snapshot = BTreeMap<Key, Value>;
pub type Delta = BTreeMap<Key, Change>;

#[derive(Clone, Debug, Eq, PartialEq)]
pub enum Change {
    Announce(Value),
    Withdraw(Value),
    Update(Value, Value),
}
use Change::{Announce, Update, Withdraw};

/// A refusal: its number, argument and offset.
#[derive(Clone, Copy, Debug, Eq, PartialEq)]
pub struct Refused(pub u32, pub u32, pub usize);

//------------ Snapshots and deltas as bytes ---------------------------------

#[derive(Clone, Copy, Debug, Eq, PartialEq)]
pub enum Form {
    Snapshot,
    Delta,
}

/// "strictly ascending", "0 to 4,096 providers of 4"
fn good_providers(list: &[u8]) -> bool {
    let numbers = list.chunks_exact(4);
    let mut neighbours = numbers.clone().zip(numbers.clone().skip(1));
    numbers.remainder().is_empty() && numbers.len() <= 4096 && neighbours.all(|(a, b)| a < b)
}

fn good_origin(body: &[u8]) -> bool {
    let Ok(body) = <[u8; 23]>::try_from(body) else { return false };
    let (family, prefix, max) = (body[0], body[17], body[18]);
    let address = u128::from_be_bytes(body[1..17].try_into().expect("16 bytes"));
    let bound = match family {
        4 => 32,
        6 => 128,
        _ => return false,
    };
    // `checked_shl` is None for 128, where no bit is past the prefix
    prefix <= bound && prefix <= max && max <= bound && address.checked_shl(prefix.into()).unwrap_or(0) == 0
}

pub fn good_body(form: Form, tag: u8, body: &[u8]) -> bool {
    match (form, tag) {
        (Form::Snapshot, 0x01) | (Form::Delta, 0x11 | 0x12) => good_origin(body),
        (Form::Snapshot, 0x02) | (Form::Delta, 0x21 | 0x22) => (24..=24 + 1024).contains(&body.len()),
        (Form::Snapshot, 0x03) | (Form::Delta, 0x31 | 0x32) => body.len() >= 4 && good_providers(&body[4..]),
        (Form::Delta, 0x33) => {
            body.len() >= 6
                && body.len() >= 6 + 4 * usize::from(u16::from_be_bytes([body[4], body[5]]))
                && good_providers(split_update(body).1)
                && good_providers(split_update(body).2)
        }
        _ => false,
    }
}

/// Request E6: an ASPA has providers, and its customer is none of them; of an update this holds for both lists.
fn sensible(form: Form, tag: u8, body: &[u8]) -> bool {
    let providers = |list: &[u8]| !list.is_empty() && list.chunks_exact(4).all(|p| *p != body[..4]);
    match (form, tag) {
        (Form::Snapshot, 0x03) | (Form::Delta, 0x31 | 0x32) => providers(&body[4..]),
        (Form::Delta, 0x33) => providers(split_update(body).1) && providers(split_update(body).2),
        _ => true,
    }
}

/// A checked field: where it starts, its tag, its key and its body.
pub struct Field<'a> {
    pub offset: usize,
    pub tag: u8,
    pub key: Key,
    pub body: &'a [u8],
}

/// The fields of good bytes, or refusal 1, 12 or 2: the first bad field, 1 before 12 before 2.
pub fn check(form: Form, bytes: &[u8], argument: u32) -> Result<Vec<Field<'_>>, Refused> {
    let mut out: Vec<Field<'_>> = Vec::new();
    let mut offset = 0;
    while offset < bytes.len() {
        let bad = Err(Refused(1, argument, offset));
        let [tag, high, low, rest @ ..] = &bytes[offset..] else { return bad };
        let Some(body) = rest.get(..usize::from(u16::from_be_bytes([*high, *low]))) else { return bad };
        if !good_body(form, *tag, body) {
            return bad;
        }
        if !sensible(form, *tag, body) {
            return Err(Refused(12, argument, offset));
        }
        let kind = if form == Form::Snapshot { *tag } else { tag >> 4 };
        let key = [&[kind][..], if kind == 3 { &body[..4] } else { body }].concat();
        if out.last().is_some_and(|last| last.key >= key) {
            return Err(Refused(2, argument, offset));
        }
        out.push(Field { offset, tag: *tag, key, body });
        offset += 3 + body.len();
    }
    Ok(out)
}

pub fn snapshot(bytes: &[u8], argument: u32) -> Result<Snapshot, Refused> {
    let value = |f: &Field<'_>| if f.tag == 3 { f.body[4..].to_vec() } else { vec![] };
    Ok(check(Form::Snapshot, bytes, argument)?.into_iter().map(|f| (f.key.clone(), value(&f))).collect())
}

pub fn delta(bytes: &[u8], argument: u32) -> Result<Delta, Refused> {
    let change = |f: &Field<'_>| match f.tag {
        0x11 | 0x21 => Announce(vec![]),
        0x12 | 0x22 => Withdraw(vec![]),
        0x31 => Announce(f.body[4..].to_vec()),
        0x32 => Withdraw(f.body[4..].to_vec()),
        _ => Update(split_update(f.body).1.to_vec(), split_update(f.body).2.to_vec()),
    };
    Ok(check(Form::Delta, bytes, argument)?.into_iter().map(|f| (f.key.clone(), change(&f))).collect())
}

pub fn snapshot_bytes(snapshot: &Snapshot) -> Vec<u8> {
    let mut out = vec![];
    for (key, value) in snapshot {
        put(&mut out, key[0], &[&key[1..], value]);
    }
    out
}

pub fn delta_bytes(delta: &Delta) -> Vec<u8> {
    let mut out = vec![];
    for (key, change) in delta {
        let (kind, key) = (key[0] * 16, &key[1..]);
        match change {
            Announce(new) => put(&mut out, kind + 1, &[key, new]),
            Withdraw(former) => put(&mut out, kind + 2, &[key, former]),
            Update(former, new) => {
                let count = (former.len() / 4) as u16;
                put(&mut out, kind + 3, &[key, &count.to_be_bytes(), former, new]);
            }
        }
    }
    out
}

/// How many items announce (or update), and how many withdraw.
pub fn counts(delta: &Delta) -> (u64, u64) {
    let withdrawn = delta.values().filter(|c| matches!(c, Withdraw(_))).count();
    ((delta.len() - withdrawn) as u64, withdrawn as u64)
}

//------------ Difference, merge, application --------------------------------

pub fn difference(old: &Snapshot, new: &Snapshot) -> Delta {
    let mut out = Delta::new();
    for (key, former) in old {
        match new.get(key) {
            None => drop(out.insert(key.clone(), Withdraw(former.clone()))),
            Some(value) if value != former => {
                out.insert(key.clone(), Update(former.clone(), value.clone()));
            }
            Some(_) => {}
        }
    }
    for (key, value) in new {
        if !old.contains_key(key) {
            out.insert(key.clone(), Announce(value.clone()));
        }
    }
    out
}

/// The table of 01, row by row.
fn merge_at(kind: u8, earlier: &Change, later: &Change) -> Option<Change> {
    let unless_back = |p: &Value, new: &Value| (p != new).then(|| Update(p.clone(), new.clone()));
    match (earlier, later) {
        (Announce(_), Announce(new)) => Some(Announce(new.clone())),
        (Announce(_), Withdraw(_)) => None,
        (Withdraw(_), Announce(_)) if kind != 3 => None,
        (Withdraw(p), Withdraw(_)) => Some(Withdraw(p.clone())),
        (Announce(_), Update(_, new)) => Some(Announce(new.clone())),
        (Update(p, _), Announce(new)) => Some(Update(p.clone(), new.clone())),
        (Update(p, _), Update(_, new)) => unless_back(p, new),
        (Update(p, _), Withdraw(_)) => Some(Withdraw(p.clone())),
        (Withdraw(p), Announce(new) | Update(_, new)) => unless_back(p, new),
    }
}

pub fn merge(earlier: &Delta, later: &Delta) -> Delta {
    let mut out = earlier.clone();
    for (key, change) in later {
        let merged = match earlier.get(key) {
            None => Some(change.clone()),
            Some(before) => merge_at(key[0], before, change),
        };
        match merged {
            Some(change) => out.insert(key.clone(), change),
            None => out.remove(key),
        };
    }
    out
}

/// Application, or the key of the first item that cannot be applied.
pub fn apply(snapshot: &Snapshot, delta: &Delta) -> Result<Snapshot, Key> {
    let mut out = snapshot.clone();
    for (key, change) in delta {
        match (snapshot.get(key), change) {
            (None, Announce(new)) => drop(out.insert(key.clone(), new.clone())),
            (Some(held), Withdraw(former)) if held == former => drop(out.remove(key)),
            (Some(held), Update(former, new)) if held == former => drop(out.insert(key.clone(), new.clone())),
            _ => return Err(key.clone()),
        }
    }
    Ok(out)
}

//------------ The history ---------------------------------------------------

/// What a well-formed state and its stores hold.
pub struct History {
    pub now: Snapshot,
    pub deltas: Vec<Delta>,
    pub start: u32,
}

/// Refusal 7, or what the history holds.
pub fn history(state: &State, snapshots: &[u8], deltas: &[u8]) -> Result<History, Refused> {
    let ill = Refused(7, 0, 0);
    if !(1..=64).contains(&state.keep) || state.n > state.keep {
        return Err(ill);
    }
    if (state.active == 0 || state.n == 0) && state.newest != state.start {
        return Err(ill);
    }
    if state.active == 0 && (state.n != 0 || state.snapshot != 0) {
        return Err(ill);
    }
    if snapshots.len() > SNAPSHOT_LIMIT || deltas.len() > DELTA_LIMIT {
        return Err(ill);
    }
    let now = snapshots.get(..state.snapshot as usize).ok_or(ill)?;
    let now = snapshot(now, 0).map_err(|_| ill)?;
    let (mut held, mut rest) = (Vec::new(), deltas);
    for &length in state.held() {
        let (one, after) = rest.split_at_checked(length as usize).ok_or(ill)?;
        held.push(delta(one, 0).map_err(|_| ill)?);
        rest = after;
    }
    Ok(History { now, deltas: held, start: state.start })
}

impl History {
    /// What a router at `serial` is sent, or refusal 6.
    pub fn since(&self, newest: u32, serial: u32) -> Result<Delta, Refused> {
        let n = self.deltas.len();
        let d = newest.wrapping_sub(serial) as usize;
        let served = if n == 0 { serial == self.start } else { d <= n };
        if !served {
            return Err(Refused(6, 0, 0));
        }
        let last = &self.deltas[n - d.min(n)..];
        Ok(last.iter().skip(1).fold(last.first().cloned().unwrap_or_default(), |all, next| merge(&all, next)))
    }
}

/// The times clamped, and then an expire that is not larger than both others made so.
pub fn timing(refresh: u32, retry: u32, expire: u32) -> (u32, u32, u32) {
    let (refresh, retry) = (refresh.clamp(1, 86_400), retry.clamp(1, 7_200));
    let expire = expire.clamp(600, 172_800);
    if expire > refresh && expire > retry {
        return (refresh, retry, expire);
    }
    (refresh, retry, refresh.max(retry) + 1)
}

//------------ The entries ---------------------------------------------------

/// What a call leaves. A refusal leaves every byte, and an update's state, as they were.
pub fn run(call: &Call) -> Outcome {
    let (answer, numbers, bytes) = (Answer::default(), [0; 3], call.bytes.clone());
    let mut out = Outcome { answer, state: State::ZERO, numbers, bytes, replies: vec![] };
    if call.entry == Entry::Update {
        out.state = call.state;
    }
    if let Err(Refused(number, argument, offset)) = accept(call, &mut out) {
        out.answer = Answer { number, argument, offset: offset as u64, ..Answer::default() };
    }
    out
}

/// Each entry in 01's order of refusals. `out` is touched once nothing can be refused any more.
fn accept(call: &Call, out: &mut Outcome) -> Result<(), Refused> {
    let [first, second, third] = call.bytes.each_ref().map(Vec::as_slice);
    let state = &call.state;
    match call.entry {
        Entry::Construct => {
            limits([(first, SNAPSHOT_LIMIT), (second, SNAPSHOT_LIMIT)])?;
            let made = difference(&snapshot(first, 1)?, &snapshot(second, 2)?);
            if made.is_empty() {
                out.answer.kind = 2;
                return Ok(());
            }
            lend(&delta_bytes(&made), &mut out.bytes[2], 4)?;
            out.answer = served(1, (call.numbers[0] as u32).wrapping_add(1), &made);
        }
        Entry::Merge => {
            limits([(first, DELTA_LIMIT), (second, DELTA_LIMIT)])?;
            let made = merge(&delta(first, 1)?, &delta(second, 2)?);
            lend(&delta_bytes(&made), &mut out.bytes[2], 4)?;
            out.answer = served(1, call.numbers[0] as u32, &made);
        }
        Entry::Apply => {
            limits([(first, SNAPSHOT_LIMIT), (second, DELTA_LIMIT)])?;
            let (from, changes) = (snapshot(first, 1)?, delta(second, 2)?);
            let made = apply(&from, &changes).map_err(|key| {
                let fields = check(Form::Delta, second, 2).expect("checked above");
                Refused(3, 2, fields.iter().find(|f| f.key == key).expect("an item of the delta").offset)
            })?;
            let made = snapshot_bytes(&made);
            lend(&made, &mut out.bytes[2], 4)?;
            out.answer = Answer { kind: 1, length: made.len() as u64, ..Answer::default() };
        }
        Entry::Create => {
            let [session, keep, start, ..] = call.numbers;
            let start = start as u32;
            if !(1..=64).contains(&keep) {
                return Err(Refused(8, 0, 0));
            }
            limits([(first, SNAPSHOT_LIMIT), (second, DELTA_LIMIT)])?;
            out.state = State { session, keep: keep as u32, newest: start, start, ..State::ZERO };
            out.answer = Answer { kind: 1, serial: start, ..Answer::default() };
        }
        Entry::Update => {
            let held = history(state, second, third)?;
            limits([(first, SNAPSHOT_LIMIT), (b"", 0)])?;
            let added = difference(&held.now, &snapshot(first, 1)?);
            out.answer.serial = state.newest;
            if state.active != 0 && added.is_empty() {
                out.answer.kind = 2;
                return Ok(());
            }
            let mut lengths = state.held().to_vec();
            let mut bytes = third[..lengths.iter().sum::<u32>() as usize].to_vec();
            out.answer.kind = 1;
            if state.active != 0 {
                if state.n == state.keep {
                    bytes.drain(..lengths.remove(0) as usize);
                }
                let added_bytes = delta_bytes(&added);
                lengths.push(added_bytes.len() as u32);
                bytes.extend(added_bytes);
                out.answer = served(3, state.newest.wrapping_add(1), &added);
            }
            if bytes.len() > third.len() {
                return Err(Refused(9, 0, 0));
            }
            lend(first, &mut out.bytes[1], 9)?;
            lend(&bytes, &mut out.bytes[2], 9)?;
            out.state = State {
                active: 1,
                newest: out.answer.serial,
                n: lengths.len() as u32,
                snapshot: first.len() as u32,
                deltas: std::array::from_fn(|i| lengths.get(i).copied().unwrap_or(0)),
                ..*state
            };
        }
        Entry::Query => {
            let held = history(state, first, second)?;
            let [session, serial, ..] = call.numbers;
            out.answer = ask(&held, state, session, serial as u32, &mut out.bytes[2])?;
            out.numbers[0] = state.session % 65_536;
        }
        Entry::QueryAll => {
            let held = history(state, first, second)?;
            if call.list.len() > 6 * 384 || call.list.len() % 6 != 0 {
                return Err(Refused(11, 0, 0));
            }
            let mut used = 0;
            for query in call.list.chunks_exact(6) {
                let session = u16::from_be_bytes([query[0], query[1]]);
                let serial = u32::from_be_bytes(query[2..].try_into().expect("4 bytes"));
                let said = ask(&held, state, session.into(), serial, &mut out.bytes[2][used..]);
                out.replies.push(match said {
                    Err(Refused(number, ..)) => Reply { number, ..Reply::default() },
                    Ok(Answer { length, announced, withdrawn, .. }) => {
                        let offset = used as u64;
                        used += length as usize;
                        Reply { kind: 1, number: 0, offset, length, announced, withdrawn }
                    }
                });
            }
            out.answer = Answer { kind: 1, serial: state.newest, length: used as u64, ..Answer::default() };
            out.numbers[0] = state.session % 65_536;
        }
        Entry::Full => {
            history(state, first, second)?;
            out.answer =
                Answer { kind: 1, serial: state.newest, length: state.snapshot.into(), ..Answer::default() };
            out.numbers[0] = state.session % 65_536;
        }
        Entry::Notify => {
            out.answer.serial = state.newest;
            out.numbers[0] = state.session % 65_536;
        }
        Entry::Ready => out.numbers[0] = (state.active != 0).into(),
        Entry::Timing => {
            let (refresh, retry, expire) = times(call, 0);
            out.numbers = [refresh.into(), retry.into(), expire.into()];
        }
        Entry::QueryMessages => {
            let held = history(state, first, second)?;
            let [session, serial, ..] = call.numbers;
            if session != state.session % 65_536 {
                return send(&message::error_report(version(call), session as u16, serial as u32), 3, 5, out);
            }
            match held.since(state.newest, serial as u32) {
                Ok(delta) => send_data(version(call), &delta, times(call, 2), state, out)?,
                Err(_) => send(&message::cache_reset(version(call)), 2, 6, out)?,
            }
        }
        Entry::FullMessages => {
            let held = history(state, first, second)?;
            let all = difference(&Snapshot::new(), &held.now);
            send_data(version(call), &all, times(call, 0), state, out)?;
        }
        Entry::NotifyMessage => {
            send(&message::serial_notify(version(call), state.session as u16, state.newest), 1, 0, out)?;
            out.answer.serial = state.newest;
            out.numbers[0] = state.session % 65_536;
        }
        Entry::Judge => {
            limits([(first, SNAPSHOT_LIMIT), (b"", 0)])?;
            let said = judge(version(call), snapshot(first, 1)?, second)?;
            let made = snapshot_bytes(&said.made);
            lend(&made, &mut out.bytes[2], 4)?;
            let Judged { session, serial, times, announced, withdrawn, .. } = said;
            let length = made.len() as u64;
            out.answer = Answer { kind: 1, serial, length, announced, withdrawn, ..Answer::default() };
            out.state.session = session.into();
            out.numbers = times.map(u64::from);
        }
    }
    Ok(())
}

/// The version that messages carry: 0 for RFC 6810, 1 for any other number.
fn version(call: &Call) -> u8 {
    u8::from(call.version != 0)
}

/// The times that stand at `at` among the numbers, as they are told.
fn times(call: &Call, at: usize) -> (u32, u32, u32) {
    let number = |i: usize| call.numbers[at + i] as u32;
    timing(number(0), number(1), number(2))
}

/// Request E1: messages, or refusal 4 and nothing.
fn send(bytes: &[u8], kind: u32, number: u32, out: &mut Outcome) -> Result<(), Refused> {
    lend(bytes, &mut out.bytes[2], 4)?;
    out.answer = Answer { kind, number, length: bytes.len() as u64, ..Answer::default() };
    Ok(())
}

fn send_data(
    version: u8,
    delta: &Delta,
    times: (u32, u32, u32),
    state: &State,
    out: &mut Outcome,
) -> Result<(), Refused> {
    let written = message::answer(version, state.session as u16, state.newest, times, delta);
    send(&written.bytes, 1, 0, out)?;
    out.answer.serial = state.newest;
    (out.answer.announced, out.answer.withdrawn) = (written.announced, written.withdrawn);
    out.numbers = [state.session % 65_536, written.router_keys_skipped, written.aspas_skipped];
    Ok(())
}

/// A query of a well-formed history: 5, 6, 4, or its delta at the front of what is lent.
fn ask(held: &History, state: &State, session: u64, serial: u32, lent: &mut [u8]) -> Result<Answer, Refused> {
    if session != state.session % 65_536 {
        return Err(Refused(5, 0, 0));
    }
    let made = held.since(state.newest, serial)?;
    lend(&delta_bytes(&made), lent, 4)?;
    Ok(served(1, state.newest, &made))
}

/// Refusal 10.
fn limits(arguments: [(&[u8], usize); 2]) -> Result<(), Refused> {
    match arguments.iter().position(|(bytes, limit)| bytes.len() > *limit) {
        Some(i) => Err(Refused(10, i as u32 + 1, 0)),
        None => Ok(()),
    }
}

/// Writes to the front of what is lent, or refuses with `number` if it is too short.
fn lend(bytes: &[u8], lent: &mut [u8], number: u32) -> Result<(), Refused> {
    lent.get_mut(..bytes.len()).ok_or(Refused(number, 0, 0))?.copy_from_slice(bytes);
    Ok(())
}

fn served(kind: u32, serial: u32, delta: &Delta) -> Answer {
    let (announced, withdrawn) = counts(delta);
    let length = delta_bytes(delta).len() as u64;
    Answer { kind, serial, length, announced, withdrawn, ..Answer::default() }
}
