//! The model of document 01 with the Rust beside it: each call is answered by the model, and by the Rust too
//! wherever it has an answer.
use std::collections::BTreeSet;

use oracle::call::{Call, Entry, Outcome, State};
use oracle::model::{self, Change};
use oracle::rust::{self, Served};

/// Where the Rust's answers and what was met are counted.
#[derive(Default)]
pub struct Judge {
    beside: Option<Beside>,
    /// Calls on which the Rust agreed.
    pub agreed: usize,
    /// Times that the Rust served n = 1 at distance 2^31, a known difference.
    pub k6: usize,
    /// Times that the Rust refused d = n with n at least 2, a known difference.
    pub reached: usize,
    /// Times that the Rust left an expire that is not larger than refresh and retry, a known difference.
    pub raised: usize,
    /// Refusals: the entry, the number, the argument.
    refusals: BTreeSet<(Entry, u32, u32)>,
    /// Entries that were lent exactly the room that they needed.
    exact: BTreeSet<Entry>,
    /// Items that met in a merge: kind of payload, the earlier's action, the later's.
    pairs: BTreeSet<(u8, u8, u8)>,
    /// What an update found: keep and n.
    held: BTreeSet<(u32, u32)>,
    /// Queries around the wrap of the serials, and around the middle.
    edges: BTreeSet<&'static str>,
}

/// The Rust's history, and the model's as the Rust has followed it.
struct Beside {
    rust: rust::History,
    state: State,
    stores: [Vec<u8>; 2],
}

impl Judge {
    pub fn run(&mut self, call: &Call) -> Outcome {
        let outcome = model::run(call);
        self.count(call, &outcome);
        self.follow(call);
        match call.entry {
            Entry::Construct => {
                if !matches!(outcome.answer.number, 1 | 2 | 12) {
                    let said = rust::construct(&call.bytes[0], &call.bytes[1], call.numbers[0] as u32);
                    self.same(made(said, call, &outcome), call);
                }
            }
            Entry::Merge => {
                if !matches!(outcome.answer.number, 1 | 2 | 12) {
                    let said = rust::merge(&call.bytes[0], &call.bytes[1], call.numbers[0] as u32);
                    self.same(made(Some(said), call, &outcome), call);
                }
            }
            Entry::Apply => {
                if outcome.answer.kind == 1 {
                    self.same(leads(call, &outcome), call);
                }
            }
            Entry::Create => self.create(call, &outcome),
            Entry::Update => self.update(call, &outcome),
            Entry::Query => self.query(call, &outcome),
            Entry::QueryAll => {} // the Rust has no such call
            Entry::Full | Entry::Notify | Entry::Ready => self.full(call, &outcome),
            Entry::Timing => self.timing(call, &outcome),
            // the Rust leaves messages to another crate
            Entry::QueryMessages | Entry::FullMessages | Entry::NotifyMessage => {}
            // the Rust judges no other cache
            Entry::Judge => {}
        }
        outcome
    }

    fn same(&mut self, same: bool, call: &Call) {
        assert!(same, "the Rust says otherwise on\n{call}");
        self.agreed += 1;
    }

    /// The Rust clamps each alone (E5).
    fn timing(&mut self, call: &Call, outcome: &Outcome) {
        let (_, retry, expire) = rust::timing(call.numbers[1] as u32, call.numbers[2] as u32);
        let said = [u64::from(retry), u64::from(expire)];
        let larger = outcome.numbers[0].max(outcome.numbers[1]);
        if said[1] <= larger && outcome.numbers[1..] == [said[0], larger + 1] {
            self.raised += 1;
            return;
        }
        self.same(outcome.numbers[1..] == said, call);
    }

    //------------ The Rust's history ----------------------------------------

    fn create(&mut self, call: &Call, outcome: &Outcome) {
        self.beside = None;
        if outcome.answer.kind == 1 {
            let [snapshots, deltas, _] = call.bytes.clone();
            let state = outcome.state;
            let rust = rust::History::new(state.keep, state.start);
            self.beside = Some(Beside { rust, state, stores: [snapshots, deltas] });
        }
    }

    /// Goes on with the Rust's history if the call's is the one that it has followed.
    fn follow(&mut self, call: &Call) {
        let stores = call.stores().map(|(s, d)| [&call.bytes[s], &call.bytes[d]]);
        self.beside.take_if(|beside| {
            let same = call.state == beside.state && stores.is_none_or(|s| s == beside.stores.each_ref());
            call.entry == Entry::Create || !same
        });
    }

    fn update(&mut self, call: &Call, outcome: &Outcome) {
        let Some(beside) = &mut self.beside else { return };
        if outcome.answer.kind == 0 {
            return;
        }
        let [new, snapshots, deltas] = outcome.bytes.clone();
        let same = beside.rust.update(&new) == (outcome.answer.kind != 2);
        (beside.state, beside.stores) = (outcome.state, [snapshots, deltas]);
        self.same(same, call);
    }

    fn query(&mut self, call: &Call, outcome: &Outcome) {
        let Some(Beside { rust, .. }) = &self.beside else { return };
        let asked = call.numbers[1] as u32;
        let (said, served) = (rust.since(asked), rust.diff(asked));
        let (n, d) = (call.state.n, call.state.newest.wrapping_sub(asked));
        let k6 = n == 1 && d == 1 << 31;
        if k6 && outcome.answer.number == 6 {
            assert!(said.is_some_and(|s| s.bytes.is_empty()), "the Rust does not do what K6 says of it");
            self.k6 += 1;
            return;
        }
        if n >= 2 && d == n && [0, 4].contains(&outcome.answer.number) {
            assert!(said.is_none() && served == (false, false), "the Rust does not do what E2 says of it");
            self.reached += 1;
            return;
        }
        let same = match outcome.answer.number {
            5 => !served.1,
            6 => said.is_none() && served == (false, false),
            _ => served == (true, false) && said.is_some_and(|said| made(Some(said), call, outcome)),
        };
        self.same(same, call);
    }

    fn full(&mut self, call: &Call, outcome: &Outcome) {
        let Some(beside) = &self.beside else { return };
        let (serial, bytes, notified, ready) = beside.rust.full();
        let same = match call.entry {
            Entry::Full => {
                let held = &call.bytes[0][..outcome.answer.length as usize];
                (serial, &bytes[..]) == (outcome.answer.serial, held)
            }
            Entry::Notify => notified == outcome.answer.serial,
            _ => u64::from(ready) == outcome.numbers[0],
        };
        self.same(same, call);
    }

    //------------ What was met ----------------------------------------------

    fn count(&mut self, call: &Call, outcome: &Outcome) {
        let answer = &outcome.answer;
        if answer.number != 0 {
            self.refusals.insert((call.entry, answer.number, answer.argument));
        }
        for reply in outcome.replies.iter().filter(|reply| reply.number != 0) {
            self.refusals.insert((call.entry, reply.number, 0));
        }
        match (call.entry, call.out()) {
            (_, Some(out)) if answer.length > 0 && answer.length == call.bytes[out].len() as u64 => {
                self.exact.insert(call.entry);
            }
            (Entry::Update, _) if answer.kind == 3 => {
                let held: u32 = outcome.state.held().iter().sum();
                if held as usize == call.bytes[2].len() && outcome.answer.length > 0 {
                    self.exact.insert(Entry::Update);
                }
                self.held.insert((call.state.keep, call.state.n));
            }
            _ => {}
        }
        if call.entry == Entry::Merge && answer.kind == 1 {
            let [earlier, later] = [0, 1].map(|i| model::delta(&call.bytes[i], 0).expect("it is good"));
            for (key, change) in &earlier {
                if let Some(then) = later.get(key) {
                    self.pairs.insert((key[0], action(change), action(then)));
                }
            }
        }
        if call.entry == Entry::Query && answer.kind == 1 && call.state.n > 2 && answer.length > 0 {
            let (asked, newest) = (call.numbers[1] as u32, call.state.newest);
            self.edges.extend((asked > newest).then_some("a delta over the wrap"));
            let over = asked < 1 << 31 && newest >= 1 << 31;
            self.edges.extend(over.then_some("a delta over the middle"));
        }
    }

    /// That the list meets all that it is to meet.
    pub fn met_all(&self) {
        use Entry::*;
        let mut wanted: Vec<(Entry, u32, u32)> = vec![(Apply, 3, 2), (Create, 8, 0), (Full, 7, 0)];
        for entry in [Construct, Merge, Apply] {
            wanted.extend(
                [(1, 1), (1, 2), (2, 1), (2, 2), (12, 1), (12, 2), (4, 0)].map(|(n, a)| (entry, n, a)),
            );
        }
        wanted.extend([(1, 1), (2, 1), (12, 1), (7, 0), (9, 0)].map(|(n, a)| (Update, n, a)));
        wanted.extend([4, 5, 6, 7].map(|n| (Query, n, 0)));
        wanted.extend([4, 5, 6, 7, 11].map(|n| (QueryAll, n, 0)));
        wanted.extend([4, 5, 6, 7].map(|n| (QueryMessages, n, 0)));
        wanted.extend([(FullMessages, 4, 0), (FullMessages, 7, 0), (NotifyMessage, 4, 0)]);
        wanted.extend([(1, 1), (13, 2), (14, 2), (15, 2), (4, 0)].map(|(n, a)| (Judge, n, a)));
        for refusal in wanted {
            assert!(self.refusals.contains(&refusal), "not met: {refusal:?}");
        }
        for kind in 1..=3 {
            let actions = if kind == 3 { 3 } else { 2 };
            for (e, l) in (1..=actions).flat_map(|e| (1..=actions).map(move |l| (e, l))) {
                assert!(self.pairs.contains(&(kind, e, l)), "not met: the pair {:?}", (kind, e, l));
            }
        }
        let of_fields = [Construct, Merge, Apply, Update, Query, QueryAll];
        let of_messages = [QueryMessages, FullMessages, NotifyMessage, Judge];
        for entry in of_fields.into_iter().chain(of_messages) {
            assert!(self.exact.contains(&entry), "not met: exact room of {entry:?}");
        }
        for keep in crate::list::KEEPS.iter().copied() {
            assert!(self.held.contains(&(keep, keep)), "not met: a full history of keep {keep}");
        }
        assert_eq!(self.edges.len(), 2, "not met: the wrap or the middle of the serials");
        assert!(self.k6 > 0, "not met: K6");
        assert!(self.reached > 0, "not met: E2");
        assert!(self.raised > 0, "not met: E5");
    }
}

fn action(change: &Change) -> u8 {
    match change {
        Change::Announce(_) => 1,
        Change::Withdraw(_) => 2,
        Change::Update(..) => 3,
    }
}

/// Whether a call answered what the Rust made: its delta, or 4 exactly if that is longer than the room; or
/// no change.
fn made(said: Option<Served>, call: &Call, outcome: &Outcome) -> bool {
    let answer = &outcome.answer;
    match said {
        None => answer.kind == 2,
        Some(said) if said.bytes.len() > call.bytes[2].len() => answer.number == 4,
        Some(said) => {
            let bytes = outcome.bytes[2][..answer.length as usize].to_vec();
            let (announced, withdrawn) = (answer.announced, answer.withdrawn);
            answer.kind == 1 && said == Served { serial: answer.serial, announced, withdrawn, bytes }
        }
    }
}

/// Whether the Rust's difference from the snapshot to what was made of it is the delta that was applied,
/// but for updates to the same list.
fn leads(call: &Call, outcome: &Outcome) -> bool {
    let made = &outcome.bytes[2][..outcome.answer.length as usize];
    let mut delta = model::delta(&call.bytes[1], 0).expect("it is good");
    delta.retain(|_, change| !matches!(change, Change::Update(former, new) if former == new));
    rust::construct(&call.bytes[0], made, 0).map_or(vec![], |s| s.bytes) == model::delta_bytes(&delta)
}
