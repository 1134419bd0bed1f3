//! Compares the library with document 01 and with the Rust, call by call: `oracle/run` starts this.
//!
//! usage: oracle CASES SEED CALLER [ARGUMENT...]
//!
//! A case is one call: its answer, its state, and every lent byte afterwards. Cases come in rounds; what
//! a round does follows from the seed and its number alone. Then the judge is asked: the captured answers of
//! real caches, good answers, and half as many damaged ones as there are cases.
use std::collections::BTreeMap;
use std::process::ExitCode;
use std::time::{Duration, Instant};

use oracle::answers::{self, each_place};
use oracle::call::{Answer, Call, Entry, Outcome, State};
use oracle::captures::{self, Captured};
use oracle::damage::{damage, ill_form, DAMAGES};
use oracle::field::put;
use oracle::make::{output, room, serial, times, version, Universe, World};
use oracle::message::Router;
use oracle::model::{self, Change, Delta, Form, Snapshot, DELTA_LIMIT, SNAPSHOT_LIMIT};
use oracle::port::Port;
use oracle::rng::Rng;
use oracle::shrink::shrink;

/// From this many cases on, what was met is asserted and not only counted.
const GATE: u64 = 200_000;

/// Rounds above this one ask the judge.
const JUDGING: u64 = 1 << 32;

fn main() -> ExitCode {
    let mut words = std::env::args().skip(1);
    let mut number = || words.next().and_then(|w| w.replace('_', "").parse().ok());
    let (Some(cases), Some(seed)) = (number(), number()) else {
        eprintln!("usage: oracle CASES SEED CALLER [ARGUMENT...]");
        return ExitCode::from(2);
    };
    if !cfg!(routinator) {
        println!("The Rust's source is not there: compared with document 01 alone.");
    }
    let mut run = Run::new(seed, words.collect());
    match run.all(cases) {
        Ok(()) => {
            println!("{}", run.summary());
            ExitCode::SUCCESS
        }
        Err(why) => {
            println!("{why}");
            println!("NOT EQUAL: seed {seed}, round {}, after {} equal calls", run.round, run.calls());
            ExitCode::FAILURE
        }
    }
}

/// The snapshot that most recently carried a serial.
type Carried = BTreeMap<u32, Snapshot>;

/// A difference, in words; or something that was not met often enough.
type Checked<T = ()> = Result<T, String>;

struct Run {
    port: Port,
    seed: u64,
    round: u64,
    kind: &'static str,
    /// Calls compared, by kind.
    kinds: BTreeMap<&'static str, u64>,
    /// Items that met in a merge: kind of payload, the earlier's action, the later's.
    pairs: BTreeMap<(u8, u8, u8), u64>,
    /// Refusals: the entry, the number, the argument.
    refusals: BTreeMap<(Entry, u32, u32), u64>,
    /// Damage to inputs and histories that led to a refusal.
    damages: BTreeMap<&'static str, u64>,
    /// Damaged answers of other caches that were judged.
    damaged_answers: u64,
    /// Answers that were compared with the Rust's too.
    rust: u64,
    /// Times that the Rust served n = 1 at distance 2^31, a known difference (K6).
    known: u64,
    /// Times that the Rust refused d = n with n at least 2, a known difference (E2).
    reached: u64,
    /// Times that the Rust left an expire that is not larger than refresh and retry, a known difference (E5).
    raised: u64,
    /// Messages that a router read, and then held what the snapshot says.
    read: u64,
}

impl Run {
    fn new(seed: u64, caller: Vec<String>) -> Self {
        Run {
            port: Port::new(caller),
            seed,
            round: 0,
            kind: "",
            kinds: BTreeMap::new(),
            pairs: BTreeMap::new(),
            refusals: BTreeMap::new(),
            damages: BTreeMap::new(),
            damaged_answers: 0,
            rust: 0,
            known: 0,
            reached: 0,
            raised: 0,
            read: 0,
        }
    }

    fn calls(&self) -> u64 {
        self.kinds.values().sum()
    }

    fn all(&mut self, cases: u64) -> Checked {
        self.every_room()?;
        self.limits()?;
        let (start, mut told) = (Instant::now(), Instant::now());
        while self.calls() < cases {
            self.round += 1;
            let mut rng = Rng::new(self.seed, self.round);
            match rng.below(1000) {
                0..=159 => self.difference(&mut rng)?,
                160..=389 => self.merge(&mut rng)?,
                390..=529 => self.application(&mut rng)?,
                530..=569 => self.chain(&mut rng)?,
                570..=571 => self.history(&mut rng)?,
                572..=859 => self.damaged(&mut rng)?,
                860..=959 => self.ill_formed(&mut rng)?,
                960..=983 => self.messages(&mut rng)?,
                _ => self.numbers(&mut rng)?,
            }
            if told.elapsed() > Duration::from_secs(10) {
                told = Instant::now();
                eprintln!("{} of {cases} cases, {} s", self.calls(), start.elapsed().as_secs());
            }
        }
        self.judging(cases / 2)?;
        if cases >= GATE {
            self.met_enough()?;
        }
        Ok(())
    }

    fn summary(&self) -> String {
        let kinds: Vec<String> = self.kinds.iter().map(|(k, n)| format!("{k} {n}")).collect();
        format!(
            "all equal: {} calls ({}), {} of them with the Rust too, {} damaged answers judged, K6 met {} times, E2 {} times, E5 {} times, {} answers read by a router, seed {}",
            self.calls(),
            kinds.join(", "),
            self.rust,
            self.damaged_answers,
            self.known,
            self.reached,
            self.raised,
            self.read,
            self.seed
        )
    }

    //------------ Comparing -------------------------------------------------

    /// Makes a call and compares it; what the library left.
    fn compare(&mut self, call: &Call) -> Checked<Outcome> {
        let got = self.port.run(call);
        let want = model::run(call);
        let equal = got.as_ref() == Some(&want) && self.rust_agrees(call, &want);
        if !equal {
            return Err(self.explain(call));
        }
        *self.kinds.entry(self.kind).or_default() += 1;
        if want.answer.number != 0 {
            *self.refusals.entry((call.entry, want.answer.number, want.answer.argument)).or_default() += 1;
        }
        Ok(want)
    }

    /// Whether the Rust says the same, where it says anything: a difference or a merge that was made.
    #[cfg(routinator)]
    fn rust_agrees(&mut self, call: &Call, outcome: &Outcome) -> bool {
        use oracle::rust;
        let serial = call.numbers[0] as u32;
        let long = call.bytes.iter().any(|b| b.len() > 1 << 20);
        let said = match call.entry {
            _ if long => return true, // its answer is read off a text, which takes long
            Entry::Construct if outcome.answer.kind != 0 => {
                rust::construct(&call.bytes[0], &call.bytes[1], serial)
            }
            Entry::Merge if outcome.answer.kind != 0 => {
                Some(rust::merge(&call.bytes[0], &call.bytes[1], serial))
            }
            _ => return true,
        };
        self.rust += 1;
        match said {
            None => outcome.answer == Answer { kind: 2, ..Answer::default() },
            Some(said) => outcome.answer.kind == 1 && said == served(&outcome.answer, &outcome.bytes[2]),
        }
    }
    #[cfg(not(routinator))]
    fn rust_agrees(&mut self, _: &Call, _: &Outcome) -> bool {
        true
    }

    /// Counts a comparison with the Rust that was made beside a call, or says that it failed.
    fn with_rust(&mut self, agrees: Option<bool>, call: &Call) -> Checked {
        self.rust += u64::from(agrees == Some(true));
        match agrees {
            Some(false) => Err(format!("DIFFERENCE ({}); the Rust says otherwise on\n{call}", self.kind)),
            _ => Ok(()),
        }
    }

    /// The smallest call that still differs, and what each says of it.
    fn explain(&mut self, call: &Call) -> String {
        let call = shrink(call.clone(), |c| {
            let want = model::run(c);
            self.port.run(c).as_ref() != Some(&want) || !self.rust_agrees(c, &want)
        });
        let got = match self.port.run(&call) {
            Some(outcome) => outcome.tell(&call),
            None => "  it crashed, or wrote outside of what it was lent\n".into(),
        };
        let want = model::run(&call);
        let mut out = format!(
            "DIFFERENCE ({}); the smallest call found:\n{call}the library:\n{got}document 01:\n{}",
            self.kind,
            want.tell(&call)
        );
        if !self.rust_agrees(&call, &want) {
            out += "the Rust differs from document 01 here\n";
        }
        out
    }

    //------------ Kinds of rounds -------------------------------------------

    fn difference(&mut self, rng: &mut Rng) -> Checked {
        self.kind = "difference";
        let universe = Universe::new(rng);
        let old = universe.snapshot(rng);
        let new = universe.next(rng, &old);
        let call = Call::construct(bytes(&old), bytes(&new), serial(rng), vec![]);
        self.compare(&room(rng, call)).map(drop)
    }

    fn merge(&mut self, rng: &mut Rng) -> Checked {
        self.kind = "merge";
        let universe = Universe::new(rng);
        let (earlier, later) = (universe.delta(rng), universe.delta(rng));
        let call = Call::merge(model::delta_bytes(&earlier), model::delta_bytes(&later), serial(rng), vec![]);
        let outcome = self.compare(&room(rng, call))?;
        if outcome.answer.kind == 1 {
            self.count_pairs(&earlier, &later);
        }
        Ok(())
    }

    fn count_pairs(&mut self, earlier: &Delta, later: &Delta) {
        let action = |change: &Change| match change {
            Change::Announce(_) => 1,
            Change::Withdraw(_) => 2,
            Change::Update(..) => 3,
        };
        for (key, change) in earlier {
            if let Some(then) = later.get(key) {
                *self.pairs.entry((key[0], action(change), action(then))).or_default() += 1;
            }
        }
    }

    fn application(&mut self, rng: &mut Rng) -> Checked {
        self.kind = "application";
        let universe = Universe::new(rng);
        let snapshot = universe.snapshot(rng);
        let delta = if rng.one_in(4) { universe.delta(rng) } else { universe.fitting(rng, &snapshot) };
        let call = Call::apply(bytes(&snapshot), model::delta_bytes(&delta), vec![]);
        self.compare(&room(rng, call)).map(drop)
    }

    /// Three snapshots: the differences between neighbours, merged, are the difference between the ends;
    /// applied, it gives the last. By the library's own bytes.
    fn chain(&mut self, rng: &mut Rng) -> Checked {
        self.kind = "chain";
        let universe = Universe::new(rng);
        let a = universe.snapshot(rng);
        let b = universe.next(rng, &a);
        let c = universe.next(rng, &b);
        let [a, b, c] = [a, b, c].map(|s| bytes(&s));
        let start = serial(rng);
        // no answer is longer than both inputs together
        let room = |x: &[u8], y: &[u8]| vec![0xEE; x.len() + y.len()];
        let difference = |x: &[u8], y: &[u8], serial| Call::construct(x.into(), y.into(), serial, room(x, y));
        let ab = answered(self.compare(&difference(&a, &b, start))?);
        let bc = answered(self.compare(&difference(&b, &c, start.wrapping_add(1)))?);
        let ac = answered(self.compare(&difference(&a, &c, start))?);
        let out = room(&ab, &bc);
        let merged = answered(self.compare(&Call::merge(ab, bc, start.wrapping_add(2), out))?);
        let out = room(&a, &merged);
        let last = answered(self.compare(&Call::apply(a, merged.clone(), out))?);
        if merged != ac || last != c {
            return Err("DIFFERENCE (chain): the merge of two differences is not the difference".into());
        }
        Ok(())
    }

    /// A run of updates, with queries after each. Serials start near 0, 2^31 or 2^32, in the Rust by a
    /// stand-in.
    fn history(&mut self, rng: &mut Rng) -> Checked {
        self.kind = "history";
        let universe = Universe::new(rng);
        let keep = if rng.one_in(2) { 1 + rng.below(3) } else { 1 + rng.below(64) } as u32;
        let start = serial(rng);
        let (session, snapshots, deltas) = (rng.next(), output(rng, 100), output(rng, 100));
        let created = self.compare(&Call::create(session, keep, start, snapshots.clone(), deltas.clone()))?;
        let mut world = World { state: created.state, snapshots, deltas };
        let rust = RustHistory::new(keep, start);
        let mut carried = Carried::from([(start, Snapshot::new())]);
        let steps = if rng.one_in(10) { 90 } else { rng.below(12) };
        for _ in 0..steps {
            let next = bytes(&universe.next(rng, &world.now()));
            world.refit(rng, next.len());
            if rng.one_in(4) {
                self.tight_update(&world, next.clone())?;
            }
            let call = world.update(next.clone());
            let outcome = self.compare(&call)?;
            let [_, snapshots, deltas] = outcome.bytes;
            world = World { state: outcome.state, snapshots, deltas };
            self.with_rust(rust.update(&next, outcome.answer.kind), &call)?;
            self.questions(rng, &world, &rust)?;
            carried.insert(world.state.newest, world.now());
            self.routers(rng, &world, &carried, &rust)?;
            if rng.one_in(4) {
                self.appliance(rng, &world)?;
            }
            if rng.one_in(4) {
                // any number but 0 is active, and unused lengths are ignored
                world.state.active = 1 + rng.below(9) as u32;
                let n = world.state.n as usize;
                world.state.deltas[n..].fill(rng.next() as u32);
            }
        }
        Ok(())
    }

    /// The same update with stores that are just long enough, and one byte short.
    fn tight_update(&mut self, world: &World, new: Vec<u8>) -> Checked {
        let call = world.update(new);
        let after = model::run(&call).state;
        // each store must still hold what is held before
        let held = |state: &State| state.held().iter().sum::<u32>() as usize;
        let (now, then) = (held(&world.state), held(&after));
        let (snapshot, delta) = (after.snapshot as usize, then.max(now));
        for (short_snapshot, short_delta) in [(0, 0), (1, 0), (0, 1), (1, 1)] {
            let mut call = call.clone();
            let fits = |store: &mut Vec<u8>, length: usize, least: u32| {
                store.resize(length.max(least as usize), 0x99);
            };
            fits(&mut call.bytes[1], snapshot.saturating_sub(short_snapshot), world.state.snapshot);
            fits(&mut call.bytes[2], delta.saturating_sub(short_delta), now as u32);
            self.compare(&call)?;
        }
        Ok(())
    }

    fn questions(&mut self, rng: &mut Rng, world: &World, rust: &RustHistory) -> Checked {
        let state = world.state;
        let session = state.session as u16;
        let full = self.compare(&world.full())?;
        let notice = self.compare(&Call::notify(state))?;
        let ready = self.compare(&Call::ready(state))?;
        let held = &world.snapshots[..full.answer.length as usize];
        let [full, notified] = [&full, &notice].map(|o| o.answer.serial);
        self.with_rust(rust.full(full, held, notified, ready.numbers[0] == 1), &world.full())?;
        let n = state.n;
        for d in [
            0,
            1,
            2,
            rng.below(n as usize + 3) as u32,
            n.wrapping_sub(1),
            n,
            n + 1,
            0x7FFF_FFFF,
            0x8000_0000,
            0x8000_0001,
            u32::MAX,
            rng.next() as u32,
        ] {
            let asked = state.newest.wrapping_sub(d);
            let call = room(rng, world.query(session, asked));
            let outcome = self.compare(&call)?;
            if outcome.answer.number != 4 {
                let said = (outcome.answer.kind == 1).then_some((&outcome.answer, &outcome.bytes[2][..]));
                let refused = || rust.since(asked, None) == Some(true);
                match rust.since(asked, said) {
                    Some(false) if n == 1 && d == 0x8000_0000 => self.known += 1,
                    Some(false) if n >= 2 && d == n && refused() => self.reached += 1,
                    agrees => self.with_rust(agrees, &call)?,
                }
            }
            if rng.one_in(8) {
                let other = session ^ (1 << rng.below(16));
                self.compare(&room(rng, world.query(other, asked)))?;
            }
        }
        Ok(())
    }

    /// Routers read the messages: one that asks for everything, and some that hold the snapshot which most recently
    /// carried the serial that they ask for. Each ends with what the current one says.
    fn routers(&mut self, rng: &mut Rng, world: &World, carried: &Carried, rust: &RustHistory) -> Checked {
        self.kind = "messages";
        let State { session, newest, n, .. } = world.state;
        let (session, asked, version) = (session as u16, times(rng), u8::from(!rng.one_in(3)));
        let (refresh, retry, expire) = model::timing(asked[0], asked[1], asked[2]);
        let told = if version == 0 { [0; 3] } else { [refresh, retry, expire] };
        let now = Router { session, serial: newest, times: told, ..Router::holding(version, &world.now()) };
        let version = u32::from(version);
        self.reads(&room(rng, world.full_messages(version, asked)), &Snapshot::new(), &now, None)?;
        for d in [0, 1, rng.below(n as usize + 2) as u32, n, n + 1] {
            let serial = newest.wrapping_sub(d);
            let held = carried.get(&serial).cloned().unwrap_or_default();
            let call = room(rng, world.query_messages(version, session, serial, asked));
            self.reads(&call, &held, &now, rust.shown(serial))?;
        }
        self.kind = "history";
        Ok(())
    }

    /// A router that holds a snapshot reads what a call wrote, if it wrote data, and is then `now`. What it reads is what the
    /// Rust shows to a server, where that serves.
    fn reads(&mut self, call: &Call, held: &Snapshot, now: &Router, shown: Option<Shown>) -> Checked {
        let outcome = self.compare(call)?;
        if outcome.answer.kind != 1 {
            return Ok(());
        }
        let mut router = Router::holding(now.version, held);
        let read = router.take(&answered(outcome));
        if read.is_err() || router != *now {
            return Err(format!("DIFFERENCE (messages): {read:?}, and the router is {router:?}\n{call}"));
        }
        self.read += 1;
        // the Rust shows router keys, which version 0 leaves out
        let told = |mut shown: Shown| {
            shown.retain(|(_, key)| now.version == 1 || key[0] != 2);
            shown
        };
        self.with_rust(shown.map(|shown| read == Ok(told(shown))), call)
    }

    /// The messages of any good history, at any session and room.
    fn messages(&mut self, rng: &mut Rng) -> Checked {
        self.kind = "messages";
        let universe = Universe::new(rng);
        let world = World::new(rng, &universe);
        let session = if rng.one_in(4) { rng.next() } else { world.state.session } as u16;
        let behind = rng.below(world.state.n as usize + 3) as u32;
        let times = times(rng);
        let version = version(rng);
        let query = world.query_messages(version, session, world.state.newest.wrapping_sub(behind), times);
        let full = world.full_messages(version, times);
        for call in [query, full, Call::notify_message(version, world.state, vec![])] {
            self.compare(&room(rng, call))?;
        }
        Ok(())
    }

    /// The messages of one history with each room from none to more than enough.
    fn every_room(&mut self) -> Checked {
        self.kind = "messages";
        let universe = Universe::fixed();
        let mut rng = Rng::new(self.seed, 0);
        let mut world = World::new(&mut rng, &universe);
        while world.state.n < 2 {
            world = World::new(&mut rng, &universe);
        }
        let (session, newest) = (world.state.session as u16, world.state.newest);
        let times = [3600, 600, 7200];
        let calls = [0, 1].map(|version| {
            [
                world.query_messages(version, session, newest.wrapping_sub(2), times),
                world.query_messages(version, session, newest.wrapping_add(1), times),
                world.query_messages(version, !session, newest, times),
                world.full_messages(version, times),
                Call::notify_message(version, world.state, vec![]),
            ]
        });
        for call in calls.as_flattened() {
            for room in 0.. {
                let mut call = call.clone();
                call.bytes[2] = vec![0xEE; room];
                let answer = self.compare(&call)?.answer;
                if answer.kind != 0 && answer.length as usize + 2 == room {
                    break;
                }
            }
        }
        Ok(())
    }

    /// Lists of queries, most of them good, with outputs of every size up to what is needed and a little more.
    fn appliance(&mut self, rng: &mut Rng, world: &World) -> Checked {
        let list = queries(rng, world);
        let needed = model::run(&world.query_all(list.clone(), vec![0; 1 << 18])).answer.length as usize;
        let rooms: Vec<usize> = match needed {
            0..40 if rng.one_in(8) => (0..=needed + 1).collect(),
            _ => vec![rng.below(needed + 1), needed + rng.below(9)],
        };
        for room in rooms {
            self.compare(&world.query_all(list.clone(), output(rng, room)))?;
        }
        Ok(())
    }

    fn damaged(&mut self, rng: &mut Rng) -> Checked {
        self.kind = "damage";
        let universe = Universe::new(rng);
        let old = universe.snapshot(rng);
        let new = universe.next(rng, &old);
        let (earlier, later) = (universe.delta(rng), universe.delta(rng));
        let (old, new) = (bytes(&old), bytes(&new));
        let (earlier, later) = (model::delta_bytes(&earlier), model::delta_bytes(&later));
        // the first argument, the second, or both
        let which = rng.below(5);
        let mut names = vec![];
        let mut hurt = |rng: &mut Rng, form, bytes: Vec<u8>, on: &[usize]| {
            if !on.contains(&which) {
                return bytes;
            }
            let (name, bytes) = damage(rng, form, &bytes);
            names.push(name);
            bytes
        };
        let (s, d) = (Form::Snapshot, Form::Delta);
        let (first, second) = ([0, 1, 4], [2, 3, 4]);
        let call = match rng.below(4) {
            0 => {
                let (old, new) = (hurt(rng, s, old, &first), hurt(rng, s, new, &second));
                Call::construct(old, new, serial(rng), vec![0xEE; 300])
            }
            1 => {
                let (earlier, later) = (hurt(rng, d, earlier, &first), hurt(rng, d, later, &second));
                Call::merge(earlier, later, serial(rng), vec![0xEE; 300])
            }
            2 => {
                let (old, later) = (hurt(rng, s, old, &first), hurt(rng, d, later, &second));
                Call::apply(old, later, vec![0xEE; 300])
            }
            _ => World::new(rng, &universe).update(hurt(rng, s, new, &[0, 1, 2, 3, 4])),
        };
        let outcome = self.compare(&call)?;
        if matches!(outcome.answer.number, 1 | 2 | 12) {
            names.into_iter().for_each(|name| *self.damages.entry(name).or_default() += 1);
        }
        Ok(())
    }

    fn ill_formed(&mut self, rng: &mut Rng) -> Checked {
        self.kind = "ill-formed";
        let universe = Universe::new(rng);
        let mut world = World::new(rng, &universe);
        let name = if rng.one_in(5) { "none" } else { ill_form(rng, &mut world) };
        let state = world.state;
        // other faults beside it, which 7 comes before
        let session = if rng.one_in(3) { rng.next() } else { state.session } as u16;
        let behind = if rng.one_in(2) { rng.below(4) as u32 } else { rng.next() as u32 };
        let new = bytes(&universe.snapshot(rng));
        let new = if rng.one_in(3) { damage(rng, Form::Snapshot, &new).1 } else { new };
        let mut query = world.query(session, state.newest.wrapping_sub(behind));
        query.bytes[2] = vec![0xEE; [0, 30, 5000][rng.below(3)]];
        let messages = match rng.below(2) {
            0 => Call::query_messages(version(rng), query.clone(), times(rng)),
            _ => Call::full_messages(version(rng), world.full(), times(rng), query.bytes[2].clone()),
        };
        let all = world.query_all(queries(rng, &world), vec![0xEE; rng.below(300)]);
        for call in [world.update(new), query, all, world.full(), messages] {
            if self.compare(&call)?.answer.number == 7 {
                *self.damages.entry(name).or_default() += 1;
            }
        }
        Ok(())
    }

    /// Creation, notify, ready and timing: any numbers.
    fn numbers(&mut self, rng: &mut Rng) -> Checked {
        self.kind = "numbers";
        let keep = match rng.below(3) {
            0 => *rng.pick(&[0, 1, 64, 65, 256, 257, u32::MAX]),
            1 => rng.next() as u32,
            _ => rng.below(70) as u32,
        };
        let (session, snapshots, deltas) = (rng.next(), rng.below(3), rng.below(3));
        let start = serial(rng);
        self.compare(&Call::create(session, keep, start, vec![7; snapshots], vec![7; deltas]))?;
        let state = State {
            session,
            keep,
            active: *rng.pick(&[0, 1, 2, 256, 65_536, 1 << 31, u32::MAX]),
            newest: rng.next() as u32,
            start,
            n: rng.next() as u32,
            snapshot: rng.next() as u32,
            deltas: std::array::from_fn(|_| rng.next() as u32),
        };
        self.compare(&Call::notify(state))?;
        self.compare(&Call::ready(state))?;
        self.compare(&Call::notify_message(version(rng), state, vec![7; 10 + rng.below(4)]))?;
        let near = |rng: &mut Rng| {
            let edge = *rng.pick(&[0, 1, 600, 7_200, 86_400, 172_800, u32::MAX]);
            edge.wrapping_add(rng.below(3) as u32).wrapping_sub(1)
        };
        let asked = [near(rng), near(rng), near(rng)];
        let call = Call::timing(asked[0], asked[1], asked[2]);
        let [refresh, retry, expire] = self.compare(&call)?.numbers;
        let larger = refresh.max(retry);
        match rust_timing(asked[1], asked[2]) {
            // it clamps each alone (E5)
            Some(said) if said[1] <= larger && [retry, expire] == [said[0], larger + 1] => {
                self.raised += 1;
                Ok(())
            }
            said => self.with_rust(said.map(|said| said == [retry, expire]), &call),
        }
    }

    /// Inputs and stores at their limits and one byte over, alone and beside other faults. Once a run, for
    /// these are large.
    fn limits(&mut self) -> Checked {
        self.kind = "limits";
        let (snap, delta) = (SNAPSHOT_LIMIT, DELTA_LIMIT);
        let over = |limit: usize| vec![0; limit + 1];
        let (bad, out) = (b"\x09".to_vec(), vec![0xEE; 40]);
        // one byte over: before any bad field, and the first argument first
        for first_too in [true, false] {
            let first = |limit| if first_too { over(limit) } else { bad.clone() };
            self.compare(&Call::construct(first(snap), over(snap), 0, out.clone()))?;
            self.compare(&Call::merge(first(delta), over(delta), 0, out.clone()))?;
            self.compare(&Call::apply(first(snap), over(delta), out.clone()))?;
            self.compare(&Call::judge(1, first(snap), bad.clone(), out.clone()))?;
            // stores: 10 at creation, behind 8; 7 afterwards
            self.compare(&Call::create(9, 0, 5, first(snap), over(delta)))?;
            self.compare(&Call::create(9, 1, 5, first(snap), over(delta)))?;
            let state = State { session: 9, keep: 3, active: 1, ..State::ZERO };
            let world = World { state, snapshots: first(snap), deltas: over(delta) };
            self.compare(&world.full())?;
            self.compare(&world.query(8, 0))?;
            self.compare(&world.update(bad.clone()))?;
        }
        let inactive = State { session: 9, keep: 3, ..State::ZERO };
        self.compare(&Call::create(9, 64, 5, vec![0; snap], vec![0; delta]))?;
        self.compare(&Call::update(inactive, over(snap), vec![], vec![]))?;
        self.compare(&Call::update(State { newest: 1, ..inactive }, over(snap), vec![], vec![]))?;
        self.compare(&Call::full(State { active: 1, ..inactive }, over(snap), vec![]))?;

        // good bytes of exactly the greatest length, and what is made of them
        let (old, new) = (longest(3, snap, 5000), longest(3, snap, 5001));
        let made = answered(self.compare(&Call::construct(old.clone(), new.clone(), 5, vec![0; delta]))?);
        self.compare(&Call::apply(old.clone(), made.clone(), vec![0; snap]))?;
        // the judge's result may be longer than a snapshot
        let universe = Universe::fixed();
        let announce = |key| answers::payload(1, 1, key);
        let said: Vec<Vec<u8>> = universe.records().into_iter().map(announce).collect();
        let (start, end) = (answers::cache_response(1, 9), answers::end_of_data(1, 9, 5, [1; 3]));
        let answer = [start, said.concat(), end].concat();
        self.compare(&Call::judge(1, old.clone(), answer.clone(), vec![0; snap + 1000]))?;
        self.compare(&Call::judge(1, old.clone(), answer, vec![0; snap]))?;
        let (withdraw, announce) = (longest(0x32, delta, 5000), longest(0x31, delta, 5001));
        self.compare(&Call::merge(withdraw, announce, 5, vec![0; 2 * delta]))?;
        let first = self.compare(&Call::update(inactive, old, vec![0; snap], vec![0; made.len()]))?;
        let [_, snapshots, deltas] = first.bytes;
        let last = self.compare(&Call::update(first.state, new, snapshots, deltas))?;
        let [_, snapshots, deltas] = last.bytes;
        self.compare(&Call::query(last.state, 9, 0, snapshots, deltas, vec![0; made.len()]))?;

        // as many origins as a snapshot can hold: their messages are longer than it
        let (count, none) = (snap / 26, vec![0; 0]);
        let origins: Vec<u8> = (0..count as u32).flat_map(origin6).collect();
        let length = origins.len() as u32;
        let full = Call::full(State { active: 1, snapshot: length, ..inactive }, origins, none);
        for room in [32 * count + 32, 32 * count + 31] {
            self.compare(&Call::full_messages(1, full.clone(), [0, 0, 0], vec![0; room]))?;
        }
        Ok(())
    }

    //------------ Answers of other caches -----------------------------------

    /// The captured answers, then rounds until so many damaged answers have been judged.
    fn judging(&mut self, damaged: u64) -> Checked {
        self.kind = "judge";
        self.round = JUDGING;
        let captured = captures::all();
        captured.iter().try_for_each(|captured| self.captured(captured))?;
        self.many()?;
        while self.damaged_answers < damaged {
            self.round += 1;
            let mut rng = Rng::new(self.seed, self.round);
            self.judged(&mut rng, &captured)?;
        }
        Ok(())
    }

    /// What was recorded of an answer, in just enough room and one byte short; and each damage of one place.
    fn captured(&mut self, captured: &Captured) -> Checked {
        let Captured { name, version, base, answer, verdict } = captured;
        let needed = verdict.as_ref().map_or(0, Vec::len);
        let version = u32::from(*version);
        let call =
            |answer: &[u8], room| Call::judge(version, base.clone(), answer.to_vec(), vec![0xEE; room]);
        let outcome = self.compare(&call(answer, needed))?;
        let said = match outcome.answer {
            Answer { kind: 1, length, .. } => Ok(outcome.bytes[2][..length as usize].to_vec()),
            Answer { number, offset, .. } => Err((number, offset as usize)),
        };
        if said != *verdict {
            return Err(format!("DIFFERENCE (judge): {name} is judged otherwise than recorded"));
        }
        self.compare(&call(answer, needed.saturating_sub(1)))?;
        if answer.len() < 150 {
            each_place(answer).try_for_each(|bad| self.damaged_answer(call(&bad, needed + 40)))?;
        }
        Ok(())
    }

    /// More messages than the judge takes at a time, half of the answers in no order; then one, two and three of the messages
    /// with other flags, whichever comes first.
    fn many(&mut self) -> Checked {
        let mut rng = Rng::new(self.seed, JUDGING);
        for round in 0..36 {
            let count = [5999, 6000, 6001].get(round / 6).copied().unwrap_or(6000 + rng.below(9000));
            let version = u8::from(round % 5 > 0);
            let (held, mut messages) = answers::many(&mut rng, version, count, round % 6);
            let held = bytes(&held);
            let judge = |messages: Vec<u8>, room| Call::judge(version.into(), held.clone(), messages, room);
            self.compare(&room(&mut rng, judge(messages.concat(), vec![])))?;
            for flip in [1, 1, 3] {
                messages[1 + rng.below(count)][8] ^= flip;
                self.damaged_answer(judge(messages.concat(), vec![0xEE; 30 * count]))?;
            }
        }
        Ok(())
    }

    fn damaged_answer(&mut self, call: Call) -> Checked {
        self.damaged_answers += 1;
        self.compare(&call).map(drop)
    }

    /// A good answer or a captured one: as it is, in every room from none to more than enough at times, and damaged.
    fn judged(&mut self, rng: &mut Rng, captured: &[Captured]) -> Checked {
        let (said, held, messages) = if rng.one_in(4) {
            let Captured { version, base, answer, .. } = rng.pick(captured);
            (*version, base.clone(), answers::pieces(answer))
        } else {
            let universe = Universe::new(rng);
            let held = universe.snapshot(rng);
            let said = u8::from(!rng.one_in(3));
            (said, bytes(&held), answers::good(rng, said, &universe, &held))
        };
        // at times the other version is asked for, which refuses the Cache Response
        let asked = if rng.one_in(50) { version(rng) } else { said.into() };
        let judge = |held: &[u8], messages: &[u8], room| {
            Call::judge(asked, held.to_vec(), messages.to_vec(), vec![0xEE; room])
        };
        let answer = messages.concat();
        let outcome = self.compare(&room(rng, judge(&held, &answer, 0)))?;
        let long = held.len() + 2 * answer.len();
        if rng.one_in(200) && long < 1000 {
            for length in 0..=outcome.answer.length as usize + 2 {
                self.compare(&judge(&held, &answer, length))?;
            }
            each_place(&answer).try_for_each(|bad| self.damaged_answer(judge(&held, &bad, long)))?;
        }
        for _ in 0..20 {
            let (name, bad) = answers::damage(rng, &messages);
            let spoilt = rng.one_in(40);
            let held = if spoilt { damage(rng, Form::Snapshot, &held).1 } else { held.clone() };
            let room = if rng.one_in(8) { rng.below(60) } else { long };
            let outcome = self.compare(&judge(&held, &bad, room))?;
            self.damaged_answers += 1;
            if matches!(outcome.answer.number, 13..=15) {
                *self.damages.entry(name).or_default() += 1;
            }
        }
        Ok(())
    }

    //------------ What was met ----------------------------------------------

    fn met_enough(&self) -> Checked {
        let enough = |what: String, met: Option<&u64>, least: u64| match met {
            Some(n) if *n >= least => Ok(()),
            met => Err(format!("too few cases: {what} was met {} times", met.unwrap_or(&0))),
        };
        for kind in 1..=3 {
            let actions = if kind == 3 { 3 } else { 2 };
            for (e, l) in (1..=actions).flat_map(|e| (1..=actions).map(move |l| (e, l))) {
                enough(format!("the pair {:?}", (kind, e, l)), self.pairs.get(&(kind, e, l)), 1000)?;
            }
        }
        use Entry::*;
        for entry in [Construct, Merge, Apply] {
            for (number, argument) in [(1, 1), (1, 2), (2, 1), (2, 2), (12, 1), (12, 2), (4, 0)] {
                let met = self.refusals.get(&(entry, number, argument));
                enough(format!("refusal {number}, argument {argument} of {entry:?}"), met, 200)?;
            }
        }
        for (entry, number, argument, least) in [
            (Apply, 3, 2, 1000),
            (Create, 8, 0, 200),
            (Update, 1, 1, 500),
            (Update, 2, 1, 100),
            (Update, 12, 1, 100),
            (Update, 7, 0, 500),
            (Update, 9, 0, 500),
            (Query, 4, 0, 500),
            (Query, 5, 0, 500),
            (Query, 6, 0, 500),
            (Query, 7, 0, 500),
            (QueryAll, 7, 0, 500),
            (QueryAll, 11, 0, 100),
            (Full, 7, 0, 500),
            (QueryMessages, 4, 0, 500),
            (QueryMessages, 5, 0, 200),
            (QueryMessages, 6, 0, 500),
            (QueryMessages, 7, 0, 500),
            (FullMessages, 4, 0, 500),
            (FullMessages, 7, 0, 500),
            (NotifyMessage, 4, 0, 500),
            (Judge, 1, 1, 100),
            (Judge, 2, 1, 100),
            (Judge, 12, 1, 50),
            (Judge, 13, 2, 10_000),
            (Judge, 14, 2, 1000),
            (Judge, 15, 2, 1000),
            (Judge, 4, 0, 500),
            // from the fixed list alone
            (Construct, 10, 1, 1),
            (Construct, 10, 2, 1),
            (Merge, 10, 1, 1),
            (Merge, 10, 2, 1),
            (Apply, 10, 1, 1),
            (Apply, 10, 2, 1),
            (Create, 10, 1, 1),
            (Create, 10, 2, 1),
            (Update, 10, 1, 1),
            (Judge, 10, 1, 1),
        ] {
            let met = self.refusals.get(&(entry, number, argument));
            enough(format!("refusal {number}, argument {argument} of {entry:?}"), met, least)?;
        }
        const ILL: &[&str] = &[
            "keep 0",
            "keep above 64",
            "n above keep",
            "n far above keep",
            "n = 0 with another serial",
            "inactive with another serial",
            "inactive with deltas",
            "inactive with a snapshot",
            "snapshot past its store",
            "deltas past their store",
            "a bad snapshot",
            "a bad delta",
        ];
        let of_answers = answers::DAMAGES.iter().chain(answers::TOO_NEW).map(|(name, _)| name);
        let names = DAMAGES.iter().map(|(name, _)| name).chain(of_answers);
        for name in names.chain(ILL) {
            enough(format!("\"{name}\""), self.damages.get(name), 100)?;
        }
        enough("a router that reads messages".into(), Some(&self.read), 5000)?;
        if cfg!(routinator) && [self.known, self.reached, self.raised].contains(&0) {
            return Err("too few cases: K6, E2 or E5 was not met".into());
        }
        Ok(())
    }
}

/// Queries of a history: often of a served serial, at times too many of them, or cut inside one.
fn queries(rng: &mut Rng, world: &World) -> Vec<u8> {
    let count = match rng.below(40) {
        0 => 384,
        1 => 385,
        2 => 380 + rng.below(8),
        n => n % 12,
    };
    world.queries(rng, count)
}

fn bytes(snapshot: &Snapshot) -> Vec<u8> {
    model::snapshot_bytes(snapshot)
}

/// The bytes that a call wrote to its output.
fn answered(outcome: Outcome) -> Vec<u8> {
    let [_, _, mut out] = outcome.bytes;
    out.truncate(outcome.answer.length as usize);
    out
}

/// The field of an IPv6 origin of this AS number.
fn origin6(asn: u32) -> Vec<u8> {
    let mut out = vec![];
    put(&mut out, 1, &[&[6, 0x20, 1, 0x0d, 0xb8], &[0; 12], &[32, 48], &asn.to_be_bytes()]);
    out
}

/// ASPA fields of one tag that are `length` bytes together, with providers from `from` on, above all customers.
fn longest(tag: u8, length: usize, from: u32) -> Vec<u8> {
    let mut out = Vec::with_capacity(length);
    for customer in 0u32.. {
        let Some(left) = (length - out.len()).checked_sub(7) else { break };
        let count = (left / 4).min(4096) as u32;
        let providers: Vec<u8> = (from..from + count).flat_map(u32::to_be_bytes).collect();
        put(&mut out, tag, &[&customer.to_be_bytes(), &providers]);
    }
    assert_eq!(out.len(), length);
    out
}

//------------ The Rust, where it is there -----------------------------------

#[cfg(routinator)]
fn served(answer: &Answer, out: &[u8]) -> oracle::rust::Served {
    oracle::rust::Served {
        serial: answer.serial,
        announced: answer.announced,
        withdrawn: answer.withdrawn,
        bytes: out[..answer.length as usize].to_vec(),
    }
}

/// Items announced (true) and withdrawn, in order.
type Shown = Vec<(bool, model::Key)>;

/// Routinator's history beside the library's. Each comparison says whether they agree, and nothing where
/// the Rust is not there.
struct RustHistory {
    #[cfg(routinator)]
    history: oracle::rust::History,
}

#[cfg(routinator)]
impl RustHistory {
    fn new(keep: u32, start: u32) -> Self {
        RustHistory { history: oracle::rust::History::new(keep, start) }
    }

    fn update(&self, new: &[u8], kind: u32) -> Option<bool> {
        Some(self.history.update(new) == (kind != 2))
    }

    fn full(&self, serial: u32, held: &[u8], notified: u32, ready: bool) -> Option<bool> {
        Some(self.history.full() == (serial, held.to_vec(), notified, ready))
    }

    /// The origins and router keys that a server is shown for a router at `asked`.
    fn shown(&self, asked: u32) -> Option<Shown> {
        let items = self.history.shown_since(asked)?.into_iter().filter(|(kind, ..)| *kind != 3);
        Some(items.map(|(kind, announce, body)| (announce, [&[kind][..], &body].concat())).collect())
    }

    /// On a router at `asked`, which was served `said` or nothing.
    fn since(&self, asked: u32, said: Option<(&Answer, &[u8])>) -> Option<bool> {
        let want = said.map(|(answer, out)| served(answer, out));
        let got = self.history.since(asked);
        Some(got == want && self.history.diff(asked) == (got.is_some(), false))
    }
}

#[cfg(not(routinator))]
impl RustHistory {
    fn new(_: u32, _: u32) -> Self {
        RustHistory {}
    }
    fn update(&self, _: &[u8], _: u32) -> Option<bool> {
        None
    }
    fn full(&self, _: u32, _: &[u8], _: u32, _: bool) -> Option<bool> {
        None
    }
    fn shown(&self, _: u32) -> Option<Shown> {
        None
    }
    fn since(&self, _: u32, _: Option<(&Answer, &[u8])>) -> Option<bool> {
        None
    }
}

/// The Rust's retry and expire.
#[cfg(routinator)]
fn rust_timing(retry: u32, expire: u32) -> Option<[u64; 2]> {
    let (_, retry, expire) = oracle::rust::timing(retry, expire);
    Some([retry.into(), expire.into()])
}
#[cfg(not(routinator))]
fn rust_timing(_: u32, _: u32) -> Option<[u64; 2]> {
    None
}
