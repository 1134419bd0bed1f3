//! The two lists: cases of the check, the three entries and the times, and runs of calls on histories.
use std::fmt::Write;

use oracle::answers;
use oracle::call::{Call, Entry, State};
use oracle::damage::{damage, damage_sense, ill_form};
use oracle::make::{pairs, serial, times, Universe, World};
use oracle::model::{self, Form, Snapshot};
use oracle::rng::Rng;
use oracle::script::pack;

const SEED: u64 = 7;

/// How long a line, a store and an output may be.
const SIZE: usize = 4096;

/// How many deltas are kept where a history is filled.
pub const KEEPS: &[u32] = &[1, 2, 3, 4, 5, 6, 7, 8, 15, 16, 17, 31, 32, 33, 62, 63, 64];

/// What stands above a list: how it was made. The Rust agreed on so many calls, and so often each known
/// difference was met.
pub fn head(list: &str, agreed: usize, known: &[(&str, usize)]) -> String {
    let count = |word: &str| list.lines().filter(|line| line.starts_with(word)).count();
    let lines = list.lines().filter(|line| !line.is_empty()).count() - count("#");
    let cases = lines - count("hold ") - count("state ");
    let met = known.iter().filter(|(_, times)| *times > 0);
    let met: Vec<String> = met.map(|(what, times)| format!("{what}, met {times} times,")).collect();
    let but = match &met[..] {
        [] => String::new(),
        [one] => format!(";\n# {one} is the one difference"),
        more => format!(";\n# {} are the differences", more.join(" and ")),
    };
    format!(
        "\
# {cases} cases; the oracle's answers are the file answers. Written by oracle/src/bin/vectors from seed {SEED}, never from what
# the library says: each answer is that of the model of document 01 (oracle/src/model.rs), and the Rust, compiled
# unchanged, agrees on all {agreed} calls that it has an answer to{but}.
# Lines and bytes are written as in lists/examples/cases and lists/examples/runs.
"
    )
}

/// The lines of one list; each has a name of its own.
struct List {
    text: String,
    part: &'static str,
    count: usize,
}

impl List {
    fn new() -> Self {
        List { text: String::new(), part: "", count: 0 }
    }

    fn part(&mut self, part: &'static str, what: &str) {
        (self.part, self.count) = (part, 0);
        write!(self.text, "\n# {what}\n").expect("a string takes all");
    }

    fn line(&mut self, call: &str, words: &[String]) {
        self.count += 1;
        let start = self.text.len();
        write!(self.text, "{call} {}-{}", self.part, self.count).expect("a string takes all");
        words.iter().for_each(|word| self.text.extend([" ", word]));
        assert!(self.text.len() - start < SIZE, "a line is too long");
        self.text.push('\n');
    }
}

//------------ Cases ---------------------------------------------------------

pub fn cases() -> String {
    let mut list = List::new();
    let mut rng = Rng::new(SEED, 0);
    list.part("pair", "every pair of actions on one key, merged");
    for (earlier, later) in pairs() {
        let [earlier, later] = [earlier, later].map(|d| model::delta_bytes(&d));
        list.entry(&Call::merge(earlier, later, serial(&mut rng), vec![0; 60]));
    }
    list.part("random", "differences, merges and applications, at times damaged, at times short of room");
    for i in 0..600 {
        let universe = Universe::few(&mut rng, if i % 100 == 99 { 17 } else { 2 + i % 2 });
        list.random(&mut rng, &universe, i);
    }
    list.part("chain", "A to B, B to C, A to C; the first two merged; that applied to A");
    for i in 0..40 {
        let universe = Universe::few(&mut rng, 2 + i % 3);
        list.chain(&mut rng, &universe);
    }
    list.part("check", "snapshots and deltas, most of them damaged");
    for i in 0..150 {
        let universe = Universe::few(&mut rng, 2 + i % 3);
        list.check(&mut rng, &universe, i);
    }
    list.part("senseless", "an ASPA that makes no sense in one argument");
    for i in 0..60 {
        let universe = Universe::few(&mut rng, 4 + i % 13);
        list.senseless(&mut rng, &universe, i);
    }
    list.part("timing", "times at their bounds and one off");
    for i in 0..60 {
        let edges = [0, 1, 600, 7_200, 86_400, 172_800, u32::MAX];
        let near = |k: usize| edges[(i * (k + 1) + k) % 7].wrapping_add(i as u32 % 3).wrapping_sub(1);
        list.line("timing", &[0, 1, 2].map(|k| near(k).to_string()));
    }
    list.part("judge", "answers of other caches, most of them damaged, at times short of room");
    for i in 0..300 {
        let universe = Universe::few(&mut rng, 2 + i % 12);
        list.judge(&mut rng, 1, &universe, i);
    }
    list.part("judge-0", "answers in version 0, and a few of version 1 to one who asked in version 0");
    for i in 0..150 {
        let universe = Universe::few(&mut rng, 2 + i % 12);
        list.judge(&mut rng, 0, &universe, i);
    }
    list.text
}

impl List {
    fn entry(&mut self, call: &Call) {
        let (name, serial) = match call.entry {
            Entry::Construct => ("construct", call.numbers[0].to_string()),
            Entry::Merge => ("merge", call.numbers[0].to_string()),
            Entry::Judge => ("judge", "-".into()),
            _ => ("apply", "-".into()),
        };
        let [first, second, out] = &call.bytes;
        let words = [out.len().to_string(), serial, pack(first), pack(second)];
        match call.entry {
            Entry::Judge => self.line(name, &[&[call.version.to_string()][..], &words].concat()),
            _ => self.line(name, &words),
        }
    }

    fn random(&mut self, rng: &mut Rng, universe: &Universe, i: usize) {
        let old = universe.snapshot(rng);
        let new = model::snapshot_bytes(&universe.next(rng, &old));
        let fitting = model::delta_bytes(&universe.fitting(rng, &old));
        let [earlier, later] = [(); 2].map(|_| model::delta_bytes(&universe.delta(rng)));
        let old = model::snapshot_bytes(&old);
        let (forms, mut call) = match i % 3 {
            0 => ([Form::Snapshot; 2], Call::construct(old, new, serial(rng), vec![])),
            1 => ([Form::Delta; 2], Call::merge(earlier, later, serial(rng), vec![])),
            _ => ([Form::Snapshot, Form::Delta], Call::apply(old, fitting, vec![])),
        };
        if rng.one_in(3) {
            let which = rng.below(2);
            let (_, bad) = damage(rng, forms[which], &call.bytes[which]);
            if bad.len() < 600 {
                call.bytes[which] = bad;
            }
        }
        call.bytes[2] = room(rng, &call);
        self.entry(&call);
    }

    fn senseless(&mut self, rng: &mut Rng, universe: &Universe, i: usize) {
        let old = universe.snapshot(rng);
        let new = model::snapshot_bytes(&universe.next(rng, &old));
        let [earlier, later] = [(); 2].map(|_| model::delta_bytes(&universe.delta(rng)));
        let old = model::snapshot_bytes(&old);
        let (forms, mut call) = match i % 3 {
            0 => ([Form::Snapshot; 2], Call::construct(old, new, serial(rng), vec![])),
            1 => ([Form::Delta; 2], Call::merge(earlier, later, serial(rng), vec![])),
            _ => ([Form::Snapshot, Form::Delta], Call::apply(old, later, vec![])),
        };
        let which = i / 3 % 2;
        call.bytes[which] = damage_sense(rng, forms[which], &call.bytes[which]);
        call.bytes[2] = room(rng, &call);
        self.entry(&call);
    }

    fn judge(&mut self, rng: &mut Rng, version: u8, universe: &Universe, i: usize) {
        let held = universe.snapshot(rng);
        let said = if i % 25 == 24 { 1 } else { version };
        let messages = answers::good(rng, said, universe, &held);
        let bytes = if i % 4 == 0 { messages.concat() } else { answers::damage(rng, &messages).1 };
        let held = model::snapshot_bytes(&held);
        let held = if i % 30 == 29 { damage(rng, Form::Snapshot, &held).1 } else { held };
        if held.len() + bytes.len() < 1500 {
            let mut call = Call::judge(version.into(), held, bytes, vec![]);
            call.bytes[2] = room(rng, &call);
            self.entry(&call);
        }
    }

    fn chain(&mut self, rng: &mut Rng, universe: &Universe) {
        let a = universe.snapshot(rng);
        let b = universe.next(rng, &a);
        let c = universe.next(rng, &b);
        let difference = |x, y| model::delta_bytes(&model::difference(x, y));
        let (ab, bc, ac) = (difference(&a, &b), difference(&b, &c), difference(&a, &c));
        let [a, b, c] = [a, b, c].map(|s| model::snapshot_bytes(&s));
        let (start, out) = (serial(rng), vec![0; 2000]);
        let next = start.wrapping_add(1);
        self.entry(&Call::construct(a.clone(), b.clone(), start, out.clone()));
        self.entry(&Call::construct(b, c.clone(), next, out.clone()));
        self.entry(&Call::construct(a.clone(), c, start, out.clone()));
        self.entry(&Call::merge(ab, bc, next.wrapping_add(1), out.clone()));
        self.entry(&Call::apply(a, ac, out));
    }

    fn check(&mut self, rng: &mut Rng, universe: &Universe, i: usize) {
        let (name, form, bytes) = match i % 2 {
            0 => ("snapshot", Form::Snapshot, model::snapshot_bytes(&universe.snapshot(rng))),
            _ => ("delta", Form::Delta, model::delta_bytes(&universe.delta(rng))),
        };
        let (_, bad) = damage(rng, form, &bytes);
        self.line(name, &[pack(if bad.len() < 600 { &bad } else { &bytes })]);
    }
}

/// An output: exactly enough for the call, one byte short, or more than enough.
fn room(rng: &mut Rng, call: &Call) -> Vec<u8> {
    let mut call = call.clone();
    call.bytes[2] = vec![0; SIZE];
    let needed = model::run(&call).answer.length as usize;
    vec![0; [needed, needed, needed.saturating_sub(1), needed + 9][rng.below(4)]]
}

//------------ Runs ----------------------------------------------------------

pub fn runs() -> String {
    let mut list = List::new();
    let mut rng = Rng::new(SEED, 1);
    list.part("keep", "histories filled, and two updates more");
    KEEPS.iter().for_each(|keep| list.keep(*keep));
    list.part("started", "serials that cross the wrap, or the middle");
    for start in
        [0, 0x7FFF_FFFB, 0x7FFF_FFFD, 0x7FFF_FFFF, 0xFFFF_FFFA, 0xFFFF_FFFB, 0xFFFF_FFFD, 0xFFFF_FFFF]
    {
        list.started(start);
    }
    list.part("history", "updates with queries after each; serials from 0 or from another start");
    for i in 0..44 {
        let universe = Universe::few(&mut rng, 1 + i % 4);
        list.history(&mut rng, &universe);
    }
    list.part("formed", "histories by construction, most of them not well formed");
    for i in 0..70 {
        let universe = Universe::few(&mut rng, 1 + i % 2);
        list.formed(&mut rng, &universe);
    }
    list.part("messages", "router messages of histories by construction, at times not well formed");
    for i in 0..80 {
        let universe = Universe::few(&mut rng, 3 + i % 4);
        list.messages(&mut rng, 1, &universe);
    }
    list.part("messages-0", "the same in version 0");
    for i in 0..40 {
        let universe = Universe::few(&mut rng, 3 + i % 4);
        list.messages(&mut rng, 0, &universe);
    }
    list.part("appliance", "queries in one call to histories by construction, at times not well formed");
    for i in 0..80 {
        let universe = Universe::few(&mut rng, 1 + i % 4);
        list.appliance(&mut rng, &universe, i);
    }
    list.text
}

/// A snapshot of one ASPA, of the customer 64500.
fn aspa(provider: u32) -> String {
    pack(&[&[3, 0, 8, 0, 0, 0xFB, 0xF4], &provider.to_be_bytes()[..]].concat())
}

fn words<const N: usize>(numbers: [u64; N]) -> Vec<String> {
    numbers.map(|n| n.to_string()).into()
}

impl List {
    fn create(&mut self, session: u64, keep: u32, start: u32, room: [usize; 2]) -> World {
        let numbers = [session, keep.into(), start.into(), room[0] as u64, room[1] as u64];
        self.line("create", &words(numbers));
        let [snapshots, deltas] = room.map(|n| vec![0; n]);
        let made = model::run(&Call::create(session, keep, start, snapshots.clone(), deltas.clone()));
        World { state: made.state, snapshots, deltas }
    }

    fn query(&mut self, state: &State, session: u16, d: u32, room: usize) {
        self.line("query", &words([session.into(), state.newest.wrapping_sub(d).into(), room as u64]));
    }

    /// One ASPA whose provider is the serial; the delta store is exactly full.
    fn keep(&mut self, keep: u32) {
        let state = State { newest: keep + 2, ..State::ZERO };
        self.create(u64::from(keep) << 16 | 9, keep, 0, [11, 17 * keep as usize]);
        self.line("update", &[aspa(0)]);
        self.line("go", &[(keep + 2).to_string(), aspa(1)]);
        for d in [1, keep / 2, keep - 1, keep, keep + 1] {
            self.query(&state, 9, d, 17);
        }
        self.line("full", &[]);
    }

    /// The same from a start serial, with questions before and after each update; the last two drop a delta.
    fn started(&mut self, start: u32) {
        self.create(9, 5, start, [11, 90]);
        let inactive = State { newest: start, ..State::ZERO };
        [0, 1, u32::MAX, start].iter().for_each(|d| self.query(&inactive, 9, *d, 17));
        for m in 0..=7 {
            self.line("update", &[aspa(m)]);
            let (state, n) = (State { newest: start.wrapping_add(m), ..State::ZERO }, m.min(5));
            for d in [0, 1, 2, n.wrapping_sub(1), n, n + 1, 0x7FFF_FFFF, 0x8000_0000, 0x8000_0001] {
                self.query(&state, 9, d, 17);
            }
            self.line("notify", &[]);
        }
    }

    fn history(&mut self, rng: &mut Rng, universe: &Universe) {
        let keep = *rng.pick(&[1, 1, 2, 3, 4, 5, 64, 0, 65]);
        let start = if rng.one_in(2) { serial(rng) } else { 0 };
        let mut snapshots = vec![universe.snapshot(rng)];
        for _ in 0..3 + rng.below(5) {
            snapshots.push(universe.next(rng, snapshots.last().expect("there is one")));
        }
        let room = stores(rng, keep, &snapshots);
        let session = rng.next();
        let mut world = self.create(session, keep, start, room);
        if world.state.keep == 0 {
            return;
        }
        self.questions(rng, &world);
        for snapshot in &snapshots {
            let new = model::snapshot_bytes(snapshot);
            let new = match rng.below(16) {
                0 | 1 => damage(rng, Form::Snapshot, &new).1,
                2 => damage_sense(rng, Form::Snapshot, &new),
                _ => new,
            };
            if new.len() >= 600 {
                continue;
            }
            self.line("update", &[pack(&new)]);
            let outcome = model::run(&world.update(new));
            let [_, snapshots, deltas] = outcome.bytes;
            world = World { state: outcome.state, snapshots, deltas };
            if rng.one_in(3) {
                self.line("look", &words(room.map(|n| n as u64)));
            }
            self.questions(rng, &world);
        }
        ["full", "notify", "ready"].iter().for_each(|call| self.line(call, &[]));
    }

    fn questions(&mut self, rng: &mut Rng, world: &World) {
        let state = &world.state;
        let n = state.n;
        for d in [0, 1, 2, n.wrapping_sub(1), n, n + 1, 0x7FFF_FFFF, 0x8000_0000, 0x8000_0001] {
            let k6 = n == 1 && d == 1 << 31;
            if !k6 && rng.one_in(if d < 3 { 2 } else { 4 }) || d > n + 1 && rng.one_in(2) && !k6 {
                continue;
            }
            let session = if rng.one_in(10) { rng.next() } else { state.session } as u16;
            let call = world.query(session, state.newest.wrapping_sub(d));
            let room = room(rng, &call).len();
            self.query(state, session, d, room);
        }
    }

    fn state(&mut self, state: &State) {
        let State { session, keep, active, newest, start, n, snapshot, deltas } = state;
        let used = deltas.iter().rposition(|l| *l != 0).map_or(0, |at| at + 1);
        let numbers = [keep, active, newest, start, n, snapshot].into_iter().chain(&deltas[..used]);
        let numbers = numbers.map(|n| n.to_string());
        self.line("state", &[session.to_string()].into_iter().chain(numbers).collect::<Vec<_>>());
    }

    /// Holds a history, unless its bytes are many. How long its stores are.
    fn hold(&mut self, world: &mut World) -> Option<[String; 2]> {
        let World { state, snapshots, deltas } = world;
        if snapshots.len() >= 500 || deltas.len() >= 500 {
            return None;
        }
        state.active = state.active.min(1);
        state.deltas[(state.n as usize).clamp(1, 64)..].fill(0);
        let rooms = [snapshots.len(), deltas.len()].map(|n| n.to_string());
        let [snapshot_room, delta_room] = rooms.clone();
        self.line("hold", &[snapshot_room, pack(snapshots), delta_room, pack(deltas)]);
        self.state(state);
        Some(rooms)
    }

    fn messages(&mut self, rng: &mut Rng, version: u32, universe: &Universe) {
        let mut world = World::new(rng, universe);
        if rng.one_in(8) {
            ill_form(rng, &mut world);
        }
        if self.hold(&mut world).is_none() {
            return;
        }
        let state = world.state;
        let asked = times(rng);
        let [refresh, retry, expire] = asked.map(u64::from);
        let needed = |rng: &mut Rng, call: Call| room(rng, &call).len() as u64;
        for d in [0, 1, state.n, state.n.wrapping_add(1)] {
            let session = if rng.one_in(6) { rng.next() } else { state.session } as u16;
            let serial = state.newest.wrapping_sub(d);
            let room = needed(rng, world.query_messages(version, session, serial, asked));
            let (session, serial) = (session.into(), serial.into());
            self.line(
                "query-messages",
                &words([version.into(), session, serial, refresh, retry, expire, room]),
            );
        }
        let room = needed(rng, world.full_messages(version, asked));
        self.line("full-messages", &words([version.into(), refresh, retry, expire, room]));
        let room = needed(rng, Call::notify_message(version, state, vec![]));
        self.line("notify-message", &words([version.into(), room]));
    }

    /// Every tenth list has as many queries as it may, or one more: all for serial 0, which n updates led on from.
    fn appliance(&mut self, rng: &mut Rng, universe: &Universe, i: usize) {
        let mut world = World::new(rng, universe);
        let most = i % 10 == 9;
        if most {
            let state = &mut world.state;
            (state.session, state.newest, state.start) = (rng.next() << 16, state.n, 0);
        }
        if rng.one_in(8) {
            ill_form(rng, &mut world);
        }
        if self.hold(&mut world).is_none() {
            return;
        }
        let count = rng.below(16);
        let list = if most { vec![0; 6 * (384 + i / 10 % 2)] } else { world.queries(rng, count) };
        let room = room(rng, &world.query_all(list.clone(), vec![])).len();
        self.line("queries", &[room.to_string(), pack(&list)]);
    }

    fn formed(&mut self, rng: &mut Rng, universe: &Universe) {
        let mut world = World::new(rng, universe);
        if !rng.one_in(5) {
            ill_form(rng, &mut world);
        }
        let Some(rooms) = self.hold(&mut world) else { return };
        let state = &world.state;
        let (session, d) =
            (if rng.one_in(4) { rng.next() } else { state.session } as u16, rng.below(3) as u32);
        let new = model::snapshot_bytes(&universe.snapshot(rng));
        let new = if rng.one_in(3) { damage(rng, Form::Snapshot, &new).1 } else { new };
        self.query(&world.state, session, d, 100 * rng.below(2));
        self.line("full", &[]);
        if new.len() < 600 {
            self.line("update", &[pack(&new)]);
            self.line("look", &rooms);
        }
        ["notify", "ready"].iter().for_each(|call| self.line(call, &[]));
    }
}

/// Stores for a run of updates: more than enough, exactly enough, or one byte short.
fn stores(rng: &mut Rng, keep: u32, snapshots: &[Snapshot]) -> [usize; 2] {
    let state = State { keep, ..State::ZERO };
    let mut world = World { state, snapshots: vec![0; SIZE], deltas: vec![0; SIZE] };
    let mut most = [0, 0];
    for snapshot in snapshots {
        let outcome = model::run(&world.update(model::snapshot_bytes(snapshot)));
        let [_, snapshots, deltas] = outcome.bytes;
        world = World { state: outcome.state, snapshots, deltas };
        let held = world.state.deltas.iter().sum::<u32>();
        most = [most[0].max(world.state.snapshot as usize), most[1].max(held as usize)];
    }
    let short = |n: usize| n.saturating_sub(1);
    match rng.below(5) {
        0 | 1 => most,
        2 => [short(most[0]), most[1]],
        3 => [most[0], short(most[1])],
        _ => most.map(|n| n + 20),
    }
}
