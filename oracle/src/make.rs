//! Random good snapshots, deltas and histories over a small universe of keys, so that keys meet.
use crate::call::{Call, State};
use crate::model::{self, Change, Delta, Key, Snapshot, Value};
use crate::rng::Rng;

/// The keys of one round, and how long its provider lists may be.
pub struct Universe {
    keys: Vec<Key>,
    providers: Vec<u32>,
}

impl Universe {
    pub fn new(rng: &mut Rng) -> Self {
        match rng.below(40) {
            0 => Self::large(rng),
            1..=12 => Self::random(rng),
            _ => Self::fixed(),
        }
    }

    /// Keys that differ in their first, last or only their length, at the ends of their ranges.
    pub fn fixed() -> Self {
        let mut keys = vec![];
        for (family, start, prefix, max, asn) in [
            (4, [192, 0, 2, 0], 24, 24, 64496),
            (4, [192, 0, 2, 0], 24, 25, 64496),
            (4, [192, 0, 2, 0], 24, 24, 64752),
            (4, [10, 0, 0, 0], 8, 32, 0),
            (4, [0, 0, 0, 0], 0, 0, u32::MAX),
            (6, [0x20, 1, 0x0d, 0xb8], 32, 48, 64496),
            (6, [0, 0, 0, 0], 0, 128, 1),
        ] {
            keys.push(origin(family, u128::from(u32::from_be_bytes(start)) << 96, prefix, max, asn));
        }
        for (last, asn, info) in
            [(0, 1, &b""[..]), (0, 1, b"\0"), (0, 1, b"ab"), (0, 256, b"a"), (255, 1, b"abc")]
        {
            keys.push([&[2], &[7; 19][..], &[last], &u32::to_be_bytes(asn), info].concat());
        }
        for customer in [0, 1, 256, 64497, u32::MAX] {
            keys.push([&[3], &u32::to_be_bytes(customer)[..]].concat());
        }
        Universe { keys, providers: vec![0, 1, 64497, 64498, u32::MAX] }
    }

    /// The origins and router keys.
    pub fn records(&self) -> Vec<&Key> {
        self.keys.iter().filter(|key| key[0] < 3).collect()
    }

    /// Some of the fixed keys.
    pub fn few(rng: &mut Rng, count: usize) -> Self {
        let mut universe = Self::fixed();
        while universe.keys.len() > count {
            universe.keys.remove(rng.below(universe.keys.len()));
        }
        universe
    }

    /// Keys at random, many of them close to each other.
    fn random(rng: &mut Rng) -> Self {
        let numbers: Vec<u32> = (0..6).map(|_| number(rng)).collect();
        let address = u128::from(rng.next()) << 64 | u128::from(rng.next());
        let identifier: Vec<u8> = (0..20).map(|_| rng.next() as u8).collect();
        let mut keys = vec![];
        for _ in 0..1 + rng.below(20) {
            let (family, bound) = if rng.one_in(2) { (4, 32) } else { (6, 128) };
            let prefix = rng.below(bound + 1);
            let near = address ^ (u128::from(rng.next() & 3) << (128 - bound));
            let kept = near & !(u128::MAX.checked_shr(prefix as u32).unwrap_or(0));
            let max = prefix + rng.below(bound - prefix + 1);
            keys.push(origin(family, kept, prefix as u8, max as u8, *rng.pick(&numbers)));
        }
        for _ in 0..rng.below(10) {
            let mut key = [&[2], &identifier[..], &rng.pick(&numbers).to_be_bytes()].concat();
            let at = 1 + rng.below(20);
            key[at] ^= [0, 0, 1, 128][rng.below(4)];
            let length = [0, 1, 2, 91, rng.below(40)][rng.below(5)];
            key.extend((0..length).map(|i| if rng.one_in(8) { rng.next() as u8 } else { i as u8 }));
            keys.push(key);
        }
        for _ in 0..rng.below(12) {
            keys.push([&[3], &number(rng).to_be_bytes()[..]].concat());
        }
        keys.sort();
        keys.dedup();
        Universe { keys, providers: numbers }
    }

    /// Bodies as long as they may be, and a little less.
    fn large(rng: &mut Rng) -> Self {
        let mut keys = vec![];
        for length in [1023, 1024, 1024] {
            keys.push([&[2], &vec![rng.below(2) as u8; 24 + length][..]].concat());
        }
        keys.extend((0..3u32).map(|c| [&[3], &c.to_be_bytes()[..]].concat()));
        keys.sort();
        keys.dedup();
        Universe { keys, providers: (0..4096).map(|i| i * 7).collect() }
    }

    /// Providers that make sense for the customer of a key: there is one, and none is the customer.
    fn providers(&self, rng: &mut Rng, key: &Key) -> Value {
        let mut list: Vec<u32> = match (self.providers.len(), rng.below(4)) {
            // nearly all of a long list, or all
            (4096, 0) => self.providers[rng.below(3)..].to_vec(),
            (4096, 1) => self.providers.clone(),
            _ => self.providers.iter().copied().filter(|_| rng.one_in(3)).collect(),
        };
        let customer = u32::from_be_bytes(key[1..].try_into().expect("4 bytes"));
        list.retain(|p| *p != customer);
        if list.is_empty() {
            let others: Vec<u32> = self.providers.iter().copied().filter(|p| *p != customer).collect();
            list.push(if others.is_empty() { customer.wrapping_add(1) } else { *rng.pick(&others) });
        }
        list.sort();
        list.dedup();
        list.into_iter().flat_map(u32::to_be_bytes).collect()
    }

    fn value(&self, rng: &mut Rng, key: &Key) -> Value {
        if key[0] == 3 {
            self.providers(rng, key)
        } else {
            vec![]
        }
    }

    pub fn snapshot(&self, rng: &mut Rng) -> Snapshot {
        let density = 1 + rng.below(4);
        let mut out = Snapshot::new();
        for key in &self.keys {
            if rng.one_in(density) {
                out.insert(key.clone(), self.value(rng, key));
            }
        }
        out
    }

    /// Another snapshot: at times the same, mostly a few changes, at times all new.
    pub fn next(&self, rng: &mut Rng, from: &Snapshot) -> Snapshot {
        match rng.below(6) {
            0 => from.clone(),
            1 => self.snapshot(rng),
            _ => {
                let mut to = from.clone();
                for key in &self.keys {
                    if rng.one_in(6) && to.remove(key).is_none() | (key[0] == 3 && rng.one_in(2)) {
                        to.insert(key.clone(), self.value(rng, key));
                    }
                }
                to
            }
        }
    }

    /// A good delta, of no chain.
    pub fn delta(&self, rng: &mut Rng) -> Delta {
        let density = 1 + rng.below(4);
        let mut out = Delta::new();
        for key in &self.keys {
            if !rng.one_in(density) {
                continue;
            }
            let value = self.value(rng, key);
            let change = match (key[0], rng.below(3)) {
                (3, 0) if rng.one_in(4) => Change::Update(value.clone(), value),
                (3, 0) => Change::Update(value, self.providers(rng, key)),
                (_, 1) => Change::Announce(value),
                _ => Change::Withdraw(value),
            };
            out.insert(key.clone(), change);
        }
        out
    }

    /// A delta that mostly can be applied to `to`, or at times all but one of its items can.
    pub fn fitting(&self, rng: &mut Rng, to: &Snapshot) -> Delta {
        let mut delta = model::difference(to, &self.next(rng, to));
        if rng.one_in(3) {
            let other = self.delta(rng);
            if let Some((key, change)) = other.iter().nth(rng.below(other.len().max(1))) {
                delta.insert(key.clone(), change.clone());
            }
        }
        delta
    }
}

/// Every action on a key of this kind, over four provider lists.
fn actions(kind: u8) -> Vec<Change> {
    let lists = [vec![0, 0, 0, 0], vec![0, 0, 0, 2], vec![0, 0, 0, 3], vec![0, 0, 0, 2, 0, 0, 0, 3]];
    if kind < 3 {
        return vec![Change::Announce(vec![]), Change::Withdraw(vec![])];
    }
    let alone = lists.iter().flat_map(|l| [Change::Announce(l.clone()), Change::Withdraw(l.clone())]);
    let pairs = lists.iter().flat_map(|p| lists.iter().map(|n| Change::Update(p.clone(), n.clone())));
    alone.chain(pairs).collect()
}

/// Two deltas on one key, for a key of each kind: every pair of actions.
pub fn pairs() -> Vec<(Delta, Delta)> {
    let mut out = vec![];
    for key in [origin(4, 0, 0, 0, 0), [&[2][..], &[7; 24]].concat(), vec![3, 0, 0, 0, 1]] {
        let one = |change: &Change| Delta::from([(key.clone(), change.clone())]);
        for (e, l) in actions(key[0]).iter().flat_map(|e| actions(key[0]).into_iter().map(move |l| (e, l))) {
            out.push((one(e), one(&l)));
        }
    }
    out
}

fn origin(family: u8, address: u128, prefix: u8, max: u8, asn: u32) -> Key {
    [&[1, family], &address.to_be_bytes()[..], &[prefix, max], &asn.to_be_bytes()].concat()
}

fn number(rng: &mut Rng) -> u32 {
    match rng.below(4) {
        0 => *rng.pick(&[0, 1, 255, 256, 65_535, 65_536, u32::MAX - 1, u32::MAX]),
        1 => 64_496 + rng.below(4) as u32,
        _ => rng.next() as u32,
    }
}

/// A serial: anything, or close to where serials wrap or their order turns.
pub fn serial(rng: &mut Rng) -> u32 {
    let near = rng.below(9) as u32;
    match rng.below(5) {
        0 => near.wrapping_sub(4),
        1 => near.wrapping_add(0x7FFF_FFFC),
        2 => near,
        _ => rng.next() as u32,
    }
}

/// A version to ask for: 0 is RFC 6810, any other number RFC 8210.
pub fn version(rng: &mut Rng) -> u32 {
    *rng.pick(&[0, 0, 0, 1, 1, 2, 256, u32::MAX])
}

/// Refresh, retry and expire: at their bounds and one off, or as one would set them.
pub fn times(rng: &mut Rng) -> [u32; 3] {
    const EDGES: [u32; 7] = [0, 1, 600, 7_200, 86_400, 172_800, u32::MAX];
    match rng.below(3) {
        0 => [3600, 600, 7200],
        _ => [(); 3].map(|_| rng.pick(&EDGES).wrapping_add(rng.below(3) as u32).wrapping_sub(1)),
    }
}

/// An output of `length` bytes, none of which looks like what will be written.
pub fn output(rng: &mut Rng, length: usize) -> Vec<u8> {
    let fill = 0x80 | rng.next() as u8;
    vec![fill; length]
}

/// Lends the call an output: exactly enough, one byte short, more than enough, or any.
pub fn room(rng: &mut Rng, mut call: Call) -> Call {
    let out = call.out().expect("an entry with an output");
    call.bytes[out] = vec![0; 1 << 18];
    let needed = model::run(&call).answer.length as usize;
    let length = match rng.below(8) {
        0..=2 => needed,
        3 => needed.saturating_sub(1),
        4 => rng.below(needed + 1),
        _ => needed + rng.below(40),
    };
    call.bytes[out] = output(rng, length);
    call
}

/// A state and its two stores.
#[derive(Clone)]
pub struct World {
    pub state: State,
    pub snapshots: Vec<u8>,
    pub deltas: Vec<u8>,
}

impl World {
    /// A good history, most often with some deltas, by a run of updates of the model.
    pub fn new(rng: &mut Rng, universe: &Universe) -> Self {
        let keep = if rng.one_in(8) { 1 + rng.below(64) } else { 1 + rng.below(4) } as u32;
        let mut now = Snapshot::new();
        let (mut lengths, mut bytes) = (Vec::new(), Vec::new());
        let active = !rng.one_in(8);
        if active {
            now = universe.snapshot(rng);
            for _ in 0..rng.below(keep as usize + 1) {
                let next = universe.next(rng, &now);
                let delta = model::delta_bytes(&model::difference(&now, &next));
                lengths.push(delta.len() as u32);
                bytes.extend(delta);
                now = next;
            }
        }
        let mut snapshots = model::snapshot_bytes(&now);
        let n = lengths.len() as u32;
        let start = if rng.one_in(3) { 0 } else { serial(rng) };
        let state = State {
            session: rng.next(),
            keep,
            active: u32::from(active) * if rng.one_in(4) { 1 + rng.below(9) as u32 } else { 1 },
            newest: if n > 0 { serial(rng) } else { start },
            start,
            n,
            snapshot: snapshots.len() as u32,
            // unused lengths are ignored
            deltas: std::array::from_fn(|i| lengths.get(i).copied().unwrap_or(rng.next() as u32 % 3)),
        };
        // what stands behind the held bytes is nobody's business; half the time nothing does
        for store in [&mut snapshots, &mut bytes] {
            if rng.one_in(2) {
                let more = rng.below(200);
                store.extend(output(rng, more));
            }
        }
        World { state, snapshots, deltas: bytes }
    }

    pub fn now(&self) -> Snapshot {
        let held = &self.snapshots[..self.state.snapshot as usize];
        model::snapshot(held, 0).expect("a history holds a good snapshot")
    }

    /// Stores with room for an update by a snapshot of `length` bytes, and a little more.
    pub fn refit(&mut self, rng: &mut Rng, length: usize) {
        let snapshot = self.state.snapshot as usize;
        let held = self.state.held().iter().sum::<u32>() as usize;
        self.snapshots.resize(snapshot.max(length) + rng.below(20), 0x99);
        self.deltas.resize(held + snapshot + length + rng.below(20), 0x99);
    }

    pub fn update(&self, new: Vec<u8>) -> Call {
        Call::update(self.state, new, self.snapshots.clone(), self.deltas.clone())
    }

    pub fn query(&self, session: u16, serial: u32) -> Call {
        Call::query(self.state, session, serial, self.snapshots.clone(), self.deltas.clone(), vec![])
    }

    /// A list of so many queries, most of them good; at times it ends within one.
    pub fn queries(&self, rng: &mut Rng, count: usize) -> Vec<u8> {
        let (session, n) = (self.state.session as u16, self.state.n as usize);
        let mut list = vec![];
        for _ in 0..count {
            let d = if rng.one_in(9) { rng.next() as u32 } else { rng.below(n + 2) as u32 };
            let session = if rng.one_in(9) { session ^ (1 << rng.below(16)) } else { session };
            list.extend(session.to_be_bytes());
            list.extend(self.state.newest.wrapping_sub(d).to_be_bytes());
        }
        if rng.one_in(12) {
            list.resize(list.len() + 1 + rng.below(5), 0);
        }
        list
    }

    pub fn query_all(&self, list: Vec<u8>, out: Vec<u8>) -> Call {
        Call::query_all(self.state, self.snapshots.clone(), self.deltas.clone(), list, out)
    }

    pub fn full(&self) -> Call {
        Call::full(self.state, self.snapshots.clone(), self.deltas.clone())
    }

    pub fn query_messages(&self, version: u32, session: u16, serial: u32, times: [u32; 3]) -> Call {
        Call::query_messages(version, self.query(session, serial), times)
    }

    pub fn full_messages(&self, version: u32, times: [u32; 3]) -> Call {
        Call::full_messages(version, self.full(), times, vec![])
    }
}
