//! One call of the C interface with all it is lent, and all that it leaves.
use std::fmt;

/// The functions of the C interface, in the header's order.
#[derive(Clone, Copy, Debug, Eq, Ord, PartialEq, PartialOrd)]
#[repr(u32)]
pub enum Entry {
    Construct,
    Merge,
    Apply,
    Create,
    Update,
    Query,
    QueryAll,
    Full,
    Notify,
    Ready,
    Timing,
    QueryMessages,
    FullMessages,
    NotifyMessage,
    Judge,
}

/// `taplevung_state`.
#[derive(Clone, Copy, Eq, PartialEq)]
pub struct State {
    pub session: u64,
    pub keep: u32,
    pub active: u32,
    pub newest: u32,
    pub start: u32,
    pub n: u32,
    pub snapshot: u32,
    pub deltas: [u32; 64],
}

impl State {
    pub const ZERO: State =
        State { session: 0, keep: 0, active: 0, newest: 0, start: 0, n: 0, snapshot: 0, deltas: [0; 64] };

    /// The lengths of the held deltas; `n` must be at most 64.
    pub fn held(&self) -> &[u32] {
        &self.deltas[..self.n as usize]
    }
}

/// `taplevung_answer`.
#[derive(Clone, Copy, Debug, Default, Eq, PartialEq)]
pub struct Answer {
    pub kind: u32,
    pub number: u32,
    pub argument: u32,
    pub serial: u32,
    pub offset: u64,
    pub length: u64,
    pub announced: u64,
    pub withdrawn: u64,
}

/// `taplevung_reply`.
#[derive(Clone, Copy, Debug, Default, Eq, PartialEq)]
pub struct Reply {
    pub kind: u32,
    pub number: u32,
    pub offset: u64,
    pub length: u64,
    pub announced: u64,
    pub withdrawn: u64,
}

/// A call. Which numbers and slices an entry takes is said at the functions that make one; slices
/// stand in the order of the C function's parameters.
#[derive(Clone)]
pub struct Call {
    pub entry: Entry,
    /// Of messages and judge: 0 is RFC 6810, any other number RFC 8210.
    pub version: u32,
    pub state: State,
    pub numbers: [u64; 5],
    pub bytes: [Vec<u8>; 3],
    /// The queries of `QueryAll`.
    pub list: Vec<u8>,
}

/// All that a call hands back, and every lent byte afterwards. What an entry does not hand back is 0.
#[derive(Clone, Eq, PartialEq)]
pub struct Outcome {
    pub answer: Answer,
    /// The state from then on; of judge the session alone.
    pub state: State,
    /// The session, and of messages the router keys and the ASPAs skipped; or whether ready; or the three times, of judge too.
    pub numbers: [u64; 3],
    pub bytes: [Vec<u8>; 3],
    /// Of `QueryAll`, one for each query.
    pub replies: Vec<Reply>,
}

impl Call {
    fn new<const N: usize>(entry: Entry, state: State, given: [u64; N], bytes: [Vec<u8>; 3]) -> Self {
        let mut numbers = [0; 5];
        numbers[..N].copy_from_slice(&given);
        Call { entry, version: 0, state, numbers, bytes, list: vec![] }
    }
    pub fn construct(old: Vec<u8>, new: Vec<u8>, serial: u32, out: Vec<u8>) -> Self {
        Self::new(Entry::Construct, State::ZERO, [serial.into()], [old, new, out])
    }
    pub fn merge(earlier: Vec<u8>, later: Vec<u8>, serial: u32, out: Vec<u8>) -> Self {
        Self::new(Entry::Merge, State::ZERO, [serial.into()], [earlier, later, out])
    }
    pub fn apply(snapshot: Vec<u8>, delta: Vec<u8>, out: Vec<u8>) -> Self {
        Self::new(Entry::Apply, State::ZERO, [], [snapshot, delta, out])
    }
    pub fn create(session: u64, keep: u32, start: u32, snapshots: Vec<u8>, deltas: Vec<u8>) -> Self {
        let numbers = [session, keep.into(), start.into()];
        Self::new(Entry::Create, State::ZERO, numbers, [snapshots, deltas, vec![]])
    }
    pub fn update(state: State, new: Vec<u8>, snapshots: Vec<u8>, deltas: Vec<u8>) -> Self {
        Self::new(Entry::Update, state, [], [new, snapshots, deltas])
    }
    pub fn query(
        state: State,
        session: u16,
        serial: u32,
        snapshots: Vec<u8>,
        deltas: Vec<u8>,
        out: Vec<u8>,
    ) -> Self {
        Self::new(Entry::Query, state, [session.into(), serial.into()], [snapshots, deltas, out])
    }
    pub fn query_all(state: State, snapshots: Vec<u8>, deltas: Vec<u8>, list: Vec<u8>, out: Vec<u8>) -> Self {
        Call { list, ..Self::new(Entry::QueryAll, state, [], [snapshots, deltas, out]) }
    }
    pub fn full(state: State, snapshots: Vec<u8>, deltas: Vec<u8>) -> Self {
        Self::new(Entry::Full, state, [], [snapshots, deltas, vec![]])
    }
    pub fn notify(state: State) -> Self {
        Self::new(Entry::Notify, state, [], Default::default())
    }
    pub fn ready(state: State) -> Self {
        Self::new(Entry::Ready, state, [], Default::default())
    }
    pub fn timing(refresh: u32, retry: u32, expire: u32) -> Self {
        Self::new(
            Entry::Timing,
            State::ZERO,
            [refresh.into(), retry.into(), expire.into()],
            Default::default(),
        )
    }
    /// The messages that answer what [`Call::query`] asks, with these times: refresh, retry, expire.
    pub fn query_messages(version: u32, query: Call, times: [u32; 3]) -> Self {
        let [session, serial, ..] = query.numbers;
        let [refresh, retry, expire] = times.map(u64::from);
        let numbers = [session, serial, refresh, retry, expire];
        Call { version, ..Self::new(Entry::QueryMessages, query.state, numbers, query.bytes) }
    }
    /// Those that answer what [`Call::full`] asks.
    pub fn full_messages(version: u32, full: Call, times: [u32; 3], out: Vec<u8>) -> Self {
        let [snapshots, deltas, _] = full.bytes;
        let bytes = [snapshots, deltas, out];
        Call { version, ..Self::new(Entry::FullMessages, full.state, times.map(u64::from), bytes) }
    }
    pub fn notify_message(version: u32, state: State, out: Vec<u8>) -> Self {
        Call { version, ..Self::new(Entry::NotifyMessage, state, [], [vec![], vec![], out]) }
    }
    pub fn judge(version: u32, snapshot: Vec<u8>, messages: Vec<u8>, out: Vec<u8>) -> Self {
        Call { version, ..Self::new(Entry::Judge, State::ZERO, [], [snapshot, messages, out]) }
    }

    /// Which slices are the snapshot store and the delta store.
    pub fn stores(&self) -> Option<(usize, usize)> {
        match self.entry {
            Entry::Create | Entry::Query | Entry::QueryAll | Entry::Full => Some((0, 1)),
            Entry::QueryMessages | Entry::FullMessages => Some((0, 1)),
            Entry::Update => Some((1, 2)),
            _ => None,
        }
    }

    /// Which slice is the output.
    pub fn out(&self) -> Option<usize> {
        match self.entry {
            Entry::Construct | Entry::Merge | Entry::Apply | Entry::Query | Entry::QueryAll => Some(2),
            Entry::QueryMessages | Entry::FullMessages | Entry::NotifyMessage => Some(2),
            Entry::Judge => Some(2),
            _ => None,
        }
    }

    /// Which slices are inputs of fields, one behind the other from the first.
    pub fn inputs(&self) -> usize {
        match self.entry {
            Entry::Construct | Entry::Merge | Entry::Apply => 2,
            Entry::Update | Entry::Judge => 1,
            _ => 0,
        }
    }
}

impl fmt::Debug for State {
    /// Without the zeros at the end of the lengths.
    fn fmt(&self, f: &mut fmt::Formatter<'_>) -> fmt::Result {
        let used = self.deltas.iter().rposition(|l| *l != 0).map_or(0, |at| at + 1);
        let State { session, keep, active, newest, start, n, snapshot, deltas } = self;
        write!(
            f,
            "session {session}, keep {keep}, active {active}, newest {newest}, start {start}, n {n}, "
        )?;
        write!(f, "snapshot {snapshot}, deltas {:?}", &deltas[..used])
    }
}

impl fmt::Display for Call {
    fn fmt(&self, f: &mut fmt::Formatter<'_>) -> fmt::Result {
        writeln!(f, "  {:?}, version {}, numbers {:?}", self.entry, self.version, self.numbers)?;
        if self.state != State::ZERO {
            writeln!(f, "  state: {:?}", self.state)?;
        }
        for (i, bytes) in self.bytes.iter().enumerate() {
            writeln!(f, "  slice {} ({} bytes): {}", i + 1, bytes.len(), hex(bytes))?;
        }
        if !self.list.is_empty() {
            writeln!(f, "  queries: {}", hex(&self.list))?;
        }
        Ok(())
    }
}

impl Outcome {
    /// In words, after this call.
    pub fn tell(&self, call: &Call) -> String {
        let mut out = format!("  {:?}, numbers {:?}\n", self.answer, self.numbers);
        if matches!(call.entry, Entry::Create | Entry::Update | Entry::Judge) {
            out += &format!("  state: {:?}\n", self.state);
        }
        for (i, (after, before)) in self.bytes.iter().zip(&call.bytes).enumerate() {
            if after != before {
                out += &format!("  slice {} then: {}\n", i + 1, hex(after));
            }
        }
        for (i, reply) in self.replies.iter().enumerate() {
            out += &format!("  query {}: {reply:?}\n", i + 1);
        }
        out
    }
}

/// Of a long slice the start alone.
fn hex(bytes: &[u8]) -> String {
    let shown = if bytes.len() > 1 << 20 { &bytes[..64] } else { bytes };
    let more = if shown.len() < bytes.len() { ".." } else { "" };
    shown.iter().map(|b| format!("{b:02x}")).collect::<String>() + more
}
