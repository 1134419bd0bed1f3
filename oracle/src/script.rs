//! The form of the lists of calls in `lists/`, and of their answers.
//!
//! One call to a line: what is called, a name, then its numbers in decimal and its bytes in hexadecimal, as
//! the heads of `lists/examples/cases` and `lists/examples/runs` say. [`play`] runs such a list by any function
//! of calls: the model, the model with the Rust beside it, or the library (`lists/src/main.rs`).
use std::fmt::Write;

use crate::call::{Answer, Call, Entry, Outcome, Reply, State};
use crate::model::{self, Form, Refused};

/// Filled into outputs and stores, to see what stays.
const MARK: u8 = 0xA5;

/// How long the stores and the output are in all.
const SIZE: usize = 65_536;

/// Bytes longer than this are written as their length and sum.
const SHOWN: usize = 1024;

/// Refusal 1, 12 or 2 of bytes, or none.
pub type Check = fn(Form, &[u8]) -> Result<(), Refused>;

/// By the model.
pub fn check_by_model(form: Form, bytes: &[u8]) -> Result<(), Refused> {
    model::check(form, bytes, 1).map(|_| ())
}

/// The answers to a list of lines, a line each. `check` says whether bytes are good, `run` answers a call.
pub fn play(list: &str, check: Check, run: impl FnMut(&Call) -> Outcome) -> String {
    let stores = [(); 2].map(|_| Store::holding(0, b""));
    let mut player = Player { check, run, state: State::ZERO, stores };
    let lines = list.lines().filter(|line| !line.is_empty() && !line.starts_with('#'));
    lines.map(|line| player.line(&Line(line.split(' ').collect()))).collect()
}

//------------ Reading -------------------------------------------------------

/// The words of a line: what is called, a name, and what follows.
struct Line<'a>(Vec<&'a str>);

impl Line<'_> {
    /// The number `n` words behind the name; 0 where there is none.
    fn number(&self, n: usize) -> u64 {
        let word = self.0.get(1 + n).copied().unwrap_or("-");
        if word == "-" {
            0
        } else {
            word.parse().expect("a number")
        }
    }

    fn u32(&self, n: usize) -> u32 {
        self.number(n).try_into().expect("a number of four bytes")
    }

    fn bytes(&self, n: usize) -> Vec<u8> {
        unpack(self.0.get(1 + n).expect("a word of bytes"))
    }
}

/// The bytes of a word: two digits are a byte, a point and `-` are nothing, `*N` has the byte before it
/// stand N times, `+N` the number of four bytes before it and those above it, N in all.
pub fn unpack(word: &str) -> Vec<u8> {
    let mut out: Vec<u8> = Vec::new();
    let mut rest = word;
    while let Some(mark) = rest.chars().next() {
        let count = |rest: &str| rest.chars().skip(1).take_while(char::is_ascii_digit).count();
        let number = || rest[1..=count(rest)].parse::<u32>().expect("a count");
        let read = match mark {
            '.' | '-' => 1,
            '*' => {
                let last = *out.last().expect("a byte before it");
                out.extend((1..number()).map(|_| last));
                1 + count(rest)
            }
            '+' => {
                let first = u32::from_be_bytes(*out.last_chunk().expect("four bytes before it"));
                out.extend((1..number()).flat_map(|i| (first + i).to_be_bytes()));
                1 + count(rest)
            }
            _ => {
                out.push(u8::from_str_radix(&rest[..2], 16).expect("two digits"));
                2
            }
        };
        rest = &rest[read..];
    }
    out
}

/// A word for these bytes, with runs of one byte made short.
pub fn pack(bytes: &[u8]) -> String {
    if bytes.is_empty() {
        return "-".into();
    }
    let mut out = String::new();
    for run in bytes.chunk_by(|a, b| a == b) {
        match run.len() {
            1..=3 => out += &hex(run),
            n => write!(out, "{}*{n}.", hex(&run[..1])).expect("a string takes all"),
        }
    }
    out.trim_end_matches('.').into()
}

//------------ Running -------------------------------------------------------

/// A store: the whole of it, and how much of it is lent.
struct Store {
    bytes: Vec<u8>,
    room: usize,
}

impl Store {
    /// Lent so much, with these bytes at its start and the mark behind them.
    fn holding(room: usize, held: &[u8]) -> Self {
        let mut bytes = vec![MARK; SIZE];
        bytes[..held.len()].copy_from_slice(held);
        Store { bytes, room: room.min(SIZE) }
    }

    fn lent(&self) -> Vec<u8> {
        self.bytes[..self.room].to_vec()
    }

    fn set(&mut self, lent: &[u8]) {
        self.bytes[..self.room].copy_from_slice(lent);
    }
}

/// The history and the stores that the lines so far left.
struct Player<F> {
    check: Check,
    run: F,
    state: State,
    stores: [Store; 2],
}

impl<F: FnMut(&Call) -> Outcome> Player<F> {
    fn line(&mut self, line: &Line<'_>) -> String {
        let answer = match line.0[0] {
            "snapshot" => verdict((self.check)(Form::Snapshot, &line.bytes(1))),
            "delta" => verdict((self.check)(Form::Delta, &line.bytes(1))),
            "construct" | "merge" | "apply" => self.entry(line),
            "judge" => self.judge(line),
            "timing" => self.timing(line),
            "create" => self.create(line),
            "hold" => self.hold(line),
            "state" => self.by_construction(line),
            "update" => self.update(line.bytes(1)),
            "go" => self.go(line),
            "query" => self.query(line),
            "queries" => self.queries(line),
            "full" => self.full(),
            "query-messages" | "full-messages" | "notify-message" => self.messages(line),
            "notify" => {
                let told = (self.run)(&Call::notify(self.state));
                named(&told)
            }
            "ready" => active((self.run)(&Call::ready(self.state)).numbers[0] == 1),
            "look" => {
                let [snapshots, deltas] = &self.stores;
                let [n, m] = [1, 2].map(|i| line.number(i) as usize);
                written(&snapshots.bytes, n) + &written(&deltas.bytes, m)
            }
            word => panic!("no such call: {word}"),
        };
        let after = match line.0[0] {
            "create" | "state" | "update" | "go" => state(&self.state),
            _ => String::new(),
        };
        format!("{} {}{answer}{after}\n", line.0[0], line.0[1])
    }

    /// construct NAME ROOM SERIAL OLD NEW, merge NAME ROOM SERIAL EARLIER LATER, apply NAME ROOM - SNAPSHOT DELTA
    fn entry(&mut self, line: &Line<'_>) -> String {
        let (room, serial) = (line.number(1) as usize, line.u32(2));
        let (first, second, lent) = (line.bytes(3), line.bytes(4), vec![MARK; room]);
        let call = match line.0[0] {
            "construct" => Call::construct(first, second, serial, lent),
            "merge" => Call::merge(first, second, serial, lent),
            _ => Call::apply(first, second, lent),
        };
        let left = (self.run)(&call);
        let out = whole(&left.bytes[2]);
        let answer = &left.answer;
        match (call.entry, answer.kind) {
            (_, 0) => refused(answer) + kept(&out),
            (Entry::Construct, 2) => format!(" no change{}", kept(&out)),
            (Entry::Apply, _) => format!(" snapshot{}", written(&out, answer.length as usize)),
            _ => format!(" serial {}{}", answer.serial, served(answer, &out)),
        }
    }

    /// judge NAME VERSION ROOM - SNAPSHOT MESSAGES
    fn judge(&mut self, line: &Line<'_>) -> String {
        let lent = vec![MARK; line.number(2) as usize];
        let left = (self.run)(&Call::judge(line.u32(1), line.bytes(4), line.bytes(5), lent));
        let (answer, session, out) = (&left.answer, left.state.session, whole(&left.bytes[2]));
        match answer.kind {
            0 => refused(answer) + kept(&out),
            _ => {
                format!(" session {session} serial {}{}{}", answer.serial, times(&left), served(answer, &out))
            }
        }
    }

    /// timing NAME REFRESH RETRY EXPIRE
    fn timing(&mut self, line: &Line<'_>) -> String {
        times(&(self.run)(&Call::timing(line.u32(1), line.u32(2), line.u32(3))))
    }

    /// create NAME SESSION KEEP START SNAPSHOT-ROOM DELTA-ROOM
    fn create(&mut self, line: &Line<'_>) -> String {
        self.stores = [4, 5].map(|i| Store::holding(line.number(i) as usize, b""));
        let [snapshots, deltas] = self.stores.each_ref().map(Store::lent);
        let left = (self.run)(&Call::create(line.number(1), line.u32(2), line.u32(3), snapshots, deltas));
        self.state = left.state;
        match left.answer.kind {
            0 => refused(&left.answer),
            _ => format!(" done serial {}", left.answer.serial),
        }
    }

    /// hold NAME SNAPSHOT-ROOM SNAPSHOT DELTA-ROOM DELTAS
    fn hold(&mut self, line: &Line<'_>) -> String {
        self.stores = [1, 3].map(|i| Store::holding(line.number(i) as usize, &line.bytes(i + 1)));
        String::new()
    }

    /// state NAME SESSION KEEP ACTIVE SERIAL START N SNAPSHOT-LENGTH LENGTH..
    fn by_construction(&mut self, line: &Line<'_>) -> String {
        self.state = State {
            session: line.number(1),
            keep: line.u32(2),
            active: line.u32(3),
            newest: line.u32(4),
            start: line.u32(5),
            n: line.u32(6),
            snapshot: line.u32(7),
            deltas: std::array::from_fn(|i| line.u32(8 + i)),
        };
        String::new()
    }

    /// update NAME SNAPSHOT
    fn update(&mut self, new: Vec<u8>) -> String {
        let [snapshots, deltas] = self.stores.each_ref().map(Store::lent);
        let left = (self.run)(&Call::update(self.state, new, snapshots, deltas));
        self.state = left.state;
        self.stores[0].set(&left.bytes[1]);
        self.stores[1].set(&left.bytes[2]);
        let answer = &left.answer;
        match answer.kind {
            0 => refused(answer),
            1 => " first".into(),
            2 => " unchanged".into(),
            _ => format!(" changed{} length {}", counts(answer), answer.length),
        }
    }

    /// go NAME TIMES SNAPSHOT: updates, each with the number of the last four bytes one higher
    fn go(&mut self, line: &Line<'_>) -> String {
        let mut new = line.bytes(2);
        let mut out = String::new();
        for _ in 0..line.number(1) {
            out += &self.update(new.clone());
            let last = new.last_chunk_mut().expect("four bytes");
            *last = (u32::from_be_bytes(*last) + 1).to_be_bytes();
        }
        out
    }

    /// query NAME SESSION SERIAL ROOM
    fn query(&mut self, line: &Line<'_>) -> String {
        let [snapshots, deltas] = self.stores.each_ref().map(Store::lent);
        let (session, serial) = (line.number(1) as u16, line.u32(2));
        let lent = vec![MARK; line.number(3) as usize];
        let left = (self.run)(&Call::query(self.state, session, serial, snapshots, deltas, lent));
        let out = whole(&left.bytes[2]);
        let answer = match left.answer.kind {
            0 => refused(&left.answer) + kept(&out),
            _ => served(&left.answer, &out),
        };
        named(&left) + &answer
    }

    /// query-messages NAME VERSION SESSION SERIAL REFRESH RETRY EXPIRE ROOM,
    /// full-messages NAME VERSION REFRESH RETRY EXPIRE ROOM, notify-message NAME VERSION ROOM
    fn messages(&mut self, line: &Line<'_>) -> String {
        let [snapshots, deltas] = self.stores.each_ref().map(Store::lent);
        let version = line.u32(1);
        let times = |at: usize| [0, 1, 2].map(|i| line.u32(at + i));
        let lent = |at: usize| vec![MARK; line.number(at) as usize];
        let call = match line.0[0] {
            "query-messages" => {
                let (session, serial) = (line.number(2) as u16, line.u32(3));
                let query = Call::query(self.state, session, serial, snapshots, deltas, lent(7));
                Call::query_messages(version, query, times(4))
            }
            "full-messages" => {
                let full = Call::full(self.state, snapshots, deltas);
                Call::full_messages(version, full, times(2), lent(5))
            }
            _ => Call::notify_message(version, self.state, lent(2)),
        };
        let left = (self.run)(&call);
        let (answer, out) = (&left.answer, whole(&left.bytes[2]));
        let [_, keys, aspas] = left.numbers;
        let skipped = format!(" skipped {keys} {aspas}");
        let nothing =
            Answer { kind: answer.kind, number: answer.number, length: answer.length, ..Answer::default() };
        let stray = if *answer == nothing && left.numbers == [0; 3] { "" } else { " STRAY" };
        let sent = match answer.kind {
            0 => refused(answer) + kept(&out),
            1 => " data".to_string() + &counts(answer) + &skipped + &written(&out, answer.length as usize),
            kind => {
                let name = if kind == 2 { " cache-reset" } else { " error-report" };
                format!("{name} {}{stray}{}", answer.number, written(&out, answer.length as usize))
            }
        };
        named(&left) + &sent
    }

    /// queries NAME ROOM LIST
    fn queries(&mut self, line: &Line<'_>) -> String {
        let [snapshots, deltas] = self.stores.each_ref().map(Store::lent);
        let lent = vec![MARK; line.number(1) as usize];
        let left = (self.run)(&Call::query_all(self.state, snapshots, deltas, line.bytes(2), lent));
        let out = whole(&left.bytes[2]);
        let mut said = named(&left);
        for reply in &left.replies {
            said += &match reply {
                Reply { kind: 0, number, .. } => format!(" {number}"),
                Reply { offset, length, announced, withdrawn, .. } => {
                    format!(" {offset}+{length}/{announced}/{withdrawn}")
                }
            };
        }
        match left.answer.kind {
            0 => refused(&left.answer) + kept(&out),
            _ => said + &written(&out, left.answer.length as usize),
        }
    }

    fn full(&mut self) -> String {
        let [snapshots, deltas] = self.stores.each_ref().map(Store::lent);
        let left = (self.run)(&Call::full(self.state, snapshots.clone(), deltas));
        let answer = match left.answer.kind {
            0 => refused(&left.answer),
            _ => format!(" {}", shown(&snapshots[..left.answer.length as usize])),
        };
        named(&left) + &answer
    }
}

/// The output with what stands behind the lent part.
fn whole(lent: &[u8]) -> Vec<u8> {
    Store::holding(0, lent).bytes
}

//------------ Writing -------------------------------------------------------

fn hex(bytes: &[u8]) -> String {
    bytes.iter().map(|b| format!("{b:02x}")).collect()
}

fn shown(bytes: &[u8]) -> String {
    match bytes.len() {
        0 => "-".into(),
        1..=SHOWN => hex(bytes),
        n => format!("length {n} sum {}", bytes.iter().map(|b| u64::from(*b)).sum::<u64>()),
    }
}

fn kept(behind: &[u8]) -> &'static str {
    if behind.iter().all(|b| *b == MARK) {
        " kept"
    } else {
        " CHANGED"
    }
}

/// The first bytes, and whether those behind them are as they were.
fn written(out: &[u8], length: usize) -> String {
    let (first, behind) = out.split_at(length);
    format!(" {}{}", shown(first), kept(behind))
}

fn counts(answer: &Answer) -> String {
    format!(" announced {} withdrawn {}", answer.announced, answer.withdrawn)
}

fn served(answer: &Answer, out: &[u8]) -> String {
    counts(answer) + &written(out, answer.length as usize)
}

fn refused(answer: &Answer) -> String {
    format!(" refused {} argument {} at {}", answer.number, answer.argument, answer.offset)
}

fn verdict(said: Result<(), Refused>) -> String {
    match said {
        Ok(()) => " fine".into(),
        Err(Refused(number, _, offset)) => format!(" {number} at {offset}"),
    }
}

/// The 16-bit session and the serial that an answer names.
fn named(left: &Outcome) -> String {
    format!(" session {} serial {}", left.numbers[0], left.answer.serial)
}

fn times(left: &Outcome) -> String {
    let [refresh, retry, expire] = left.numbers;
    format!(" refresh {refresh} retry {retry} expire {expire}")
}

fn active(active: bool) -> String {
    if active { " active" } else { " inactive" }.into()
}

/// The numbers of a state, and the lengths of its deltas, oldest first.
fn state(state: &State) -> String {
    let State { session, keep, newest, start, n, snapshot, deltas, .. } = state;
    let head = format!("; session {session} keep {keep}{}", active(state.active != 0));
    let mut out = format!("{head} serial {newest} start {start} snapshot {snapshot} deltas {n}:");
    for (i, length) in (0..).zip(deltas) {
        match length {
            _ if i < *n => write!(out, " {length}").expect("a string takes all"),
            0 => {}
            _ => out += " STRAY",
        }
    }
    out
}
