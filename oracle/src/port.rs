//! The library, in a process of its own: `caller.c`, which makes the calls that it is sent.
//!
//! A process, so that the archive need not be for the machine that compares, and so that a crash is an
//! outcome like any other.
use std::io::{Read, Write};
use std::process::{Child, Command, Stdio};

use crate::call::{Answer, Call, Outcome, Reply, State};

pub struct Port {
    command: Vec<String>,
    child: Option<Child>,
    buffer: Vec<u8>,
}

/// Sizes of the C structs.
const STATE: usize = 288;
const REPLY: usize = 48 + STATE + 3 * 8 + 8 + 3 * 8 + 8;

impl Port {
    /// The command that starts the caller, a word each.
    pub fn new(command: Vec<String>) -> Self {
        Port { command, child: None, buffer: Vec::new() }
    }

    /// Makes a call. None: the caller died of it, or a byte outside of what was lent was written.
    pub fn run(&mut self, call: &Call) -> Option<Outcome> {
        let outcome = self.try_run(call);
        if outcome.is_none() {
            self.stop();
        }
        outcome
    }

    fn try_run(&mut self, call: &Call) -> Option<Outcome> {
        let child = self.child.get_or_insert_with(|| {
            Command::new(&self.command[0])
                .args(&self.command[1..])
                .stdin(Stdio::piped())
                .stdout(Stdio::piped())
                .spawn()
                .unwrap_or_else(|e| panic!("{}: {e}", self.command[0]))
        });

        let sent = call.bytes.each_ref().map(|b| without_zeros(b));
        let lengths = call.bytes.each_ref().map(Vec::len);
        self.buffer.clear();
        self.buffer.extend((call.entry as u64).to_le_bytes());
        self.buffer.extend(u64::from(call.version).to_le_bytes());
        call.numbers.iter().for_each(|x| self.buffer.extend(x.to_le_bytes()));
        lengths.iter().for_each(|x| self.buffer.extend((*x as u64).to_le_bytes()));
        sent.iter().for_each(|b| self.buffer.extend((b.len() as u64).to_le_bytes()));
        self.buffer.extend((call.list.len() as u64).to_le_bytes());
        put_state(&mut self.buffer, &call.state);
        sent.iter().for_each(|b| self.buffer.extend_from_slice(b));
        self.buffer.extend_from_slice(&call.list);
        child.stdin.as_mut()?.write_all(&self.buffer).ok()?;

        let stdout = child.stdout.as_mut()?;
        self.buffer.resize(REPLY, 0);
        stdout.read_exact(&mut self.buffer).ok()?;
        let mut reply = Reader(&self.buffer);
        let answer = Answer {
            kind: reply.u32(),
            number: reply.u32(),
            argument: reply.u32(),
            serial: reply.u32(),
            offset: reply.u64(),
            length: reply.u64(),
            announced: reply.u64(),
            withdrawn: reply.u64(),
        };
        let state = reply.state();
        let numbers = std::array::from_fn(|_| reply.u64());
        let whole = reply.u64() == 1;
        let sent = [(); 3].map(|_| reply.u64() as usize);
        let count = reply.u64() as usize;
        let mut bytes = lengths.map(|n| vec![0; n]);
        for (bytes, sent) in bytes.iter_mut().zip(sent) {
            stdout.read_exact(bytes.get_mut(..sent)?).ok()?;
        }
        self.buffer.resize(40 * count, 0);
        stdout.read_exact(&mut self.buffer).ok()?;
        let mut reply = Reader(&self.buffer);
        let replies = (0..count).map(|_| reply.reply()).collect();
        whole.then_some(Outcome { answer, state, numbers, bytes, replies })
    }

    fn stop(&mut self) {
        if let Some(mut child) = self.child.take() {
            // it may have died by itself, and then there is nothing to end
            let _ = child.kill();
            let _ = child.wait();
        }
    }
}

impl Drop for Port {
    fn drop(&mut self) {
        self.stop();
    }
}

/// Long slices go without the zeros at their end.
fn without_zeros(bytes: &[u8]) -> &[u8] {
    match bytes.len() {
        ..1_048_576 => bytes,
        _ => &bytes[..bytes.iter().rposition(|b| *b != 0).map_or(0, |at| at + 1)],
    }
}

fn put_state(out: &mut Vec<u8>, state: &State) {
    out.extend(state.session.to_le_bytes());
    let numbers = [state.keep, state.active, state.newest, state.start, state.n, state.snapshot];
    numbers.iter().chain(&state.deltas).for_each(|x| out.extend(x.to_le_bytes()));
}

struct Reader<'a>(&'a [u8]);

impl<'a> Reader<'a> {
    fn take(&mut self, n: usize) -> &'a [u8] {
        let (front, rest) = self.0.split_at(n);
        self.0 = rest;
        front
    }
    fn u32(&mut self) -> u32 {
        u32::from_le_bytes(self.take(4).try_into().expect("4 bytes"))
    }
    fn u64(&mut self) -> u64 {
        u64::from_le_bytes(self.take(8).try_into().expect("8 bytes"))
    }
    fn reply(&mut self) -> Reply {
        Reply {
            kind: self.u32(),
            number: self.u32(),
            offset: self.u64(),
            length: self.u64(),
            announced: self.u64(),
            withdrawn: self.u64(),
        }
    }
    fn state(&mut self) -> State {
        State {
            session: self.u64(),
            keep: self.u32(),
            active: self.u32(),
            newest: self.u32(),
            start: self.u32(),
            n: self.u32(),
            snapshot: self.u32(),
            deltas: std::array::from_fn(|_| self.u32()),
        }
    }
}
