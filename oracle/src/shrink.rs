//! Finds a smaller call that still shows a difference.
use std::time::{Duration, Instant};

use crate::answers;
use crate::call::{Call, Entry, State};
use crate::field::pieces;
use crate::model;

fn size(call: &Call) -> usize {
    call.bytes.iter().map(Vec::len).sum()
}

/// Takes the first smaller call that still differs, again and again, for a minute at most.
pub fn shrink(mut call: Call, mut differs: impl FnMut(&Call) -> bool) -> Call {
    let (mut tries, start) = (20_000, Instant::now());
    'again: loop {
        for smaller in smaller(&call) {
            tries -= 1;
            if tries == 0 || start.elapsed() > Duration::from_secs(60) {
                return call;
            }
            if differs(&smaller) {
                call = smaller;
                continue 'again;
            }
        }
        return call;
    }
}

/// Calls that are one step smaller, the boldest steps first.
fn smaller(call: &Call) -> Vec<Call> {
    let mut out = Vec::new();
    let mut step = |change: &dyn Fn(&mut Call)| {
        let mut next = call.clone();
        change(&mut next);
        if size(&next) < size(call)
            || next.list.len() < call.list.len()
            || next.numbers != call.numbers
            || next.state != call.state
        {
            out.push(next);
        }
    };
    // fields of inputs: of one, or the same of two; then with an output as long as is needed then
    for i in 0..call.inputs() {
        for (at, field) in pieces(&call.bytes[i]).into_iter().enumerate() {
            let both = |c: &mut Call| {
                for other in 0..c.inputs() {
                    let same = pieces(&c.bytes[other]).iter().position(|f| *f == field);
                    c.bytes[other] = same.map_or(c.bytes[other].clone(), |at| without(&c.bytes[other], at));
                }
            };
            step(&both);
            step(&|c| c.bytes[i] = without(&c.bytes[i], at));
            for short in [0, 1] {
                step(&|c| {
                    c.bytes[i] = without(&c.bytes[i], at);
                    lend_needed(c, short);
                });
            }
            if let (Entry::Update, Some(held)) =
                (call.entry, call.bytes[1].get(..call.state.snapshot as usize))
            {
                // of the new snapshot and of the held one
                if let Some(same) = pieces(held).iter().position(|f| *f == field) {
                    step(&|c| {
                        c.bytes[0] = without(&c.bytes[0], at);
                        let kept = without(held, same);
                        c.state.snapshot = kept.len() as u32;
                        c.bytes[1].splice(..held.len(), kept);
                    });
                }
            }
        }
    }
    if call.entry == Entry::Judge {
        // a half of the messages, or a part of at most a 64th
        let messages = answers::pieces(&call.bytes[1]);
        for some in [messages.len() / 2, messages.len() / 64 + 1] {
            for at in (0..messages.len()).step_by(some.max(1)) {
                let behind = (at + some).min(messages.len());
                step(&|c| c.bytes[1] = [&messages[..at], &messages[behind..]].concat().concat());
            }
        }
        step(&|c| c.bytes[1].truncate(c.bytes[1].len().saturating_sub(1)));
    }
    // outputs, and what stands behind the held bytes of stores
    if let Some(i) = call.out() {
        step(&|c| c.bytes[i].clear());
        step(&|c| c.bytes[i].truncate(c.bytes[i].len() / 2));
        step(&|c| c.bytes[i].truncate(c.bytes[i].len().saturating_sub(1)));
    }
    if let (Some((s, d)), true) = (call.stores(), call.entry != Entry::Create && call.state.n <= 64) {
        let held: usize = call.state.held().iter().map(|&l| l as usize).sum();
        step(&|c| c.bytes[s].truncate(c.state.snapshot as usize));
        step(&|c| c.bytes[d].truncate(held));
        step(&|c| c.bytes[s].truncate(c.bytes[s].len().saturating_sub(1)));
        step(&|c| c.bytes[d].truncate(c.bytes[d].len().saturating_sub(1)));
        // fields of the held snapshot, whole deltas and their fields
        if let Some(bytes) = call.bytes[s].get(..call.state.snapshot as usize) {
            for at in 0..pieces(bytes).len() {
                step(&|c| {
                    let kept = without(bytes, at);
                    c.state.snapshot = kept.len() as u32;
                    c.bytes[s].splice(..bytes.len(), kept);
                });
            }
        }
        let mut from = 0;
        for i in 0..call.state.n as usize {
            let to = from + call.state.deltas[i] as usize;
            let Some(bytes) = call.bytes[d].get(from..to) else { break };
            step(&|c| {
                c.bytes[d].drain(from..to);
                c.state.deltas.copy_within(i + 1.., i);
                c.state.n -= 1;
            });
            for at in 0..pieces(bytes).len() {
                step(&|c| {
                    let kept = without(bytes, at);
                    c.state.deltas[i] = kept.len() as u32;
                    c.bytes[d].splice(from..to, kept);
                });
            }
            from = to;
        }
    }
    // queries, one at a time
    for at in (0..call.list.len()).step_by(6) {
        step(&|c| drop(c.list.drain(at..call.list.len().min(at + 6))));
    }
    // numbers
    for i in 0..call.numbers.len() {
        step(&|c| c.numbers[i] = 0);
    }
    if !matches!(call.entry, Entry::Query | Entry::QueryAll | Entry::QueryMessages) {
        step(&|c| c.state.session = 0);
    }
    if call.state != State::ZERO && call.state.n <= 64 {
        step(&|c| c.state.deltas[c.state.n as usize..].fill(0));
    }
    out
}

/// An output that is just long enough, or short by so many bytes.
fn lend_needed(call: &mut Call, short: usize) {
    if let Some(out) = call.out() {
        call.bytes[out] = vec![0xEE; 1 << 18];
        let needed = model::run(call).answer.length as usize;
        call.bytes[out] = vec![0xEE; needed.saturating_sub(short)];
    }
}

/// The bytes without one of their fields.
fn without(bytes: &[u8], at: usize) -> Vec<u8> {
    let mut fields = pieces(bytes);
    fields.remove(at);
    fields.concat()
}
