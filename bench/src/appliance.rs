//! 384 queries in one call, against the same one by one, what that is made of, and the Rust's `delta_since`.
use std::hint::black_box;
use std::time::Duration;

use taplevung::{raw, Serial, Session, QUERY_LIMIT};

use crate::data::{Data, Shape};
use crate::entries::Held;
use crate::rust;

/// How many deltas are held.
const HELD: u32 = 63;

extern "C" {
    fn clock_gettime(clock: i32, time: *mut [i64; 2]) -> i32;
}

/// How long this thread has worked, as Linux counts it: one call here takes long enough for other work to come between.
fn worked() -> Duration {
    let mut time = [0; 2];
    // SAFETY: clock 3 is that of the thread, and writes two words.
    assert_eq!(unsafe { clock_gettime(3, &mut time) }, 0);
    Duration::new(time[0] as u64, time[1] as u32)
}

/// The best of so many runs.
fn best(runs: u32, mut work: impl FnMut()) -> Duration {
    let time = |_| {
        let start = worked();
        work();
        worked() - start
    };
    (0..runs).map(time).min().expect("at least one run")
}

/// On a history of this many origins, with 1,000 changes in each delta.
pub fn run(items: u32, runs: u32) -> String {
    let data = Data::new(Shape::Origins4, items).changing(1000);
    let held = Held::new(data, 64, HELD);
    let length = held.state.deltas.iter().sum::<u32>() as usize;
    let deltas = &held.deltas[..length];
    let serial = |d: u32| Serial(held.state.newest.0 - d);
    let ask = |d: u32, out: &mut [u8]| {
        let answer = raw::query(held.state, Session(7), serial(d), &held.snapshots, deltas, out).answer;
        assert_eq!(answer.kind, 1);
        answer.length as usize
    };
    let mut out = vec![0; length];
    let single: Vec<_> = (0..=HELD).map(|d| best(runs, || assert!(ask(d, &mut out) <= length))).collect();
    let lengths: Vec<_> = (0..=HELD).map(|d| ask(d, &mut out)).collect();
    let rust = rust::Queried::new(data);
    let mut said = String::from(
        "| 384 queries | one call, in single queries | one by one / one call | one call / (its check, walks and copies) | Rust, parsed / one call |\n|---|---|---|---|---|\n",
    );
    let ways: [(&str, &dyn Fn(usize) -> u32); 3] = [
        ("(a) all at F - 1", &|_| 1),
        ("(b) spread over d = 0 to 63", &|i| (i % (HELD as usize + 1)) as u32),
        ("(c) all at d = 63", &|_| HELD),
    ];
    for (name, way) in ways {
        let asked: Vec<u32> = (0..QUERY_LIMIT).map(way).collect();
        let list: Vec<u8> =
            asked.iter().flat_map(|d| [&[0, 7][..], &serial(*d).0.to_be_bytes()].concat()).collect();
        let whole: usize = asked.iter().map(|d| lengths[*d as usize]).sum();
        let (mut out, mut again) = (vec![1; whole], vec![1; whole]);
        let all = best(runs, || {
            let all = raw::query_all(held.state, &held.snapshots, deltas, &list, &mut out);
            assert_eq!(all.answer.length as usize, whole);
        });
        let alone = best(1, || {
            let mut used = 0;
            asked.iter().for_each(|d| used += ask(*d, &mut again[used..]));
        });
        assert!(out == again);
        // one check, a walk for each distance that is asked for, and the bytes of the others copied
        let mut walks = asked.clone();
        walks.sort_unstable();
        walks.dedup();
        let walked: usize = walks.iter().map(|d| lengths[*d as usize]).sum();
        let copy = best(runs, || {
            again[walked..].copy_from_slice(&out[walked..]);
            black_box(&mut again);
        });
        let parts = single[0]
            + walks.iter().map(|d| single[*d as usize].saturating_sub(single[0])).sum::<Duration>()
            + copy;
        let mut theirs: Option<Vec<_>> =
            asked.iter().map(|d| rust.query(HELD + 1 - d).into_iter().next()?).collect();
        let theirs = theirs.as_mut().map(|queries| {
            queries[0](); // what is made at first use is made here
            best(1, || queries.iter_mut().for_each(|query| assert!(query() > Duration::ZERO)))
        });
        let ratio = |a: Duration, b: Duration| a.as_secs_f64() / b.as_secs_f64();
        let one = single[*asked.last().expect("384 queries") as usize];
        said += &format!(
            "| {name} | {:.2} | {:.0} | {:.2} | {} |\n",
            ratio(all, one),
            ratio(alone, all),
            ratio(all, parts),
            theirs.map_or("-".into(), |t| format!("{:.2}", ratio(t, all)))
        );
    }
    said
}
