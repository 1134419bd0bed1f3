//! Contenders, and how they are timed.
use std::hint::black_box;
use std::time::{Duration, Instant};

/// Who does the work.
#[derive(Clone, Copy, Debug, PartialEq)]
pub enum Who {
    /// The whole call.
    Library,
    /// A call of the library that checks the same inputs and then ends.
    Checks,
    /// The Rust on parsed values: it checks nothing.
    Parsed,
    /// The Rust from bytes: it parses, works, and encodes what it made.
    Bytes,
    /// Plain Rust for 01's rules over the same inputs.
    Plain,
    /// Copies the same inputs.
    Memcpy,
}

impl std::fmt::Display for Who {
    fn fmt(&self, f: &mut std::fmt::Formatter<'_>) -> std::fmt::Result {
        f.write_str(
            ["library", "its checks", "Rust, parsed", "Rust, bytes", "plain check", "memcpy"][*self as usize],
        )
    }
}

/// Something to time. It says itself how long it took, so that it can prepare. None if there is no such thing.
pub type Contender<'a> = Option<Box<dyn FnMut() -> Duration + 'a>>;

/// What is raced, by `Who`, and how many fields the inputs have.
pub struct Contest<'a> {
    pub fields: usize,
    pub contenders: [Contender<'a>; 6],
}

/// A contender that only works.
pub fn just<'a, T>(mut work: impl FnMut() -> T + 'a) -> Contender<'a> {
    Some(Box::new(move || {
        timed(&mut || {
            black_box(work());
        })
    }))
}

pub fn timed(work: &mut dyn FnMut()) -> Duration {
    let start = Instant::now();
    taplevung_counted(work);
    start.elapsed()
}

/// What `bench/count` counts, by this name: the work without what prepares it.
#[no_mangle]
#[inline(never)]
fn taplevung_counted(work: &mut dyn FnMut()) {
    work();
}

/// The best time of each contender, in seconds.
#[derive(Clone, Copy, Default)]
pub struct Times([Option<f64>; 6]);

impl Times {
    pub fn of(&self, who: Who) -> Option<f64> {
        self.0[who as usize]
    }

    /// How many times as long as another the library takes.
    pub fn against(&self, who: Who) -> Option<f64> {
        Some(self.of(Who::Library)? / self.of(who)?)
    }

    /// What the call takes beyond its checks, in units of another. None if too little is left to be measured.
    pub fn beyond_checks(&self, who: Who) -> Option<f64> {
        let (all, checks) = (self.of(Who::Library)?, self.of(Who::Checks)?);
        (all > 1.03 * checks).then_some((all - checks) / self.of(who)?)
    }
}

/// How many fields of inputs stay in the cache, and how many are not yet large.
pub const CACHED: usize = 25_000;
pub const MIDDLE: usize = 250_000;

/// How often the contenders take turns, and how often one works in its turn: small inputs stay in its cache.
#[derive(Clone, Copy)]
pub struct Rounds {
    turns: u32,
    burst: u32,
}

impl Rounds {
    /// The best of 15 on large inputs is the best of 100 on smaller ones and of 2,000 on those that stay in the cache.
    pub fn new(rounds: u32, fields: usize) -> Self {
        Rounds {
            turns: if fields <= MIDDLE { rounds * 20 / 3 } else { rounds },
            burst: if fields <= CACHED { 20 } else { 1 },
        }
    }

    pub fn runs(self) -> u32 {
        self.turns * self.burst
    }
}

/// Whoever has worked for longer than this is excused from turns beyond the fifth.
const LONG: Duration = Duration::from_secs(1);

pub fn race(rounds: Rounds, contest: &mut Contest<'_>) -> Times {
    let mut best = Times::default();
    let mut spent = [Duration::ZERO; 6];
    // whatever is made at first use is made here
    for run in contest.contenders.iter_mut().flatten() {
        run();
    }
    for turn in 0..rounds.turns {
        for (who, contender) in contest.contenders.iter_mut().enumerate() {
            let Some(run) = contender else { continue };
            if turn >= 5 && spent[who] > LONG {
                continue;
            }
            let start = Instant::now();
            for _ in 0..rounds.burst {
                let time = run().as_secs_f64();
                best.0[who] = Some(best.0[who].map_or(time, |b| b.min(time)));
            }
            spent[who] += start.elapsed();
        }
    }
    best
}
