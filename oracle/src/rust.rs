//! Routinator's own code, driven on the bytes of document 01 through its public functions.
//!
//! One thing has no public function: the former providers in a delta. They are read off the derived
//! `Debug`, for which the stand-ins write bodies in hex.
use std::num::NonZeroUsize;
use std::sync::Arc;
use std::time::Duration;

use rpki::rtr::payload::{Aspa, PayloadRef, RouteOrigin, RouterKey};
use rpki::rtr::pdu::ProviderAsns;
use rpki::rtr::server::{PayloadDiff, PayloadSet, PayloadSource};
use rpki::rtr::state::{State, ZERO};
use rpki::rtr::Action;
pub use rpki::rtr::Serial;

use crate::config::{Config, FilterPolicy};
use crate::field::{fields, put, split_update};
pub use crate::payload::delta::PayloadDelta;
use crate::payload::history::SharedHistory;
use crate::payload::info::PayloadInfo;
pub use crate::payload::snapshot::PayloadSnapshot;
use crate::payload::validation::ValidationReport;
use crate::slurm::{ExceptionInfo, LocalExceptions};

/// A delta as the C interface hands one out.
#[derive(Clone, Debug, Eq, PartialEq)]
pub struct Served {
    pub serial: u32,
    pub announced: u64,
    pub withdrawn: u64,
    pub bytes: Vec<u8>,
}

impl From<&PayloadDelta> for Served {
    fn from(delta: &PayloadDelta) -> Self {
        Served {
            serial: delta.serial().0,
            announced: delta.announce_len() as u64,
            withdrawn: delta.withdraw_len() as u64,
            bytes: delta_bytes(delta),
        }
    }
}

/// The difference; None is "no change".
pub fn construct(old: &[u8], new: &[u8], serial: u32) -> Option<Served> {
    PayloadDelta::construct(&snapshot(old), &snapshot(new), Serial(serial)).as_ref().map(Served::from)
}

pub fn merge(earlier: &[u8], later: &[u8], serial: u32) -> Served {
    Served::from(&delta(earlier, serial.wrapping_sub(1)).merge(&delta(later, serial)))
}

/// Retry and expire as the Rust hands them out. Its refresh depends on the clock, but for 0.
pub fn timing(retry: u32, expire: u32) -> (u32, u32, u32) {
    let timing = SharedHistory::from_config(&config(1, retry, expire)).timing();
    (timing.refresh, timing.retry, timing.expire)
}

fn config(keep: u32, retry: u32, expire: u32) -> Config {
    Config {
        history_size: NonZeroUsize::new(keep as usize).expect("keep is above 0"),
        refresh: Duration::ZERO,
        min_refresh: None,
        unsafe_vrps: FilterPolicy::Accept,
        retry: Duration::from_secs(retry.into()),
        expire: Duration::from_secs(expire.into()),
    }
}

/// A `SharedHistory` whose first serial is `start`.
///
/// The Rust starts at 0. The stand-in for serials lets that 0 mean another number, so that the wrap and
/// the middle of the serials are met without 2^31 updates. One history lives at a time in a thread.
pub struct History(SharedHistory);

impl History {
    pub fn new(keep: u32, start: u32) -> Self {
        ZERO.set(start);
        History(SharedHistory::from_config(&config(keep, 600, 7200)))
    }

    /// Whether the Rust says that there is a new version.
    pub fn update(&self, new: &[u8]) -> bool {
        self.update_to(snapshot(new))
    }

    /// The same, of a snapshot that is parsed already.
    pub fn update_to(&self, new: PayloadSnapshot) -> bool {
        self.0.update(ValidationReport(new), &LocalExceptions, Default::default())
    }

    /// None where no delta is served.
    pub fn since(&self, serial: u32) -> Option<Served> {
        self.delta_since(serial).as_deref().map(Served::from)
    }

    /// The Rust's own value.
    pub fn delta_since(&self, serial: u32) -> Option<Arc<PayloadDelta>> {
        self.0.read().delta_since(Serial(serial))
    }

    /// What a server sees of the delta that is served; None where none is.
    pub fn shown_since(&self, serial: u32) -> Option<Vec<(u8, bool, Vec<u8>)>> {
        self.delta_since(serial).map(shown)
    }

    /// Whether `diff` serves a router of the history's own session, and one of another.
    pub fn diff(&self, serial: u32) -> (bool, bool) {
        let session = self.0.notify().session();
        let served = |session| self.0.diff(State::from_parts(session, Serial(serial))).is_some();
        (served(session), served(session ^ 1))
    }

    /// The serial and bytes of `full`, the serial of `notify`, and `ready`.
    pub fn full(&self) -> (u32, Vec<u8>, u32, bool) {
        let (state, mut set) = self.0.full();
        let mut bytes = Vec::new();
        while let Some(item) = set.next() {
            let (tag, body) = payload(&item);
            put(&mut bytes, tag, &[&body]);
        }
        (state.serial().0, bytes, self.0.notify().serial().0, self.0.ready())
    }
}

impl Drop for History {
    fn drop(&mut self) {
        ZERO.set(0);
    }
}

//------------ Bytes to the Rust's values and back ---------------------------

fn origin(body: &[u8]) -> RouteOrigin {
    RouteOrigin(body.try_into().expect("23 bytes"))
}

fn router_key(body: &[u8]) -> RouterKey {
    RouterKey {
        key_identifier: body[..20].try_into().expect("20 bytes"),
        asn: u32::from_be_bytes(body[20..24].try_into().expect("4 bytes")),
        key_info: Arc::from(&body[24..]),
    }
}

fn aspa(body: &[u8]) -> Aspa {
    Aspa {
        customer: u32::from_be_bytes(body[..4].try_into().expect("4 bytes")),
        providers: ProviderAsns(Arc::from(&body[4..])),
    }
}

/// The snapshot that good (or only well-formed) bytes stand for.
pub fn snapshot(bytes: &[u8]) -> PayloadSnapshot {
    let info = PayloadInfo::from(Arc::new(ExceptionInfo));
    let (mut origins, mut keys, mut aspas) = (Vec::new(), Vec::new(), Vec::new());
    for (tag, body) in fields(bytes) {
        match tag {
            1 => origins.push((origin(body), info.clone())),
            2 => keys.push((router_key(body), info.clone())),
            3 => aspas.push((aspa(body), info.clone())),
            _ => panic!("tag {tag}"),
        }
    }
    PayloadSnapshot::new(origins.into_iter(), keys.into_iter(), aspas.into_iter(), None)
}

/// A delta of the Rust from any good delta's bytes, through `construct`, `empty` and `merge` alone.
///
/// An update whose new list is its former one comes from no `construct`; it is an update from p to q and
/// then an announcement of p.
pub fn delta(bytes: &[u8], target: u32) -> PayloadDelta {
    let (mut old, mut new, mut then) = (Vec::new(), Vec::new(), Vec::new());
    for (tag, body) in fields(bytes) {
        match tag {
            0x11 | 0x21 | 0x31 => put(&mut new, tag >> 4, &[body]),
            0x12 | 0x22 | 0x32 => put(&mut old, tag >> 4, &[body]),
            0x33 => {
                let (customer, former, now) = split_update(body);
                put(&mut old, 3, &[customer, former]);
                if former != now {
                    put(&mut new, 3, &[customer, now]);
                } else {
                    let other: &[u8] = if former.is_empty() { &[0, 0, 0, 1] } else { &[] };
                    put(&mut new, 3, &[customer, other]);
                    put(&mut then, 3, &[customer, now]);
                }
            }
            _ => panic!("tag {tag}"),
        }
    }
    let before = Serial(target.wrapping_sub(1));
    let first = PayloadDelta::construct(&snapshot(&old), &snapshot(&new), before)
        .unwrap_or_else(|| PayloadDelta::empty(Serial(target)));
    match PayloadDelta::construct(&PayloadSnapshot::default(), &snapshot(&then), before) {
        Some(more) => first.merge(&more),
        None => first,
    }
}

/// The tag in a snapshot, and the body.
pub fn payload(item: &PayloadRef<'_>) -> (u8, Vec<u8>) {
    match item {
        PayloadRef::Origin(o) => (1, o.0.to_vec()),
        PayloadRef::RouterKey(k) => (2, [&k.key_identifier[..], &k.asn.to_be_bytes(), &k.key_info].concat()),
        PayloadRef::Aspa(a) => (3, [&a.customer.to_be_bytes()[..], &a.providers.0].concat()),
    }
}

/// The bytes of a delta, off its `Debug`: three lists of items `(#BODY, Announce)`, `(#BODY, Withdraw)`,
/// and for ASPAs `(#BODY, Update(#FORMER))` and `(#CUSTOMER, Withdraw(#FORMER))`.
fn delta_bytes(delta: &PayloadDelta) -> Vec<u8> {
    let text = format!("{delta:?}");
    let lists: Vec<&str> = text.split("items: [").skip(1).map(|l| l.split(']').next().unwrap()).collect();
    assert_eq!(lists.len(), 3, "{text}");
    let mut out = Vec::new();
    for (kind, list) in (1u8..).zip(lists) {
        let list = list.strip_prefix("(#").and_then(|l| l.strip_suffix(')'));
        for item in list.into_iter().flat_map(|l| l.split("), (#")) {
            let (body, action) = item.split_once(", ").expect("a payload and an action");
            let body = unhex(body);
            match action.trim_end_matches(')').split_once("(#") {
                None if action == "Announce" => put(&mut out, kind * 16 + 1, &[&body]),
                None if action == "Withdraw" => put(&mut out, kind * 16 + 2, &[&body]),
                Some(("Withdraw", former)) => put(&mut out, kind * 16 + 2, &[&body, &unhex(former)]),
                Some(("Update", former)) => {
                    let (former, (customer, new)) = (unhex(former), body.split_at(4));
                    let count = (former.len() / 4) as u16;
                    put(&mut out, kind * 16 + 3, &[customer, &count.to_be_bytes(), &former, new]);
                }
                _ => panic!("{item}"),
            }
        }
    }
    out
}

fn unhex(text: &str) -> Vec<u8> {
    text.as_bytes()
        .chunks(2)
        .map(|c| c.iter().fold(0, |n, d| n * 16 + char::from(*d).to_digit(16).expect("hex") as u8))
        .collect()
}

/// What a server sees of a delta: the tag in a snapshot, whether announced, and the body. An update is an
/// announcement, a withdrawn ASPA its customer alone.
pub fn shown(delta: impl Into<Arc<PayloadDelta>>) -> Vec<(u8, bool, Vec<u8>)> {
    let mut iter = delta.into().arc_iter();
    let mut out = Vec::new();
    while let Some((item, action)) = iter.next() {
        let (tag, body) = payload(&item);
        out.push((tag, action == Action::Announce, body));
    }
    out
}
