//! The C interface as it is: `include/taplevung.h` in Rust's words.
//!
//! The rest of the crate stands on this module and is easier to use. These functions are for
//! programs that keep a history's state and stores themselves. They are safe: the library asks
//! nothing of its arguments but that slices are valid and that a written one overlaps no other,
//! and Rust's references say both.

use crate::{Serial, Session, Timing};

/// A history, but for the bytes in its two stores.
#[repr(C)]
#[derive(Clone, Copy, Debug, Eq, PartialEq)]
pub struct State {
    pub session: u64,
    /// How many deltas are kept, 1 to 64.
    pub keep: u32,
    /// 0 until the first snapshot, then any other number.
    pub active: u32,
    /// The serial of the held snapshot.
    pub newest: Serial,
    /// The serial that the history started with.
    pub start: Serial,
    /// How many deltas are held.
    pub n: u32,
    /// The length of the held snapshot.
    pub snapshot: u32,
    /// The lengths of the held deltas, oldest first. Those past `n` are ignored.
    pub deltas: [u32; 64],
}

/// What a call says. `kind` 0 is a refusal; the header tells the others and each number's meaning.
#[repr(C)]
#[derive(Clone, Copy, Debug, Eq, PartialEq)]
pub struct Answer {
    pub kind: u32,
    pub number: u32,
    pub argument: u32,
    pub serial: Serial,
    pub offset: u64,
    pub length: u64,
    pub announced: u64,
    pub withdrawn: u64,
}

/// The answer of [`create`] and [`update`], and the state from then on.
#[repr(C)]
#[derive(Clone, Copy, Debug, Eq, PartialEq)]
pub struct Made {
    pub answer: Answer,
    pub state: State,
}

/// The answer of [`query`] and [`full`], and the session to name to the router.
#[repr(C)]
#[derive(Clone, Copy, Debug, Eq, PartialEq)]
pub struct Told {
    pub session: Session,
    pub answer: Answer,
}

/// What one query of [`query_all`] gets: kind 1 and where its delta stands in the output, or kind 0 and
/// the refusal's number.
#[repr(C)]
#[derive(Clone, Copy, Debug, Eq, PartialEq)]
pub struct Reply {
    pub kind: u32,
    pub number: u32,
    pub offset: u64,
    pub length: u64,
    pub announced: u64,
    pub withdrawn: u64,
}

/// The answer of [`query_all`], the session to name to the routers, and a reply for each query; those
/// past `count` are zeros.
#[repr(C)]
#[derive(Clone, Copy, Debug, Eq, PartialEq)]
pub struct Replies {
    pub answer: Answer,
    pub session: Session,
    pub count: u32,
    pub replies: [Reply; crate::QUERY_LIMIT],
}

/// What a Serial Notify says.
#[repr(C)]
#[derive(Clone, Copy, Debug, Eq, PartialEq)]
pub struct Notice {
    pub session: Session,
    pub serial: Serial,
}

/// The answer of the calls that write router messages.
#[repr(C)]
#[derive(Clone, Copy, Debug, Eq, PartialEq)]
pub struct Sent {
    pub answer: Answer,
    /// The session that the messages name.
    pub session: Session,
    /// Items that there is no message for.
    pub router_keys_skipped: u64,
    pub aspas_skipped: u64,
}

/// The answer of [`judge`], and the session and the intervals of the End of Data.
#[repr(C)]
#[derive(Clone, Copy, Debug, Eq, PartialEq)]
pub struct Judged {
    pub answer: Answer,
    pub session: Session,
    pub timing: Timing,
}

mod c {
    use super::*;

    extern "C" {
        pub fn taplevung_construct(
            old: *const u8,
            old_length: usize,
            new: *const u8,
            new_length: usize,
            old_serial: Serial,
            out: *mut u8,
            out_length: usize,
        ) -> Answer;
        pub fn taplevung_merge(
            earlier: *const u8,
            earlier_length: usize,
            later: *const u8,
            later_length: usize,
            later_serial: Serial,
            out: *mut u8,
            out_length: usize,
        ) -> Answer;
        pub fn taplevung_apply(
            snapshot: *const u8,
            snapshot_length: usize,
            delta: *const u8,
            delta_length: usize,
            out: *mut u8,
            out_length: usize,
        ) -> Answer;
        pub fn taplevung_create(
            session: u64,
            keep: u32,
            start: Serial,
            snapshots: *const u8,
            snapshots_length: usize,
            deltas: *const u8,
            deltas_length: usize,
        ) -> Made;
        pub fn taplevung_update(
            state: State,
            new: *const u8,
            new_length: usize,
            snapshots: *mut u8,
            snapshots_length: usize,
            deltas: *mut u8,
            deltas_length: usize,
        ) -> Made;
        pub fn taplevung_query(
            state: State,
            session: Session,
            serial: Serial,
            snapshots: *const u8,
            snapshots_length: usize,
            deltas: *const u8,
            deltas_length: usize,
            out: *mut u8,
            out_length: usize,
        ) -> Told;
        pub fn taplevung_query_all(
            state: State,
            snapshots: *const u8,
            snapshots_length: usize,
            deltas: *const u8,
            deltas_length: usize,
            queries: *const u8,
            queries_length: usize,
            out: *mut u8,
            out_length: usize,
        ) -> Replies;
        pub fn taplevung_full(
            state: State,
            snapshots: *const u8,
            snapshots_length: usize,
            deltas: *const u8,
            deltas_length: usize,
        ) -> Told;
        pub fn taplevung_notify(state: State) -> Notice;
        pub fn taplevung_ready(state: State) -> bool;
        pub fn taplevung_query_messages(
            version: u32,
            state: State,
            session: Session,
            serial: Serial,
            times: Timing,
            snapshots: *const u8,
            snapshots_length: usize,
            deltas: *const u8,
            deltas_length: usize,
            out: *mut u8,
            out_length: usize,
        ) -> Sent;
        pub fn taplevung_full_messages(
            version: u32,
            state: State,
            times: Timing,
            snapshots: *const u8,
            snapshots_length: usize,
            deltas: *const u8,
            deltas_length: usize,
            out: *mut u8,
            out_length: usize,
        ) -> Sent;
        pub fn taplevung_notify_message(version: u32, state: State, out: *mut u8, out_length: usize) -> Sent;
        pub fn taplevung_timing(refresh: u32, retry: u32, expire: u32) -> Timing;
        pub fn taplevung_judge(
            version: u32,
            snapshot: *const u8,
            snapshot_length: usize,
            messages: *const u8,
            messages_length: usize,
            out: *mut u8,
            out_length: usize,
        ) -> Judged;
    }
}

/// `taplevung_construct`: the difference between two snapshots.
pub fn construct(old: &[u8], new: &[u8], old_serial: Serial, out: &mut [u8]) -> Answer {
    // SAFETY: each pointer is good for its length, and `out` overlaps nothing.
    unsafe {
        c::taplevung_construct(
            old.as_ptr(),
            old.len(),
            new.as_ptr(),
            new.len(),
            old_serial,
            out.as_mut_ptr(),
            out.len(),
        )
    }
}

/// `taplevung_merge`: one delta that does what two do.
pub fn merge(earlier: &[u8], later: &[u8], later_serial: Serial, out: &mut [u8]) -> Answer {
    // SAFETY: as in `construct`.
    unsafe {
        c::taplevung_merge(
            earlier.as_ptr(),
            earlier.len(),
            later.as_ptr(),
            later.len(),
            later_serial,
            out.as_mut_ptr(),
            out.len(),
        )
    }
}

/// `taplevung_apply`: the snapshot that a delta makes of a snapshot.
pub fn apply(snapshot: &[u8], delta: &[u8], out: &mut [u8]) -> Answer {
    // SAFETY: as in `construct`.
    unsafe {
        c::taplevung_apply(
            snapshot.as_ptr(),
            snapshot.len(),
            delta.as_ptr(),
            delta.len(),
            out.as_mut_ptr(),
            out.len(),
        )
    }
}

/// `taplevung_create`: a history with no snapshot yet. The stores are only measured.
pub fn create(session: u64, keep: u32, start: Serial, snapshots: &[u8], deltas: &[u8]) -> Made {
    // SAFETY: each pointer is good for its length.
    unsafe {
        c::taplevung_create(
            session,
            keep,
            start,
            snapshots.as_ptr(),
            snapshots.len(),
            deltas.as_ptr(),
            deltas.len(),
        )
    }
}

/// `taplevung_update`: takes a new snapshot into a history.
pub fn update(state: State, new: &[u8], snapshots: &mut [u8], deltas: &mut [u8]) -> Made {
    // SAFETY: each pointer is good for its length, and the stores overlap nothing.
    unsafe {
        c::taplevung_update(
            state,
            new.as_ptr(),
            new.len(),
            snapshots.as_mut_ptr(),
            snapshots.len(),
            deltas.as_mut_ptr(),
            deltas.len(),
        )
    }
}

/// `taplevung_query`: the delta for a router that is at `serial` of `session`.
pub fn query(
    state: State,
    session: Session,
    serial: Serial,
    snapshots: &[u8],
    deltas: &[u8],
    out: &mut [u8],
) -> Told {
    // SAFETY: as in `construct`.
    unsafe {
        c::taplevung_query(
            state,
            session,
            serial,
            snapshots.as_ptr(),
            snapshots.len(),
            deltas.as_ptr(),
            deltas.len(),
            out.as_mut_ptr(),
            out.len(),
        )
    }
}

/// `taplevung_query_all`: the queries of a whole appliance, six bytes each.
pub fn query_all(state: State, snapshots: &[u8], deltas: &[u8], queries: &[u8], out: &mut [u8]) -> Replies {
    // SAFETY: as in `construct`.
    unsafe {
        c::taplevung_query_all(
            state,
            snapshots.as_ptr(),
            snapshots.len(),
            deltas.as_ptr(),
            deltas.len(),
            queries.as_ptr(),
            queries.len(),
            out.as_mut_ptr(),
            out.len(),
        )
    }
}

/// `taplevung_full`: what a router is sent that asks for everything.
pub fn full(state: State, snapshots: &[u8], deltas: &[u8]) -> Told {
    // SAFETY: each pointer is good for its length.
    unsafe { c::taplevung_full(state, snapshots.as_ptr(), snapshots.len(), deltas.as_ptr(), deltas.len()) }
}

/// `taplevung_notify`: the session and serial to notify routers of.
pub fn notify(state: State) -> Notice {
    // SAFETY: plain numbers.
    unsafe { c::taplevung_notify(state) }
}

/// `taplevung_ready`: whether the history has a snapshot yet.
pub fn ready(state: State) -> bool {
    // SAFETY: plain numbers.
    unsafe { c::taplevung_ready(state) }
}

/// `taplevung_query_messages`: the messages that answer a Serial Query. Version 0 is RFC 6810, any other number
/// RFC 8210; so it is below.
#[allow(clippy::too_many_arguments)]
pub fn query_messages(
    version: u32,
    state: State,
    session: Session,
    serial: Serial,
    times: Timing,
    snapshots: &[u8],
    deltas: &[u8],
    out: &mut [u8],
) -> Sent {
    // SAFETY: as in `construct`.
    unsafe {
        c::taplevung_query_messages(
            version,
            state,
            session,
            serial,
            times,
            snapshots.as_ptr(),
            snapshots.len(),
            deltas.as_ptr(),
            deltas.len(),
            out.as_mut_ptr(),
            out.len(),
        )
    }
}

/// `taplevung_full_messages`: the messages that answer a Reset Query.
pub fn full_messages(
    version: u32,
    state: State,
    times: Timing,
    snapshots: &[u8],
    deltas: &[u8],
    out: &mut [u8],
) -> Sent {
    // SAFETY: as in `construct`.
    unsafe {
        c::taplevung_full_messages(
            version,
            state,
            times,
            snapshots.as_ptr(),
            snapshots.len(),
            deltas.as_ptr(),
            deltas.len(),
            out.as_mut_ptr(),
            out.len(),
        )
    }
}

/// `taplevung_notify_message`: the Serial Notify.
pub fn notify_message(version: u32, state: State, out: &mut [u8]) -> Sent {
    // SAFETY: as in `construct`.
    unsafe { c::taplevung_notify_message(version, state, out.as_mut_ptr(), out.len()) }
}

/// `taplevung_timing`: each interval brought into its range, and expire above the two others.
pub fn timing(refresh: u32, retry: u32, expire: u32) -> Timing {
    // SAFETY: plain numbers.
    unsafe { c::taplevung_timing(refresh, retry, expire) }
}

/// `taplevung_judge`: the snapshot that the messages of another cache make of a snapshot.
pub fn judge(version: u32, snapshot: &[u8], messages: &[u8], out: &mut [u8]) -> Judged {
    // SAFETY: as in `construct`.
    unsafe {
        c::taplevung_judge(
            version,
            snapshot.as_ptr(),
            snapshot.len(),
            messages.as_ptr(),
            messages.len(),
            out.as_mut_ptr(),
            out.len(),
        )
    }
}
