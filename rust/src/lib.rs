//! RPKI payload deltas and their history, on bytes.
//!
//! A *snapshot* is the whole payload at one moment: route origins, router keys and ASPAs. A *delta*
//! is what changed between two snapshots. Both are byte strings: runs of fields, each a tag, a
//! two-byte big-endian length and a body, in strictly ascending order.
//!
//! The work is done by a proved library, linked as a static archive; this crate wraps its C
//! interface. Nothing here allocates but [`History::new`], [`History::starting_at`] and
//! [`History::query_all`], and no call ever panics on its input: bad input is a [`Refusal`] that says
//! what is wrong and where, and leaves every byte as it was.
//!
//! ```
//! use taplevung::{apply, construct, Constructed, Refusal, Serial};
//!
//! // 192.0.2.0/24, maximum length 24, AS 64496.
//! let new = b"\x01\x00\x17\x04\xc0\x00\x02\x00\0\0\0\0\0\0\0\0\0\0\0\0\x18\x18\x00\x00\xfb\xf0";
//!
//! let mut out = [0; 100];
//! let Constructed::Delta(delta) = construct(b"", new, Serial(0), &mut out)? else { panic!() };
//! assert_eq!((delta.serial, delta.announced, delta.withdrawn), (Serial(1), 1, 0));
//! let delta = &out[..delta.length];
//! assert_eq!(delta[0], 0x11); // announce an origin
//!
//! let mut again = [0; 100];
//! let length = apply(b"", delta, &mut again)?;
//! assert_eq!(&again[..length], new);
//! # Ok::<(), Refusal>(())
//! ```

mod history;
pub mod raw;
mod refusal;

pub use history::{Full, History, Messages, Replies, Reply, Sent, Served, Updated};
pub use refusal::Refusal;

/// The longest snapshot, and snapshot store, in bytes.
pub const SNAPSHOT_LIMIT: usize = 16_777_216;
/// The longest delta, and delta store, in bytes.
pub const DELTA_LIMIT: usize = 33_554_432;
/// The most deltas that a history keeps.
pub const KEEP_LIMIT: u32 = 64;
/// The most queries in one call of [`History::query_all`].
pub const QUERY_LIMIT: usize = 384;

/// The serial of a snapshot. After 4,294,967,295 comes 0, so serials have no plain order.
#[repr(C)]
#[derive(Clone, Copy, Debug, Eq, Hash, PartialEq)]
pub struct Serial(pub u32);

/// The session as routers see it: the low 16 bits of a history's session.
#[repr(C)]
#[derive(Clone, Copy, Debug, Eq, Hash, PartialEq)]
pub struct Session(pub u16);

/// The version of router messages.
#[derive(Clone, Copy, Debug, Eq, Hash, PartialEq)]
pub enum Version {
    /// Version 0: no router keys, and an End of Data of 12 bytes, without times.
    Rfc6810,
    /// Version 1.
    Rfc8210,
}

impl Version {
    /// The number that the messages carry.
    pub fn number(self) -> u32 {
        match self {
            Version::Rfc6810 => 0,
            Version::Rfc8210 => 1,
        }
    }
}

/// The three intervals of an End of Data message, in seconds.
#[repr(C)]
#[derive(Clone, Copy, Debug, Eq, Hash, PartialEq)]
pub struct Timing {
    pub refresh: u32,
    pub retry: u32,
    pub expire: u32,
}

/// A delta that was written to the first `length` bytes of the output.
#[derive(Clone, Copy, Debug, Eq, PartialEq)]
pub struct Delta {
    /// The serial that the delta leads to.
    pub serial: Serial,
    pub length: usize,
    /// How many items it announces or updates.
    pub announced: u64,
    /// How many items it withdraws.
    pub withdrawn: u64,
}

impl Delta {
    fn of(answer: &raw::Answer) -> Self {
        Delta {
            serial: answer.serial,
            length: answer.length as usize,
            announced: answer.announced,
            withdrawn: answer.withdrawn,
        }
    }
}

/// What [`construct`] found.
#[derive(Clone, Copy, Debug, Eq, PartialEq)]
pub enum Constructed {
    /// The difference, which was written.
    Delta(Delta),
    /// The snapshots are equal, and nothing was written.
    NoChange,
}

/// Writes the difference between two snapshots to `out`; `old_serial` is that of the old one.
///
/// ```
/// use taplevung::{construct, Constructed, Refusal, Serial};
/// assert_eq!(construct(b"", b"", Serial(7), &mut []), Ok(Constructed::NoChange));
/// assert_eq!(
///     construct(b"", b"\x09\x00\x00", Serial(7), &mut []),
///     Err(Refusal::BadField { argument: 2, offset: 0 }) // no tag 9
/// );
/// ```
pub fn construct(old: &[u8], new: &[u8], old_serial: Serial, out: &mut [u8]) -> Result<Constructed, Refusal> {
    let answer = raw::construct(old, new, old_serial, out);
    Refusal::check(&answer)?;
    Ok(match answer.kind {
        1 => Constructed::Delta(Delta::of(&answer)),
        _ => Constructed::NoChange,
    })
}

/// Writes one delta that does what two do, the earlier and then the later, which leads to
/// `later_serial`. The outcome may be empty.
///
/// ```
/// use taplevung::{merge, Refusal, Serial};
/// let announce = b"\x31\x00\x08\x00\x00\x00\x01\x00\x00\x00\x02"; // customer 1, provider 2
/// let withdraw = b"\x32\x00\x08\x00\x00\x00\x01\x00\x00\x00\x02";
/// let mut out = [0; 100];
/// assert_eq!(merge(announce, withdraw, Serial(5), &mut out)?.length, 0);
/// assert_eq!(merge(announce, b"", Serial(5), &mut out)?.announced, 1);
/// # Ok::<(), Refusal>(())
/// ```
pub fn merge(earlier: &[u8], later: &[u8], later_serial: Serial, out: &mut [u8]) -> Result<Delta, Refusal> {
    let answer = raw::merge(earlier, later, later_serial, out);
    Refusal::check(&answer)?;
    Ok(Delta::of(&answer))
}

/// Writes the snapshot that `delta` makes of `snapshot`, and says how long it is.
///
/// ```
/// use taplevung::{apply, Refusal};
/// let withdraw = b"\x32\x00\x08\x00\x00\x00\x01\x00\x00\x00\x02"; // customer 1, provider 2
/// let mut out = [0; 100];
/// assert_eq!(apply(b"\x03\x00\x08\x00\x00\x00\x01\x00\x00\x00\x02", withdraw, &mut out), Ok(0));
/// assert_eq!(
///     apply(b"", withdraw, &mut out),
///     Err(Refusal::DoesNotFit { argument: 2, offset: 0 }) // there is nothing to withdraw
/// );
/// ```
pub fn apply(snapshot: &[u8], delta: &[u8], out: &mut [u8]) -> Result<usize, Refusal> {
    let answer = raw::apply(snapshot, delta, out);
    Refusal::check(&answer)?;
    Ok(answer.length as usize)
}

/// Brings each interval into the range of RFC 8210: refresh 1 to 86,400, retry 1 to 7,200, expire 600 to
/// 172,800. An expire that is then not larger than both others becomes the larger of them plus 1.
///
/// ```
/// use taplevung::{timing, Timing};
/// let least = timing(Timing { refresh: 0, retry: 0, expire: 0 });
/// assert_eq!(least, Timing { refresh: 1, retry: 1, expire: 600 });
/// let raised = timing(Timing { refresh: 86_400, retry: 7_200, expire: 600 });
/// assert_eq!(raised.expire, 86_401);
/// ```
pub fn timing(asked: Timing) -> Timing {
    raw::timing(asked.refresh, asked.retry, asked.expire)
}

/// What the messages of another cache led to: the snapshot in the first `length` bytes of the output.
#[derive(Clone, Copy, Debug, Eq, PartialEq)]
pub struct Judged {
    /// The session of the answer.
    pub session: Session,
    /// The serial of the End of Data.
    pub serial: Serial,
    /// The intervals of the End of Data, as they stand; in version 0 zeros.
    pub timing: Timing,
    pub length: usize,
    /// How many messages announce.
    pub announced: u64,
    /// How many messages withdraw.
    pub withdrawn: u64,
}

/// Judges the answer of another cache, the messages of a version from a Cache Response to an End of Data, for
/// one who holds `snapshot`: taken one after another, in whatever order they come. Writes the snapshot that
/// they leave, in which the ASPAs of the one given stay, in version 0 its router keys too.
///
/// The first faulty message decides, and its offset is in the refusal: [`Refusal::Faulty`],
/// [`Refusal::Absent`] or [`Refusal::Present`].
///
/// ```
/// use taplevung::{judge, Refusal, Serial, Session, Version};
/// // 192.0.2.0/24, maximum length 24, AS 64496: as a field, and announced.
/// let field = b"\x01\x00\x17\x04\xc0\x00\x02\x00\0\0\0\0\0\0\0\0\0\0\0\0\x18\x18\x00\x00\xfb\xf0";
/// let message = b"\x01\x04\0\0\0\0\0\x14\x01\x18\x18\0\xc0\x00\x02\x00\x00\x00\xfb\xf0";
/// // Cache Response; End of Data of serial 5 with the three intervals.
/// let response = b"\x01\x03\0\x07\0\0\0\x08";
/// let end = b"\x01\x07\0\x07\0\0\0\x18\0\0\0\x05\0\0\x0e\x10\0\0\x02\x58\0\0\x1c\x20";
///
/// let answer = [&response[..], message, end].concat();
/// let mut out = [0; 100];
/// let judged = judge(Version::Rfc8210, b"", &answer, &mut out)?;
/// assert_eq!((judged.session, judged.serial, judged.announced), (Session(7), Serial(5), 1));
/// assert_eq!(&out[..judged.length], field);
/// // One who has the record already.
/// let again = judge(Version::Rfc8210, field, &answer, &mut out);
/// assert_eq!(again, Err(Refusal::Present { argument: 2, offset: 8 }));
/// // One who asked in version 0.
/// let older = judge(Version::Rfc6810, b"", &answer, &mut out);
/// assert_eq!(older, Err(Refusal::Faulty { argument: 2, offset: 0 }));
/// # Ok::<(), Refusal>(())
/// ```
pub fn judge(version: Version, snapshot: &[u8], messages: &[u8], out: &mut [u8]) -> Result<Judged, Refusal> {
    let raw::Judged { answer, session, timing } = raw::judge(version.number(), snapshot, messages, out);
    Refusal::check(&answer)?;
    let raw::Answer { serial, length, announced, withdrawn, .. } = answer;
    Ok(Judged { session, serial, timing, length: length as usize, announced, withdrawn })
}
