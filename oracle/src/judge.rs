//! Requests E7 and E13 as a plain fold, written from document 02, RFC 8210 (version 1) and RFC 6810 (version 0): the messages
//! of one answer, taken one after another by one who holds a snapshot.
use crate::model::{good_body, Form, Key, Refused, Snapshot};

/// An answer that is accepted: its End of Data, how many messages announce and withdraw, and what they leave.
pub struct Judged {
    pub made: Snapshot,
    pub session: u16,
    pub serial: u32,
    pub times: [u32; 3],
    pub announced: u64,
    pub withdrawn: u64,
}

/// A message: its type, the two bytes that the type decides on, and what is behind the header.
struct Message<'a> {
    kind: u8,
    two: [u8; 2],
    body: &'a [u8],
}

/// What was left once the messages were taken; or the first that is faulty (13), withdraws an absent record (14) or
/// announces a present one (15).
pub fn judge(version: u8, mut set: Snapshot, bytes: &[u8]) -> Result<Judged, Refused> {
    let refuse = |number, at| Err(Refused(number, 2, at));
    let Some(Message { kind: 3, two: session, body: [] }) = message(version, bytes) else {
        return refuse(13, 0);
    };
    let (mut at, mut announced, mut withdrawn) = (8, 0, 0);
    loop {
        let Some(Message { kind, two, body }) = message(version, &bytes[at..]) else {
            return refuse(13, at);
        };
        let behind = at + 8 + body.len();
        if kind == 7 {
            if body.len() != [4, 16][usize::from(version)] || two != session {
                return refuse(13, at);
            }
            if behind < bytes.len() {
                return refuse(13, behind);
            }
            let serial = number(body);
            let times = if version == 0 { [0; 3] } else { [4, 8, 12].map(|i| number(&body[i..])) };
            let session = u16::from_be_bytes(session);
            return Ok(Judged { made: set, session, serial, times, announced, withdrawn });
        }
        if version == 0 && kind == 9 {
            return refuse(13, at);
        }
        let Some((flags, key)) = record(kind, two, body) else { return refuse(13, at) };
        match (flags, set.contains_key(&key)) {
            (0, false) => return refuse(14, at),
            (1, true) => return refuse(15, at),
            (0, true) => {
                set.remove(&key);
                withdrawn += 1;
            }
            (1, false) => {
                set.insert(key, vec![]);
                announced += 1;
            }
            _ => return refuse(13, at),
        }
        at = behind;
    }
}

/// The message of a version at the front of bytes, if a whole one is there.
fn message(version: u8, bytes: &[u8]) -> Option<Message<'_>> {
    let (&[said, kind, a, b, ref length @ ..], rest) = bytes.split_first_chunk::<8>()?;
    if said != version {
        return None;
    }
    let body = (u32::from_be_bytes(*length) as usize).checked_sub(8)?;
    Some(Message { kind, two: [a, b], body: rest.get(..body)? })
}

/// The flags and the record of a payload message, if it has the length of its type and the record keeps 01's rules. Fields
/// that the RFC calls zero are not looked at.
fn record(kind: u8, two: [u8; 2], body: &[u8]) -> Option<(u8, Key)> {
    let origin = |n: usize| {
        let (address, number) = body[4..].split_at(n);
        let mut key = vec![1, kind];
        key.extend(address);
        key.resize(18, 0);
        key.extend([body[1], body[2]]);
        key.extend(number);
        (body[0], key)
    };
    let (flags, key) = match (kind, body.len()) {
        (4, 12) => origin(4),
        (6, 24) => origin(16),
        (9, 24..) => (two[0], [&[2], body].concat()),
        _ => return None,
    };
    good_body(Form::Snapshot, key[0], &key[1..]).then_some((flags, key))
}

fn number(bytes: &[u8]) -> u32 {
    u32::from_be_bytes(bytes[..4].try_into().expect("4 bytes"))
}
