//! Router messages, from the words of RFC 6810 (version 0), RFC 8210 (version 1) and of requests E1 and E13: how they are
//! written, and a router that reads them, which knows nothing of how they were made.
use std::collections::BTreeSet;

use crate::model::{Change, Delta, Key, Snapshot};

//------------ Writing -------------------------------------------------------

/// A header (version, type, two bytes, the length of all) and what follows it.
fn message(version: u8, kind: u8, two: [u8; 2], parts: &[&[u8]]) -> Vec<u8> {
    let rest = parts.concat();
    let length = u32::try_from(8 + rest.len()).expect("a message is short");
    [&[version, kind][..], &two, &length.to_be_bytes(), &rest].concat()
}

pub fn serial_notify(version: u8, session: u16, serial: u32) -> Vec<u8> {
    message(version, 0, session.to_be_bytes(), &[&serial.to_be_bytes()])
}

pub fn cache_reset(version: u8) -> Vec<u8> {
    message(version, 8, [0, 0], &[])
}

/// Code 0, the Serial Query enclosed, no text.
pub fn error_report(version: u8, session: u16, serial: u32) -> Vec<u8> {
    let query = message(version, 1, session.to_be_bytes(), &[&serial.to_be_bytes()]);
    message(version, 10, [0, 0], &[&(query.len() as u32).to_be_bytes(), &query, &[0; 4]])
}

/// An IPv4 Prefix, an IPv6 Prefix or, not in version 0, a Router Key; there is no ASPA message.
fn payload(version: u8, key: &Key, announce: bool) -> Option<Vec<u8>> {
    let flags = u8::from(announce);
    let body = &key[1..];
    match key[0] {
        1 => {
            let (address, lengths, asn) = (&body[1..17], &body[17..19], &body[19..]);
            let first = [flags, lengths[0], lengths[1], 0];
            Some(match body[0] {
                4 => message(version, 4, [0, 0], &[&first, &address[..4], asn]),
                _ => message(version, 6, [0, 0], &[&first, address, asn]),
            })
        }
        2 if version == 1 => Some(message(version, 9, [flags, 0], &[body])),
        _ => None,
    }
}

/// The messages of an answer, and what they count.
pub struct Written {
    pub bytes: Vec<u8>,
    pub announced: u64,
    pub withdrawn: u64,
    pub router_keys_skipped: u64,
    pub aspas_skipped: u64,
}

/// Cache Response, the items of a delta in its order, End of Data, which has no times in version 0.
pub fn answer(version: u8, session: u16, serial: u32, times: (u32, u32, u32), delta: &Delta) -> Written {
    let mut out = Written {
        bytes: message(version, 3, session.to_be_bytes(), &[]),
        announced: 0,
        withdrawn: 0,
        router_keys_skipped: 0,
        aspas_skipped: 0,
    };
    for (key, change) in delta {
        let announce = !matches!(change, Change::Withdraw(_));
        let Some(bytes) = payload(version, key, announce) else {
            *(if key[0] == 2 { &mut out.router_keys_skipped } else { &mut out.aspas_skipped }) += 1;
            continue;
        };
        *(if announce { &mut out.announced } else { &mut out.withdrawn }) += 1;
        out.bytes.extend(bytes);
    }
    let (refresh, retry, expire) = times;
    let numbers = [serial, refresh, retry, expire].map(u32::to_be_bytes);
    let told = if version == 0 { &numbers[..1] } else { &numbers };
    out.bytes.extend(message(version, 7, session.to_be_bytes(), &[&told.concat()]));
    out
}

//------------ Reading -------------------------------------------------------

/// A router: its version, the origins and router keys that it holds, and what the last answer named.
#[derive(Clone, Debug, Default, Eq, PartialEq)]
pub struct Router {
    pub version: u8,
    pub held: BTreeSet<Key>,
    pub session: u16,
    pub serial: u32,
    /// Refresh, retry, expire; in version 0 zeros.
    pub times: [u32; 3],
}

impl Router {
    /// One that holds what a snapshot says to it.
    pub fn holding(version: u8, snapshot: &Snapshot) -> Self {
        let told = |key: &&Key| key[0] == 1 || key[0] == 2 && version == 1;
        Router { version, held: snapshot.keys().filter(told).cloned().collect(), ..Self::default() }
    }

    /// Takes the messages of an answer one after another, or says what is wrong with one of them. What was announced
    /// (true) and withdrawn, in order.
    pub fn take(&mut self, mut bytes: &[u8]) -> Result<Vec<(bool, Key)>, String> {
        let (mut first, mut taken) = (true, vec![]);
        loop {
            let &[version, kind, high, low, l0, l1, l2, l3, ..] = bytes else {
                return Err("cut short".into());
            };
            let length = u32::from_be_bytes([l0, l1, l2, l3]) as usize;
            let Some(body) = bytes.get(8..length) else { return Err(format!("length {length}")) };
            let two = u16::from_be_bytes([high, low]);
            if version != self.version || first != (kind == 3) {
                return Err(format!("version {version}, type {kind}"));
            }
            let record = match (kind, body.len()) {
                (3, 0) => {
                    self.session = two;
                    None
                }
                (4, 12) if two == 0 && body[3] == 0 => {
                    Some((body[0], [&[1, 4], &body[4..8], &[0; 12], &body[1..3], &body[8..]].concat()))
                }
                (6, 24) if two == 0 && body[3] == 0 => {
                    Some((body[0], [&[1, 6], &body[4..20], &body[1..3], &body[20..]].concat()))
                }
                (9, 24..) if version == 1 && low == 0 => Some((high, [&[2], body].concat())),
                (7, 4 | 16) if two == self.session && bytes.len() == length => {
                    let mut numbers =
                        body.chunks(4).map(|n| u32::from_be_bytes(n.try_into().expect("4 bytes")));
                    self.serial = numbers.next().expect("a serial");
                    self.times = match (version, &numbers.collect::<Vec<_>>()[..]) {
                        (0, []) => [0; 3],
                        (1, &[refresh, retry, expire]) => [refresh, retry, expire],
                        _ => return Err(format!("an End of Data of {length} bytes")),
                    };
                    return Ok(taken);
                }
                _ => return Err(format!("type {kind} of {length} bytes, with {two}")),
            };
            if let Some((flags, key)) = record {
                taken.push((self.change(flags, &key)?, key));
            }
            (first, bytes) = (false, &bytes[length..]);
        }
    }

    /// An announcement must be new, a withdrawal of something held.
    fn change(&mut self, flags: u8, key: &Key) -> Result<bool, String> {
        let changed = match flags {
            0 => self.held.remove(key),
            1 => self.held.insert(key.clone()),
            _ => false,
        };
        match changed {
            true => Ok(flags == 1),
            false => Err(format!("flags {flags} on {key:02x?}")),
        }
    }
}
