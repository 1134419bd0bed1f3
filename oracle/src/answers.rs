//! Answers of other caches, message by message: good ones in any order, and ways to damage one.
use crate::make::{serial, Universe};
use crate::model::{Key, Snapshot};
use crate::rng::Rng;

/// Messages, each with its header.
pub type Messages = Vec<Vec<u8>>;

//------------ Writing -------------------------------------------------------

/// A message of a version and a type, with two bytes that the type decides on.
fn message(version: u8, kind: u8, two: u16, body: &[&[u8]]) -> Vec<u8> {
    let body = body.concat();
    let mut out = vec![version, kind];
    out.extend(two.to_be_bytes());
    out.extend((8 + body.len() as u32).to_be_bytes());
    out.extend(body);
    out
}

pub fn cache_response(version: u8, session: u16) -> Vec<u8> {
    message(version, 3, session, &[])
}

/// Announces (flags 1) or withdraws (0) an origin or a router key.
pub fn payload(version: u8, flags: u8, key: &Key) -> Vec<u8> {
    match (key[0], key[1]) {
        (1, family) => {
            let address = if family == 4 { &key[2..6] } else { &key[2..18] };
            message(version, family, 0, &[&[flags, key[18], key[19], 0], address, &key[20..]])
        }
        _ => message(version, 9, u16::from(flags) << 8, &[&key[1..]]),
    }
}

/// Version 0 has no times.
pub fn end_of_data(version: u8, session: u16, serial: u32, times: [u32; 3]) -> Vec<u8> {
    let times = if version == 0 { vec![] } else { times.map(u32::to_be_bytes).concat() };
    message(version, 7, session, &[&serial.to_be_bytes(), &times])
}

/// The messages of any bytes. What is no whole message is one piece, the last.
pub fn pieces(mut bytes: &[u8]) -> Messages {
    let mut out = Vec::new();
    while !bytes.is_empty() {
        let said = bytes.get(4..8).map(|n| u32::from_be_bytes(n.try_into().expect("4 bytes")) as usize);
        let length = said.filter(|n| (8..=bytes.len()).contains(n)).unwrap_or(bytes.len());
        let (piece, rest) = bytes.split_at(length);
        out.push(piece.to_vec());
        bytes = rest;
    }
    out
}

//------------ Good answers --------------------------------------------------

/// An answer that one who holds `held` must accept. Records come in any order, and some go and come again.
pub fn good(rng: &mut Rng, version: u8, universe: &Universe, held: &Snapshot) -> Messages {
    let (session, mut keys) = (rng.next() as u16, universe.records());
    keys.retain(|key| version == 1 || key[0] == 1);
    let mut set = held.clone();
    let mut out = vec![cache_response(version, session)];
    let most = if keys.is_empty() { 1 } else { *rng.pick(&[4, 9, 30]) };
    for _ in 0..rng.below(most) {
        let key = *rng.pick(&keys);
        let flags = u8::from(set.remove(key).is_none());
        if flags == 1 {
            set.insert(key.clone(), vec![]);
        }
        out.push(payload(version, flags, key));
    }
    out.push(end_of_data(version, session, serial(rng), [(); 3].map(|_| rng.next() as u32)));
    if rng.one_in(4) {
        fill_zeros(rng, &mut out);
    }
    out
}

/// An answer of so many messages, and what the one who asked held. Records are named once or a few times, in ascending order
/// (0), in descending (1), in runs (2) or in any.
pub fn many(rng: &mut Rng, version: u8, count: usize, order: usize) -> (Snapshot, Messages) {
    let mut number = 0u32;
    let mut record = |_| {
        number += rng.below(2) as u32;
        [&[1, 4][..], &(number << 8).to_be_bytes(), &[0; 12], &[24, 24, 0, 0, 0, 1]].concat()
    };
    let mut keys: Vec<Key> = (0..count).map(&mut record).collect();
    match order {
        0 => {}
        1 => keys.reverse(),
        2 => keys.sort_by_key(|key| key[4] % 8),
        _ => (1..count).rev().for_each(|i| keys.swap(i, rng.below(i + 1))),
    }
    let held: Snapshot = keys.iter().filter(|key| key[4] % 3 == 0).map(|key| (key.clone(), vec![])).collect();
    let mut set = held.clone();
    let mut out = vec![cache_response(version, 7)];
    for key in keys {
        out.push(payload(version, u8::from(!set.contains_key(&key)), &key));
        if set.remove(&key).is_none() {
            set.insert(key, vec![]);
        }
    }
    out.push(end_of_data(version, 7, 1, [3600, 600, 7200]));
    (held, out)
}

/// Puts anything into the fields that the RFC calls zero, which a reader ignores.
fn fill_zeros(rng: &mut Rng, messages: &mut Messages) {
    for message in messages {
        match message[1] {
            4 | 6 => [2, 3, 11].iter().for_each(|&at| message[at] = rng.next() as u8),
            9 => message[3] = rng.next() as u8,
            _ => {}
        }
    }
}

//------------ Damage --------------------------------------------------------

/// A way to damage an answer. It may find nothing to damage; what it leaves may be good by chance.
type Damage = fn(&mut Rng, &mut Messages);

pub const DAMAGES: &[(&str, Damage)] = &[
    ("a message's bit", |rng, messages| {
        let message = some(rng, messages);
        let at = rng.below(message.len());
        message[at] ^= 1 << rng.below(8);
    }),
    ("a message's byte", |rng, messages| {
        let message = some(rng, messages);
        let at = rng.below(message.len());
        message[at] = *rng.pick(&[0, 1, 2, 3, 4, 6, 7, 9, 20, 24, 32, 33, 128, 129, 255]);
    }),
    ("an answer cut", |rng, messages| {
        let all = messages.concat();
        *messages = vec![all[..rng.below(all.len())].to_vec()];
    }),
    ("an answer cut between messages", |rng, messages| messages.truncate(rng.below(messages.len()))),
    ("an answer cut in a header", |rng, messages| {
        let at = rng.below(messages.len());
        messages.truncate(at + 1);
        messages[at].truncate(1 + rng.below(7));
    }),
    ("bytes behind an answer", |rng, messages| {
        messages.push((0..1 + rng.below(9)).map(|_| rng.below(4) as u8).collect());
    }),
    ("messages behind an answer", |rng, messages| {
        let more: Messages = (0..1 + rng.below(2)).map(|_| rng.pick(messages).clone()).collect();
        messages.extend(more);
    }),
    ("a message's byte dropped", |rng, messages| {
        let message = some(rng, messages);
        message.remove(rng.below(message.len()));
    }),
    ("a message's byte added", |rng, messages| {
        let message = some(rng, messages);
        let at = rng.below(message.len() + 1);
        message.insert(at, rng.next() as u8);
    }),
    ("a message dropped", |rng, messages| {
        messages.remove(rng.below(messages.len()));
    }),
    ("a message twice", |rng, messages| {
        let at = rng.below(messages.len());
        let again = messages[at].clone();
        messages.insert(at + 1 + rng.below(messages.len() - at), again);
    }),
    ("messages swapped", |rng, messages| {
        let (a, b) = (rng.below(messages.len()), rng.below(messages.len()));
        messages.swap(a, b);
    }),
    ("flags", |rng, messages| {
        let message = some(rng, messages);
        match message[1] {
            9 => message[2] ^= [1, 1, 1, 2, 3, 128, 255][rng.below(7)],
            _ if message.len() > 8 => message[8] ^= [1, 1, 1, 2, 3, 128, 255][rng.below(7)],
            _ => {}
        }
    }),
    ("a message's version", |rng, messages| {
        let other = *rng.pick(&[0, 2, 3, 255]);
        let message = some(rng, messages);
        // 0 stands for the other of the two
        message[0] = if other == 0 { message[0] ^ 1 } else { other };
    }),
    ("a message's type", |rng, messages| {
        some(rng, messages)[1] = *rng.pick(&[0, 1, 2, 3, 4, 5, 6, 7, 8, 9, 10, 11, 255]);
    }),
    ("a message's length", |rng, messages| {
        let message = some(rng, messages);
        let length = message.len() as u32;
        let other = match rng.below(9) {
            0 => length + 1,
            1 => length - 1,
            2 => length + 4,
            3 => length.wrapping_sub(4),
            4 => 0,
            5 => 7,
            6 => 8,
            7 => length + (1 << (16 + rng.below(16))),
            _ => u32::MAX - rng.below(9) as u32,
        };
        message[4..8].copy_from_slice(&other.to_be_bytes());
    }),
    ("a length that agrees with the bytes", |rng, messages| {
        let message = some(rng, messages);
        match rng.below(3) {
            0 => message.truncate(8 + rng.below(message.len() - 7)),
            1 => message.extend(vec![0; 1 + rng.below(12)]),
            _ => message.resize(32 + 1024 + rng.below(2), 1),
        }
        let length = message.len() as u32;
        message[4..8].copy_from_slice(&length.to_be_bytes());
    }),
    ("a prefix's bound", |rng, messages| {
        let prefixes = |m: &Vec<u8>| matches!((m[1], m.len()), (4, 20) | (6, 32));
        let found: Vec<usize> = (0..messages.len()).filter(|&i| prefixes(&messages[i])).collect();
        let Some(&at) = found.get(rng.below(found.len().max(1))) else { return };
        let message = &mut messages[at];
        let (bound, prefix) = (if message[1] == 4 { 32 } else { 128 }, message[9]);
        match rng.below(5) {
            0 => (message[9], message[10]) = (bound + 1, bound + 1),
            1 => message[10] = bound + 1,
            2 => message[10] = prefix.wrapping_sub(1),
            // the first bit past the prefix, or the last of all
            3 if prefix < bound => message[12 + usize::from(prefix / 8)] |= 128 >> (prefix % 8),
            _ => message[11 + usize::from(bound / 8)] |= 1,
        }
    }),
    ("another session", |rng, messages| {
        let at = [0, messages.len() - 1][rng.below(2)];
        let bit = rng.below(16);
        messages[at][2 + bit / 8] ^= 1 << (bit % 8);
    }),
    ("a message that may not stand there", |rng, messages| {
        let (version, session) = (messages[0][0], u16::from_be_bytes([messages[0][2], messages[0][3]]));
        let other = match rng.below(7) {
            0 => message(version, 0, session, &[&[0; 4]]),
            1 => message(version, 1, session, &[&[0; 4]]),
            2 => message(version, 2, 0, &[]),
            3 => cache_response(version, session),
            4 => message(version, 8, 0, &[]),
            5 => message(version, 10, 2, &[&[0; 8]]),
            _ => end_of_data(version, session, 0, [1; 3]),
        };
        messages.insert(rng.below(messages.len() + 1), other);
    }),
    ("a record that is there, or is not", |rng, messages| {
        // a message that was there is said again later with the same flags, or its record's other message is lost
        let payloads: Vec<usize> = (1..messages.len() - 1).collect();
        if !payloads.is_empty() {
            let at = *rng.pick(&payloads);
            match rng.below(2) {
                0 => drop(messages.remove(at)),
                _ => messages.insert(at, messages[at].clone()),
            }
        }
    }),
];

/// What version 0 has not, put into an answer of it.
pub const TOO_NEW: &[(&str, Damage)] = &[
    ("a router key in version 0", |rng, messages| {
        let key = message(0, 9, 256 * rng.below(2) as u16, &[&[5; 30]]);
        messages.insert(1 + rng.below(messages.len()), key);
    }),
    ("an End of Data with times in version 0", |rng, messages| {
        let end = messages.last_mut().expect("an answer has messages");
        end.resize(24, 1 + rng.below(9) as u8);
        end[7] = 24;
    }),
];

/// Damages an answer once, or at times twice, and says how.
pub fn damage(rng: &mut Rng, messages: &Messages) -> (&'static str, Vec<u8>) {
    let mut out = messages.clone();
    let old = messages[0][0] == 0 && rng.one_in(10);
    let (name, first) = rng.pick(if old { TOO_NEW } else { DAMAGES });
    first(rng, &mut out);
    if rng.one_in(5) {
        out = pieces(&out.concat());
        let (_, second) = rng.pick(DAMAGES);
        if out.len() > 1 && out.iter().all(|message| message.len() >= 8) {
            second(rng, &mut out);
        }
    }
    (name, out.concat())
}

fn some<'a>(rng: &mut Rng, messages: &'a mut Messages) -> &'a mut Vec<u8> {
    let at = rng.below(messages.len());
    &mut messages[at]
}

/// Each damage of one place: all that is shorter, and each bit of each byte the other way.
pub fn each_place(bytes: &[u8]) -> impl Iterator<Item = Vec<u8>> + '_ {
    let cuts = (0..bytes.len()).map(|n| bytes[..n].to_vec());
    let bits = (0..8 * bytes.len()).map(|bit| {
        let mut copy = bytes.to_vec();
        copy[bit / 8] ^= 128 >> (bit % 8);
        copy
    });
    cuts.chain(bits)
}
