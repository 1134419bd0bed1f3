//! The calls that write router messages, their bytes read by a reader of RFC 6810 and RFC 8210 that stands here.
use std::collections::BTreeSet;

use taplevung::{History, Messages, Refusal, Sent, Serial, Session, Timing, Version, Version::*};

const TIMES: Timing = Timing { refresh: 3600, retry: 600, expire: 7200 };

/// A message: its type, the two bytes behind that, and what follows the header.
type Message<'a> = (u8, [u8; 2], &'a [u8]);

fn read(version: Version, mut bytes: &[u8]) -> Vec<Message<'_>> {
    let mut out = vec![];
    while !bytes.is_empty() {
        let length = u32::from_be_bytes(bytes[4..8].try_into().unwrap()) as usize;
        assert_eq!(u32::from(bytes[0]), version.number(), "the version");
        out.push((bytes[1], [bytes[2], bytes[3]], &bytes[8..length]));
        bytes = &bytes[length..];
    }
    out
}

/// A router: what it holds, as the bodies of a snapshot's fields.
#[derive(Default, Debug, Eq, PartialEq)]
struct Router(BTreeSet<Vec<u8>>);

impl Router {
    /// Takes an answer, and hands back the session, serial and times that it names.
    fn take(&mut self, version: Version, answer: &[u8]) -> ([u8; 2], u32, Vec<u32>) {
        let messages = read(version, answer);
        let [(3, session, b""), items @ .., (7, again, end)] = &messages[..] else {
            panic!("no such answer")
        };
        assert_eq!(session, again);
        for (kind, two, body) in items {
            let (flags, body) = match kind {
                4 => (body[0], [&[4], &body[4..8], &[0; 12], &body[1..3], &body[8..12]].concat()),
                6 => (body[0], [&[6], &body[4..20], &body[1..3], &body[20..24]].concat()),
                9 if version == Rfc8210 => (two[0], body.to_vec()),
                _ => panic!("type {kind}"),
            };
            let new = if flags == 1 { self.0.insert(body) } else { self.0.remove(&body) };
            assert!(new && flags <= 1, "an item that is there already, or is not there");
        }
        let words: Vec<u32> = end.chunks(4).map(|w| u32::from_be_bytes(w.try_into().unwrap())).collect();
        (*session, words[0], words[1..].to_vec())
    }
}

fn field(tag: u8, body: &[u8]) -> Vec<u8> {
    [&[tag, 0, body.len() as u8], body].concat()
}

fn origin4(last: u8) -> Vec<u8> {
    [&[4, 192, 0, 2, last][..], &[0; 12], &[32, 32, 0, 0, 0xfb, 0xf0]].concat()
}

fn origin6(asn: u8) -> Vec<u8> {
    [&[6, 0x20, 1, 0x0d, 0xb8][..], &[0; 12], &[32, 48, 0, 0, 0xfb, asn]].concat()
}

fn key(info: &[u8]) -> Vec<u8> {
    [&[7; 20][..], &[0, 0, 0xfb, 0xf0], info].concat()
}

/// A snapshot of these origins and router keys, and of an ASPA with this provider.
fn snapshot(origins: &[Vec<u8>], keys: &[Vec<u8>], provider: u8) -> Vec<u8> {
    let mut out: Vec<u8> = origins.iter().flat_map(|o| field(1, o)).collect();
    out.extend(keys.iter().flat_map(|k| field(2, k)));
    out.extend(field(3, &[0, 0, 0, 1, 0, 0, 0, provider]));
    out
}

fn holding(origins: &[Vec<u8>], keys: &[Vec<u8>]) -> Router {
    Router(origins.iter().chain(keys).cloned().collect())
}

#[test]
fn a_router_that_follows() {
    follows(Rfc8210);
    follows(Rfc6810);
}

fn follows(version: Version) {
    let told = |keys: &[Vec<u8>]| if version == Rfc8210 { keys.to_vec() } else { vec![] };
    let (times, end) = if version == Rfc8210 { (vec![3600, 600, 7200], 24) } else { (vec![], 12) };
    let steps = [
        (vec![origin4(1), origin4(2), origin6(1)], vec![key(b"")]),
        (vec![origin4(2), origin6(1), origin6(2)], vec![key(b""), key(b"more")]),
        (vec![origin4(1), origin4(2)], vec![]),
    ];
    let mut history = History::starting_at(0xab_1234, 3, Serial(u32::MAX), 1000, 1000).unwrap();
    let mut out = [0x99; 1000];
    let empty = history.full_messages(version, TIMES, &mut out).unwrap();
    assert_eq!((empty.length, empty.announced), (8 + end, 0));
    let (mut follows, mut last) = (Router::default(), empty.serial);
    for (step, (origins, keys)) in steps.iter().enumerate() {
        history.update(&snapshot(origins, keys, 2 + step as u8)).unwrap();
        let serial = Serial((step as u32).wrapping_sub(1));

        let mut fresh = Router::default();
        let full = history.full_messages(version, TIMES, &mut out).unwrap();
        let items = (origins.len() + told(keys).len()) as u64;
        assert_eq!((full.session, full.serial), (Session(0x1234), serial));
        assert_eq!((full.announced, full.withdrawn), (items, 0));
        let skipped = (keys.len() - told(keys).len()) as u64;
        assert_eq!((full.router_keys_skipped, full.aspas_skipped), (skipped, 1));
        assert_eq!(fresh.take(version, &out[..full.length]), ([0x12, 0x34], serial.0, times.clone()));
        assert_eq!(fresh, holding(origins, &told(keys)));
        assert!(out[full.length..].iter().all(|b| *b == 0x99));
        out.fill(0x99);

        if step == 0 {
            follows = fresh;
        } else {
            let sent = history.query_messages(version, Session(0x1234), last, TIMES, &mut out).unwrap();
            let Sent::Data(Messages { aspas_skipped, .. }) = sent else { panic!("{sent:?}") };
            assert_eq!(aspas_skipped, 1);
            let named = follows.take(version, &out[..sent.length()]);
            assert_eq!(named, ([0x12, 0x34], serial.0, times.clone()));
        }
        assert_eq!(follows, holding(origins, &told(keys)));
        out.fill(0x99);
        last = serial;
    }
}

#[test]
fn sent_away() {
    let mut history = History::new(0x1_0002, 1, 100, 100).unwrap();
    history.update(b"").unwrap();
    let mut out = [0x99; 28];
    let away = history.query_messages(Rfc8210, Session(2), Serial(5), TIMES, &mut out).unwrap();
    assert_eq!(away, Sent::CacheReset { length: 8 });
    assert_eq!(out[..9], *b"\x01\x08\0\0\0\0\0\x08\x99");
    let other = history.query_messages(Rfc8210, Session(3), Serial(5), TIMES, &mut out).unwrap();
    assert_eq!(other, Sent::ErrorReport { length: 28 });
    assert_eq!(other.length(), 28);
    assert_eq!(out, *b"\x01\x0a\0\0\0\0\0\x1c\0\0\0\x0c\x01\x01\0\x03\0\0\0\x0c\0\0\0\x05\0\0\0\0");
    let older = history.query_messages(Rfc6810, Session(3), Serial(5), TIMES, &mut out).unwrap();
    assert_eq!(older, other);
    assert_eq!(out, *b"\0\x0a\0\0\0\0\0\x1c\0\0\0\x0c\0\x01\0\x03\0\0\0\x0c\0\0\0\x05\0\0\0\0");
    history.query_messages(Rfc6810, Session(2), Serial(5), TIMES, &mut out).unwrap();
    assert_eq!(out[..8], *b"\0\x08\0\0\0\0\0\x08");
}

#[test]
fn no_room_and_times() {
    let history = History::new(2, 1, 100, 100).unwrap();
    let mut out = [0x99; 40];
    for (needed, short) in [
        (32, history.full_messages(Rfc8210, TIMES, &mut out[..31]).err()),
        (20, history.full_messages(Rfc6810, TIMES, &mut out[..19]).err()),
        (32, history.query_messages(Rfc8210, Session(2), Serial(0), TIMES, &mut out[..31]).err()),
        (20, history.query_messages(Rfc6810, Session(2), Serial(0), TIMES, &mut out[..19]).err()),
        (8, history.query_messages(Rfc8210, Session(2), Serial(1), TIMES, &mut out[..7]).err()),
        (28, history.query_messages(Rfc8210, Session(3), Serial(0), TIMES, &mut out[..27]).err()),
        (12, history.notify_message(Rfc8210, &mut out[..11]).err()),
        (12, history.notify_message(Rfc6810, &mut out[..11]).err()),
    ] {
        assert_eq!(short, Some(Refusal::NoRoom), "{needed}");
    }
    assert_eq!(out, [0x99; 40]);
    assert_eq!(history.notify_message(Rfc6810, &mut out[..12]), Ok(12));
    assert_eq!(out[..13], *b"\0\0\0\x02\0\0\0\x0c\0\0\0\0\x99");
    assert_eq!(history.notify_message(Rfc8210, &mut out[..12]), Ok(12));
    assert_eq!(out[..13], *b"\x01\0\0\x02\0\0\0\x0c\0\0\0\0\x99");
    let most = Timing { refresh: 86_400, retry: u32::MAX, expire: 0 };
    let full = history.full_messages(Rfc8210, most, &mut out).unwrap();
    assert_eq!(Router::default().take(Rfc8210, &out[..full.length]).2, [86_400, 7_200, 86_401]);
}
