//! Each wrapper once or twice: what comes back in Rust's words. What the answers ought to be for all
//! kinds of input is the oracle's business.
use taplevung::{
    apply, construct, judge, merge, raw, timing, Constructed, Delta, History, Judged, Refusal, Reply, Serial,
    Session, Timing, Updated, Version::*, DELTA_LIMIT, QUERY_LIMIT, SNAPSHOT_LIMIT,
};

/// A field of an ASPA: tag, customer, providers.
fn aspa(tag: u8, customer: u32, providers: &[u32]) -> Vec<u8> {
    let mut field = vec![tag, 0, 4 + 4 * providers.len() as u8];
    field.extend(customer.to_be_bytes());
    field.extend(providers.iter().flat_map(|p| p.to_be_bytes()));
    field
}

#[test]
fn difference_and_application() {
    let (old, new) = (aspa(3, 1, &[2]), aspa(3, 9, &[2, 3]));
    let mut out = [7; 64];
    let Ok(Constructed::Delta(delta)) = construct(&old, &new, Serial(u32::MAX), &mut out) else {
        panic!("no delta");
    };
    let bytes = [aspa(0x32, 1, &[2]), aspa(0x31, 9, &[2, 3])].concat();
    assert_eq!(delta, Delta { serial: Serial(0), length: bytes.len(), announced: 1, withdrawn: 1 });
    assert_eq!(out[..delta.length], bytes);
    assert!(out[delta.length..].iter().all(|&b| b == 7));

    let mut again = [7; 64];
    let length = apply(&old, &bytes, &mut again).unwrap();
    assert_eq!(again[..length], new);
    assert_eq!(construct(&new, &new, Serial(3), &mut []), Ok(Constructed::NoChange));
}

#[test]
fn merging() {
    let (announce, withdraw) = (aspa(0x31, 1, &[5]), aspa(0x32, 1, &[4]));
    let mut out = [0; 64];
    let delta = merge(&withdraw, &announce, Serial(8), &mut out).unwrap();
    assert_eq!((delta.serial, delta.announced, delta.withdrawn), (Serial(8), 1, 0));
    assert_eq!(out[..delta.length], *b"\x33\x00\x0e\0\0\0\x01\0\x01\0\0\0\x04\0\0\0\x05");
    assert_eq!(merge(&announce, &withdraw, Serial(8), &mut []).unwrap().length, 0);
}

#[test]
fn refusals() {
    let good = aspa(3, 1, &[2]);
    let disorder = [aspa(3, 5, &[2]), aspa(3, 4, &[2])].concat();
    let absent = aspa(0x32, 3, &[2]);
    let long = vec![0; SNAPSHOT_LIMIT + 1];
    let out = &mut [0; 64][..];
    let history = |keep, snapshots, deltas| History::new(1, keep, snapshots, deltas).unwrap_err();
    let mut small = History::new(70_000, 1, 11, 0).unwrap();
    for (refusal, number, argument, offset) in [
        (construct(&good, b"\x01", Serial(0), out).unwrap_err(), 1, Some(2), Some(0)),
        (construct(&disorder, b"", Serial(0), out).unwrap_err(), 2, Some(1), Some(11)),
        (apply(&good, &absent, out).unwrap_err(), 3, Some(2), Some(0)),
        (construct(b"", &good, Serial(0), &mut out[..10]).unwrap_err(), 4, None, None),
        (small.query(Session(70_000u32 as u16 + 1), Serial(0), out).unwrap_err(), 5, None, None),
        (small.query(Session(70_000u32 as u16), Serial(1), out).unwrap_err(), 6, None, None),
        (history(0, 0, 0), 8, None, None),
        (history(65, 0, 0), 8, None, None),
        (small.update(&[&good[..], &aspa(3, 2, &[1])].concat()).unwrap_err(), 9, None, None),
        (construct(b"", &long, Serial(0), out).unwrap_err(), 10, Some(2), None),
        (construct(&good, &aspa(3, 1, &[]), Serial(0), out).unwrap_err(), 12, Some(2), Some(0)),
        (merge(&aspa(0x32, 1, &[1]), b"", Serial(0), out).unwrap_err(), 12, Some(1), Some(0)),
        (small.update(&[&good[..], &aspa(3, 2, &[1, 2])].concat()).unwrap_err(), 12, Some(1), Some(11)),
        (history(1, SNAPSHOT_LIMIT + 1, 0), 10, Some(1), None),
        (history(1, 0, DELTA_LIMIT + 1), 10, Some(2), None),
    ] {
        assert_eq!(
            (refusal.number(), refusal.argument(), refusal.offset()),
            (number, argument, offset),
            "{refusal}"
        );
    }
}

/// The field of 192.0.2.0/24 of an AS, and the message that announces (flags 1) or withdraws it (0).
fn origin(asn: u8) -> Vec<u8> {
    [&[1, 0, 23, 4, 192, 0, 2][..], &[0; 13], &[24, 24, 0, 0, 0, asn]].concat()
}
fn prefix(flags: u8, asn: u8) -> Vec<u8> {
    vec![1, 4, 0, 0, 0, 0, 0, 20, flags, 24, 24, 0, 192, 0, 2, 0, 0, 0, 0, asn]
}

/// Cache Response, these messages, End of Data of session 3 and serial 9.
fn answer(messages: &[Vec<u8>]) -> Vec<u8> {
    let end = [&[1, 7, 0, 3, 0, 0, 0, 24, 0, 0, 0, 9][..], &[0, 0, 0, 1, 0, 0, 0, 2, 0, 0, 0, 3]].concat();
    [vec![1, 3, 0, 3, 0, 0, 0, 8], messages.concat(), end].concat()
}

#[test]
fn judging() {
    // AS 1 comes, AS 2 goes, comes and goes; the ASPA stays
    let held = [origin(2), aspa(3, 1, &[2])].concat();
    let messages = answer(&[prefix(0, 2), prefix(1, 1), prefix(1, 2), prefix(0, 2)]);
    let left = [origin(1), aspa(3, 1, &[2])].concat();
    let mut out = [7; 64];
    let judged = Judged {
        session: Session(3),
        serial: Serial(9),
        timing: Timing { refresh: 1, retry: 2, expire: 3 },
        length: left.len(),
        announced: 2,
        withdrawn: 2,
    };
    assert_eq!(judge(Rfc8210, &held, &messages, &mut out), Ok(judged));
    assert_eq!(out[..left.len()], left);
    assert!(out[left.len()..].iter().all(|&b| b == 7));
    assert_eq!(judge(Rfc8210, &held, &answer(&[]), &mut out).unwrap().length, held.len());
}

#[test]
fn judging_version_0() {
    let older = |mut message: Vec<u8>| {
        message[0] = 0;
        message
    };
    let end = |length: u8, rest: &[u8]| [&[0, 7, 0, 3, 0, 0, 0, length, 0, 0, 0, 9], rest].concat();
    let answer = |messages: Vec<u8>, end: Vec<u8>| [vec![0, 3, 0, 3, 0, 0, 0, 8], messages, end].concat();
    let key = [&[0, 9, 1, 0, 0, 0, 0, 32][..], &[5; 24]].concat();
    let held = [origin(2), aspa(3, 1, &[2])].concat();
    let mut out = [7; 80];
    let judged = judge(Rfc6810, &held, &answer(older(prefix(1, 1)), end(12, &[])), &mut out).unwrap();
    assert_eq!((judged.session, judged.serial, judged.announced), (Session(3), Serial(9), 1));
    assert_eq!(judged.timing, Timing { refresh: 0, retry: 0, expire: 0 });
    assert_eq!(out[..judged.length], [origin(1), held.clone()].concat());
    out.fill(7);
    for (messages, offset) in [
        (answer(key, end(12, &[])), 8),
        (answer(vec![], end(24, &[1; 12])), 8),
        (answer(prefix(1, 1), end(12, &[])), 8),
        (self::answer(&[prefix(1, 1)]), 0),
    ] {
        let faulty = Refusal::Faulty { argument: 2, offset };
        assert_eq!(judge(Rfc6810, &held, &messages, &mut out), Err(faulty));
    }
    assert_eq!(out, [7; 80]);
    // any other number is RFC 8210
    let messages = self::answer(&[prefix(1, 1)]);
    for version in [1, 2, 256, u32::MAX] {
        assert_eq!(raw::judge(version, &held, &messages, &mut out).answer.kind, 1);
    }
}

#[test]
fn judging_refused() {
    let held = origin(2);
    let mut out = [7; 64];
    let behind = [answer(&[]), vec![0]].concat();
    let cut = &answer(&[prefix(1, 1)])[..28];
    let long = vec![0; SNAPSHOT_LIMIT + 1];
    for (snapshot, messages, refusal) in [
        (&held, &answer(&[prefix(1, 1), prefix(0, 3)])[..], Refusal::Absent { argument: 2, offset: 28 }),
        (
            &held,
            &answer(&[prefix(1, 1), prefix(1, 2), prefix(2, 2)]),
            Refusal::Present { argument: 2, offset: 28 },
        ),
        (&held, &answer(&[prefix(2, 2)]), Refusal::Faulty { argument: 2, offset: 8 }),
        (&held, &behind, Refusal::Faulty { argument: 2, offset: 32 }),
        (&held, cut, Refusal::Faulty { argument: 2, offset: 28 }),
        (&held, b"", Refusal::Faulty { argument: 2, offset: 0 }),
        (&aspa(3, 1, &[1]), b"", Refusal::Senseless { argument: 1, offset: 0 }),
        (&long, b"", Refusal::TooLong { argument: 1 }),
    ] {
        assert_eq!(judge(Rfc8210, snapshot, messages, &mut out), Err(refusal));
        assert!(out.iter().all(|&b| b == 7), "{refusal}");
    }
    assert_eq!(judge(Rfc8210, &held, &answer(&[prefix(1, 1)]), &mut out[..51]), Err(Refusal::NoRoom));
    let present = Refusal::Present { argument: 2, offset: 28 };
    assert_eq!((present.number(), present.argument(), present.offset()), (15, Some(2), Some(28)));
}

#[test]
fn refusal_in_words() {
    let refusal = Refusal::OutOfOrder { argument: 2, offset: 26 };
    assert_eq!(refusal.to_string(), "argument 2: the field at 26 does not stand above the one before it");
    let refusal = Refusal::Senseless { argument: 1, offset: 0 };
    assert_eq!(
        refusal.to_string(),
        "argument 1: the ASPA at 0 has no providers, or names its customer among them"
    );
    let refusal = Refusal::Absent { argument: 2, offset: 8 };
    assert_eq!(refusal.to_string(), "argument 2: the message at 8 withdraws a record that is absent");
}

#[test]
fn a_history() {
    let mut history = History::new(0x1_0002, 2, 100, 100).unwrap();
    assert!(!history.ready());
    assert_eq!(history.full().unwrap().snapshot, b"");
    let snapshots: Vec<_> = (2..=5).map(|p| aspa(3, 1, &[p])).collect();

    assert_eq!(history.update(&snapshots[0]), Ok(Updated::First));
    assert!(history.ready());
    assert_eq!(history.update(&snapshots[0]), Ok(Updated::Unchanged));
    for (i, snapshot) in snapshots.iter().enumerate().skip(1) {
        let Ok(Updated::Changed(delta)) = history.update(snapshot) else { panic!("unchanged") };
        assert_eq!(delta.serial, Serial(i as u32));
    }
    assert_eq!(history.notify(), (Session(2), Serial(3)));
    let full = history.full().unwrap();
    assert_eq!((full.session, full.serial), (Session(2), Serial(3)));
    assert_eq!(full.snapshot, snapshots[3]);
    assert_eq!(history.state().n, 2);

    let mut out = [0; 64];
    let served = history.query(Session(2), Serial(2), &mut out).unwrap();
    assert_eq!((served.session, served.delta.serial, served.delta.announced), (Session(2), Serial(3), 1));
    assert_eq!(history.query(Session(2), Serial(3), &mut out).unwrap().delta.length, 0);
    let both = history.query(Session(2), Serial(1), &mut out).unwrap().delta;
    assert_eq!(out[..both.length], *b"\x33\x00\x0e\0\0\0\x01\0\x01\0\0\0\x03\0\0\0\x05");
    assert_eq!(history.query(Session(2), Serial(0), &mut out), Err(Refusal::NotServed));
}

#[test]
fn a_start_serial() {
    let mut history = History::starting_at(3, 2, Serial(u32::MAX), 100, 100).unwrap();
    assert_eq!((history.notify(), history.state().start), ((Session(3), Serial(u32::MAX)), Serial(u32::MAX)));
    assert_eq!(history.query(Session(3), Serial(0), &mut []), Err(Refusal::NotServed));
    assert_eq!(history.query(Session(3), Serial(u32::MAX), &mut []).unwrap().delta.serial, Serial(u32::MAX));
    assert_eq!(history.update(&aspa(3, 1, &[2])), Ok(Updated::First));
    let Ok(Updated::Changed(delta)) = history.update(&aspa(3, 1, &[3])) else { panic!("unchanged") };
    assert_eq!(delta.serial, Serial(0));
    let mut out = [0; 64];
    let served = history.query(Session(3), Serial(u32::MAX), &mut out).unwrap();
    assert_eq!((served.delta.serial, served.delta.announced), (Serial(0), 1));
    assert_eq!(history.state().start, Serial(u32::MAX));
}

#[test]
fn intervals() {
    let most = timing(Timing { refresh: u32::MAX, retry: u32::MAX, expire: u32::MAX });
    assert_eq!(most, Timing { refresh: 86_400, retry: 7_200, expire: 172_800 });
    for (retry, expire, given) in
        [(7_200, 600, 7_201), (7_200, 7_200, 7_201), (7_200, 7_201, 7_201), (599, 0, 600)]
    {
        assert_eq!(timing(Timing { refresh: 1, retry, expire }), Timing { refresh: 1, retry, expire: given });
    }
}

/// A history of the session 7 at serial 4, each delta with one more item than the one before.
fn four_changes() -> History {
    let mut history = History::new(7, 3, 1000, 1000).unwrap();
    let mut snapshot = vec![];
    for customer in [&[1u32][..], &[2], &[3, 4], &[5, 6, 7], &[8, 9, 10, 11]] {
        for customer in customer {
            snapshot.extend(aspa(3, *customer, &[20]));
        }
        history.update(&snapshot).unwrap();
    }
    history
}

/// The same queries one by one, each with the output still unused.
fn one_by_one(
    history: &History,
    asked: &[(Session, Serial)],
    out: &mut [u8],
) -> (Vec<Result<Reply, Refusal>>, usize) {
    let mut used = 0;
    let ask = |(session, serial): &(Session, Serial)| {
        let served = history.query(*session, *serial, &mut out[used..])?;
        let offset = used;
        used += served.delta.length;
        Ok(Reply { offset, delta: served.delta })
    };
    (asked.iter().map(ask).collect(), used)
}

#[test]
fn an_appliance() {
    let history = four_changes();
    let asked: Vec<_> =
        [(7, 3), (7, 1), (8, 3), (7, 3), (7, 0), (7, 4), (7, 1), (7, 2), (7, 9), (7, 2), (7, 3)]
            .map(|(session, serial)| (Session(session), Serial(serial)))
            .into();
    let whole = history.query_all(&asked, &mut [0; 2000]).unwrap().length;
    for room in 0..=whole + 9 {
        let (mut out, mut alone) = (vec![5; room], vec![5; room]);
        let replies = history.query_all(&asked, &mut out).unwrap();
        let (expected, used) = one_by_one(&history, &asked, &mut alone);
        assert_eq!(replies.iter().collect::<Vec<_>>(), expected, "room {room}");
        assert_eq!((replies.length, replies.session, replies.serial), (used, Session(7), Serial(4)));
        assert_eq!(out, alone, "room {room}");
    }
    assert!(
        history.query_all(&asked, &mut vec![0; whole]).unwrap().iter().filter(|r| r.is_ok()).count() == 8
    );
    assert!(history.query_all(&asked, &mut []).unwrap().iter().nth(5).unwrap().is_ok());
}

#[test]
fn lists_of_queries() {
    let history = four_changes();
    let mut out = [5; 9000];
    assert_eq!(history.query_all(&[], &mut out).unwrap().iter().len(), 0);
    assert!(out.iter().all(|b| *b == 5));
    let most = history.query_all(&[(Session(7), Serial(3)); QUERY_LIMIT], &mut out).unwrap();
    assert_eq!((most.iter().len(), most.iter().filter(|r| r.is_ok()).count()), (384, 9000 / 44));
    let more = history.query_all(&[(Session(7), Serial(3)); QUERY_LIMIT + 1], &mut out);
    assert_eq!(more.unwrap_err(), Refusal::BadList);

    // a list that is cut, and 7 before 11; a refused call has zeros and writes nothing
    let (snapshots, deltas) = (history.full().unwrap().snapshot, vec![0; 1000]);
    let mut state = History::new(7, 3, 0, 0).unwrap().state();
    for (queries, keep, number) in [(6, 3, 0), (5, 3, 11), (2305, 3, 11), (2310, 3, 11), (7, 0, 7), (6, 0, 7)]
    {
        state.keep = keep;
        let mut out = [5; 10];
        let all = raw::query_all(state, snapshots, &deltas, &vec![0; queries], &mut out);
        assert_eq!((all.answer.number, all.count), (number, u32::from(number == 0)));
        assert_eq!(all.answer.kind, u32::from(number == 0));
        assert!(all.replies.iter().skip(1).all(|r| *r == all.replies[383]));
        assert_eq!(out, [5; 10]);
    }
}
