//! The Rust, unchanged, against the model of document 01: the marked examples, all actions on one key, and
//! what lies outside the comparison.
#![cfg(routinator)]
use oracle::call::{Call, State};
use oracle::field::put;
use oracle::make::{pairs, Universe};
use oracle::model::{self, Change, Refused, Snapshot};
use oracle::rng::Rng;
use oracle::rust::{self, History};

/// An ASPA of a snapshot: customer and providers.
fn aspa(customer: u32, providers: &[u32]) -> Vec<u8> {
    let mut out = vec![];
    let list: Vec<u8> = providers.iter().flat_map(|p| p.to_be_bytes()).collect();
    put(&mut out, 3, &[&customer.to_be_bytes(), &list]);
    out
}

fn difference(old: &[u8], new: &[u8]) -> Vec<u8> {
    rust::construct(old, new, 0).expect("they differ").bytes
}

/// A history of the Rust after these many changes: snapshot i holds customer i alone.
fn history(start: u32, changes: u32) -> (History, Vec<Vec<u8>>) {
    let history = History::new(5, start);
    let snapshots: Vec<_> = (0..=changes).map(|i| aspa(i, &[i + 1])).collect();
    snapshots.iter().for_each(|s| assert!(history.update(s)));
    (history, snapshots)
}

/// What the model's history says after the same.
fn model_since(start: u32, snapshots: &[Vec<u8>], serial: u32) -> Option<Vec<u8>> {
    let mut state = State { keep: 5, newest: start, start, ..State::ZERO };
    let (mut held, mut deltas) = (vec![0; 100], vec![0; 1000]);
    for new in snapshots {
        let outcome = model::run(&Call::update(state, new.clone(), held, deltas));
        state = outcome.state;
        [_, held, deltas] = outcome.bytes;
    }
    let outcome = model::run(&Call::query(state, 0, serial, held, deltas, vec![0; 1000]));
    match outcome.answer.number {
        0 => Some(outcome.bytes[2][..outcome.answer.length as usize].to_vec()),
        number => {
            assert_eq!(number, 6);
            None
        }
    }
}

#[test]
fn k1_to_k7_serving() {
    // K1
    assert_eq!(rust::construct(b"", b"", 0), None);
    for (start, changes, serial, from) in [
        // K2: inactive is tried below
        (0, 0, 0, Some(0)),
        (0, 0, 1, None),
        // K3, but for serial 0: see e2_differs
        (0, 2, 1, Some(1)),
        (0, 2, 2, Some(2)),
        (0, 2, 3, None),
        // K4
        (0, 1, 0, Some(0)),
        // K5
        (0, 3, 1, Some(1)),
        // K7
        (4_294_967_293, 3, 4_294_967_294, Some(1)),
        (4_294_967_293, 3, 4_294_967_292, None),
        // from a start serial, before the first delta and over the wrap
        (4_294_967_290, 0, 4_294_967_290, Some(0)),
        (4_294_967_290, 0, 0, None),
        (4_294_967_290, 8, 4_294_967_294, Some(4)),
        (4_294_967_290, 8, 4_294_967_290, None),
    ] {
        let (history, snapshots) = history(start, changes);
        let last = snapshots.last().expect("one at least");
        let want = from.map(|i: usize| rust::construct(&snapshots[i], last, 0).map_or(vec![], |s| s.bytes));
        assert_eq!(history.since(serial).map(|s| s.bytes), want, "{start} {changes} {serial}");
        assert_eq!(model_since(start, &snapshots, serial), want, "{start} {changes} {serial}");
    }
    let inactive = History::new(3, 9);
    assert_eq!(inactive.since(9).map(|s| s.bytes), Some(vec![]));
    assert_eq!(inactive.since(0), None);
    assert_eq!(model_since(9, &[], 9), Some(vec![]));
    assert_eq!(model_since(9, &[], 0), None);
    drop(inactive); // one lives at a time
    let inactive = History::new(3, 0);
    assert_eq!(inactive.since(0).map(|s| s.bytes), Some(vec![]));
    assert_eq!(inactive.since(1), None);
    assert_eq!(model_since(0, &[], 0), Some(vec![]));
    assert_eq!(model_since(0, &[], 1), None);
}

#[test]
fn k6_differs() {
    let (history, snapshots) = history(0, 1);
    let served = history.since(2_147_483_649).expect("the Rust serves it");
    assert_eq!((served.bytes, served.serial), (vec![], 2_147_483_649));
    assert_eq!(model_since(0, &snapshots, 2_147_483_649), None);
}

/// A router one step behind the oldest delta, of two or more: 01's K3 as 02 changes it, and over the wrap.
#[test]
fn e2_differs() {
    for (start, changes) in [(0, 2), (0, 5), (4_294_967_293, 3)] {
        let (history, snapshots) = history(start, changes);
        let last = snapshots.last().expect("one at least");
        assert_eq!(history.since(start), None);
        assert_eq!(model_since(start, &snapshots, start), Some(difference(&snapshots[0], last)));
        assert_eq!(model_since(start, &snapshots, start.wrapping_sub(1)), None);
    }
    let (history, snapshots) = history(0, 1);
    let all = Some(difference(&snapshots[0], &snapshots[1]));
    assert_eq!(history.since(0).map(|s| s.bytes), all);
    assert_eq!(model_since(0, &snapshots, 0), all);
}

#[test]
fn k8_to_k10_merging() {
    let (p, q) = (aspa(1, &[64497]), aspa(1, &[64498]));
    let update = b"\x33\x00\x0e\x00\x00\x00\x01\x00\x01\x00\x00\xfb\xf1\x00\x00\xfb\xf2";
    let announce = b"\x31\x00\x08\x00\x00\x00\x01\x00\x00\xfb\xf2";
    for (a, b, c, want) in [
        (&p[..], &b""[..], &p[..], &b""[..]), // K8
        (&p, b"", &q, update),                // K9
        (b"", &p, &q, announce),              // K10
    ] {
        let (earlier, later) = (difference(a, b), difference(b, c));
        assert_eq!(rust::merge(&earlier, &later, 2).bytes, want);
        let by_model = model::merge(&model::delta(&earlier, 1).unwrap(), &model::delta(&later, 2).unwrap());
        assert_eq!(model::delta_bytes(&by_model), want);
    }
}

#[test]
fn k11_timing() {
    assert_eq!(rust::timing(0, 0), (1, 1, 600));
    assert_eq!(model::timing(0, 0, 0), (1, 1, 600));
}

#[test]
fn e5_expire_differs() {
    assert_eq!(rust::timing(599, 0), (1, 599, 600));
    assert_eq!(model::timing(0, 599, 0), (1, 599, 600));
    assert_eq!(rust::timing(600, 0), (1, 600, 600));
    assert_eq!(model::timing(0, 600, 0), (1, 600, 601));
    assert_eq!(model::timing(86_400, 7_200, 600), (86_400, 7_200, 86_401));
}

#[test]
fn every_pair_of_actions_on_one_key() {
    for (e, l) in pairs() {
        let said = rust::merge(&model::delta_bytes(&e), &model::delta_bytes(&l), 6);
        let want = model::merge(&e, &l);
        assert_eq!(said.bytes, model::delta_bytes(&want));
        assert_eq!((said.announced, said.withdrawn), model::counts(&want));
    }
}

/// What a server is shown of a delta: updates as announcements, withdrawn ASPAs as customers.
#[test]
fn what_a_server_is_shown() {
    let universe = Universe::fixed();
    for round in 0..2000 {
        let delta = universe.delta(&mut Rng::new(5, round));
        let want: Vec<_> = delta
            .iter()
            .map(|(key, change)| match change {
                Change::Announce(new) | Change::Update(_, new) => (key[0], true, [&key[1..], new].concat()),
                Change::Withdraw(_) => (key[0], false, key[1..].to_vec()),
            })
            .collect();
        assert_eq!(rust::shown(rust::delta(&model::delta_bytes(&delta), 1)), want);
    }
}

/// Snapshots that 01 refuses: the Rust sorts them silently, keeps duplicates, and then withdraws what is
/// still there.
#[test]
fn outside_the_comparison() {
    let (one, two) = (aspa(1, &[9]), aspa(2, &[9]));
    let (up, down, twice) = ([&one[..], &two].concat(), [&two[..], &one].concat(), [&one[..], &one].concat());
    assert_eq!(rust::construct(&up, &down, 0), None);
    assert_eq!(difference(&twice, &one)[0], 0x32);
    for bad in [down, twice] {
        assert_eq!(model::snapshot(&bad, 1), Err::<Snapshot, _>(Refused(2, 1, 11)));
    }
}

/// ASPAs that make no sense are refused; the Rust takes them.
#[test]
fn senseless_aspas() {
    for (bad, announced) in [
        (aspa(1, &[]), &b"\x31\x00\x04\x00\x00\x00\x01"[..]),
        (aspa(1, &[1]), b"\x31\x00\x08\x00\x00\x00\x01\x00\x00\x00\x01"),
    ] {
        assert_eq!(difference(b"", &bad), announced);
        assert_eq!(model::snapshot(&bad, 1), Err(Refused(12, 1, 0)));
        assert_eq!(model::delta(announced, 2), Err(Refused(12, 2, 0)));
    }
}
