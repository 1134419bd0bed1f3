//! The answers of real caches are judged as recorded, and what is accepted gives the set that the cache's input means.
use oracle::answers::pieces;
use oracle::captures::{self, Captured};
use oracle::judge::judge;
use oracle::model::{snapshot, snapshot_bytes};

#[test]
fn judged_as_recorded() {
    let all = captures::all();
    assert!(all.len() >= 90);
    for Captured { name, version, base, answer, verdict } in all {
        let said = judge(version, snapshot(&base, 1).expect("a good snapshot"), &answer);
        let said = said.map(|said| snapshot_bytes(&said.made)).map_err(|refused| (refused.0, refused.2));
        assert_eq!(said, verdict, "{name}");
    }
}

/// In whatever order the messages come, but for records that come twice.
#[test]
fn any_order() {
    for Captured { name, version, base, answer, verdict } in captures::all() {
        let mut messages = pieces(&answer);
        let last = messages.len() - 1;
        messages[1..last].reverse();
        let said = judge(version, snapshot(&base, 1).expect("a good snapshot"), &messages.concat());
        match (said, verdict) {
            (Ok(said), Ok(want)) => assert_eq!(snapshot_bytes(&said.made), want, "{name}"),
            (Err(said), Err((number, _))) => assert_eq!(said.0, number, "{name}"),
            _ => panic!("{name}: the order decides"),
        }
    }
}
