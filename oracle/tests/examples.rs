//! The recorded answers to the lists are what the model of document 01 answers to them.
use std::fs;

use oracle::{model, script};

/// The recorded answers, once the model has said the same.
fn by_model(folder: &str) -> String {
    let read = |name: &str| {
        let path = format!("{}/../lists/{folder}/{name}", env!("CARGO_MANIFEST_DIR"));
        fs::read_to_string(path).expect("a file of the lists")
    };
    let play = |list| script::play(&read(list), script::check_by_model, model::run);
    let said = ["cases", "runs"].map(play).concat();
    let want = read("answers");
    said.lines().zip(want.lines()).for_each(|(said, want)| assert_eq!(said, want));
    assert_eq!(said, want);
    want
}

#[test]
fn examples_by_model() {
    assert!(by_model("examples").lines().count() >= 980);
}

/// What tools/peers serves to real clients.
#[test]
fn peers_by_model() {
    assert!(by_model("peers").lines().count() >= 40);
}

#[test]
fn replay_by_model() {
    assert!(by_model("replay").lines().count() >= 2000);
}
