//! The lists of `lists/replay` and their recorded answers are what the oracle writes.
#![cfg(routinator)]
use std::fs;
use std::path::Path;
use std::process::Command;

#[test]
fn recorded_as_written() {
    let made = Path::new(env!("CARGO_TARGET_TMPDIR")).join("replay");
    let run = Command::new(env!("CARGO_BIN_EXE_vectors")).arg(&made).status().unwrap();
    assert!(run.success());
    let kept = Path::new(env!("CARGO_MANIFEST_DIR")).join("../lists/replay");
    for name in ["cases", "runs", "answers"] {
        let [made, kept] = [&made, &kept].map(|folder| fs::read_to_string(folder.join(name)).unwrap());
        assert!(made == kept, "{name} is not what the oracle writes");
    }
}
