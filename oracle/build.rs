//! Finds the Rust that was ported: `TAPLEVUNG_RUST_SRC`, or else `../../shared/docs/src`.
//!
//! Its files are compiled where they stand and are no part of this repository. Where they are not
//! there, `cfg(routinator)` is off and nothing is compared with them.
use std::path::PathBuf;
use std::{env, fs};

fn main() {
    println!("cargo::rustc-check-cfg=cfg(routinator)");
    println!("cargo::rerun-if-env-changed=TAPLEVUNG_RUST_SRC");
    let own = PathBuf::from(env::var_os("CARGO_MANIFEST_DIR").expect("set by cargo"));
    let source = own.join(env::var_os("TAPLEVUNG_RUST_SRC").unwrap_or("../../shared/docs/src".into()));
    println!("cargo::rerun-if-changed={}", source.display());

    let mut modules = String::new();
    for name in ["delta", "history", "info", "snapshot"] {
        let Ok(file) = source.join(format!("src/payload/{name}.rs")).canonicalize() else { return };
        modules += &format!("#[path = {file:?}]\npub mod {name};\n");
    }
    let out = PathBuf::from(env::var_os("OUT_DIR").expect("set by cargo"));
    fs::write(out.join("payload.rs"), modules).expect("OUT_DIR can be written");
    println!("cargo::rustc-cfg=routinator");
}
