//! Links `libhost.a`, the proved library, from `TAPLEVUNG_LIB_DIR` or else `../target/staticlib`.
use std::env;
use std::path::{Path, PathBuf};

fn main() {
    println!("cargo::rerun-if-env-changed=TAPLEVUNG_LIB_DIR");
    let own = PathBuf::from(env::var_os("CARGO_MANIFEST_DIR").expect("set by cargo"));
    let dir = own.join(env::var_os("TAPLEVUNG_LIB_DIR").unwrap_or("../target/staticlib".into()));
    let archive = dir.join("libhost.a");
    println!("cargo::rerun-if-changed={}", archive.display());
    match machine(&archive) {
        None => fail(&format!("{} is no archive: write it with `tools/archive`", archive.display())),
        Some(found) if found != env::var("CARGO_CFG_TARGET_ARCH").expect("set by cargo") => {
            fail(&format!("{} is for {found}: build for that target", archive.display()))
        }
        Some(_) => {}
    }
    println!("cargo::rustc-link-search=native={}", dir.display());
    println!("cargo::rustc-link-lib=static=host");
}

/// The processor that an archive's first object file is for, in Rust's words.
fn machine(archive: &Path) -> Option<String> {
    let bytes = std::fs::read(archive).ok()?;
    let elf = bytes.windows(4).position(|w| w == b"\x7fELF")?;
    Some(match bytes.get(elf + 18..elf + 20)? {
        [62, 0] => "x86_64".into(),
        [183, 0] => "aarch64".into(),
        other => format!("ELF machine {other:?}"),
    })
}

fn fail(why: &str) -> ! {
    println!("cargo::error={why}");
    std::process::exit(1)
}
