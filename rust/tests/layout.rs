//! The structs of `include/taplevung.h`, as a C compiler lays them out, against this crate's.
use std::fmt::Write;
use std::mem::{offset_of, size_of};
use std::path::Path;
use std::process::Command;

use taplevung::raw::{Answer, Judged, Made, Notice, Replies, Reply, Sent, State, Told};
use taplevung::{Serial, Session, Timing};

/// The C program's lines, and the lines that Rust's layout makes. The names of a struct's fields are
/// given once, in C's words; Rust's differ only in the two tuple structs.
macro_rules! layout {
    ($($c:ident $rust:ident { $($field:ident = $own:tt),* })*) => {{
        let (mut program, mut lines) = (String::new(), String::new());
        $(
            let c = stringify!($c);
            writeln!(program, "printf(\"{c} %zu\\n\", sizeof({c}));").unwrap();
            writeln!(lines, "{c} {}", size_of::<$rust>()).unwrap();
            $(
                let field = stringify!($field);
                writeln!(program, "printf(\"{c}.{field} %zu\\n\", offsetof({c}, {field}));").unwrap();
                writeln!(lines, "{c}.{field} {}", offset_of!($rust, $own)).unwrap();
            )*
        )*
        (program, lines)
    }};
}

#[test]
fn same_as_in_c() {
    let (body, expected) = layout! {
        taplevung_serial Serial { value = 0 }
        taplevung_session Session { value = 0 }
        taplevung_state State {
            session = session, keep = keep, active = active, newest = newest, start = start, n = n,
            snapshot = snapshot, deltas = deltas
        }
        taplevung_answer Answer {
            kind = kind, number = number, argument = argument, serial = serial, offset = offset,
            length = length, announced = announced, withdrawn = withdrawn
        }
        taplevung_made Made { answer = answer, state = state }
        taplevung_told Told { session = session, answer = answer }
        taplevung_reply Reply {
            kind = kind, number = number, offset = offset, length = length, announced = announced,
            withdrawn = withdrawn
        }
        taplevung_replies Replies { answer = answer, session = session, count = count, replies = replies }
        taplevung_notice Notice { session = session, serial = serial }
        taplevung_timing_values Timing { refresh = refresh, retry = retry, expire = expire }
        taplevung_sent Sent {
            answer = answer, session = session, router_keys_skipped = router_keys_skipped,
            aspas_skipped = aspas_skipped
        }
        taplevung_judged Judged { answer = answer, session = session, timing = timing }
    };
    let program =
        format!("#include \"taplevung.h\"\n#include <stdio.h>\nint main(void) {{\n{body}return 0;\n}}\n");

    let dir = Path::new(env!("CARGO_TARGET_TMPDIR"));
    let (source, binary) = (dir.join("layout.c"), dir.join("layout"));
    std::fs::write(&source, program).unwrap();
    let include = concat!(env!("CARGO_MANIFEST_DIR"), "/../include");
    let cc = Command::new("cc")
        .args(["-std=c11", "-Wall", "-Wextra", "-Werror", "-I", include, "-o"])
        .args([&binary, &source])
        .status();
    assert!(cc.expect("cc is on the path").success());
    let printed = Command::new(&binary).output().unwrap().stdout;
    assert_eq!(String::from_utf8(printed).unwrap(), expected);
}

/// The header is as good for C++, where a C++ compiler is there to say so.
#[test]
fn header_in_cpp() {
    let dir = Path::new(env!("CARGO_TARGET_TMPDIR"));
    let source = dir.join("header.cc");
    std::fs::write(&source, "#include \"taplevung.h\"\n").unwrap();
    let include = concat!(env!("CARGO_MANIFEST_DIR"), "/../include");
    let cpp = Command::new("c++")
        .args(["-std=c++11", "-Wall", "-Wextra", "-Werror", "-pedantic", "-fsyntax-only", "-I", include])
        .arg(&source)
        .status();
    match cpp {
        Ok(status) => assert!(status.success()),
        Err(_) => println!("no c++ on the path: not tried"),
    }
}

#[test]
fn limits_are_the_headers() {
    let header = include_str!("../../include/taplevung.h");
    for (name, value) in [
        ("SNAPSHOT_LIMIT", taplevung::SNAPSHOT_LIMIT),
        ("DELTA_LIMIT", taplevung::DELTA_LIMIT),
        ("KEEP_LIMIT", taplevung::KEEP_LIMIT as usize),
    ] {
        assert!(header.contains(&format!("#define TAPLEVUNG_{name} {value}\n")), "{name}");
    }
}
