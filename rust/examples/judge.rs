//! Judges the answer of another cache for one who holds a snapshot, and writes the snapshot that it leaves.
//!
//! usage: judge VERSION SNAPSHOT MESSAGES OUT, version 0 or 1; ends with status 1 if the answer is refused.
use std::env::args_os;
use std::process::ExitCode;
use std::{fs, io};

use taplevung::{judge, Judged, Serial, Session, Version};

fn main() -> io::Result<ExitCode> {
    let names: Vec<_> = args_os().skip(1).collect();
    let usage = "usage: judge VERSION SNAPSHOT MESSAGES OUT, version 0 or 1";
    let [version, snapshot, messages, out] = &names[..] else {
        eprintln!("{usage}");
        return Ok(ExitCode::from(2));
    };
    let version = match version.to_str() {
        Some("0") => Version::Rfc6810,
        Some("1") => Version::Rfc8210,
        _ => {
            eprintln!("{usage}");
            return Ok(ExitCode::from(2));
        }
    };
    let (snapshot, messages) = (fs::read(snapshot)?, fs::read(messages)?);
    // no record takes more than 6 bytes more as a field than as a message
    let mut made = vec![0; snapshot.len() + 2 * messages.len()];
    match judge(version, &snapshot, &messages, &mut made) {
        Ok(Judged {
            session: Session(session),
            serial: Serial(serial),
            length,
            announced,
            withdrawn,
            ..
        }) => {
            fs::write(out, &made[..length])?;
            println!(
                "accepted: session {session} serial {serial} announced {announced} withdrawn {withdrawn}"
            );
            Ok(ExitCode::SUCCESS)
        }
        Err(refusal) => {
            println!("refused, no. {}: {refusal}", refusal.number());
            Ok(ExitCode::FAILURE)
        }
    }
}
