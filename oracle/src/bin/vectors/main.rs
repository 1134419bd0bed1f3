//! Writes a fixed list of calls with the oracle's answers, to be replayed where no Rust is at hand.
//!
//! usage: vectors DIR, which writes DIR/cases, DIR/runs and DIR/answers
//!
//! The head of each list says how it was made. Every answer is that of the model of document 01; each that
//! the Rust has an answer to is put to the Rust as well, and nothing is written unless the two agree.
use std::process::ExitCode;

#[cfg(routinator)]
mod judge;
#[cfg(routinator)]
mod list;

#[cfg(routinator)]
fn main() -> ExitCode {
    use oracle::script::{check_by_model, play};
    use std::{fs, path::PathBuf};

    let Some(folder) = std::env::args_os().nth(1).map(PathBuf::from) else {
        eprintln!("usage: vectors DIR");
        return ExitCode::from(2);
    };
    let (mut judge, mut answers) = (judge::Judge::default(), String::new());
    let lists = [list::cases(), list::runs()].map(|list| {
        let (agreed, k6, reached, raised) = (judge.agreed, judge.k6, judge.reached, judge.raised);
        answers += &play(&list, check_by_model, |call| judge.run(call));
        let known = [
            ("K6", judge.k6 - k6),
            ("E2's oldest delta", judge.reached - reached),
            ("E5's expire", judge.raised - raised),
        ];
        list::head(&list, judge.agreed - agreed, &known) + &list
    });
    judge.met_all();
    fs::create_dir_all(&folder).expect("the folder can be made");
    for (name, text) in [("cases", &lists[0]), ("runs", &lists[1]), ("answers", &answers)] {
        fs::write(folder.join(name), text).expect("the file can be written");
    }
    ExitCode::SUCCESS
}

#[cfg(not(routinator))]
fn main() -> ExitCode {
    eprintln!("The Rust's source is not there, and answers that it has not seen are not written.");
    ExitCode::from(2)
}
