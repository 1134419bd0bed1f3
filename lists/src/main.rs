//! Makes the calls of the lists on the proved library and compares each answer with the recorded one.
//!
//! usage: lists FOLDER, where each folder within that has a file `answers` has the lists `cases` and `runs`
//!        lists FOLDER NAME prints the library's answers to the lists of FOLDER/NAME
//!
//! How lines are read, and the words of the answers, are in `oracle::script`; here the calls are made.
use std::path::{Path, PathBuf};
use std::process::ExitCode;
use std::{env, fs};

use oracle::call::{Answer, Call, Entry, Outcome, Reply, State};
use oracle::model::{Form, Refused};
use oracle::script::play;
use taplevung::{raw, Serial, Session, Timing};

fn main() -> ExitCode {
    let Some(folder) = env::args_os().nth(1).map(PathBuf::from) else {
        eprintln!("usage: lists FOLDER [NAME]");
        return ExitCode::from(2);
    };
    if let Some(name) = env::args_os().nth(2) {
        print!("{}", answers(&folder.join(name)));
        return ExitCode::SUCCESS;
    }
    let entries = fs::read_dir(&folder).expect("a folder of lists").map(|e| e.expect("an entry").path());
    let mut found: Vec<_> = entries.filter(|path| path.join("answers").is_file()).collect();
    found.sort();
    let (mut passed, mut failed) = (0, 0);
    for lists in found {
        let (same, other) = compare(&lists, &answers(&lists), &read(&lists, "answers"));
        passed += same;
        failed += other;
    }
    println!("{passed} passed, {failed} failed");
    ExitCode::from(u8::from(failed > 0 || passed == 0))
}

fn read(lists: &Path, name: &str) -> String {
    fs::read_to_string(lists.join(name)).expect("a file of the lists")
}

/// What the library answers to two lists.
fn answers(lists: &Path) -> String {
    ["cases", "runs"].map(|list| play(&read(lists, list), check, run)).concat()
}

/// How many lines are as recorded, and how many are not; each of these is printed.
fn compare(lists: &Path, said: &str, recorded: &str) -> (usize, usize) {
    let (mut said, mut recorded) = (said.lines(), recorded.lines());
    let (mut same, mut other) = (0, 0);
    loop {
        match (said.next(), recorded.next()) {
            (None, None) => return (same, other),
            (is, want) if is == want => same += 1,
            (is, want) => {
                other += 1;
                println!("{}:", lists.display());
                println!("  expected {}", want.unwrap_or("no line"));
                println!("  answered {}", is.unwrap_or("no line"));
            }
        }
    }
}

/// Whether bytes are a good snapshot or delta. No call is a check alone: a snapshot is compared with itself, where there
/// is no change, and a delta merged with the empty one, which leaves it as it is.
fn check(form: Form, bytes: &[u8]) -> Result<(), Refused> {
    let left = match form {
        Form::Snapshot => run(&Call::construct(bytes.to_vec(), bytes.to_vec(), 0, vec![])),
        Form::Delta => run(&Call::merge(bytes.to_vec(), vec![], 0, vec![0; bytes.len()])),
    };
    let Answer { number, argument, offset, .. } = left.answer;
    match (form, left.answer.kind) {
        (Form::Snapshot, 2) => Ok(()),
        (Form::Delta, 1) if left.bytes[2] == bytes => Ok(()),
        _ => Err(Refused(number, argument, offset as usize)),
    }
}

/// What stands around each lent slice.
const AROUND: [u8; 64] = [0xC5; 64];

/// Makes a call. Ends the program if a byte is changed that must stay: around what is lent, in what is only to be read, or
/// by a refusal.
fn run(call: &Call) -> Outcome {
    let mut rooms = call.bytes.each_ref().map(|lent| [&AROUND, &lent[..], &AROUND].concat());
    let (answer, state, numbers) = (Answer::default(), State::ZERO, [0; 3]);
    let (bytes, replies) = (Default::default(), vec![]);
    let mut left = Outcome { answer, state, numbers, bytes, replies };
    make(call, rooms.each_mut().map(|room| inner(room)), &mut left);
    for (i, (room, before)) in rooms.iter_mut().zip(&call.bytes).enumerate() {
        assert!(
            room.starts_with(&AROUND) && room.ends_with(&AROUND),
            "changed around slice {}:\n{call}",
            i + 1
        );
        left.bytes[i] = inner(room).to_vec();
        let refused = left.answer.kind == 0 && left.answer.number != 0;
        let stays = refused || !written(call, i);
        assert!(!stays || left.bytes[i] == *before, "slice {} changed:\n{call}", i + 1);
    }
    left
}

/// The lent slice in its room.
fn inner(room: &mut [u8]) -> &mut [u8] {
    let n = room.len();
    &mut room[AROUND.len()..n - AROUND.len()]
}

/// Whether a call may write this slice.
fn written(call: &Call, i: usize) -> bool {
    match call.entry {
        Entry::Update => i > 0,
        _ => call.out() == Some(i),
    }
}

/// The call itself, one arm for each.
fn make(call: &Call, [a, b, c]: [&mut [u8]; 3], left: &mut Outcome) {
    let (version, state) = (call.version, given(&call.state));
    let [first, second, third, ..] = call.numbers.map(|n| n as u32);
    match call.entry {
        Entry::Construct => left.answer = answer(raw::construct(a, b, Serial(first), c)),
        Entry::Merge => left.answer = answer(raw::merge(a, b, Serial(first), c)),
        Entry::Apply => left.answer = answer(raw::apply(a, b, c)),
        Entry::Create => made(raw::create(call.numbers[0], second, Serial(third), a, b), left),
        Entry::Update => made(raw::update(state, a, b, c), left),
        Entry::Query => told(raw::query(state, Session(first as u16), Serial(second), a, b, c), left),
        Entry::QueryAll => replied(&raw::query_all(state, a, b, &call.list, c), left),
        Entry::Full => told(raw::full(state, a, b), left),
        Entry::Notify => {
            let notice = raw::notify(state);
            left.numbers[0] = notice.session.0.into();
            left.answer.serial = notice.serial.0;
        }
        Entry::Ready => left.numbers[0] = raw::ready(state).into(),
        Entry::Timing => {
            let times = raw::timing(first, second, third);
            left.numbers = [times.refresh, times.retry, times.expire].map(u64::from);
        }
        Entry::QueryMessages => {
            let (session, serial) = (Session(first as u16), Serial(second));
            sent(raw::query_messages(version, state, session, serial, times(call, 2), a, b, c), left);
        }
        Entry::FullMessages => sent(raw::full_messages(version, state, times(call, 0), a, b, c), left),
        Entry::NotifyMessage => sent(raw::notify_message(version, state, c), left),
        Entry::Judge => {
            let raw::Judged { answer: said, session, timing: times } = raw::judge(version, a, b, c);
            left.answer = answer(said);
            left.state.session = session.0.into();
            left.numbers = [times.refresh, times.retry, times.expire].map(u64::from);
        }
    }
}

fn made(made: raw::Made, left: &mut Outcome) {
    left.answer = answer(made.answer);
    left.state = held(&made.state);
}

fn told(told: raw::Told, left: &mut Outcome) {
    left.answer = answer(told.answer);
    left.numbers[0] = told.session.0.into();
}

fn sent(sent: raw::Sent, left: &mut Outcome) {
    left.answer = answer(sent.answer);
    left.numbers = [sent.session.0.into(), sent.router_keys_skipped, sent.aspas_skipped];
}

/// The times that stand at `at` among the numbers.
fn times(call: &Call, at: usize) -> Timing {
    let [refresh, retry, expire] = [0, 1, 2].map(|i| call.numbers[at + i] as u32);
    Timing { refresh, retry, expire }
}

fn replied(all: &raw::Replies, left: &mut Outcome) {
    left.answer = answer(all.answer);
    left.numbers[0] = all.session.0.into();
    let (replies, rest) = all.replies.split_at(all.count as usize);
    left.replies.extend(replies.iter().map(reply));
    assert!(rest.iter().all(|r| reply(r) == Reply::default()), "a reply past the count is not 0");
}

fn reply(said: &raw::Reply) -> Reply {
    let raw::Reply { kind, number, offset, length, announced, withdrawn } = *said;
    Reply { kind, number, offset, length, announced, withdrawn }
}

fn answer(said: raw::Answer) -> Answer {
    let raw::Answer { kind, number, argument, serial, offset, length, announced, withdrawn } = said;
    Answer { kind, number, argument, serial: serial.0, offset, length, announced, withdrawn }
}

fn given(state: &State) -> raw::State {
    let State { session, keep, active, newest, start, n, snapshot, deltas } = *state;
    let [newest, start] = [newest, start].map(Serial);
    raw::State { session, keep, active, newest, start, n, snapshot, deltas }
}

fn held(state: &raw::State) -> State {
    let raw::State { session, keep, active, newest, start, n, snapshot, deltas } = *state;
    State { session, keep, active, newest: newest.0, start: start.0, n, snapshot, deltas }
}
