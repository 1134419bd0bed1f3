//! The answers of real caches in `peers/captures`.
use std::collections::BTreeMap;

use crate::script::unpack;

pub struct Captured {
    pub name: &'static str,
    pub version: u8,
    /// The snapshot that the one who asked held.
    pub base: Vec<u8>,
    pub answer: Vec<u8>,
    /// The snapshot that the judge gives, or the number and the offset of its refusal.
    pub verdict: Result<Vec<u8>, (u32, usize)>,
}

pub fn all() -> Vec<Captured> {
    let lines = |text: &'static str| text.lines().filter(|l| !l.is_empty() && !l.starts_with('#'));
    let sets: BTreeMap<&str, Vec<u8>> = lines(include_str!("../../peers/captures/sets"))
        .map(|line| line.split_once(' ').expect("a name and a set"))
        .map(|(name, bytes)| (name, unpack(bytes)))
        .collect();
    let set = |name: &str| if name == "-" { vec![] } else { sets[name].clone() };
    let captured = lines(include_str!("../../peers/captures/answers")).map(|line| {
        let words: Vec<&str> = line.split(' ').collect();
        let [name, base, verdict, which, answer] = words[..] else { panic!("not five words: {line}") };
        let verdict = match verdict {
            "accepted" => Ok(set(which)),
            number => Err((number.parse().expect("a number"), which.parse().expect("an offset"))),
        };
        let answer = unpack(answer);
        Captured { name, version: answer[0], base: set(base), answer, verdict }
    });
    captured.collect()
}
