//! In the Rust's place where its source is not there: no contender.
use crate::data::Data;
use crate::race::Contender;

pub const THERE: bool = false;

type Two<'a> = [Contender<'a>; 2];

pub fn construct<'a>(_: &'a [u8], _: &'a [u8]) -> Two<'a> {
    [None, None]
}

pub fn merge<'a>(_: &'a [u8], _: &'a [u8]) -> Two<'a> {
    [None, None]
}

pub fn update<'a>(_: [&'a [u8]; 2]) -> Two<'a> {
    [None, None]
}

pub struct Queried;

impl Queried {
    pub fn new(_: Data) -> Self {
        Queried
    }

    pub fn query(&self, _: u32) -> Two<'_> {
        [None, None]
    }
}
