use std::{error, fmt};

use crate::raw;

/// Why a call was refused. A refused call has changed nothing.
///
/// `argument` counts the call's inputs (or stores) from 1, and `offset` is where in that input the
/// field or message starts.
#[derive(Clone, Copy, Debug, Eq, Hash, PartialEq)]
#[non_exhaustive]
pub enum Refusal {
    /// 1: a field is cut short, has an unknown tag or a bad body.
    BadField { argument: u32, offset: u64 },
    /// 2: a field does not stand above the one before it.
    OutOfOrder { argument: u32, offset: u64 },
    /// 3: an item of the delta cannot be applied to the snapshot.
    DoesNotFit { argument: u32, offset: u64 },
    /// 4: the answer is longer than the output.
    NoRoom,
    /// 5: the query names another session.
    OtherSession,
    /// 6: the deltas since the query's serial are not held.
    NotServed,
    /// 7: the state and the stores are no history.
    IllFormed,
    /// 8: a history keeps 1 to 64 deltas.
    BadKeep,
    /// 9: the snapshot, or the deltas to be held, exceed their store.
    StoreFull,
    /// 10: an input, or a store at creation, is over its limit.
    TooLong { argument: u32 },
    /// 11: more than 384 queries in one call.
    BadList,
    /// 12: an ASPA has no providers, or names its customer among them.
    Senseless { argument: u32, offset: u64 },
    /// 13: a message that RFC 8210 does not allow there, or none where one is due.
    Faulty { argument: u32, offset: u64 },
    /// 14: a message withdraws a record that is absent.
    Absent { argument: u32, offset: u64 },
    /// 15: a message announces a record that is present.
    Present { argument: u32, offset: u64 },
}

impl Refusal {
    /// The refusal that an answer carries, if it is one.
    pub(crate) fn check(answer: &raw::Answer) -> Result<(), Refusal> {
        if answer.kind != 0 {
            return Ok(());
        }
        Err(Self::of(answer.number, answer.argument, answer.offset))
    }

    /// The refusal with these numbers.
    pub(crate) fn of(number: u32, argument: u32, offset: u64) -> Refusal {
        match number {
            1 => Refusal::BadField { argument, offset },
            2 => Refusal::OutOfOrder { argument, offset },
            3 => Refusal::DoesNotFit { argument, offset },
            4 => Refusal::NoRoom,
            5 => Refusal::OtherSession,
            6 => Refusal::NotServed,
            7 => Refusal::IllFormed,
            8 => Refusal::BadKeep,
            9 => Refusal::StoreFull,
            10 => Refusal::TooLong { argument },
            11 => Refusal::BadList,
            12 => Refusal::Senseless { argument, offset },
            13 => Refusal::Faulty { argument, offset },
            14 => Refusal::Absent { argument, offset },
            15 => Refusal::Present { argument, offset },
            number => unreachable!("refusal {number}"),
        }
    }

    /// The refusal's number, 1 to 15.
    pub fn number(self) -> u32 {
        match self {
            Refusal::BadField { .. } => 1,
            Refusal::OutOfOrder { .. } => 2,
            Refusal::DoesNotFit { .. } => 3,
            Refusal::NoRoom => 4,
            Refusal::OtherSession => 5,
            Refusal::NotServed => 6,
            Refusal::IllFormed => 7,
            Refusal::BadKeep => 8,
            Refusal::StoreFull => 9,
            Refusal::TooLong { .. } => 10,
            Refusal::BadList => 11,
            Refusal::Senseless { .. } => 12,
            Refusal::Faulty { .. } => 13,
            Refusal::Absent { .. } => 14,
            Refusal::Present { .. } => 15,
        }
    }

    /// Which argument is at fault, where the refusal names one.
    pub fn argument(self) -> Option<u32> {
        match self {
            Refusal::BadField { argument, .. }
            | Refusal::OutOfOrder { argument, .. }
            | Refusal::DoesNotFit { argument, .. }
            | Refusal::TooLong { argument }
            | Refusal::Senseless { argument, .. }
            | Refusal::Faulty { argument, .. }
            | Refusal::Absent { argument, .. }
            | Refusal::Present { argument, .. } => Some(argument),
            _ => None,
        }
    }

    /// Where in that argument the field or message starts, where the refusal names one.
    pub fn offset(self) -> Option<u64> {
        match self {
            Refusal::BadField { offset, .. }
            | Refusal::OutOfOrder { offset, .. }
            | Refusal::DoesNotFit { offset, .. }
            | Refusal::Senseless { offset, .. }
            | Refusal::Faulty { offset, .. }
            | Refusal::Absent { offset, .. }
            | Refusal::Present { offset, .. } => Some(offset),
            _ => None,
        }
    }
}

impl fmt::Display for Refusal {
    fn fmt(&self, f: &mut fmt::Formatter<'_>) -> fmt::Result {
        match self {
            Refusal::BadField { argument, offset } => write!(
                f,
                "argument {argument}: the field at {offset} is cut short, has an unknown tag or a bad body"
            ),
            Refusal::OutOfOrder { argument, offset } => {
                write!(f, "argument {argument}: the field at {offset} does not stand above the one before it")
            }
            Refusal::DoesNotFit { argument, offset } => {
                write!(f, "argument {argument}: the item at {offset} cannot be applied to the snapshot")
            }
            Refusal::NoRoom => f.write_str("the answer is longer than the output"),
            Refusal::OtherSession => f.write_str("the query names another session"),
            Refusal::NotServed => f.write_str("the deltas since the query's serial are not held"),
            Refusal::IllFormed => f.write_str("the state and the stores are no history"),
            Refusal::BadKeep => f.write_str("a history keeps 1 to 64 deltas"),
            Refusal::StoreFull => f.write_str("the snapshot, or the deltas to be held, exceed their store"),
            Refusal::TooLong { argument } => write!(f, "argument {argument} is over its length limit"),
            Refusal::BadList => f.write_str("a list has more than 384 queries, or is cut inside one"),
            Refusal::Senseless { argument, offset } => write!(
                f,
                "argument {argument}: the ASPA at {offset} has no providers, or names its customer among them"
            ),
            Refusal::Faulty { argument, offset } => {
                write!(f, "argument {argument}: no good message stands at {offset}")
            }
            Refusal::Absent { argument, offset } => {
                write!(f, "argument {argument}: the message at {offset} withdraws a record that is absent")
            }
            Refusal::Present { argument, offset } => {
                write!(f, "argument {argument}: the message at {offset} announces a record that is present")
            }
        }
    }
}

impl error::Error for Refusal {}
