//! The proved library against document 01 and against the Rust that it ports.
//!
//! - [`model`] is document 01, written from its words, [`message`] the router messages of RFC 6810 and 8210, [`judge`] request E7.
//! - [`rust`] is Routinator's own code, unchanged, over stand-ins for the crates it uses. It is there
//!   only where its source is (see `build.rs`).
//! - [`port`] is the library, in a process of its own.
//!
//! [`make`] and [`damage`] make the inputs, [`answers`] and [`captures`] those of the judge, [`call`] is
//! one call with all it is lent, [`shrink`] finds the smallest call that still shows a difference.
pub mod answers;
pub mod call;
pub mod captures;
pub mod damage;
pub mod field;
pub mod judge;
pub mod make;
pub mod message;
pub mod model;
pub mod port;
pub mod rng;
#[cfg(routinator)]
pub mod rust;
pub mod script;
pub mod shrink;

#[cfg(routinator)]
#[allow(dead_code)]
mod routinator;
#[cfg(routinator)]
use routinator::{config, metrics, payload, slurm};
