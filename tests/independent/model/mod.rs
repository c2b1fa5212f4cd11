//! Document 01 (the paper of rules: docs/REFUSALS.md has what it says) written out plainly, from the paper alone. One file
//! holds one idea of the paper, on plain structs; `calls` has one function for each call of `wicktumble.h`, on slices of words,
//! so that a checker can compare call with call.
//!
//! It is meant to be read beside the paper, and nothing here is fast or clever. That is why it shares no code with
//! bench/plain.rs, which is the opposite: the peer of the benchmark, written for speed. This one is compared with the
//! library for its answers, that one for its time, and two readings of the paper say more than one. Nor does it share a
//! rule with the library: `records` takes only lengths and positions from the header. Unsafe code is denied here, except for
//! the header's declarations, so nothing can call the library.
//!
//! tests/independent and bench compile it, and each uses a part.
#![deny(unsafe_code)]
#![allow(dead_code, unused_imports)]

pub mod calls;
mod devices;
mod maps;
mod queues;
mod reach;
mod records;
mod refusals;
mod routes;
mod sheets;
mod steps;
mod views;
mod walks;

pub use devices::*;
pub use maps::*;
pub use queues::*;
pub use reach::*;
pub use records::*;
pub use refusals::*;
pub use routes::*;
pub use sheets::*;
pub use steps::*;
pub use views::*;
pub use walks::*;
