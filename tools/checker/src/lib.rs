// SPDX-License-Identifier: MIT
//! Looks for an order of the calls of several threads that explains what each was told. The search
//! has a small model of its own, and uses nothing of the index.
mod alteration;
mod bucket;
mod call;
mod client;
mod counts;
mod judge;
mod log;
mod random;
mod replay;
mod segments;
mod sets;
mod state;
mod strength;
mod watch;

pub use counts::Counts;
pub use judge::{Failure, Refused, Verdict, judge, judge_all};
pub use log::{BadLine, Kind, Unread};
pub use replay::Fault;
pub use strength::Strength;
