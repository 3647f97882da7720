//! The tile service in ordinary Rust, on the same lent tables as the proved one and with the same
//! replies, so that the two can be timed against each other. The soundness check, which is most of
//! a call's work, is written four ways for each rule of sessions; the good baseline is the one with
//! a filter, and by the second rule with a table of the nearest later entries.

#![forbid(unsafe_code)]

pub mod at_once;
pub mod calls;
pub mod chains;
pub mod engine;
pub mod entry;
pub mod journal;
pub mod levels;
mod lists;
pub mod rectangle;
pub mod replay;
pub mod reply;
pub mod rule;
pub mod session;
pub mod soundness;
pub mod tile;
mod tuned;
pub mod workload;
