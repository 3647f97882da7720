//! An independent second implementation of the tile service, written from the scope paper and the
//! console page alone. It keeps tiles in ordered sets and admitted operations in a list; the lent
//! tables of numbers are only decoded at the beginning of a call and encoded at its end.

#![forbid(unsafe_code)]

pub mod address;
pub mod admission;
pub mod census;
pub mod comparison;
pub mod console;
pub mod edition;
pub mod encoding;
pub mod journal;
pub mod journals;
pub mod line;
pub mod mend;
pub mod occasions;
pub mod operation;
pub mod picture;
pub mod printed;
pub mod program;
pub mod random;
pub mod rectangle;
pub mod replay;
pub mod reply;
pub mod rule;
pub mod scripts;
pub mod service;
pub mod session;
pub mod soundness;
pub mod state;
pub mod strictness;
pub mod talk;
pub mod tile;
pub mod words;
