//! The printed replay of a journal on standard input.

// The library's own entry opens a closed input anew, as an empty one; this entry leaves it closed,
// so that it is reported.
#![no_main]

use second::printed::{printed_replay, ENOUGH_BYTES};
use second::program;
use std::os::raw::c_int;

#[no_mangle]
pub extern "C" fn main() -> c_int {
    program::run(ENOUGH_BYTES, |journal| printed_replay(journal).into_bytes())
}
