//! The console on standard input and output.

// The library's own entry opens a closed input anew, as an empty one; this entry leaves it closed,
// so that it is reported.
#![no_main]

use second::program;
use second::talk::Talk;
use std::os::raw::c_int;

#[no_mangle]
pub extern "C" fn main() -> c_int {
    program::run_talk(Talk::default())
}
