//! The tests, one program, as those of `second` are.

mod at_once;
mod chains;
mod checks;
mod common;
mod editions;
mod levels;
mod own_tiles;
mod rectangles;
mod replay;
mod replies;
mod seam_cases;
mod sheets;
mod starts;
mod turned_histories;
mod turns;
mod written_out;
mod wrong_counts;
