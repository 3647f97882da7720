//! What the tests and the benchmark run the service on, all of it made from fixed seeds.

pub mod counts;
pub mod damage;
pub mod editions;
pub mod histories;
pub mod journals;
pub mod packs;
pub mod random;
pub mod rectangles;
mod turns;
pub mod world;
