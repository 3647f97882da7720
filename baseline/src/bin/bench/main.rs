//! Compares the proved calls with the Rust ones, and then times them turn about. With --agree it
//! only compares.

mod agreement;
mod census;
mod ends;
mod proved;
mod scenes;
mod table;
mod ways;

use std::process::ExitCode;

fn main() -> ExitCode {
    let words: Vec<String> = std::env::args().skip(1).collect();
    let only_agree = match words.as_slice() {
        [] => false,
        [word] if word == "--agree" => true,
        _ => {
            eprintln!("usage: bench [--agree]");
            return ExitCode::from(2);
        }
    };
    let census = match agreement::compare_all() {
        Ok(census) => census,
        Err(difference) => {
            eprintln!("they differ: {difference}");
            return ExitCode::FAILURE;
        }
    };
    println!("{}", census.shares());
    if !only_agree {
        let rows = scenes::time_all();
        let ends = ends::time_ends();
        table::print(rows.iter().chain(ends::calls(&ends)));
        ends::print_parts(&ends);
        ends::print_undoing();
        table::print_cost_of_replacing(&rows);
        table::print_cost_of_rectangles(&rows);
    }
    println!("{}", census.total());
    ExitCode::SUCCESS
}
