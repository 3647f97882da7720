//! Tells the linker where the archive of the proved calls is, if the benchmark is to be built.

use std::env;

const FOLDER: &str = "PROVED_ARCHIVE_FOLDER";

fn main() {
    println!("cargo:rerun-if-env-changed={FOLDER}");
    if env::var_os("CARGO_FEATURE_PROVED").is_none() {
        return;
    }
    match env::var(FOLDER) {
        Ok(folder) => {
            println!("cargo:rustc-link-search=native={folder}");
            println!("cargo:rerun-if-changed={folder}/libbench.a");
        }
        Err(_) => println!("cargo:warning={FOLDER} does not name the folder of libbench.a"),
    }
}
