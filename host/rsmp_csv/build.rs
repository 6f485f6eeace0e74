//! Finds the library: what `make library` leaves in build/, or the directory that RSMP_CSV_LIB names.

use std::env;

fn main() {
    println!("cargo:rerun-if-env-changed=RSMP_CSV_LIB");
    let place = env::var("RSMP_CSV_LIB").unwrap_or_else(|_| concat!(env!("CARGO_MANIFEST_DIR"), "/../../build").to_string());
    println!("cargo:rustc-link-search=native={}", place);
    println!("cargo:rerun-if-changed={}/librsmp_csv.a", place);
}
