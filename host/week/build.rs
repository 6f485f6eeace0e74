//! Finds the library: what `make library` leaves in build/, or the directory that RSMP_WEEK_LIB names.

use std::env;

fn main() {
    println!("cargo:rerun-if-env-changed=RSMP_WEEK_LIB");
    let place = env::var("RSMP_WEEK_LIB").unwrap_or_else(|_| concat!(env!("CARGO_MANIFEST_DIR"), "/../../build").to_string());
    println!("cargo:rustc-link-search=native={}", place);
    println!("cargo:rerun-if-changed={}/librsmp_week.a", place);
    println!("cargo:rustc-env=RSMP_VERSION={}", env!("CARGO_PKG_VERSION"));
}
