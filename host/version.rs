//! The programs' build script: their version, as the Makefile hands it to the compiler.

fn main() {
    println!("cargo:rerun-if-env-changed=CARGO_PKG_VERSION");
    println!("cargo:rustc-env=RSMP_VERSION={}", std::env::var("CARGO_PKG_VERSION").expect("cargo says the version"));
}
