//! Finds the library: RSMP_SITE_LIB, librsmp_site.a or the directory it is in, or what `make library` leaves in build/.

use std::env;
use std::fs;
use std::path::{Path, PathBuf};

const ARCHIVE: &str = "librsmp_site.a";

fn main() {
    let here = PathBuf::from(env::var_os("CARGO_MANIFEST_DIR").expect("cargo says where the crate is"));
    let root = here.join("../..");
    let version = env::var("CARGO_PKG_VERSION").expect("cargo says the version");
    println!("cargo:rustc-env=RSMP_VERSION={}", version);
    println!("cargo:rustc-env=RSMP_SYMBOL={}", version.replace('.', "_"));

    println!("cargo:rerun-if-env-changed=RSMP_SITE_LIB");
    let archive = match env::var_os("RSMP_SITE_LIB").map(PathBuf::from) {
        Some(named) if named.is_dir() => named.join(ARCHIVE),
        Some(named) => named,
        None => root.join("build").join(ARCHIVE),
    };
    println!("cargo:rerun-if-changed={}", archive.display());
    match fs::canonicalize(&archive) {
        Ok(found) => println!("cargo:rustc-link-search=native={}", found.parent().unwrap_or(Path::new("/")).display()),
        Err(error) => println!("cargo:warning={}: {}; `make library` makes it, RSMP_SITE_LIB says where it is", archive.display(), error),
    }
    if env::var("CARGO_CFG_TARGET_ARCH").as_deref() != Ok("x86_64") {
        println!("cargo:warning=the library is for x86-64: build with --target x86_64-unknown-linux-gnu");
    }
}
