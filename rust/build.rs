//! Links libbasalekko.a, from the folder in BASALEKKO_LIBRARY or from where `./build-library` leaves it.

use std::path::{Path, PathBuf};

fn main() {
    let here = std::env::var("CARGO_MANIFEST_DIR").expect("cargo sets it");
    let folder = std::env::var_os("BASALEKKO_LIBRARY").map_or_else(|| Path::new(&here).join("../target/staticlib"), PathBuf::from);
    println!("cargo:rustc-link-search=native={}", folder.display());
    println!("cargo:rustc-link-lib=static=basalekko");
    println!("cargo:rerun-if-changed={}", folder.join("libbasalekko.a").display());
    println!("cargo:rerun-if-env-changed=BASALEKKO_LIBRARY");
}
