//! Links the library that `./build-library` leaves.

use std::path::Path;

fn main() {
    let here = std::env::var("CARGO_MANIFEST_DIR").expect("cargo sets it");
    let folder = Path::new(&here).join("../target/staticlib");
    println!("cargo:rustc-link-search=native={}", folder.display());
    println!("cargo:rustc-link-lib=static=basalekko");
    println!("cargo:rerun-if-changed={}", folder.join("libbasalekko.a").display());
}
