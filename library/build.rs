//! Links the static library that `make` builds.

use std::env;
use std::path::PathBuf;

fn main() {
    println!("cargo:rerun-if-env-changed=BURMELOX_LIB_DIR");
    let folder = env::var("BURMELOX_LIB_DIR").map_or_else(
        |_| PathBuf::from(env!("CARGO_MANIFEST_DIR")).join("../target/staticlib"),
        PathBuf::from,
    );
    let archive = folder.join("libburmelox.a");
    println!("cargo:rerun-if-changed={}", archive.display());
    if !archive.exists() {
        println!(
            "cargo::error={} is missing: run `make` at the project's root, or put its folder's \
             absolute path into BURMELOX_LIB_DIR",
            archive.display()
        );
        return;
    }
    println!("cargo:rustc-link-search=native={}", folder.display());
    println!("cargo:rustc-link-lib=static=burmelox");
    println!("cargo:rustc-env=BURMELOX_ARCHIVE={}", archive.display());
}
