//! Links librothc.a to the binary `differ`, and to nothing else. The directory is that of
//! ROTHC_LIBRARY, or target/library of the repository.

use std::env;
use std::path::PathBuf;

fn main() {
    println!("cargo:rerun-if-changed=build.rs");
    println!("cargo:rerun-if-env-changed=ROTHC_LIBRARY");
    if env::var_os("CARGO_FEATURE_LIBRARY").is_none() {
        return;
    }
    let directory = match env::var_os("ROTHC_LIBRARY") {
        Some(directory) => PathBuf::from(directory),
        None => PathBuf::from(env::var_os("CARGO_MANIFEST_DIR").expect("set by cargo"))
            .join("../target/library"),
    };
    let archive = directory.join("librothc.a");
    println!("cargo:rerun-if-changed={}", archive.display());
    println!("cargo:rustc-link-arg-bin=differ={}", archive.display());
}
