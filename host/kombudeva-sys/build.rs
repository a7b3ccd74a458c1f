//! Links the library named by KD_LIB, by default the one that host/collect leaves.

use std::path::{Path, PathBuf};
use std::{env, fs};

/// Links a copy under the name that the linker wants, so that KD_LIB may have any.
fn main() {
    println!("cargo:rerun-if-env-changed=KD_LIB");
    let made = Path::new(env!("CARGO_MANIFEST_DIR")).join("../../target/staticlib/libkombudeva.a");
    let library = env::var("KD_LIB").map_or(made, PathBuf::from);
    let folder = env::var("OUT_DIR").unwrap();
    let copied = fs::copy(&library, Path::new(&folder).join("libkombudeva.a"));
    copied.unwrap_or_else(|error| panic!("no library at {}: {error}", library.display()));
    println!("cargo:rerun-if-changed={}", library.display());
    println!("cargo:rustc-link-search=native={folder}");
    println!("cargo:rustc-link-lib=static=kombudeva");
}
