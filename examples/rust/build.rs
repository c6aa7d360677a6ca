//! Links the archive that `tools/staticlib` writes.

use std::path::PathBuf;
use std::{env, fs};

fn main() {
    println!("cargo:rerun-if-env-changed=RENETCLEAT_LIB");
    let beside =
        PathBuf::from(env::var("CARGO_MANIFEST_DIR").unwrap()).join("../../target/staticlib");
    let folder = env::var("RENETCLEAT_LIB").map_or(beside, PathBuf::from);
    let folder = fs::canonicalize(&folder).unwrap_or_else(|error| {
        panic!("{}: {error}; run `tools/staticlib`, or name the archive's folder in RENETCLEAT_LIB", folder.display())
    });
    println!(
        "cargo:rerun-if-changed={}",
        folder.join("librenetcleat.a").display()
    );
    println!("cargo:rustc-link-search=native={}", folder.display());
    println!("cargo:rustc-link-lib=static=renetcleat");
}
