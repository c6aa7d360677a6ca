//! Compiles the plain C loops.

use std::path::PathBuf;
use std::process::Command;
use std::{env, fs};

fn run(command: &mut Command) {
    let status = command
        .status()
        .unwrap_or_else(|error| panic!("{command:?}: {error}"));
    assert!(status.success(), "{command:?} failed");
}

fn main() {
    println!("cargo:rerun-if-changed=src/plain.c");
    let out = PathBuf::from(env::var("OUT_DIR").unwrap());
    let (object, archive) = (out.join("plain.o"), out.join("libplain.a"));
    run(Command::new("gcc")
        .args([
            "-std=c99", "-O3", "-Wall", "-Wextra", "-Werror", "-fPIC", "-c",
        ])
        .args(["src/plain.c", "-o"])
        .arg(&object));
    let _ = fs::remove_file(&archive);
    run(Command::new("ar").arg("crs").args([&archive, &object]));
    println!("cargo:rustc-link-search=native={}", out.display());
    println!("cargo:rustc-link-lib=static=plain");
}
