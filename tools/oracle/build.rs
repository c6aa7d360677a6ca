//! Names the five Rust files of PECOS, where PECOS_SRC says they are, as modules of this crate.

use std::path::{Path, PathBuf};
use std::{env, fs};

/// Module path inside this crate, and the file below PECOS_SRC.
const FILES: [(&str, &str, &str); 5] = [
    ("", "quarter_phase", "phase/quarter_phase.rs"),
    ("pauli", "algebra", "pauli/algebra.rs"),
    ("pauli", "pauli_string", "pauli/pauli_string.rs"),
    ("", "clifford_rep", "clifford_rep.rs"),
    ("", "clifford", "clifford.rs"),
];

fn source_folder() -> PathBuf {
    println!("cargo:rerun-if-env-changed=PECOS_SRC");
    let given = env::var("PECOS_SRC")
        .expect("set PECOS_SRC to the absolute path of PECOS's crates/pecos-core/src");
    fs::canonicalize(&given).unwrap_or_else(|error| panic!("PECOS_SRC is {given}: {error}"))
}

fn module(folder: &Path, name: &str, file: &str) -> String {
    let path = folder.join(file);
    assert!(path.is_file(), "{} is missing", path.display());
    println!("cargo:rerun-if-changed={}", path.display());
    // The files are taken as they are, so their warnings are not ours.
    format!(
        "#[allow(warnings)]\n#[path = {:?}]\npub mod {name};\n",
        path.display().to_string()
    )
}

fn main() {
    let folder = source_folder();
    let mut top = String::new();
    let mut pauli = String::new();
    for (parent, name, file) in FILES {
        let text = module(&folder, name, file);
        if parent.is_empty() {
            top += &text
        } else {
            pauli += &text
        }
    }
    let text = format!("{top}pub mod pauli {{\n{pauli}}}\n");
    let out = PathBuf::from(env::var("OUT_DIR").unwrap()).join("pecos_files.rs");
    fs::write(out, text).unwrap();
}
