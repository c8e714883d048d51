//! Writes a module tree that points at the original sources, so that they are compiled where they
//! lie, unchanged. What the sources lean on and is not among them comes from `src/`.

use std::path::{Path, PathBuf};
use std::{env, fs};

/// From this crate: next to the checkout of the repository.
const DEFAULT_SOURCES: &str = "../../../shared/docs/src";

const MODULES: [(&str, &[&str]); 3] = [
    ("backend", &["assembly_state", "compiler", "dependency_solver", "function_state"]),
    ("frontend", &["parser"]),
    ("runtime", &["assembly_information", "object", "opcode", "program"]),
];

/// Modules that the sources name and that are not among them.
const STUBS: [(&str, &str); 2] = [("frontend", "lexer"), ("runtime", "state")];

fn sources() -> PathBuf {
    let given = env::var_os("CLOVER_SRC").map(PathBuf::from);
    let here = PathBuf::from(env::var_os("CARGO_MANIFEST_DIR").expect("cargo sets it"));
    let root = given.unwrap_or_else(|| here.join(DEFAULT_SOURCES));
    let root = root.canonicalize().unwrap_or_else(|e| panic!("{}: {e}; set CLOVER_SRC", root.display()));
    // CLOVER_SRC may name the folder above the crate or the crate's own sources.
    let nested = root.join("crates/clover/src");
    if nested.is_dir() {
        nested
    } else {
        root
    }
}

fn module(out: &mut String, file: &Path, name: &str, indent: &str) {
    println!("cargo:rerun-if-changed={}", file.display());
    assert!(file.is_file(), "{} is missing", file.display());
    out.push_str(&format!("{indent}#[path = {:?}]\n{indent}pub mod {name};\n", file.display().to_string()));
}

fn main() {
    println!("cargo:rerun-if-env-changed=CLOVER_SRC");
    let root = sources();
    let here = PathBuf::from(env::var_os("CARGO_MANIFEST_DIR").expect("cargo sets it"));
    let mut out = String::new();
    module(&mut out, &root.join("intermediate/mod.rs"), "intermediate", "");
    for (folder, files) in MODULES {
        out.push_str(&format!("pub mod {folder} {{\n"));
        for file in files {
            module(&mut out, &root.join(folder).join(format!("{file}.rs")), file, "    ");
        }
        for (_, stub) in STUBS.iter().filter(|(parent, _)| *parent == folder) {
            module(&mut out, &here.join("src").join(format!("{stub}.rs")), stub, "    ");
        }
        out.push_str("}\n");
    }
    let target = PathBuf::from(env::var_os("OUT_DIR").expect("cargo sets it")).join("modules.rs");
    fs::write(target, out).expect("OUT_DIR is writable");
}
