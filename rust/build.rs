//! Links the static library of this repository: the one that CLOVER_BACK_END_LIB names, or that of
//! `tools/staticlib`, which is asked whenever a crate of the repository has changed since the last build.
//! Crates beneath that have not changed are not proved again, so that this takes a minute or less; the
//! first time takes some ten and more. The variable RT names another `rt`.

use std::env;
use std::fs::{read_dir, OpenOptions};
use std::io::Write;
use std::path::{Path, PathBuf};
use std::process::Command;

const VARIABLE: &str = "CLOVER_BACK_END_LIB";
/// Writes the library; from the repository's root.
const TOOL: &str = "tools/staticlib";
/// From the repository's root.
const LIBRARY: &str = "target/staticlib/libclover_back_end.a";
/// What a crate is made of, in its folder. `out/`, beside these, is written at each asking.
const SOURCES: [&str; 3] = ["src", "specs", "proofs"];

/// Cargo shows a build script's output only when it fails, and a first proof takes minutes: where there
/// is a terminal, it is told.
fn tell(what: &str) {
    eprintln!("{what}");
    if let Ok(mut terminal) = OpenOptions::new().write(true).open("/dev/tty") {
        // A terminal that can not be written to is none.
        let _ = writeln!(terminal, "clover_back_end: {what}");
    }
}

/// Names what the library is made of to cargo.
fn watch(root: &Path) {
    println!("cargo:rerun-if-changed={}", root.join("crates.txt").display());
    for entry in read_dir(root.join("crates")).expect("the repository's crates") {
        let folder = entry.expect("an entry of a folder").path();
        for source in SOURCES.map(|name| folder.join(name)).iter().filter(|source| source.is_dir()) {
            println!("cargo:rerun-if-changed={}", source.display());
        }
    }
}

fn built() -> PathBuf {
    let here = PathBuf::from(env::var_os("CARGO_MANIFEST_DIR").expect("cargo sets it"));
    let root = here.parent().expect("the crate is a folder of the repository");
    watch(root);
    let first = if root.join(LIBRARY).is_file() { "" } else { "; the first time takes ten minutes and more" };
    tell(&format!("asking `{TOOL}`: what has changed is proved{first}"));
    let status = Command::new(root.join(TOOL)).status().unwrap_or_else(|e| panic!("{TOOL}: {e}"));
    assert!(status.success(), "{TOOL} fails; have the kit's `rt` on the PATH, or set RT or {VARIABLE}");
    root.join(LIBRARY)
}

/// The library that a variable names. One that `rt` writes is not listed: it is written at each asking,
/// and would always be newer than this script's last run.
fn given(library: &Path) -> PathBuf {
    println!("cargo:rerun-if-changed={}", library.display());
    library.to_path_buf()
}

fn link(library: &Path) {
    let library = library.canonicalize().unwrap_or_else(|e| panic!("{}: {e}", library.display()));
    let stem = library.file_stem().and_then(|stem| stem.to_str()).expect("a file name");
    println!("cargo:rustc-link-search=native={}", library.parent().expect("a folder").display());
    println!("cargo:rustc-link-lib=static={}", stem.strip_prefix("lib").expect("libNAME.a"));
}

fn main() {
    println!("cargo:rerun-if-changed=build.rs");
    println!("cargo:rerun-if-env-changed={VARIABLE}");
    println!("cargo:rerun-if-env-changed=RT");
    if env::var_os("CARGO_FEATURE_LINK").is_some() {
        link(&env::var_os(VARIABLE).map_or_else(built, |name| given(Path::new(&name))));
    }
}
