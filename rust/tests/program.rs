//! The program `clover`: what it prints is held to stored files. `tests/clover/*.txt` are calls: a line
//! `$ clover ..`, run at the repository's root, then what it prints, what it says on standard error, and
//! its exit status. `examples/NAME.show` and `NAME.svg` are stored too.
//!
//! With the variable BLESS the files are written anew; look at what changed before you keep it.
#![cfg(feature = "link")]

use std::fs::{read, read_to_string, write, File};
use std::path::{Path, PathBuf};
use std::process::{Command, Stdio};

fn root() -> PathBuf {
    Path::new(env!("CARGO_MANIFEST_DIR")).parent().expect("the crate is a folder of the repository").to_path_buf()
}

struct Run {
    output: Vec<u8>,
    errors: String,
    status: i32,
}

/// Words of a call; `< FILE` at its end is standard input.
fn run(words: &[&str]) -> Run {
    let (words, input) = match words {
        [words @ .., "<", file] => (words, Stdio::from(File::open(root().join(file)).expect("a file of the test"))),
        words => (words, Stdio::null()),
    };
    let mut command = Command::new(env!("CARGO_BIN_EXE_clover"));
    let made = command.args(words).current_dir(root()).env("NO_COLOR", "1").stdin(input).output();
    let made = made.expect("the program runs");
    let errors = String::from_utf8(made.stderr).expect("text");
    let errors = errors.lines().filter(|line| !is_progress(line)).map(|line| format!("{line}\n")).collect();
    Run { output: made.stdout, errors, status: made.status.code().expect("it ends by itself") }
}

/// A busy machine may take longer than a second, and then says so: `clover: drawing, 1 s`.
fn is_progress(line: &str) -> bool {
    let words = ["compiling", "drawing", "writing", "comparing"];
    words.iter().any(|word| line.starts_with(&format!("clover: {word}"))) && line.ends_with(" s")
}

/// Holds what was made to a stored file, or writes it.
fn held(path: &Path, made: &[u8], wrong: &mut Vec<String>) {
    if std::env::var_os("BLESS").is_some() {
        write(path, made).expect("the folder is writable");
    } else if read(path).unwrap_or_default() != made {
        wrong.push(format!("{}:\n{}", path.display(), String::from_utf8_lossy(made)));
    }
}

fn stored_calls() -> Vec<PathBuf> {
    let folder = Path::new(env!("CARGO_MANIFEST_DIR")).join("tests/clover");
    let entries = std::fs::read_dir(folder).expect("the stored calls");
    let mut files: Vec<PathBuf> = entries.map(|entry| entry.expect("a file").path()).collect();
    files.retain(|path| path.extension().is_some_and(|end| end == "txt"));
    files.sort();
    files
}

#[test]
fn calls_print_what_is_stored() {
    let mut wrong = Vec::new();
    let files = stored_calls();
    assert!(files.len() > 20, "{}", files.len());
    for path in files {
        let stored = read_to_string(&path).expect("text");
        let first = stored.lines().next().expect("a call");
        let words: Vec<&str> = first.strip_prefix("$ clover").expect("a call").split_whitespace().collect();
        let made = run(&words);
        let mut text = format!("{first}\n").into_bytes();
        text.extend(&made.output);
        if !made.errors.is_empty() {
            text.extend(format!("[standard error]\n{}", made.errors).into_bytes());
        }
        text.extend(format!("[exit status {}]\n", made.status).into_bytes());
        held(&path, &text, &mut wrong);
    }
    assert!(wrong.is_empty(), "these are not as stored (see the top of this file):\n{}", wrong.join("\n"));
}

#[test]
fn the_examples_are_shown_and_drawn_as_stored() {
    let mut wrong = Vec::new();
    for name in ["snow", "drift", "combination", "utilisation", "limit_state"] {
        for (command, end) in [("show", "show"), ("graph", "svg")] {
            let made = run(&[command, &format!("examples/{name}.col")]);
            assert_eq!((made.status, made.errors.as_str()), (0, ""));
            held(&root().join(format!("examples/{name}.{end}")), &made.output, &mut wrong);
        }
    }
    let one = run(&["graph", "--function", "monopitch", "examples/snow.col"]);
    held(&root().join("examples/monopitch.svg"), &one.output, &mut wrong);
    let refused = run(&["show", "examples/faulty.col"]);
    assert_eq!(refused.status, 1);
    held(&root().join("examples/faulty.show"), &refused.output, &mut wrong);
    let strict = run(&["show", "--strict", "examples/misspelt.col"]);
    assert_eq!(strict.status, 1);
    held(&root().join("examples/misspelt.show"), &strict.output, &mut wrong);
    assert!(wrong.is_empty(), "these are not as stored (see the top of this file):\n{}", wrong.join("\n"));
}

/// A folder for one test, removed when it ends.
struct Folder(PathBuf);

impl Folder {
    fn new(test: &str) -> Folder {
        let path = std::env::temp_dir().join(format!("clover-{test}-{}", std::process::id()));
        std::fs::create_dir_all(&path).expect("a folder");
        Folder(path)
    }
}

impl Drop for Folder {
    fn drop(&mut self) {
        std::fs::remove_dir_all(&self.0).expect("it is there");
    }
}

/// A refused record is told with its rule and its line of the column file.
#[test]
fn a_refused_line_is_shown() {
    let folder = Folder::new("line");
    let example = read_to_string(root().join("examples/snow.col")).expect("an example");
    let first: String = example.lines().take(2).map(|line| format!("{line}\n")).collect();
    let path = folder.0.join("first.col");
    write(&path, &first).expect("the folder is writable");
    let made = run(&["check", path.to_str().expect("a plain name")]);
    let said = String::from_utf8(made.output).expect("text");
    assert_eq!(made.status, 1);
    assert!(said.contains("refused, row 3: bad shape: record 0 is against the tree rules: its span is 77"), "{said}");
    assert!(said.contains(example.lines().next().expect("a line")), "{said}");
}

/// Constant table, column file, table again.
#[test]
fn tables_come_back() {
    let folder = Folder::new("tables");
    let (table, columns) = (folder.0.join("factors.table"), folder.0.join("factors.col"));
    let [table_name, columns_name] = [&table, &columns].map(|path| path.to_str().expect("a plain name"));
    let lines = format!("{:>8}{:>4}{:>21}\n", 3, 3, 1.35f64.to_bits()).repeat(2);
    std::fs::write(&table, &lines).expect("a file");
    assert_eq!(run(&["convert", table_name]).status, 2, "the file number is lacking");
    assert_eq!(run(&["convert", table_name, "--file", "5", "--output", columns_name]).status, 0);
    assert_eq!(run(&["convert", columns_name, "--to", "table"]).output, lines.as_bytes());
    assert_eq!(run(&["convert", "examples/snow.col", "--to", "table"]).status, 1);
}

/// Column file, words, column file again.
#[test]
fn files_come_back() {
    let folder = Folder::new("convert");
    let words = folder.0.join("snow.words");
    let name = words.to_str().expect("a plain name");
    assert_eq!(run(&["convert", "examples/snow.col", "--output", name]).status, 0);
    let back = run(&["convert", name]);
    assert_eq!(back.output, read(root().join("examples/snow.col")).expect("an example"));
}
