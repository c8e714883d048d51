//! The rule books of `examples/`: sources read by the original's parser, flattened, and written as
//! column files with their listings and the table of their texts. A constant table beside a source, NAME.table, stands
//! at the head of its document.

use crate::areas::{answer, UNLIMITED};
use crate::columns::lines;
use crate::listing::listing;
use crate::model::compile;
use crate::real::{run, Outcome};
use crate::records::{records, RECORD_WORDS};
use crate::tables::{table_to_records, LINE_BYTES};
use clover::frontend::parser::parse;
use clover_back_end::records::Records;
use clover_back_end::{ast, Texts};
use std::collections::BTreeMap;
use std::path::{Path, PathBuf};

/// Sources of each bundle without their ending, the root first; the bundle has the root's name.
const BUNDLES: [&[&str]; 9] = [
    &["snow"],
    &["drift", "snow"],
    &["combination"],
    &["utilisation", "combination"],
    &["limit_state", "factors"],
    &["misspelt", "factors"],
    &["faulty"],
    &["revised/snow"],
    &["revised/combination"],
];

/// The bundle and the book whose table is a column file of its own too, `BOOK.col`.
const TABLE: (&str, &str) = ("limit_state", "factors");

pub fn folder() -> PathBuf {
    Path::new(env!("CARGO_MANIFEST_DIR")).join("../examples")
}

/// The bundle of sources, the root first. A book's file is its source's file name.
fn bundle(sources: &[&Path]) -> Result<(Vec<u64>, Texts), String> {
    let (mut texts, mut words) = (Texts::new(), Vec::new());
    for path in sources {
        let told = |what: &dyn std::fmt::Display| format!("{}: {what}", path.display());
        let source = std::fs::read_to_string(path).map_err(|error| told(&error))?;
        let file = path.file_name().and_then(|name| name.to_str()).ok_or_else(|| told(&"is no file name"))?;
        let document = parse(&source, file).map_err(|errors| told(&errors))?;
        let mut records = Records::new();
        ast::flatten(&document, &mut texts, &mut records);
        let mut book = records.into_words();
        let table = path.with_extension("table");
        if table.is_file() {
            let definitions = table_document(&table, book[FILE])?.split_off(RECORD_WORDS);
            book[SPAN] += (definitions.len() / RECORD_WORDS) as u64;
            book.splice(RECORD_WORDS..RECORD_WORDS, definitions);
        }
        words.extend(book);
    }
    Ok((words, texts))
}

/// Words of a document's record.
const SPAN: usize = 1;
const FILE: usize = 3;

/// The words of a table's document.
fn table_document(path: &Path, file: u64) -> Result<Vec<u64>, String> {
    let table = std::fs::read(path).map_err(|error| format!("{}: {error}", path.display()))?;
    let (reply, mut words) = table_to_records(&table, file, RECORD_WORDS * (1 + 3 * table.len() / LINE_BYTES));
    if reply.number != 0 {
        return Err(format!("{}: row {}, {}", path.display(), reply.number, reply.place));
    }
    words.truncate(RECORD_WORDS * reply.total as usize);
    Ok(words)
}

/// `ROOT.col` and `ROOT.texts` of sources, beside the first.
pub fn flattened(sources: &[&Path]) -> Result<[(PathBuf, Vec<u8>); 2], String> {
    let root = sources.first().ok_or("there is no source")?;
    let (words, texts) = bundle(sources)?;
    let columns = (root.with_extension("col"), lines(&words));
    Ok([columns, (root.with_extension("texts"), texts.to_lines().into_bytes())])
}

/// File name to content: `NAME.col`, `NAME.listing` and `NAME.texts`. The Rust itself is asked too.
pub fn files() -> BTreeMap<String, Vec<u8>> {
    let mut files = BTreeMap::new();
    for names in BUNDLES {
        let name = names[0];
        let sources: Vec<PathBuf> = names.iter().map(|name| folder().join(format!("{name}.clover"))).collect();
        let sources: Vec<&Path> = sources.iter().map(PathBuf::as_path).collect();
        let (words, texts) = bundle(&sources).unwrap_or_else(|message| panic!("{message}"));
        let made = compile(&words, &UNLIMITED);
        let made = answer(&made.reply, &made.areas);
        assert_eq!(run(&records(&words)), Outcome::Answer(made.clone()), "{name}");
        files.insert(format!("{name}.col"), lines(&words));
        files.insert(format!("{name}.listing"), listing(&made));
        files.insert(format!("{name}.texts"), texts.to_lines().into_bytes());
        if name == TABLE.0 {
            let file = texts.find(&format!("{}.clover", TABLE.1)).expect("a book of the bundle").number();
            let words = table_document(&folder().join(format!("{}.table", TABLE.1)), file);
            files.insert(format!("{}.col", TABLE.1), lines(&words.unwrap_or_else(|message| panic!("{message}"))));
        }
    }
    files
}

#[cfg(test)]
mod tests {
    use super::*;
    use crate::documents::{fits, Builder, Positions};
    use crate::generate::{case, Sizes};
    use crate::records::{kind, Record};
    use crate::shape::check;
    use std::collections::BTreeSet;

    #[test]
    fn the_examples_are_current() {
        let files = files();
        for (name, content) in &files {
            let kept = std::fs::read(folder().join(name)).unwrap_or_else(|e| panic!("{name}: {e}; run `examples`"));
            assert!(kept == *content, "{name} is not what the examples command writes");
        }
        let sources = BUNDLES.iter().flat_map(|names| names.iter()).map(|name| format!("{name}.clover"));
        let ours = |name: &String| [".clover", ".col", ".listing", ".texts"].iter().any(|end| name.ends_with(end));
        let there = ["", "revised/"].iter().flat_map(|inside| {
            let entries = std::fs::read_dir(folder().join(inside)).expect("the examples are there");
            let names = entries.map(|entry| entry.expect("a file").file_name().into_string().expect("a plain name"));
            names.map(|name| format!("{inside}{name}")).collect::<Vec<_>>()
        });
        let known: BTreeSet<String> = files.keys().cloned().chain(sources).collect();
        assert_eq!(there.filter(ours).collect::<BTreeSet<_>>(), known);
    }

    /// The table in which each text is the string that the Rust is given for it.
    fn texts(builder: &Builder) -> Texts {
        let numbers: BTreeSet<u64> =
            builder.records.iter().filter(|r| kind::holds_text(r.kind)).map(|r| r.value).collect();
        let lines: String = numbers.iter().map(|&n| format!("{n:>8} {}\n", builder.texts.string(n))).collect();
        Texts::from_lines(&lines).expect("a table")
    }

    /// Records, documents, records again.
    #[test]
    fn generated_bundles_come_back() {
        let mut tried = 0;
        for index in 0..1000 {
            let words = case(41, index, Sizes::Mixed).words;
            let list = records(&words);
            // A name that is `this` by its number alone is none of a parser's, nor is a position beyond its 16 bits.
            let read = |r: &Record| r.kind != kind::THIS_PARAMETER && fits(r.position);
            if check(&words).is_err() || !list.iter().all(read) {
                continue;
            }
            let texts = crate::documents::Texts::new(&list);
            let builder = Builder { records: &list, texts, positions: Positions::Given };
            let (mut texts, mut back) = (self::texts(&builder), Records::new());
            builder.documents().iter().for_each(|(_, _, document)| ast::flatten(document, &mut texts, &mut back));
            assert!(back.words() == words, "case {index}");
            tried += 1;
        }
        assert!(tried > 300);
    }
}
