//! `clover convert`: column files, words and constant tables, each to the others.

use crate::arguments::{Arguments, Choice, Command, Failure, Verdict};
use crate::input::{self, Content, Input};
use crate::refused;
use clover_back_end::{check, records_to_columns, records_to_table, Refusal};

pub const COMMAND: Command = Command {
    name: "convert",
    operands: "FILE",
    files: (1, 1),
    about: "turns column files, words and constant tables into each other",
    details: "\
Turns a bundle from one form into another and loses no bit: rows 1 to 4 are checked, and row 10 where a
table is asked for; what is refused is not written. Words are written one a line, right-justified in 21
bytes. A table has no file number of its own: `--file` gives it, and where a table is written, the
document's is said on standard error.",
    choices: &[
        &[
            Choice {
                name: "--to",
                value: Some("FORM"),
                about: "`columns`, `words` or `table`; else words for columns, columns for others",
            },
            Choice { name: "--file", value: Some("NUMBER"), about: "the file number of a table's document" },
            Choice { name: "--output", value: Some("FILE"), about: "writes there and not to standard output" },
        ],
        input::CHOICES,
    ],
    run,
};

/// Forms that are written.
const FORMS: [&str; 3] = ["columns", "words", "table"];
const COLUMNS: usize = 0;
const TABLE: usize = 2;
/// Bytes of a word's line without its newline.
const WORD_WIDTH: usize = 21;

fn lines(words: &[u64]) -> Vec<u8> {
    words.iter().flat_map(|word| format!("{word:>WORD_WIDTH$}\n").into_bytes()).collect()
}

fn converted(input: &Input, to: usize) -> Result<Vec<u8>, Refusal> {
    let tree = input.records()?;
    if to == COLUMNS {
        return records_to_columns(&tree);
    }
    if to == TABLE {
        let (table, file) = records_to_table(&tree)?;
        eprintln!("file number {}", file.number());
        return Ok(table);
    }
    check(&tree)?;
    Ok(lines(&tree))
}

fn run(arguments: &Arguments) -> Result<(Verdict, String), Failure> {
    let to = arguments.one_of("--to", &FORMS)?;
    let input = Input::bundle(arguments, &arguments.files[0])?;
    let other = usize::from(matches!(input.content, Content::Columns(_)));
    let bytes = match converted(&input, to.unwrap_or(other)) {
        Ok(bytes) => bytes,
        Err(refusal) => return Ok((Verdict::Refused, refused::input(&refusal, &input))),
    };
    let Some(file) = arguments.value("--output") else {
        return Ok((Verdict::Delivered, String::from_utf8(bytes).expect("digits, signs, blanks and newlines")));
    };
    std::fs::write(file, bytes).map_err(|error| Failure::new(format!("{file}: {error}")))?;
    Ok((Verdict::Delivered, String::new()))
}
