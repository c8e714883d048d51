//! Reads a bundle, as a column file, as words or as a constant table, or a program by its listing, with the texts beside it.

use crate::arguments::{Arguments, Choice, Failure};
use crate::listing::Listing;
use clover_back_end::{columns_to_records, table_to_records, Refusal, Text, Texts, LINE_BYTES, TABLE_LINE_BYTES};
use std::io::Read;
use std::path::{Path, PathBuf};

/// Forms of a bundle, and of a program.
pub const FORMS: [&str; 4] = ["columns", "words", "listing", "table"];
const LISTING: usize = 2;
const TABLE: usize = 3;
/// Bytes of a line of a listing.
const LISTING_LINE_BYTES: usize = 74;

/// Options of every command that reads a bundle.
pub const CHOICES: &[Choice] = &[
    Choice {
        name: "--from",
        value: Some("FORM"),
        about: "`columns`, `words`, `listing` or `table`; else the first line tells",
    },
    Choice {
        name: "--texts",
        value: Some("FILE"),
        about: "the table of texts; else NAME.texts beside NAME.col, if there",
    },
    Choice { name: "--source", value: Some("FOLDER"), about: "the books' sources; else the bundle's own folder" },
];

/// What a file holds.
pub enum Content {
    Columns(Vec<u8>),
    Words(Vec<u64>),
    /// A constant table, which has no file number of its own.
    Table(Vec<u8>, Text),
    /// A program, and no bundle.
    Listing(Box<Listing>),
}

pub struct Input {
    /// As it was given.
    pub name: String,
    pub content: Content,
    pub texts: Texts,
    /// Where the books' sources may be.
    pub folder: Option<PathBuf>,
}

impl Input {
    /// Reads the file that was given at a place, and what belongs to it.
    pub fn read(arguments: &Arguments, name: &str) -> Result<Input, Failure> {
        let bytes = bytes(name)?;
        let form = arguments.one_of("--from", &FORMS)?;
        let content = match form.unwrap_or_else(|| form_of(&bytes)) {
            0 => Content::Columns(bytes),
            TABLE => Content::Table(bytes, table_file(arguments, name)?),
            LISTING => Content::Listing(Box::new(listing(name, &bytes)?)),
            _ => Content::Words(words(name, &bytes)?),
        };
        let own = (name != "-").then(|| Path::new(name));
        let texts = match arguments.value("--texts") {
            Some(file) => texts(Path::new(file))?,
            None => match own.map(|path| path.with_extension("texts")).filter(|path| path.is_file()) {
                Some(file) => texts(&file)?,
                None => Texts::new(),
            },
        };
        let folder = arguments.value("--source").map(PathBuf::from);
        let folder = folder.or_else(|| own.and_then(Path::parent).map(Path::to_path_buf));
        Ok(Input { name: name.to_string(), content, texts, folder })
    }

    /// The records; rows 1 to 4 for a column file. Words are taken as they are. A program has none.
    pub fn records(&self) -> Result<Vec<u64>, Refusal> {
        match &self.content {
            Content::Columns(file) => columns_to_records(file),
            Content::Words(words) => Ok(words.clone()),
            Content::Table(table, file) => table_to_records(table, *file),
            Content::Listing(_) => Ok(Vec::new()),
        }
    }

    /// For commands that take bundles alone.
    pub fn bundle(arguments: &Arguments, name: &str) -> Result<Input, Failure> {
        let input = Input::read(arguments, name)?;
        match input.content {
            Content::Listing(_) => Err(Failure::new(format!("{name} is the listing of a program, and no bundle"))),
            _ => Ok(input),
        }
    }
}

fn bytes(name: &str) -> Result<Vec<u8>, Failure> {
    let mut out = Vec::new();
    let read = match name {
        "-" => std::io::stdin().read_to_end(&mut out),
        _ => std::fs::File::open(name).and_then(|mut file| file.read_to_end(&mut out)),
    };
    let shown = if name == "-" { "standard input" } else { name };
    read.map_err(|error| Failure::new(format!("{shown}: {error}")))?;
    Ok(out)
}

/// By its first line: lines of a column file have one length, those of a listing and of a table have others, and words are
/// digits and blanks.
fn form_of(bytes: &[u8]) -> usize {
    let first = bytes.iter().position(|&byte| byte == b'\n').unwrap_or(bytes.len()) + 1;
    let plain = bytes.iter().all(|byte| byte.is_ascii_digit() || byte.is_ascii_whitespace());
    if first == LISTING_LINE_BYTES {
        return LISTING;
    }
    if first == TABLE_LINE_BYTES {
        return TABLE;
    }
    usize::from(first != LINE_BYTES && plain && !bytes.is_empty())
}

/// The file number of a table's document.
fn table_file(arguments: &Arguments, name: &str) -> Result<Text, Failure> {
    let Some(number) = arguments.value("--file") else {
        return Err(Failure::new(format!(
            "{name} is a constant table: `clover convert --file NUMBER` makes a bundle of it"
        )));
    };
    let number =
        number.parse().map_err(|_| Failure::new(format!("`--file` is followed by a number, and not by `{number}`")))?;
    Ok(Text::from_number(number))
}

fn listing(name: &str, bytes: &[u8]) -> Result<Listing, Failure> {
    Listing::read(&String::from_utf8_lossy(bytes)).map_err(|why| Failure::new(format!("{name}: no listing: {why}")))
}

/// Numbers between blanks and newlines.
fn words(name: &str, bytes: &[u8]) -> Result<Vec<u64>, Failure> {
    let text = String::from_utf8_lossy(bytes);
    let mut out = Vec::new();
    for (line, row) in (1..).zip(text.lines()) {
        for word in row.split_whitespace() {
            let number = word.parse().map_err(|_| Failure::new(format!("{name}: line {line}: `{word}` is no word")))?;
            out.push(number);
        }
    }
    Ok(out)
}

fn texts(path: &Path) -> Result<Texts, Failure> {
    let fail = |why: String| Failure::new(format!("{}: {why}", path.display()));
    let file = std::fs::read_to_string(path).map_err(|error| fail(error.to_string()))?;
    Texts::from_lines(&file).map_err(|error| fail(error.to_string()))
}

#[cfg(test)]
mod tests {
    use super::*;

    #[test]
    fn forms_are_told_apart() {
        let line = format!("{:>width$}\n", "1", width = LINE_BYTES - 1);
        assert_eq!(form_of(line.as_bytes()), 0);
        let listed = format!("{:>width$}\n", "1", width = LISTING_LINE_BYTES - 1);
        assert_eq!(form_of(listed.as_bytes()), LISTING);
        let tabled = format!("{:>width$}\n", "1", width = TABLE_LINE_BYTES - 1);
        assert_eq!(form_of(tabled.as_bytes()), TABLE);
        assert_eq!(form_of(b"1 1 0 2\n"), 1);
        assert_eq!(form_of(format!("{:>21}\n", 1).as_bytes()), 1);
        assert_eq!(form_of(b""), 0);
        assert_eq!(form_of(b"no bundle\n"), 0);
    }

    #[test]
    fn words_stand_between_blanks() {
        assert_eq!(words("x", b"  1 2\n\n3\n").ok(), Some(vec![1, 2, 3]));
        let message = words("x", b"1\n18446744073709551616\n").expect_err("too large").to_string();
        assert_eq!(message, "x: line 2: `18446744073709551616` is no word");
    }
}
