//! Texts: numbers to the back end, strings to people. A [`Texts`] knows which is which.

use std::borrow::Cow;
use std::collections::{BTreeMap, HashMap};
use std::fmt;

/// A text by its number. Equal texts have equal numbers; file names are texts too.
#[derive(Clone, Copy, Debug, PartialEq, Eq, Hash, PartialOrd, Ord)]
pub struct Text(u64);

impl Text {
    /// The text `main`.
    pub const MAIN: Text = Text(1);
    /// Numbers are from 1 to this. The library refuses a record with another (row 3).
    pub const MOST: u64 = 1_048_575;

    /// The text with a number, whatever the number is.
    pub const fn from_number(number: u64) -> Text {
        Text(number)
    }

    /// Its number.
    pub const fn number(self) -> u64 {
        self.0
    }
}

impl fmt::Display for Text {
    fn fmt(&self, out: &mut fmt::Formatter<'_>) -> fmt::Result {
        write!(out, "text {}", self.0)
    }
}

/// A table of texts, which gives each new text the next number.
///
/// ```
/// use clover_back_end::{Text, Texts};
///
/// let mut texts = Texts::new();
/// let steep = texts.intern("steep");
/// assert_eq!((texts.intern("main"), texts.intern("steep")), (Text::MAIN, steep));
/// assert_eq!(texts.get(steep), Some("steep"));
/// ```
#[derive(Clone, Debug, PartialEq, Eq)]
pub struct Texts {
    known: BTreeMap<Text, String>,
    numbers: HashMap<String, Text>,
}

impl Default for Texts {
    fn default() -> Texts {
        Texts::new()
    }
}

impl Texts {
    /// A table with `main` alone.
    pub fn new() -> Texts {
        let mut texts = Texts { known: BTreeMap::new(), numbers: HashMap::new() };
        texts.put(Text::MAIN, "main");
        texts
    }

    fn put(&mut self, number: Text, text: &str) {
        self.known.insert(number, text.to_string());
        self.numbers.insert(text.to_string(), number);
    }

    /// The number of a text; a new text gets the number after the greatest. There is room for
    /// [`Text::MOST`] of them; the library refuses a bundle that has a greater number.
    pub fn intern(&mut self, text: &str) -> Text {
        if let Some(&number) = self.numbers.get(text) {
            return number;
        }
        let greatest = self.known.last_key_value().map_or(0, |(number, _)| number.0);
        let number = Text(greatest + 1);
        self.put(number, text);
        number
    }

    /// The number of a text that the table has.
    pub fn find(&self, text: &str) -> Option<Text> {
        self.numbers.get(text).copied()
    }

    /// What a text says.
    pub fn get(&self, text: Text) -> Option<&str> {
        self.known.get(&text).map(String::as_str)
    }

    /// What a text says, or `text N` where the table does not have it.
    pub fn spelt(&self, text: Text) -> Cow<'_, str> {
        self.get(text).map_or_else(|| Cow::Owned(text.to_string()), Cow::Borrowed)
    }

    /// All of them, by number.
    pub fn iter(&self) -> impl Iterator<Item = (Text, &str)> {
        self.known.iter().map(|(&number, text)| (number, text.as_str()))
    }

    /// How many there are.
    pub fn len(&self) -> usize {
        self.known.len()
    }

    /// Never: `main` is always there.
    pub fn is_empty(&self) -> bool {
        self.known.is_empty()
    }

    /// As the library reads them, for errors in words.
    pub fn table(&self) -> TextTable {
        let most = self.known.last_key_value().map_or(0, |(number, _)| number.0 as usize);
        let mut table = TextTable { places: [LACKING; 2].repeat(most), bytes: Vec::new() };
        for (number, text) in self.iter() {
            let first = 2 * number.0 as usize - 2;
            table.places[first] = table.bytes.len() as u64;
            table.places[first + 1] = text.len() as u64;
            table.bytes.extend(text.as_bytes());
        }
        table
    }

    /// As a file: the number in 8 bytes, a blank and the text, a line each. In a text a newline is
    /// written `\n` and a backslash `\\`.
    pub fn to_lines(&self) -> String {
        self.iter().map(|(number, text)| format!("{:>8} {}\n", number.0, escaped(text))).collect()
    }

    /// From such a file.
    pub fn from_lines(file: &str) -> Result<Texts, TextsError> {
        let mut texts = Texts::new();
        for (line, row) in (1..).zip(file.lines()) {
            let entry = row.trim_start_matches(' ').split_once(' ');
            let entry = entry.and_then(|(number, text)| Some((number.parse().ok()?, unescaped(text)?)));
            let (number, text) =
                entry.ok_or_else(|| TextsError { line, what: "is not a number, a blank and a text".to_string() })?;
            let what = texts.clash(Text(number), &text);
            what.map_or(Ok(()), |what| Err(TextsError { line, what }))?;
            texts.put(Text(number), &text);
        }
        Ok(texts)
    }

    /// Why a text can not have a number.
    fn clash(&self, number: Text, text: &str) -> Option<String> {
        if number.0 == 0 || number.0 > Text::MOST {
            return Some(format!("has a number that is not from 1 to {}", Text::MOST));
        }
        if (number == Text::MAIN) != (text == "main") {
            return Some("gives `main` another number than 1".to_string());
        }
        let known = self.known.contains_key(&number) || self.numbers.contains_key(text);
        (number != Text::MAIN && known).then(|| "repeats a number or a text".to_string())
    }
}

/// Start and length of a text that a table lacks: it ends past any bytes.
const LACKING: u64 = u64::MAX;

/// The texts of a [`Texts`] as the library reads them: for each number from 1 on a start and a length, and the bytes
/// that these are of (docs/FORMAT.md, 'Errors in words'). A number without a text has a place past the bytes.
#[derive(Clone, Debug, Default, PartialEq, Eq)]
pub struct TextTable {
    places: Vec<u64>,
    bytes: Vec<u8>,
}

impl TextTable {
    /// Start and length of text n are words 2n - 2 and 2n - 1.
    pub fn places(&self) -> &[u64] {
        &self.places
    }

    /// The bytes of all texts.
    pub fn bytes(&self) -> &[u8] {
        &self.bytes
    }
}

fn escaped(text: &str) -> String {
    text.replace('\\', "\\\\").replace('\n', "\\n").replace('\r', "\\r")
}

fn unescaped(text: &str) -> Option<String> {
    let mut out = String::new();
    let mut rest = text.chars();
    while let Some(next) = rest.next() {
        out.push(match next {
            '\\' => match rest.next()? {
                '\\' => '\\',
                'n' => '\n',
                'r' => '\r',
                _ => return None,
            },
            other => other,
        });
    }
    Some(out)
}

/// What is wrong with a file of texts.
#[derive(Clone, Debug, PartialEq, Eq)]
pub struct TextsError {
    /// The line, from 1.
    pub line: usize,
    what: String,
}

impl fmt::Display for TextsError {
    fn fmt(&self, out: &mut fmt::Formatter<'_>) -> fmt::Result {
        write!(out, "line {} {}", self.line, self.what)
    }
}

impl std::error::Error for TextsError {}

#[cfg(test)]
mod tests {
    use super::*;

    #[test]
    fn texts_come_back_from_their_lines() {
        let mut texts = Texts::new();
        for text in ["snow.clover", "two words", "", "a\\b\nc\r"] {
            texts.intern(text);
        }
        assert_eq!(texts.len(), 5);
        let lines = texts.to_lines();
        assert!(lines.starts_with("       1 main\n       2 snow.clover\n       3 two words\n       4 \n"));
        assert_eq!(Texts::from_lines(&lines), Ok(texts));
    }

    #[test]
    fn tables_may_have_gaps() {
        let mut texts = Texts::from_lines("      7 seven\n").expect("a table");
        assert_eq!((texts.find("seven"), texts.get(Text(2))), (Some(Text(7)), None));
        assert_eq!(texts.spelt(Text(2)), "text 2");
        assert_eq!(texts.intern("eight"), Text(8));
    }

    #[test]
    fn tables_for_the_library_have_places_and_bytes() {
        let texts = Texts::from_lines("       3 \u{e4}b\n       5 \n").expect("a table");
        let table = texts.table();
        let none = u64::MAX;
        assert_eq!(table.places(), [0, 4, none, none, 4, 3, none, none, 7, 0]);
        assert_eq!(table.bytes(), b"main\xC3\xA4b");
    }

    #[test]
    fn bad_tables_are_told_by_line() {
        let bad = |file: &str| Texts::from_lines(file).expect_err("bad").to_string();
        assert_eq!(bad("       1 main\nx y\n"), "line 2 is not a number, a blank and a text");
        assert_eq!(bad("       2 main\n"), "line 1 gives `main` another number than 1");
        assert_eq!(bad("       1 start\n"), "line 1 gives `main` another number than 1");
        assert_eq!(bad("       2 a\n       3 a\n"), "line 2 repeats a number or a text");
        assert_eq!(bad("       2 a\n       2 b\n"), "line 2 repeats a number or a text");
        assert_eq!(bad(" 1048576 a\n"), "line 1 has a number that is not from 1 to 1048575");
        assert_eq!(bad("       2 a\\b\n"), "line 1 is not a number, a blank and a text");
    }
}
