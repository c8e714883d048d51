//! The command line: commands with their options, and what was given.

use crate::style::counted;
use std::collections::BTreeMap;
use std::fmt;

/// How a command ended.
#[derive(Clone, Copy, Debug, PartialEq, Eq)]
pub enum Verdict {
    /// Exit status 0.
    Delivered,
    /// Exit status 1.
    Refused,
    /// Exit status 3: two bundles differ, and that was asked for.
    Changed,
}

/// Why a command did not run: exit status 2.
#[derive(Clone, Debug, PartialEq, Eq)]
pub struct Failure(String);

impl Failure {
    pub fn new(message: impl Into<String>) -> Failure {
        Failure(message.into())
    }
}

impl fmt::Display for Failure {
    fn fmt(&self, out: &mut fmt::Formatter<'_>) -> fmt::Result {
        out.write_str(&self.0)
    }
}

/// An option: its name with the dashes, what follows it, and what it does.
pub struct Choice {
    pub name: &'static str,
    pub value: Option<&'static str>,
    pub about: &'static str,
}

pub struct Command {
    pub name: &'static str,
    /// The files it takes, as in a usage line.
    pub operands: &'static str,
    /// How many files: the fewest and the most.
    pub files: (usize, usize),
    pub about: &'static str,
    pub details: &'static str,
    pub choices: &'static [&'static [Choice]],
    pub run: fn(&Arguments) -> Result<(Verdict, String), Failure>,
}

const HELP: Choice = Choice { name: "--help", value: None, about: "says this" };

impl Command {
    fn each(&self) -> impl Iterator<Item = &Choice> {
        self.choices.iter().flat_map(|group| group.iter()).chain([&HELP])
    }

    pub fn help(&self) -> String {
        let left = |choice: &Choice| match choice.value {
            Some(value) => format!("{} {value}", choice.name),
            None => choice.name.to_string(),
        };
        let wide = self.each().map(|choice| left(choice).len()).max().unwrap_or(0);
        let rows: String = self.each().map(|choice| format!("  {:<wide$}  {}\n", left(choice), choice.about)).collect();
        let (name, operands) = (self.name, self.operands);
        format!("Usage: clover {name} [OPTION ..] {operands}\n\n{}\n\n{}\n{rows}", self.details.trim(), "Options:")
    }
}

/// What was given to a command.
#[derive(Debug)]
pub struct Arguments {
    values: BTreeMap<&'static str, String>,
    pub files: Vec<String>,
}

impl Arguments {
    /// None where help was asked for.
    pub fn read(command: &'static Command, words: &[String]) -> Result<Option<Arguments>, Failure> {
        let mut given = Arguments { values: BTreeMap::new(), files: Vec::new() };
        let mut rest = words.iter();
        while let Some(word) = rest.next() {
            if word == "--" {
                given.files.extend(rest.by_ref().cloned());
            } else if word == "-h" || word == HELP.name {
                return Ok(None);
            } else if word.starts_with('-') && word != "-" {
                given.option(command, word, &mut rest)?;
            } else {
                given.files.push(word.clone());
            }
        }
        let (fewest, most) = command.files;
        if (fewest..=most).contains(&given.files.len()) {
            return Ok(Some(given));
        }
        let usage = format!("clover {} [OPTION ..] {}", command.name, command.operands);
        let were = if given.files.len() == 1 { "was" } else { "were" };
        Err(Failure::new(format!("{} {were} given; usage: {usage}", counted(given.files.len(), "file"))))
    }

    fn option<'a>(
        &mut self,
        command: &'static Command,
        word: &str,
        rest: &mut impl Iterator<Item = &'a String>,
    ) -> Result<(), Failure> {
        let (name, joined) = word.split_once('=').map_or((word, None), |(name, value)| (name, Some(value)));
        let Some(choice) = command.each().find(|choice| choice.name == name) else {
            let near = nearest(name, command.each().map(|choice| choice.name));
            let hint = near.map_or_else(String::new, |near| format!("; did you mean `{near}`?"));
            return Err(Failure::new(format!("`clover {}` has no option `{name}`{hint}", command.name)));
        };
        let value = match (choice.value, joined) {
            (None, None) => String::new(),
            (None, Some(_)) => return Err(Failure::new(format!("`{name}` takes no value"))),
            (Some(_), Some(value)) => value.to_string(),
            (Some(wanted), None) => {
                rest.next().cloned().ok_or_else(|| Failure::new(format!("`{name}` is followed by {wanted}")))?
            }
        };
        if self.values.insert(choice.name, value).is_some() {
            return Err(Failure::new(format!("`{name}` was given twice")));
        }
        Ok(())
    }

    pub fn has(&self, name: &str) -> bool {
        self.values.contains_key(name)
    }

    pub fn value(&self, name: &str) -> Option<&str> {
        self.values.get(name).map(String::as_str)
    }

    /// A number that an option was given, or the default.
    pub fn number(&self, name: &str, default: usize) -> Result<usize, Failure> {
        let Some(text) = self.value(name) else { return Ok(default) };
        text.parse().map_err(|_| Failure::new(format!("`{name}` is followed by a number, and not by `{text}`")))
    }

    /// One of several words that an option was given, by its place among them.
    pub fn one_of(&self, name: &str, words: &[&str]) -> Result<Option<usize>, Failure> {
        let Some(text) = self.value(name) else { return Ok(None) };
        let place = words.iter().position(|&word| word == text);
        place
            .map(Some)
            .ok_or_else(|| Failure::new(format!("`{name}` is followed by {}, and not by `{text}`", or(words))))
    }
}

fn or(words: &[&str]) -> String {
    words.iter().map(|word| format!("`{word}`")).collect::<Vec<_>>().join(" or ")
}

/// The word that was perhaps meant: the one with the fewest letters to change, at most two.
pub fn nearest<'a>(given: &str, known: impl Iterator<Item = &'a str>) -> Option<&'a str> {
    known.map(|word| (changes(given, word), word)).filter(|(changes, _)| *changes <= 2).min().map(|(_, word)| word)
}

/// How many letters must be put in, left out or replaced.
fn changes(from: &str, to: &str) -> usize {
    let to: Vec<char> = to.chars().collect();
    let mut row: Vec<usize> = (0..=to.len()).collect();
    for (at, letter) in from.chars().enumerate() {
        let mut corner = row[0];
        row[0] = at + 1;
        for (column, &other) in to.iter().enumerate() {
            let kept = corner + usize::from(letter != other);
            corner = row[column + 1];
            row[column + 1] = kept.min(row[column] + 1).min(corner + 1);
        }
    }
    row[to.len()]
}

#[cfg(test)]
mod tests {
    use super::*;

    const COMMAND: Command = Command {
        name: "try",
        operands: "FILE",
        files: (1, 1),
        about: "",
        details: "",
        choices: &[&[
            Choice { name: "--count", value: Some("N"), about: "" },
            Choice { name: "--quick", value: None, about: "" },
        ]],
        run: |_| Ok((Verdict::Delivered, String::new())),
    };

    fn read(words: &str) -> Result<Option<Arguments>, Failure> {
        let words: Vec<String> = words.split_whitespace().map(str::to_string).collect();
        Arguments::read(&COMMAND, &words)
    }

    #[test]
    fn options_and_files() {
        let given = read("--count 7 a").expect("fine").expect("no help");
        assert_eq!(
            (given.number("--count", 1), given.has("--quick"), given.files),
            (Ok(7), false, vec!["a".to_string()])
        );
        let given = read("--count=7 -- --quick").expect("fine").expect("no help");
        assert_eq!((given.has("--quick"), given.files), (false, vec!["--quick".to_string()]));
        assert!(read("a --help").expect("fine").is_none());
    }

    #[test]
    fn what_is_wrong_is_said() {
        let wrong = |words: &str| read(words).expect_err("wrong").to_string();
        assert_eq!(wrong("--cuont 7 a"), "`clover try` has no option `--cuont`; did you mean `--count`?");
        assert_eq!(wrong("--other a"), "`clover try` has no option `--other`");
        assert_eq!(wrong("--quick=1 a"), "`--quick` takes no value");
        assert_eq!(wrong("a --count"), "`--count` is followed by N");
        assert_eq!(wrong("--quick --quick a"), "`--quick` was given twice");
        assert_eq!(wrong("a b"), "2 files were given; usage: clover try [OPTION ..] FILE");
        let given = read("--count x a").expect("fine").expect("no help");
        let message = "`--count` is followed by a number, and not by `x`";
        assert_eq!(given.number("--count", 1).expect_err("wrong").to_string(), message);
    }
}
