//! The oracle's command line: what is not known is refused, never passed over.

use std::collections::BTreeMap;

/// A flag of a command: its name, and what follows it.
#[derive(Clone, Copy, Debug, PartialEq, Eq)]
pub enum Flag {
    Switch(&'static str),
    Number(&'static str),
    Word(&'static str),
}

impl Flag {
    fn name(self) -> &'static str {
        match self {
            Flag::Switch(name) | Flag::Number(name) | Flag::Word(name) => name,
        }
    }
}

/// What was given to a command.
#[derive(Clone, Debug, Default, PartialEq, Eq)]
pub struct Arguments {
    given: BTreeMap<&'static str, String>,
    numbers: BTreeMap<&'static str, u64>,
    pub files: Vec<String>,
}

impl Arguments {
    /// The words after a command; `files` says whether it takes any. The error is what to say.
    pub fn read(flags: &[Flag], files: bool, words: &[String]) -> Result<Arguments, String> {
        let mut out = Arguments::default();
        let mut rest = words.iter();
        while let Some(word) = rest.next() {
            let Some(&flag) = flags.iter().find(|flag| flag.name() == word) else {
                if word.starts_with('-') || !files {
                    return Err(format!("`{word}` is not known here; known: {}", known(flags)));
                }
                out.files.push(word.clone());
                continue;
            };
            let follows =
                |word: Option<&String>| word.cloned().ok_or(format!("`{}` is followed by a value", flag.name()));
            let value = match flag {
                Flag::Switch(_) => String::new(),
                Flag::Number(_) | Flag::Word(_) => follows(rest.next())?,
            };
            if let Flag::Number(name) = flag {
                let number =
                    value.parse().map_err(|_| format!("`{name}` is followed by a number, and not by `{value}`"))?;
                out.numbers.insert(name, number);
            }
            if out.given.insert(flag.name(), value).is_some() {
                return Err(format!("`{}` was given twice", flag.name()));
            }
        }
        Ok(out)
    }

    pub fn has(&self, name: &str) -> bool {
        self.given.contains_key(name)
    }

    pub fn number(&self, name: &str, default: u64) -> u64 {
        self.numbers.get(name).copied().unwrap_or(default)
    }

    pub fn word(&self, name: &str) -> Option<&str> {
        self.given.get(name).map(String::as_str)
    }
}

fn known(flags: &[Flag]) -> String {
    if flags.is_empty() {
        return "nothing".to_string();
    }
    flags.iter().map(|flag| flag.name()).collect::<Vec<_>>().join(", ")
}

#[cfg(test)]
mod tests {
    use super::*;

    const FLAGS: [Flag; 3] = [Flag::Number("--count"), Flag::Switch("--large"), Flag::Word("--shape")];

    fn read(words: &str, files: bool) -> Result<Arguments, String> {
        let words: Vec<String> = words.split_whitespace().map(str::to_string).collect();
        Arguments::read(&FLAGS, files, &words)
    }

    #[test]
    fn flags_are_read() {
        let given = read("--count 7 --shape books", false).expect("fine");
        assert_eq!((given.number("--count", 1), given.number("--seed", 3)), (7, 3));
        assert_eq!((given.word("--shape"), given.has("--large")), (Some("books"), false));
        assert_eq!(read("a --large b", true).expect("fine").files, ["a", "b"]);
    }

    #[test]
    fn what_is_not_known_is_refused() {
        let wrong = |words| read(words, false).expect_err("wrong");
        assert_eq!(wrong("--cuont 100000"), "`--cuont` is not known here; known: --count, --large, --shape");
        assert_eq!(wrong("--count 10_000"), "`--count` is followed by a number, and not by `10_000`");
        assert_eq!(wrong("--count -1"), "`--count` is followed by a number, and not by `-1`");
        assert_eq!(wrong("--count"), "`--count` is followed by a value");
        assert_eq!(wrong("--large --large"), "`--large` was given twice");
        assert_eq!(wrong("many"), "`many` is not known here; known: --count, --large, --shape");
    }
}
