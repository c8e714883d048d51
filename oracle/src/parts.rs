//! The parts of the program `word_cases`: in its `stdin` and in its `stdout` the lines behind `part NAME`, up to the next
//! part's line.

use std::ops::Range;
use std::path::PathBuf;

const PARTS: [&str; 5] = ["shapes", "slots", "programs", "tables", "errors"];

/// What one part reads, and what it must write.
pub struct Part {
    pub given: String,
    pub wanted: String,
}

fn path(file: &str) -> PathBuf {
    PathBuf::from(env!("CARGO_MANIFEST_DIR")).join("../crates/word_cases").join(file)
}

/// Where the part's own line begins; the end of the text where it has none.
fn head(text: &str, part: &str) -> usize {
    let line = format!("part {part}\n");
    let begins = |at: usize| at == 0 || text.as_bytes()[at - 1] == b'\n';
    text.match_indices(&line).map(|(at, _)| at).find(|&at| begins(at)).unwrap_or(text.len())
}

/// Where the part's cases stand.
fn place(text: &str, part: &str) -> Range<usize> {
    let start = head(text, part);
    assert!(start < text.len(), "no part {part}");
    let next = PARTS.iter().skip_while(|&&name| name != part).nth(1);
    start + "part \n".len() + part.len()..next.map_or(text.len(), |next| head(text, next))
}

/// The part as it is stored.
pub fn stored(part: &str) -> Part {
    let read = |file: &str| {
        let text = std::fs::read_to_string(path(file)).expect("a stored file");
        text[place(&text, part)].to_string()
    };
    Part { given: read("stdin"), wanted: read("stdout") }
}

/// Whether the part as it is stored is this one.
pub fn is_stored(name: &str, part: &Part) -> bool {
    let stored = stored(name);
    stored.given == part.given && stored.wanted == part.wanted
}

/// Stores the part in place of what is stored of it.
pub fn store(name: &str, part: Part) {
    for (file, cases) in [("stdin", part.given), ("stdout", part.wanted)] {
        let mut text = std::fs::read_to_string(path(file)).expect("a stored file");
        text.replace_range(place(&text, name), &cases);
        std::fs::write(path(file), text).expect("the folder is writable");
    }
}

#[cfg(test)]
mod tests {
    use super::*;

    #[test]
    fn a_part_ends_where_the_next_begins() {
        let text = "part shapes\na: 1\npart slots\nb: 2\nno part programs\npart programs\n";
        assert_eq!(&text[place(text, "shapes")], "a: 1\n");
        assert_eq!(&text[place(text, "slots")], "b: 2\nno part programs\n");
        assert!(text[place(text, "programs")].is_empty());
    }

    #[test]
    fn every_part_is_stored() {
        for part in PARTS {
            let stored = stored(part);
            assert!(!stored.given.is_empty() && !stored.wanted.is_empty(), "{part}");
        }
    }
}
