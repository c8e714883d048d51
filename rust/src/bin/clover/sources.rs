//! The sources of a bundle's books, for their lines.

use clover_back_end::nodes::{documents, Node};
use clover_back_end::{Kind, Position, Text, Texts};
use std::collections::BTreeMap;
use std::path::Path;

/// Lines of the books whose sources were found.
#[derive(Default)]
pub struct Sources {
    lines: BTreeMap<Text, Vec<String>>,
}

impl Sources {
    /// Reads the source of each book, by the name that its file has in the table.
    pub fn read(folder: Option<&Path>, files: &[Text], texts: &Texts) -> Sources {
        let Some(folder) = folder else { return Sources::default() };
        let found = files.iter().filter_map(|&file| {
            let source = std::fs::read_to_string(folder.join(texts.get(file)?)).ok()?;
            Some((file, source.lines().map(str::to_string).collect()))
        });
        Sources { lines: found.collect() }
    }

    /// A line of a book, from 1.
    pub fn line(&self, file: Text, line: u32) -> Option<&str> {
        let at = usize::try_from(line).ok()?.checked_sub(1)?;
        self.lines.get(&file)?.get(at).map(String::as_str)
    }

    /// What a source has at a place, as far as the text is long.
    fn at(&self, file: Text, position: Position, length: usize) -> Option<String> {
        let before = usize::try_from(position.column).ok()?.checked_sub(1)?;
        Some(self.line(file, position.line)?.chars().skip(before).take(length).collect())
    }

    /// Notes for sources that can not be those of the bundle: one name each that is not at its place.
    pub fn doubts(&self, tree: &[u64], texts: &Texts) -> Vec<String> {
        documents(tree).filter_map(|document| self.doubt(document, texts)).collect()
    }

    fn doubt(&self, document: Node, texts: &Texts) -> Option<String> {
        let file = document.text().filter(|file| self.lines.contains_key(file))?;
        let plain = |node: &Node| matches!(node.kind(), Some(Kind::Identifier | Kind::Name | Kind::Function));
        let named = document.subtree().filter(|node| plain(node) && node.position() != Position::NONE);
        let wrong = named
            .filter_map(|node| Some((node.position(), texts.get(node.text()?)?)))
            .find(|(place, name)| self.at(file, *place, name.chars().count()).as_deref() != Some(*name));
        let (Position { line, column }, name) = wrong?;
        let source = texts.spelt(file);
        Some(format!("line {line}, column {column} of {source} is not `{name}`: is it the source of this bundle?"))
    }
}
