//! Reads records: nodes with their children. Any words can be read; a span that is 0 or reaches too
//! far ends the row of children that it stands in.

use crate::kind::Kind;
use crate::position::Position;
use crate::records::RECORD_WORDS;
use crate::texts::Text;

/// A record with those below it.
#[derive(Clone, Copy, Debug)]
pub struct Node<'a> {
    /// Its own four words and those of its subtree.
    words: &'a [u64],
    index: usize,
}

/// The documents of a bundle.
pub fn documents(tree: &[u64]) -> Nodes<'_> {
    Nodes { words: tree, index: 0 }
}

impl<'a> Node<'a> {
    /// Its index among all records, from 0.
    pub fn index(&self) -> usize {
        self.index
    }

    /// Its kind; none for a number that is no kind's.
    pub fn kind(&self) -> Option<Kind> {
        Kind::from_number(self.words[0])
    }

    /// Its place in the source.
    pub fn position(&self) -> Position {
        Position::from_word(self.words[2])
    }

    /// Its value's word.
    pub fn value(&self) -> u64 {
        self.words[3]
    }

    /// Its value as a text, where its kind has one.
    pub fn text(&self) -> Option<Text> {
        self.kind().filter(|kind| kind.holds_text()).map(|_| Text::from_number(self.value()))
    }

    /// Its children.
    pub fn children(&self) -> Nodes<'a> {
        Nodes { words: &self.words[RECORD_WORDS..], index: self.index + 1 }
    }

    /// Itself and all below it, in the order of the records.
    pub fn subtree(&self) -> impl Iterator<Item = Node<'a>> {
        let index = self.index;
        let each = self.words.chunks_exact(RECORD_WORDS).enumerate();
        let words = self.words;
        each.filter_map(move |(at, record)| {
            let end = (at + usize::try_from(record[1]).ok()?).checked_mul(RECORD_WORDS)?;
            Some(Node { words: words.get(at * RECORD_WORDS..end.max((at + 1) * RECORD_WORDS))?, index: index + at })
        })
    }
}

/// Nodes in a row.
#[derive(Clone, Debug)]
pub struct Nodes<'a> {
    words: &'a [u64],
    index: usize,
}

impl<'a> Iterator for Nodes<'a> {
    type Item = Node<'a>;

    fn next(&mut self) -> Option<Node<'a>> {
        let span = usize::try_from(*self.words.get(1)?).ok().filter(|&span| span > 0)?;
        let (words, rest) = self.words.split_at_checked(span.checked_mul(RECORD_WORDS)?)?;
        let index = self.index;
        *self = Nodes { words: rest, index: index + span };
        Some(Node { words, index })
    }
}

#[cfg(test)]
mod tests {
    use super::*;
    use crate::records::Records;

    #[test]
    fn children_in_order() {
        let mut tree = Records::new();
        let (file, f, x) = (Text::from_number(2), Text::from_number(3), Text::from_number(4));
        tree.document(file, |book| {
            let at = Position::new(2, 6);
            book.function(f).parameter(x).body(|body| body.expression(|slot| slot.identifier(x.at(at))));
        });
        tree.document(x, |_| {});
        let files: Vec<_> = documents(tree.words()).map(|node| node.text()).collect();
        assert_eq!(files, [Some(file), Some(x)]);
        let book = documents(tree.words()).next().expect("a document");
        let function = book.children().next().expect("a function");
        assert_eq!((function.kind(), function.text(), function.index()), (Some(Kind::Function), Some(f), 1));
        let kinds: Vec<_> = book.subtree().map(|node| (node.index(), node.kind().expect("a kind").number())).collect();
        assert_eq!(kinds, [(0, 1), (1, 14), (2, 40), (3, 25), (4, 30)]);
        let last = function.subtree().last().expect("an identifier");
        assert_eq!((last.position(), last.text(), last.children().count()), (Position::new(2, 6), Some(x), 0));
    }

    #[test]
    fn any_words_can_be_read() {
        for words in [&[][..], &[1], &[1, 0, 0, 2], &[1, 9, 0, 2], &[1, u64::MAX, 0, 2], &[1, 1, 0]] {
            assert_eq!(documents(words).count(), 0, "{words:?}");
        }
        let odd = [1, 2, 0, 2, 77, 5, 0, 0, 1, 0, 0, 0];
        let node = documents(&odd).next().expect("one");
        assert_eq!((node.children().count(), documents(&odd).count()), (0, 1));
        assert_eq!(node.subtree().count(), 1);
    }
}
