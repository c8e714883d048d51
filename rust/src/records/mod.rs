//! Writes a bundle as records (docs/FORMAT.md, 'Records'). Each writer offers what may stand at its
//! place, and spans come by themselves, so that what is written passes the tree rules wherever its
//! texts and places are in range; the library judges that, and the levels.
//!
//! ```
//! use clover_back_end::records::Records;
//! use clover_back_end::{Infix, Position, Texts};
//!
//! // local steep = 60.0
//! // public function doubled(x) x * 2 end
//! let mut texts = Texts::new();
//! let (steep, doubled, x) = (texts.intern("steep"), texts.intern("doubled"), texts.intern("x"));
//! let mut bundle = Records::new();
//! bundle.document(texts.intern("roof.clover"), |book| {
//!     book.local(|local| local.float(steep.at(Position::new(1, 7)), 60.0, Position::new(1, 15)));
//!     book.public_function(doubled.at(Position::new(2, 17))).parameter(x.at(Position::new(2, 25))).body(|body| {
//!         body.expression(|slot| {
//!             slot.infix(Infix::Star, Position::new(2, 30))
//!                 .left(|slot| slot.identifier(x.at(Position::new(2, 28))))
//!                 .right(|slot| slot.integer(2, Position::new(2, 32)))
//!         });
//!     });
//! });
//! assert_eq!(bundle.len(), 10);
//! ```

mod definitions;
mod expressions;
mod statements;

pub use definitions::{Definitions, Function, Implement, Include, LocalDefinition, Model};
pub use expressions::{
    Call, CallParameters, Filled, Get, GetIndex, If, IfFalse, IfTrue, InfixLeft, InfixRight, Slot, Values,
};
pub use statements::{For, ForBody, LocalStatement, Statements};

use crate::kind::Kind;
use crate::position::Position;
use crate::texts::Text;

/// Words of one record: kind, span, position, value.
pub const RECORD_WORDS: usize = 4;
/// A bundle has at most so many records (row 2).
pub const MAX_RECORDS: usize = 1_048_576;
/// A record stands at most at this level (row 4); a document stands at level 1.
pub const MAX_LEVEL: usize = 64;

/// A text at its place.
#[derive(Clone, Copy, Debug, PartialEq, Eq, Hash)]
pub struct Name {
    /// What it says.
    pub text: Text,
    /// Where it stands.
    pub position: Position,
}

impl Text {
    /// The text at a place.
    pub const fn at(self, position: Position) -> Name {
        Name { text: self, position }
    }
}

/// A text without a place.
impl From<Text> for Name {
    fn from(text: Text) -> Name {
        text.at(Position::NONE)
    }
}

/// A bundle under way: documents, the first of which is the root.
#[derive(Clone, Debug, Default, PartialEq, Eq)]
pub struct Records {
    words: Vec<u64>,
}

impl Records {
    /// No documents yet.
    pub fn new() -> Records {
        Records::default()
    }

    /// A document: its file and its definitions.
    pub fn document(&mut self, file: Text, inside: impl FnOnce(&mut Definitions)) {
        let at = self.open(Kind::Document, Position::NONE, file.number());
        inside(&mut Definitions { records: self });
        self.close(at);
    }

    /// What the calls take.
    pub fn words(&self) -> &[u64] {
        &self.words
    }

    /// The same without a copy.
    pub fn into_words(self) -> Vec<u64> {
        self.words
    }

    /// How many records.
    pub fn len(&self) -> usize {
        self.words.len() / RECORD_WORDS
    }

    /// Whether there are none.
    pub fn is_empty(&self) -> bool {
        self.words.is_empty()
    }

    /// Writes a record and says where, for [`close`](Records::close).
    fn open(&mut self, kind: Kind, position: Position, value: u64) -> usize {
        let at = self.words.len();
        self.words.extend([kind.number(), 1, position.word(), value]);
        at
    }

    /// All that was written since `at` is the record's subtree.
    fn close(&mut self, at: usize) {
        self.words[at + 1] = ((self.words.len() - at) / RECORD_WORDS) as u64;
    }

    fn leaf(&mut self, kind: Kind, position: Position, value: u64) {
        self.open(kind, position, value);
    }

    fn name(&mut self, kind: Kind, name: impl Into<Name>) -> usize {
        let Name { text, position } = name.into();
        self.open(kind, position, text.number())
    }

    fn slot(&mut self, inside: impl FnOnce(Slot) -> Filled) {
        let Filled(()) = inside(Slot { records: self });
    }
}

#[cfg(test)]
mod tests {
    use super::*;
    use crate::kind::Prefix;

    const X: Text = Text::from_number(4);
    const NONE: Position = Position::NONE;

    fn columns(records: &Records) -> (Vec<u64>, Vec<u64>) {
        let each = records.words().chunks(RECORD_WORDS);
        (each.clone().map(|record| record[0]).collect(), each.map(|record| record[1]).collect())
    }

    #[test]
    fn spans_hold_the_subtree() {
        let mut tree = Records::new();
        tree.document(Text::from_number(2), |book| {
            let f = Text::from_number(3).at(Position::new(1, 10));
            book.function(f).parameter(X).body(|body| body.expression(|slot| slot.null(NONE)));
        });
        tree.document(Text::from_number(5), |_| {});
        assert_eq!(columns(&tree), (vec![1, 14, 40, 25, 32, 1], vec![5, 4, 1, 2, 1, 1]));
        assert_eq!((tree.len(), tree.words()[6], tree.words()[7]), (6, Position::new(1, 10).word(), 3));
    }

    #[test]
    fn expressions_have_their_parts_in_order() {
        let mut tree = Records::new();
        tree.document(Text::from_number(2), |book| {
            book.function(X).body(|body| {
                body.expression(|slot| {
                    slot.if_expression()
                        .condition(|slot| slot.boolean(true, NONE))
                        .then(|body| body.return_statement(NONE))
                        .otherwise(|body| body.break_statement(NONE))
                });
                body.for_statement(X, NONE).over(|slot| slot.this(NONE)).body(|body| body.rescue_statement(NONE));
                body.expression(|slot| {
                    slot.call(NONE).function(|slot| slot.identifier(X)).parameters(|values| {
                        values.value(|slot| {
                            let get = slot.instance_get(NONE).instance(|slot| slot.identifier(X));
                            get.index(|slot| slot.string(X))
                        });
                        values.value(|slot| slot.prefix(Prefix::Minus, NONE, |slot| slot.float(0.5, NONE)));
                    })
                });
            });
        });
        let kinds = vec![1, 14, 25, 42, 36, 43, 21, 43, 22, 24, 40, 31, 23, 25, 44, 30, 45, 30, 35, 38, 34];
        let spans = vec![21, 20, 7, 6, 1, 2, 1, 2, 1, 4, 1, 1, 1, 8, 7, 1, 3, 1, 1, 2, 1];
        assert_eq!(columns(&tree), (kinds, spans));
    }

    #[test]
    fn definitions_have_their_names() {
        let mut tree = Records::new();
        tree.document(Text::from_number(2), |book| {
            book.include(X, |names| names.name(X, X));
            book.local(|local| {
                local.float(X, 0.5, NONE);
                local.absent(X);
            });
            book.public_model(X, |model| model.property(X));
            book.implement(X, |methods| {
                methods.function(X).this_parameter(X).body(|body| body.local(|local| local.absent(X)));
            });
            book.apply(X, X);
        });
        let kinds = vec![1, 11, 40, 40, 10, 40, 34, 40, 49, 13, 40, 16, 14, 41, 20, 40, 49, 17, 40, 40];
        let spans = vec![20, 3, 1, 1, 5, 1, 1, 1, 1, 2, 1, 6, 5, 1, 3, 1, 1, 3, 1, 1];
        assert_eq!(columns(&tree), (kinds, spans));
    }
}
