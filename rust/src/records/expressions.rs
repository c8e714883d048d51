//! Expressions: each is written into a slot.

use super::{Name, Records, Statements};
use crate::kind::{Infix, Kind, Prefix};
use crate::position::Position;

/// The place of one expression. Writing it gives a [`Filled`], which whoever handed the slot out
/// wants back.
#[must_use = "an expression is due here"]
pub struct Slot<'a> {
    pub(super) records: &'a mut Records,
}

/// Says that a [`Slot`]'s expression is written.
#[must_use = "give it back to whoever handed the slot out"]
pub struct Filled(pub(super) ());

impl<'a> Slot<'a> {
    fn leaf(self, kind: Kind, position: Position, value: u64) -> Filled {
        self.records.leaf(kind, position, value);
        Filled(())
    }

    fn text(self, kind: Kind, name: impl Into<Name>) -> Filled {
        self.records.name(kind, name);
        Filled(())
    }

    fn open(self, kind: Kind, position: Position, value: u64) -> (&'a mut Records, usize) {
        let at = self.records.open(kind, position, value);
        (self.records, at)
    }

    /// An identifier.
    pub fn identifier(self, name: impl Into<Name>) -> Filled {
        self.text(Kind::Identifier, name)
    }

    /// `this`.
    pub fn this(self, position: Position) -> Filled {
        self.leaf(Kind::This, position, 0)
    }

    /// `null`.
    pub fn null(self, position: Position) -> Filled {
        self.leaf(Kind::Null, position, 0)
    }

    /// An integer.
    pub fn integer(self, value: i64, position: Position) -> Filled {
        self.leaf(Kind::Integer, position, value as u64)
    }

    /// A float, with all its bits.
    pub fn float(self, value: f64, position: Position) -> Filled {
        self.leaf(Kind::Float, position, value.to_bits())
    }

    /// A string.
    pub fn string(self, text: impl Into<Name>) -> Filled {
        self.text(Kind::String, text)
    }

    /// `true` or `false`.
    pub fn boolean(self, value: bool, position: Position) -> Filled {
        self.leaf(Kind::Boolean, position, value.into())
    }

    /// An array of values.
    pub fn array(self, position: Position, values: impl FnOnce(&mut Values)) -> Filled {
        let (records, at) = self.open(Kind::Array, position, 0);
        values(&mut Values { records });
        records.close(at);
        Filled(())
    }

    /// What stands before an expression, and the expression.
    pub fn prefix(self, prefix: Prefix, position: Position, right: impl FnOnce(Slot) -> Filled) -> Filled {
        let (records, at) = self.open(Kind::Prefix, position, prefix.number());
        records.slot(right);
        records.close(at);
        Filled(())
    }

    /// Two expressions and what stands between them.
    pub fn infix(self, infix: Infix, position: Position) -> InfixLeft<'a> {
        let (records, at) = self.open(Kind::Infix, position, infix.number());
        InfixLeft { records, at }
    }

    /// `if`, which has a value too.
    pub fn if_expression(self) -> If<'a> {
        let (records, at) = self.open(Kind::If, Position::NONE, 0);
        If { records, at }
    }

    /// A call; the position is that of its opening parenthesis.
    pub fn call(self, position: Position) -> Call<'a> {
        let (records, at) = self.open(Kind::Call, position, 0);
        Call { records, at }
    }

    /// `instance.index`, where the index is mostly a string.
    pub fn instance_get(self, position: Position) -> Get<'a> {
        let (records, at) = self.open(Kind::InstanceGet, position, 0);
        Get { records, at }
    }

    /// `instance[index]`.
    pub fn index_get(self, position: Position) -> Get<'a> {
        let (records, at) = self.open(Kind::IndexGet, position, 0);
        Get { records, at }
    }
}

/// Writes values in a row: of an array, or the parameters of a call.
pub struct Values<'a> {
    records: &'a mut Records,
}

impl Values<'_> {
    /// One more value.
    pub fn value(&mut self, value: impl FnOnce(Slot) -> Filled) {
        self.records.slot(value);
    }
}

/// A step of an expression with parts: its name is the next part's.
macro_rules! step {
    ($(#[$about:meta])* $step:ident, $(#[$part_about:meta])* $part:ident, $next:ident) => {
        $(#[$about])*
        #[must_use = "the expression has another part"]
        pub struct $step<'a> {
            records: &'a mut Records,
            at: usize,
        }

        impl<'a> $step<'a> {
            $(#[$part_about])*
            pub fn $part(self, part: impl FnOnce(Slot) -> Filled) -> $next<'a> {
                self.records.slot(part);
                $next { records: self.records, at: self.at }
            }
        }
    };
}

/// The last step of an expression with parts.
macro_rules! last_step {
    ($(#[$about:meta])* $step:ident, $(#[$part_about:meta])* $part:ident) => {
        $(#[$about])*
        #[must_use = "the expression has another part"]
        pub struct $step<'a> {
            records: &'a mut Records,
            at: usize,
        }

        impl $step<'_> {
            $(#[$part_about])*
            pub fn $part(self, part: impl FnOnce(Slot) -> Filled) -> Filled {
                self.records.slot(part);
                self.records.close(self.at);
                Filled(())
            }
        }
    };
}

step! {
    /// Writes the left part of an infix.
    InfixLeft,
    /// The left part; the right one follows.
    left, InfixRight
}

last_step! {
    /// Writes the right part of an infix.
    InfixRight,
    /// The right part.
    right
}

step! {
    /// Writes what a get reads from.
    Get,
    /// What it reads from; the index follows.
    instance, GetIndex
}

last_step! {
    /// Writes the index of a get.
    GetIndex,
    /// The index.
    index
}

step! {
    /// Writes what is called.
    Call,
    /// What is called; the parameters follow.
    function, CallParameters
}

/// Writes the parameters of a call.
#[must_use = "a call is finished by its parameters"]
pub struct CallParameters<'a> {
    records: &'a mut Records,
    at: usize,
}

impl CallParameters<'_> {
    /// The parameters.
    pub fn parameters(self, values: impl FnOnce(&mut Values)) -> Filled {
        values(&mut Values { records: self.records });
        self.records.close(self.at);
        Filled(())
    }
}

step! {
    /// Writes the condition of an if.
    If,
    /// The condition; the true part follows.
    condition, IfTrue
}

/// Writes the true part of an if.
#[must_use = "an if has a true part"]
pub struct IfTrue<'a> {
    records: &'a mut Records,
    at: usize,
}

impl<'a> IfTrue<'a> {
    /// The true part.
    pub fn then(self, inside: impl FnOnce(&mut Statements)) -> IfFalse<'a> {
        block(self.records, inside);
        IfFalse { records: self.records, at: self.at }
    }
}

/// Writes the false part of an if, or ends it.
#[must_use = "say whether there is a false part"]
pub struct IfFalse<'a> {
    records: &'a mut Records,
    at: usize,
}

impl IfFalse<'_> {
    /// The false part.
    pub fn otherwise(self, inside: impl FnOnce(&mut Statements)) -> Filled {
        block(self.records, inside);
        self.end()
    }

    /// No false part.
    pub fn end(self) -> Filled {
        self.records.close(self.at);
        Filled(())
    }
}

fn block(records: &mut Records, inside: impl FnOnce(&mut Statements)) {
    let at = records.open(Kind::Block, Position::NONE, 0);
    inside(&mut Statements { records });
    records.close(at);
}
