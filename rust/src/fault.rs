//! Why a record breaks the tree rules (row 3). The library answers the record's index and no more;
//! what is here reads that record again and says which rule it is. Nothing is decided by it.

use crate::kind::{Infix, Kind, Prefix};
use crate::position::Position;
use crate::records::RECORD_WORDS;
use crate::texts::Text;
use std::fmt;
use std::ops::RangeInclusive;

/// The rule that a record breaks.
#[derive(Clone, Copy, Debug, PartialEq, Eq)]
#[non_exhaustive]
pub enum ShapeFault {
    /// There are no records at all.
    NoRecords,
    /// No kind has this number.
    UnknownKind(u64),
    /// The kind may not stand at its place.
    Misplaced {
        /// The kind.
        kind: Kind,
        /// What it stands in; none for the bundle itself.
        inside: Option<Kind>,
        /// What may stand there.
        wanted: &'static str,
    },
    /// The span is 0.
    SpanZero,
    /// The span passes the end of the record around it, or the last record.
    SpanTooLong {
        /// The span.
        span: u64,
        /// How many records are left there.
        left: u64,
    },
    /// The kind has no position, and the record has one.
    PositionUnused(Kind),
    /// Line or column is beyond the greatest.
    PositionTooLarge,
    /// The kind has no such value.
    Value {
        /// The kind.
        kind: Kind,
        /// The value.
        value: u64,
    },
    /// The text of a `this` parameter is another than before.
    AnotherThis {
        /// This one.
        text: Text,
        /// The first in the bundle.
        first: Text,
    },
    /// A child is due and there is none.
    PartMissing {
        /// The kind of the record.
        kind: Kind,
        /// The child.
        part: &'static str,
    },
}

impl ShapeFault {
    /// Why the library answers row 3 at this record; none where no rule speaks against it, or where a
    /// record before it breaks one.
    pub fn of(tree: &[u64], record: u64) -> Option<ShapeFault> {
        if tree.is_empty() {
            return Some(ShapeFault::NoRecords);
        }
        let (tree, record) = (Tree(tree), usize::try_from(record).ok()?);
        (record < tree.len()).then(|| tree.fault(record)).flatten()
    }
}

impl fmt::Display for ShapeFault {
    fn fmt(&self, out: &mut fmt::Formatter<'_>) -> fmt::Result {
        match *self {
            ShapeFault::NoRecords => write!(out, "there are no records"),
            ShapeFault::UnknownKind(number) => write!(out, "no kind has the number {number}"),
            ShapeFault::Misplaced { kind, inside, wanted } => {
                let place = inside.map_or("a bundle", Kind::word);
                write!(out, "kind {}, {kind}, may not stand here in {place}: {wanted} may", kind.number())
            }
            ShapeFault::SpanZero => write!(out, "its span is 0"),
            ShapeFault::SpanTooLong { span, left } => {
                write!(out, "its span is {span}, and {left} records are left there")
            }
            ShapeFault::PositionUnused(kind) => write!(out, "kind {}, {kind}, has position 0 always", kind.number()),
            ShapeFault::PositionTooLarge => write!(out, "its line or column is over {}", Position::MOST),
            ShapeFault::Value { kind, value } => {
                let (least, most) = values(kind).into_inner();
                write!(out, "kind {}, {kind}, has a value from {least} to {most}, and not {value}", kind.number())
            }
            ShapeFault::AnotherThis { text, first } => {
                write!(out, "a `this` parameter is {text} here and {first} before")
            }
            ShapeFault::PartMissing { kind, part } => write!(out, "kind {}, {kind}, lacks {part}", kind.number()),
        }
    }
}

/// What may stand at a place among a record's children.
#[derive(Clone, Copy, PartialEq)]
enum Place {
    Nothing,
    Document,
    Definition,
    Name,
    Constant,
    ParameterOrStatement,
    Statement,
    Method,
    Expression,
    ExpressionOrAbsent,
    Block,
}

impl Place {
    fn admits(self, kind: Kind) -> bool {
        use Kind::*;
        match self {
            Place::Nothing => false,
            Place::Document => kind == Document,
            Place::Definition => kind.is_definition(),
            Place::Name => kind == Name,
            Place::Constant => {
                matches!(kind, Identifier | Null | Integer | Float | String | Boolean | OtherToken | Absent)
            }
            Place::ParameterOrStatement => matches!(kind, Name | ThisParameter) || kind.is_statement(),
            Place::Statement => kind.is_statement(),
            Place::Method => kind == Function,
            Place::Expression => kind.is_expression(),
            Place::ExpressionOrAbsent => kind.is_expression() || kind == Absent,
            Place::Block => kind == Block,
        }
    }

    fn word(self) -> &'static str {
        match self {
            Place::Nothing => "no more children",
            Place::Document => "documents",
            Place::Definition => "definitions",
            Place::Name => "a name",
            Place::Constant => "a constant's token, another token or an absent value",
            Place::ParameterOrStatement => "parameters and then statements",
            Place::Statement => "statements",
            Place::Method => "functions that are not public",
            Place::Expression => "an expression",
            Place::ExpressionOrAbsent => "an expression or an absent value",
            Place::Block => "a block",
        }
    }
}

/// The place after so many children; `body` once a function's statements have begun.
fn place(parent: Option<Kind>, seen: usize, body: bool) -> Place {
    use Kind::*;
    let Some(parent) = parent else { return Place::Document };
    match (parent, seen) {
        (Document, _) => Place::Definition,
        (LocalDefinition, odd) if odd % 2 == 1 => Place::Constant,
        (LocalStatement, odd) if odd % 2 == 1 => Place::ExpressionOrAbsent,
        (LocalDefinition | LocalStatement | Include | Model | PublicModel, _) => Place::Name,
        (Function | PublicFunction, _) if !body => Place::ParameterOrStatement,
        (Function | PublicFunction | Block, _) => Place::Statement,
        (Implement, _) => Place::Method,
        (Apply, 0 | 1) | (For, 0) => Place::Name,
        (For, 1) | (ExpressionStatement | Prefix | If, 0) => Place::Expression,
        (For, _) => Place::Statement,
        (Array | Call, _) | (Infix | InstanceGet | IndexGet, 0 | 1) => Place::Expression,
        (If, 1 | 2) => Place::Block,
        _ => Place::Nothing,
    }
}

/// The child that is due after so many.
fn due(parent: Kind, seen: usize) -> Option<&'static str> {
    use Kind::*;
    Some(match (parent, seen) {
        (LocalDefinition | LocalStatement, odd) if odd % 2 == 1 => "the value of its last name",
        (Include, odd) if odd % 2 == 1 => "the alias of its last name",
        (Apply, 0) => "its source",
        (Apply, 1) => "its target",
        (For, 0) => "its name",
        (For, 1) => "what it goes through",
        (ExpressionStatement, 0) => "its expression",
        (Infix, 0) => "its left part",
        (Infix, 1) | (Prefix, 0) => "its right part",
        (InstanceGet | IndexGet, 0) => "its instance",
        (InstanceGet | IndexGet, 1) => "its index",
        (If, 0) => "its condition",
        (If, 1) => "its true part",
        (Call, 0) => "its function",
        _ => return None,
    })
}

/// The values of a kind.
fn values(kind: Kind) -> RangeInclusive<u64> {
    match kind {
        Kind::Integer | Kind::Float => 0..=u64::MAX,
        Kind::Boolean => 0..=1,
        Kind::Prefix => 0..=Prefix::Other.number(),
        Kind::Infix => 0..=Infix::Other.number(),
        kind if kind.holds_text() => 1..=Text::MOST,
        _ => 0..=0,
    }
}

#[derive(Clone, Copy)]
struct Tree<'a>(&'a [u64]);

/// Where a record stands.
struct Stand {
    parent: Option<Kind>,
    /// Behind the last record of what it stands in.
    end: usize,
    /// Children before it.
    seen: usize,
    /// Whether one of them is a statement.
    body: bool,
}

impl Tree<'_> {
    fn len(self) -> usize {
        self.0.len() / RECORD_WORDS
    }

    fn record(self, at: usize) -> [u64; RECORD_WORDS] {
        std::array::from_fn(|word| self.0[at * RECORD_WORDS + word])
    }

    fn kind(self, at: usize) -> Option<Kind> {
        Kind::from_number(self.record(at)[0])
    }

    /// The end of a record's subtree; none where its span is 0 or passes `end`.
    fn next(self, at: usize, end: usize) -> Option<usize> {
        let span = usize::try_from(self.record(at)[1]).ok().filter(|&span| span > 0)?;
        at.checked_add(span).filter(|&next| next <= end)
    }

    /// Those before the record must be as the rules have them.
    fn stand(self, record: usize) -> Option<Stand> {
        let mut stand = Stand { parent: None, end: self.len(), seen: 0, body: false };
        let mut at = 0;
        while at < record {
            let next = self.next(at, stand.end)?;
            let kind = self.kind(at)?;
            if next <= record {
                stand.seen += 1;
                stand.body |= kind.is_statement();
                at = next;
            } else {
                stand = Stand { parent: Some(kind), end: next, seen: 0, body: false };
                at += 1;
            }
        }
        (at == record).then_some(stand)
    }

    /// How many children fill a record exactly; none if a span stops the count.
    fn children(self, record: usize, end: usize) -> Option<usize> {
        let (mut at, mut seen) = (record + 1, 0);
        while at < end {
            at = self.next(at, end)?;
            seen += 1;
        }
        Some(seen)
    }

    fn fault(self, record: usize) -> Option<ShapeFault> {
        let stand = self.stand(record)?;
        let [number, span, position, value] = self.record(record);
        let Some(kind) = Kind::from_number(number) else { return Some(ShapeFault::UnknownKind(number)) };
        let place = place(stand.parent, stand.seen, stand.body);
        if !place.admits(kind) {
            return Some(ShapeFault::Misplaced { kind, inside: stand.parent, wanted: place.word() });
        }
        let Some(end) = self.next(record, stand.end) else {
            let left = (stand.end - record) as u64;
            return Some(if span == 0 { ShapeFault::SpanZero } else { ShapeFault::SpanTooLong { span, left } });
        };
        self.own(kind, position, value).or_else(|| self.another_this(record, kind)).or_else(|| {
            let part = due(kind, self.children(record, end)?)?;
            Some(ShapeFault::PartMissing { kind, part })
        })
    }

    fn own(self, kind: Kind, position: u64, value: u64) -> Option<ShapeFault> {
        if !kind.has_position() && position != 0 {
            return Some(ShapeFault::PositionUnused(kind));
        }
        if !Position::from_word(position).is_known() {
            return Some(ShapeFault::PositionTooLarge);
        }
        (!values(kind).contains(&value)).then_some(ShapeFault::Value { kind, value })
    }

    fn another_this(self, record: usize, kind: Kind) -> Option<ShapeFault> {
        let first = (0..record).find(|&at| self.kind(at) == Some(Kind::ThisParameter))?;
        let [first, text] = [first, record].map(|at| Text::from_number(self.record(at)[3]));
        (kind == Kind::ThisParameter && first != text).then_some(ShapeFault::AnotherThis { text, first })
    }
}

#[cfg(test)]
mod tests {
    use super::*;

    fn said(tree: &[[u64; 4]], record: u64) -> String {
        ShapeFault::of(&tree.concat(), record).expect("a fault").to_string()
    }

    #[test]
    fn each_rule_is_named() {
        assert_eq!(ShapeFault::of(&[], 0).expect("one").to_string(), "there are no records");
        assert_eq!(said(&[[99, 1, 0, 2]], 0), "no kind has the number 99");
        assert_eq!(said(&[[14, 1, 0, 2]], 0), "kind 14, function, may not stand here in a bundle: documents may");
        assert_eq!(said(&[[1, 0, 0, 2]], 0), "its span is 0");
        assert_eq!(said(&[[1, 2, 0, 2]], 0), "its span is 2, and 1 records are left there");
        assert_eq!(said(&[[1, 1, 7, 2]], 0), "kind 1, document, has position 0 always");
        assert_eq!(said(&[[1, 1, 0, 0]], 0), "kind 1, document, has a value from 1 to 1048575, and not 0");
        let two = |second: [u64; 4]| said(&[[1, 2, 0, 2], second], 1);
        let far = u64::MAX - 1;
        assert_eq!(two([14, 1, far, 3]), format!("its line or column is over {}", Position::MOST));
        assert_eq!(two([40, 1, 0, 3]), "kind 40, name, may not stand here in document: definitions may");
        assert_eq!(two([17, 1, 0, 0]), "kind 17, apply, lacks its source");
    }

    #[test]
    fn places_are_counted() {
        let head = [[1, 9, 0, 2], [14, 8, 0, 3], [40, 1, 0, 4]];
        let with = |rest: &[[u64; 4]], record| said(&[&head[..], rest].concat(), record);
        let statements = "kind 40, name, may not stand here in function: statements may";
        assert_eq!(with(&[[21, 1, 0, 0], [40, 1, 0, 4], [0; 4], [0; 4], [0; 4], [0; 4]], 4), statements);
        let lacking = [[25, 6, 0, 0], [39, 2, 0, 1], [32, 1, 0, 0], [0; 4], [0; 4], [0; 4]];
        assert_eq!(with(&lacking, 4), "kind 39, infix, lacks its right part");
        let this = [[41, 1, 0, 5], [41, 1, 0, 6], [0; 4], [0; 4], [0; 4], [0; 4]];
        assert_eq!(with(&this, 4), "a `this` parameter is text 6 here and text 5 before");
    }
}
