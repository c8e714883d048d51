//! Statements of a function, a loop or a part of an if.

use super::{Filled, Name, Records, Slot};
use crate::kind::Kind;
use crate::position::Position;

/// Writes statements.
pub struct Statements<'a> {
    pub(super) records: &'a mut Records,
}

impl Statements<'_> {
    /// `local`: names, each with an expression or without.
    pub fn local(&mut self, inside: impl FnOnce(&mut LocalStatement)) {
        let at = self.records.open(Kind::LocalStatement, Position::NONE, 0);
        inside(&mut LocalStatement { records: self.records });
        self.records.close(at);
    }

    /// `return`.
    pub fn return_statement(&mut self, position: Position) {
        self.records.leaf(Kind::Return, position, 0);
    }

    /// `break`.
    pub fn break_statement(&mut self, position: Position) {
        self.records.leaf(Kind::Break, position, 0);
    }

    /// `rescue`.
    pub fn rescue_statement(&mut self, position: Position) {
        self.records.leaf(Kind::Rescue, position, 0);
    }

    /// `for name in ..`: what it goes through, then the body.
    pub fn for_statement(&mut self, name: impl Into<Name>, position: Position) -> For<'_> {
        let at = self.records.open(Kind::For, position, 0);
        self.records.name(Kind::Name, name);
        For { records: self.records, at }
    }

    /// An expression that stands by itself.
    pub fn expression(&mut self, value: impl FnOnce(Slot) -> Filled) {
        let at = self.records.open(Kind::ExpressionStatement, Position::NONE, 0);
        self.records.slot(value);
        self.records.close(at);
    }
}

/// Writes the names of a `local` statement.
pub struct LocalStatement<'a> {
    records: &'a mut Records,
}

impl LocalStatement<'_> {
    /// A name and its value.
    pub fn value(&mut self, name: impl Into<Name>, value: impl FnOnce(Slot) -> Filled) {
        self.records.name(Kind::Name, name);
        self.records.slot(value);
    }

    /// A name without a value.
    pub fn absent(&mut self, name: impl Into<Name>) {
        self.records.name(Kind::Name, name);
        self.records.leaf(Kind::Absent, Position::NONE, 0);
    }
}

/// Writes what a loop goes through, then its body.
#[must_use = "a loop is finished by its body"]
pub struct For<'a> {
    records: &'a mut Records,
    at: usize,
}

impl<'a> For<'a> {
    /// What the loop goes through.
    pub fn over(self, enumerable: impl FnOnce(Slot) -> Filled) -> ForBody<'a> {
        self.records.slot(enumerable);
        ForBody { records: self.records, at: self.at }
    }
}

/// Writes a loop's body.
#[must_use = "a loop is finished by its body"]
pub struct ForBody<'a> {
    records: &'a mut Records,
    at: usize,
}

impl ForBody<'_> {
    /// The statements.
    pub fn body(self, inside: impl FnOnce(&mut Statements)) {
        inside(&mut Statements { records: self.records });
        self.records.close(self.at);
    }
}
