//! Definitions of a document.

use super::{Name, Records, Statements};
use crate::kind::Kind;
use crate::position::Position;

/// Writes the definitions of a document.
pub struct Definitions<'a> {
    pub(super) records: &'a mut Records,
}

impl Definitions<'_> {
    /// `local`: names, each with a constant or without.
    pub fn local(&mut self, inside: impl FnOnce(&mut LocalDefinition)) {
        let at = self.records.open(Kind::LocalDefinition, Position::NONE, 0);
        inside(&mut LocalDefinition { records: self.records });
        self.records.close(at);
    }

    /// `include`: names of another file.
    pub fn include(&mut self, file: impl Into<Name>, inside: impl FnOnce(&mut Include)) {
        let at = self.records.name(Kind::Include, file);
        inside(&mut Include { records: self.records });
        self.records.close(at);
    }

    /// `model`: its properties.
    pub fn model(&mut self, name: impl Into<Name>, inside: impl FnOnce(&mut Model)) {
        self.any_model(Kind::Model, name, inside);
    }

    /// `public model`: its properties.
    pub fn public_model(&mut self, name: impl Into<Name>, inside: impl FnOnce(&mut Model)) {
        self.any_model(Kind::PublicModel, name, inside);
    }

    fn any_model(&mut self, kind: Kind, name: impl Into<Name>, inside: impl FnOnce(&mut Model)) {
        let at = self.records.name(kind, name);
        inside(&mut Model { records: self.records });
        self.records.close(at);
    }

    /// `function`: parameters and then the body.
    pub fn function(&mut self, name: impl Into<Name>) -> Function<'_> {
        let at = self.records.name(Kind::Function, name);
        Function { records: self.records, at }
    }

    /// `public function`: parameters and then the body.
    pub fn public_function(&mut self, name: impl Into<Name>) -> Function<'_> {
        let at = self.records.name(Kind::PublicFunction, name);
        Function { records: self.records, at }
    }

    /// `implement`: the methods of a model.
    pub fn implement(&mut self, model: impl Into<Name>, inside: impl FnOnce(&mut Implement)) {
        let at = self.records.name(Kind::Implement, model);
        inside(&mut Implement { records: self.records });
        self.records.close(at);
    }

    /// `apply source to target`.
    pub fn apply(&mut self, source: impl Into<Name>, target: impl Into<Name>) {
        let at = self.records.open(Kind::Apply, Position::NONE, 0);
        self.records.name(Kind::Name, source);
        self.records.name(Kind::Name, target);
        self.records.close(at);
    }
}

/// Writes the names of a `local` definition.
pub struct LocalDefinition<'a> {
    records: &'a mut Records,
}

impl LocalDefinition<'_> {
    fn pair(&mut self, name: impl Into<Name>, kind: Kind, value: u64, position: Position) {
        self.records.name(Kind::Name, name);
        self.records.leaf(kind, position, value);
    }

    /// A name without a value.
    pub fn absent(&mut self, name: impl Into<Name>) {
        self.pair(name, Kind::Absent, 0, Position::NONE);
    }

    /// A name and `null`.
    pub fn null(&mut self, name: impl Into<Name>, position: Position) {
        self.pair(name, Kind::Null, 0, position);
    }

    /// A name and `true` or `false`.
    pub fn boolean(&mut self, name: impl Into<Name>, value: bool, position: Position) {
        self.pair(name, Kind::Boolean, value.into(), position);
    }

    /// A name and an integer.
    pub fn integer(&mut self, name: impl Into<Name>, value: i64, position: Position) {
        self.pair(name, Kind::Integer, value as u64, position);
    }

    /// A name and a float.
    pub fn float(&mut self, name: impl Into<Name>, value: f64, position: Position) {
        self.pair(name, Kind::Float, value.to_bits(), position);
    }

    /// A name and a string: error 5.
    pub fn string(&mut self, name: impl Into<Name>, value: impl Into<Name>) {
        let Name { text, position } = value.into();
        self.pair(name, Kind::String, text.number(), position);
    }

    /// A name and an identifier: error 5.
    pub fn identifier(&mut self, name: impl Into<Name>, value: impl Into<Name>) {
        let Name { text, position } = value.into();
        self.pair(name, Kind::Identifier, text.number(), position);
    }

    /// A name and any other token: error 5.
    pub fn other(&mut self, name: impl Into<Name>, position: Position) {
        self.pair(name, Kind::OtherToken, 0, position);
    }
}

/// Writes the names of an `include`.
pub struct Include<'a> {
    records: &'a mut Records,
}

impl Include<'_> {
    /// A public name of the other file, and what it is called here.
    pub fn name(&mut self, public: impl Into<Name>, alias: impl Into<Name>) {
        self.records.name(Kind::Name, public);
        self.records.name(Kind::Name, alias);
    }
}

/// Writes the properties of a model.
pub struct Model<'a> {
    records: &'a mut Records,
}

impl Model<'_> {
    /// A property.
    pub fn property(&mut self, name: impl Into<Name>) {
        self.records.name(Kind::Name, name);
    }
}

/// Writes the methods of an `implement`.
pub struct Implement<'a> {
    records: &'a mut Records,
}

impl Implement<'_> {
    /// `function`: parameters and then the body.
    pub fn function(&mut self, name: impl Into<Name>) -> Function<'_> {
        let at = self.records.name(Kind::Function, name);
        Function { records: self.records, at }
    }
}

/// Writes a function's parameters, then its body.
#[must_use = "a function is finished by its body"]
pub struct Function<'a> {
    records: &'a mut Records,
    at: usize,
}

impl Function<'_> {
    /// A parameter.
    pub fn parameter(self, name: impl Into<Name>) -> Self {
        self.records.name(Kind::Name, name);
        self
    }

    /// The parameter `this`, with the number of that text, which is one in the whole bundle.
    pub fn this_parameter(self, this: impl Into<Name>) -> Self {
        self.records.name(Kind::ThisParameter, this);
        self
    }

    /// The statements.
    pub fn body(self, inside: impl FnOnce(&mut Statements)) {
        inside(&mut Statements { records: self.records });
        self.records.close(self.at);
    }
}
