//! What two bundles are compared by beside their functions: books, top-level names, models, what is
//! public, the globals and the entry point.

use crate::diff::Side;
use clover_back_end::nodes::documents;
use clover_back_end::{Constant, Kind, Model, OpCode, Position, Text};
use std::collections::{BTreeMap, BTreeSet};

/// Something with a name.
pub struct Entry {
    pub name: String,
    /// Empty where there is no more to it than being there.
    pub value: String,
    /// The book, and the line where it is known.
    pub place: String,
    /// The number of a top-level name.
    pub context: Option<u64>,
}

/// By book and name.
pub type Entries = BTreeMap<(String, String), Entry>;

/// What the entries are, and how they are found.
type Section = (&'static str, fn(&Side) -> Entries);

pub const SECTIONS: [Section; 7] = [
    ("book", books),
    ("local", locals),
    ("properties of model", properties),
    ("methods of model", methods),
    ("public name", public_names),
    ("global of the host", globals),
    ("the program's", program),
];

fn entry(name: impl Into<String>, value: impl Into<String>, place: impl Into<String>) -> Entry {
    Entry { name: name.into(), value: value.into(), place: place.into(), context: None }
}

/// Entries that belong to no book.
fn loose(entries: impl Iterator<Item = Entry>) -> Entries {
    entries.map(|entry| ((String::new(), entry.name.clone()), entry)).collect()
}

fn books(side: &Side) -> Entries {
    loose(side.names.program.books().map(|file| entry(side.names.text(file), "", "")))
}

/// Where a top-level name is defined.
fn defined(side: &Side, file: Text, name: Text) -> Position {
    let book = documents(&side.bundle.tree).find(|book| book.text() == Some(file));
    let definitions = book.into_iter().flat_map(|book| book.children());
    let locals = definitions.filter(|node| matches!(node.kind(), Some(Kind::LocalDefinition | Kind::Include)));
    let names = locals.flat_map(|node| node.children()).filter(|node| node.kind() == Some(Kind::Name));
    names.filter(|node| node.text() == Some(name)).map(|node| node.position()).next().unwrap_or_default()
}

fn place(side: &Side, file: u64, line: u32) -> String {
    let book = side.names.book(file);
    if line > 0 {
        format!("{book}, line {line}")
    } else {
        book
    }
}

/// Top-level names with the values that they start with.
fn locals(side: &Side) -> Entries {
    let names = &side.names;
    let mut out = BTreeMap::new();
    for (index, local) in (0..).zip(names.program.context_locals()) {
        let constant = local.constant.and_then(|constant| Some((constant, names.program.constant(constant)?)));
        let unknown = local.name.number() == 0;
        let value = match constant {
            None | Some((_, Constant::Function(_) | Constant::Model(_))) if unknown => continue,
            None => "no value".to_string(),
            Some((_, Constant::Function(function))) if own_function(side, local.file, function) => continue,
            Some((_, Constant::Model(model))) if own_model(side, local.file, model) => continue,
            Some((constant, Constant::Function(_) | Constant::Model(_))) => names.constant(constant),
            Some((_, value)) => value.spelt(names.texts),
        };
        let line = names.program.book(local.file).map_or(0, |file| defined(side, file, local.name).line);
        let place = if unknown { String::new() } else { place(side, local.file, line) };
        let name = if unknown { format!("{index} of the context") } else { names.text(local.name) };
        let mut entry = entry(name, value, place);
        entry.context = Some(index);
        out.insert((names.book(local.file), entry.name.clone()), entry);
    }
    out
}

fn own_function(side: &Side, file: u64, index: u64) -> bool {
    side.names.program.function(index).is_some_and(|function| function.file() == file)
}

fn own_model(side: &Side, file: u64, index: u64) -> bool {
    side.names.program.model(index).is_some_and(|model| model.file() == file)
}

/// The functions that read a top-level name, with their lines.
pub fn readers(side: &Side, index: u64) -> String {
    let mut out = Vec::new();
    for function in side.names.program.functions() {
        let reads = function
            .instructions()
            .filter(|(instruction, _)| instruction.opcode() == OpCode::ContextGet && instruction.operand() == index);
        let lines: BTreeSet<u32> = reads.map(|(_, position)| position.line).collect();
        let words: Vec<String> = lines.iter().map(u32::to_string).collect();
        if !lines.is_empty() {
            let what = if lines.len() == 1 { "line" } else { "lines" };
            out.push(format!("{} ({what} {})", side.names.function(function), words.join(", ")));
        }
    }
    if out.is_empty() {
        String::new()
    } else {
        format!("\n  read in {}", out.join("; "))
    }
}

/// Something of each model.
fn models(side: &Side, value: impl Fn(Model) -> Vec<String>) -> Entries {
    let names = &side.names;
    let each = names.program.models().map(|model| {
        let (name, book) = (names.text(model.name()), names.book(model.file()));
        ((book.clone(), name.clone()), entry(name, listed(&value(model)), book))
    });
    each.collect()
}

fn properties(side: &Side) -> Entries {
    models(side, |model| model.properties().map(|name| side.names.text(name)).collect())
}

/// Each method, with the model whose function it is where that is another.
fn methods(side: &Side) -> Entries {
    let names = &side.names;
    models(side, |model| {
        let each = model.methods().map(|method| {
            let function = names.program.function(method.function);
            let from = function.and_then(|function| names.known(function).model).filter(|&from| from != model.name());
            let from = from.map_or_else(String::new, |from| format!(" of {}", names.text(from)));
            format!("{}{from}", names.text(method.name))
        });
        each.collect::<BTreeSet<_>>().into_iter().collect()
    })
}

fn listed(words: &[String]) -> String {
    if words.is_empty() {
        "none".to_string()
    } else {
        words.join(", ")
    }
}

fn public_names(side: &Side) -> Entries {
    let names = &side.names;
    let each = names.program.public_names().map(|known| {
        let (name, book) = (names.text(known.name), names.book(known.file));
        ((book.clone(), name.clone()), entry(name, names.constant(known.constant), book))
    });
    each.collect()
}

fn globals(side: &Side) -> Entries {
    let names = &side.names;
    loose(names.program.global_dependencies().map(|index| entry(names.global(index), "", "")))
}

fn program(side: &Side) -> Entries {
    let names = &side.names;
    let main = names.program.entry_point();
    let main = main.map_or("none".to_string(), |f| format!("{} of {}", names.function(f), names.book(f.file())));
    loose([entry("entry point", main, "")].into_iter())
}
