//! What people call the functions, locals and constants of a program.

use crate::arguments::Failure;
use crate::bundle::Bundle;
use crate::locals::{locals, Local};
use clover_back_end::nodes::{documents, Node};
use clover_back_end::{Constant, Function, Kind, OpCode, Operand, Position, Program, Text, Texts};

/// What the records say of a function.
#[derive(Clone, Default)]
pub struct Known {
    pub public: bool,
    /// The model of an implement.
    pub model: Option<Text>,
    /// None where they do not agree with the function.
    pub locals: Option<Vec<Local>>,
    pub position: Position,
}

pub struct Names<'a> {
    pub program: Program<'a>,
    pub texts: &'a Texts,
    /// By the function's index.
    known: Vec<Known>,
}

/// The functions of a book in the order of compiling, each with its implement's model.
fn functions(book: Node) -> Vec<(Option<Text>, Node)> {
    let mut out = Vec::new();
    for definition in book.children() {
        match definition.kind() {
            Some(Kind::Function | Kind::PublicFunction) => out.push((None, definition)),
            Some(Kind::Implement) => out.extend(definition.children().map(|method| (definition.text(), method))),
            _ => {}
        }
    }
    out
}

fn known(function: Function, record: Option<&(Option<Text>, Node)>) -> Known {
    let Some(&(model, node)) = record.filter(|(_, node)| node.text() == Some(function.name())) else {
        return Known::default();
    };
    let public = node.kind() == Some(Kind::PublicFunction);
    Known { public, model, locals: locals(node, function.locals()), position: node.position() }
}

impl<'a> Names<'a> {
    pub fn of(bundle: &'a Bundle) -> Names<'a> {
        let program = bundle.program();
        let books: Vec<_> = program.books().collect();
        let records: Vec<_> = books
            .iter()
            .map(|&file| {
                documents(&bundle.tree).find(|book| book.text() == Some(file)).map(functions).unwrap_or_default()
            })
            .collect();
        let mut met = vec![0; books.len()];
        let each = program.functions().map(|function| {
            let book = function.file() as usize;
            met[book] += 1;
            known(function, records[book].get(met[book] - 1))
        });
        let known = each.collect();
        Names { program, texts: &bundle.texts, known }
    }

    pub fn known(&self, function: Function) -> &Known {
        &self.known[function.index() as usize]
    }

    /// The functions with a name, as [`function`](Names::function) gives it.
    pub fn chosen(&self, wanted: &str) -> Result<Vec<Function<'a>>, Failure> {
        let all: Vec<Function> = self.program.functions().collect();
        let found: Vec<Function> = all.iter().copied().filter(|&f| self.function(f) == wanted).collect();
        if found.is_empty() {
            let known: Vec<String> = all.iter().map(|&function| self.function(function)).collect();
            return Err(Failure::new(format!("there is no function `{wanted}`; there are {}", known.join(", "))));
        }
        Ok(found)
    }

    /// What a text says, on one line.
    pub fn text(&self, text: Text) -> String {
        let known = self.texts.spelt(text);
        if known.contains(char::is_control) {
            return known.escape_debug().to_string();
        }
        known.into_owned()
    }

    /// The book that a file index names.
    pub fn book(&self, file: u64) -> String {
        self.program.book(file).map_or_else(|| format!("book {file}"), |text| self.text(text))
    }

    /// `monopitch`, or `Action.design` for a method.
    pub fn function(&self, function: Function) -> String {
        let name = self.text(function.name());
        self.known(function).model.map_or_else(|| name.clone(), |model| format!("{}.{name}", self.text(model)))
    }

    /// `monopitch(angle)`.
    pub fn signature(&self, function: Function) -> String {
        let parameters = (0..function.parameters()).map(|number| self.local(function, number));
        format!("{}({})", self.function(function), parameters.collect::<Vec<_>>().join(", "))
    }

    pub fn local(&self, function: Function, number: u64) -> String {
        let locals = self.known(function).locals.as_ref();
        match locals.and_then(|locals| locals.get(number as usize)) {
            Some(Local::Named(text)) => self.text(*text),
            Some(Local::LoopValues(text)) => format!("values of {}", self.text(*text)),
            Some(Local::LoopCount(text)) => format!("count of {}", self.text(*text)),
            None => format!("local {number}"),
        }
    }

    /// The name of the loop whose values a local holds.
    pub fn looped(&self, function: Function, number: u64) -> Option<String> {
        match self.known(function).locals.as_ref()?.get(number as usize)? {
            Local::LoopValues(text) => Some(self.text(*text)),
            _ => None,
        }
    }

    pub fn constant(&self, index: u64) -> String {
        match self.program.constant(index) {
            Some(Constant::Function(index)) => self.function_constant(index),
            Some(Constant::Model(index)) => self.model(index),
            Some(constant) => constant.spelt(self.texts),
            None => format!("constant {index}"),
        }
    }

    fn function_constant(&self, index: u64) -> String {
        let function = self.program.function(index);
        function.map_or_else(|| format!("function {index}"), |function| format!("function {}", self.function(function)))
    }

    fn model(&self, index: u64) -> String {
        let model = self.program.model(index);
        model.map_or_else(|| format!("model {index}"), |model| format!("model {}", self.text(model.name())))
    }

    /// The name of a context local.
    pub fn context(&self, index: u64) -> String {
        let local = self.program.context_local(index).filter(|local| local.name.number() > 0);
        local.map_or_else(|| format!("context local {index}"), |local| self.text(local.name))
    }

    /// The value that a context local starts with, where it is no function and no model.
    pub fn context_value(&self, index: u64) -> Option<String> {
        let constant = self.program.context_local(index)?.constant?;
        match self.program.constant(constant)? {
            Constant::Function(_) | Constant::Model(_) => None,
            value => Some(value.spelt(self.texts)),
        }
    }

    /// The name of a global.
    pub fn global(&self, index: u64) -> String {
        match self.program.constant(index) {
            Some(Constant::Text(text)) => self.text(text),
            _ => self.constant(index),
        }
    }

    /// An operand as people read it; jumps are left to whoever has labels.
    pub fn operand(&self, function: Function, opcode: OpCode, operand: u64) -> String {
        match opcode.operand() {
            Operand::Constant if opcode == OpCode::PushConstant => self.constant(operand),
            Operand::Constant => self.global(operand),
            Operand::Local => self.local(function, operand),
            Operand::ContextLocal => self.context(operand),
            Operand::Operation => {
                let operation = clover_back_end::Operation::from_number(operand);
                operation.map_or_else(|| operand.to_string(), |operation| operation.to_string())
            }
            Operand::Count | Operand::Instruction => operand.to_string(),
            Operand::Unused => String::new(),
        }
    }
}
