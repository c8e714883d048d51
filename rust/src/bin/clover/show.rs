//! `clover show`: each function with its source lines and its instructions by name.

use crate::arguments::{Arguments, Choice, Command, Failure, Verdict};
use crate::blocks::{labels, target, Block, Flow};
use crate::bundle::{self, Bundle};
use crate::input;
use crate::names::Names;
use crate::progress::Progress;
use crate::style::{counted, Style};
use clover_back_end::{Constant, Function, Instruction, Method, Model, OpCode, Operand, Text};
use std::collections::BTreeMap;
use std::fmt::Write;

pub const COMMAND: Command = Command {
    name: "show",
    operands: "FILE",
    files: (1, 1),
    about: "shows each function: source lines, instructions by name, constants by value",
    details: "\
Compiles a bundle and shows every book: its top-level names with their values, its models, and each
function with its instructions by name, constants by value, jumps as labels and locals by their names,
under the source lines that they come from. The totals are at the end. A program may be given by its
listing too; then nothing is compiled, and locals and top-level names go by their numbers.",
    choices: &[
        &[
            Choice { name: "--function", value: Some("NAME"), about: "one function: `name`, or `Model.name`" },
            Choice { name: "--constants", value: None, about: "shows the constants by their numbers too" },
        ],
        input::CHOICES,
        bundle::CHOICES,
    ],
    run,
};

struct Shown<'a> {
    bundle: &'a Bundle,
    names: Names<'a>,
    style: Style,
    out: String,
}

/// Writing to a string never fails.
macro_rules! say {
    ($shown:expr, $($words:tt)*) => {
        writeln!($shown.out, $($words)*).expect("a string takes it")
    };
}

impl<'a> Shown<'a> {
    fn new(bundle: &'a Bundle) -> Shown<'a> {
        Shown { bundle, names: Names::of(bundle), style: Style::of_output(), out: String::new() }
    }

    fn book(&mut self, index: u64, file: Text) {
        let name = self.names.text(file);
        say!(self, "{}", self.style.title(&name));
        let locals: Vec<(u64, _)> =
            (0..).zip(self.names.program.context_locals()).filter(|(_, local)| local.file == index).collect();
        for (number, local) in locals {
            if let Some(text) = self.top_level(index, number, local.constant) {
                say!(self, "  {text}");
            }
        }
        let models: Vec<Model> = self.names.program.models().filter(|model| model.file() == index).collect();
        models.into_iter().for_each(|model| self.model(model));
        let functions = self.names.program.functions().filter(|function| function.file() == index);
        functions.collect::<Vec<_>>().into_iter().for_each(|function| self.function(function));
    }

    /// A top-level name that is not the book's own function or model.
    fn top_level(&self, book: u64, number: u64, constant: Option<u64>) -> Option<String> {
        let names = &self.names;
        let name = names.context(number);
        let Some(index) = constant else { return Some(format!("local {name}")) };
        let from = match names.program.constant(index)? {
            Constant::Function(index) => names.program.function(index)?.file(),
            Constant::Model(index) => names.program.model(index)?.file(),
            value => {
                let value = self.style.value(value.spelt(names.texts));
                return Some(format!("local {name} = {value}"));
            }
        };
        let what = names.constant(index);
        (from != book).then(|| format!("include {name}: {what} of {}", names.book(from)))
    }

    fn model(&mut self, model: Model) {
        let names = &self.names;
        let public = names.program.public_names().any(|known| {
            known.file == model.file() && names.program.constant(known.constant) == Some(Constant::Model(model.index()))
        });
        let public = if public { "public " } else { "" };
        let properties: Vec<String> = model.properties().map(|text| names.text(text)).collect();
        let methods: Vec<String> = model.methods().map(|method| self.method(model.name(), method)).collect();
        let methods = if methods.is_empty() { String::new() } else { format!("; methods {}", methods.join(", ")) };
        say!(self, "  {public}model {}: {}{methods}", names.text(model.name()), properties.join(", "));
    }

    /// A method; where its function is another model's, that too.
    fn method(&self, model: Text, method: Method) -> String {
        let name = self.names.text(method.name);
        let function = self.names.program.function(method.function);
        let from = function.and_then(|function| self.names.known(function).model).filter(|&from| from != model);
        from.map_or_else(|| name.clone(), |from| format!("{name} of {}", self.names.text(from)))
    }

    fn function(&mut self, function: Function) {
        let known = self.names.known(function);
        let public = if known.public { "public " } else { "" };
        let title = format!("{public}function {}", self.names.signature(function));
        let line = known.position.line;
        let place = if line > 0 { format!("line {line}, ") } else { String::new() };
        let rescue = if function.rescue_position() > 0 { ", with a rescue" } else { "" };
        let (code, locals) = (function.instructions().len(), function.locals() as usize);
        let about = format!("{place}{}, {}{rescue}", counted(code, "instruction"), counted(locals, "local"));
        say!(self, "\n  {}  {}", self.style.title(title), self.style.faint(format!("# {about}")));
        self.code(function);
    }

    fn code(&mut self, function: Function) {
        let flow = Flow::of(function);
        let labels = labels(&flow.code);
        let starts: BTreeMap<usize, &Block> = flow.blocks.iter().map(|block| (block.start, block)).collect();
        let file = self.names.program.book(function.file());
        let mut line = 0;
        for (at, &(instruction, position)) in flow.code.iter().enumerate() {
            self.label(starts.get(&at).copied(), labels.get(&at), false);
            if position.line != line {
                line = position.line;
                let source = file.and_then(|file| self.bundle.sources.line(file, line)).unwrap_or("");
                say!(self, "{:>6} {}", line, self.style.faint(format!("| {source}").trim_end()));
            }
            let text = self.instruction(function, instruction, &labels);
            say!(self, "    {:>6}  {text}", self.style.faint(format!("{at:>6}")));
        }
        let end = flow.code.len();
        self.label(starts.get(&end).copied(), labels.get(&end), true);
    }

    fn label(&mut self, block: Option<&Block>, label: Option<&String>, last: bool) {
        let head = if block.is_some_and(|block| block.head) { " loop" } else { "" };
        if block.is_some_and(|block| block.rescue) {
            say!(self, "  {}", self.style.label("rescue:"));
        }
        if let Some(label) = label {
            let end = if last { " end of the function" } else { "" };
            say!(self, "  {}", self.style.label(format!("{label}:{head}{end}")));
        }
    }

    fn instruction(&self, function: Function, instruction: Instruction, labels: &BTreeMap<usize, String>) -> String {
        let (opcode, operand) = (instruction.opcode(), instruction.operand());
        let shown = match target(instruction) {
            Some(to) => self.style.label(&labels[&to]),
            None => self.operand(function, opcode, operand),
        };
        format!("{:<13} {shown}", opcode.word()).trim_end().to_string()
    }

    /// An operand with the value that it stands for.
    fn operand(&self, function: Function, opcode: OpCode, operand: u64) -> String {
        let text = self.names.operand(function, opcode, operand);
        match opcode.operand() {
            Operand::Constant if opcode == OpCode::PushConstant => self.style.value(text),
            Operand::Constant => format!("{text}  {}", self.style.faint("# the host's")),
            Operand::ContextLocal if opcode == OpCode::ContextGet => {
                let value = self.names.context_value(operand);
                let starts = value.map(|value| format!("  {}", self.style.faint(format!("# starts as {value}"))));
                format!("{text}{}", starts.unwrap_or_default())
            }
            _ => text,
        }
    }

    fn constants(&mut self) {
        say!(self, "{}", self.style.title("constants"));
        let marked: Vec<u64> = self.names.program.global_dependencies().collect();
        for index in 0..self.names.program.totals().constants {
            let global = if marked.contains(&index) { "  # names a global" } else { "" };
            say!(self, "{index:>6}  {}{global}", self.names.constant(index));
        }
        say!(self, "");
    }

    /// Values of top-level names that a listing does not give to a book.
    fn loose_values(&mut self) {
        let names = &self.names;
        let locals = (0..).zip(names.program.context_locals()).filter(|(_, local)| local.name.number() == 0);
        let values = locals.filter_map(|(index, _)| Some((names.context(index), names.context_value(index)?)));
        let lines: String = values.map(|(name, value)| format!("{name} = {value}\n")).collect();
        if !lines.is_empty() {
            self.out += &format!("{lines}\n");
        }
    }

    fn totals(&mut self) {
        let names = &self.names;
        let totals = names.program.totals();
        let count = |number: u64, what| counted(number as usize, what);
        let counts = [
            count(totals.books, "book"),
            count(totals.functions, "function"),
            count(totals.code, "instruction"),
            count(totals.constants, "constant"),
            count(totals.context_locals, "top-level name"),
            count(totals.models, "model"),
        ];
        let entry = names.program.entry_point().map(|function| {
            let main = if function.name() == Text::MAIN { "" } else { " (there is no `main`)" };
            format!("entry point: {} of {}{main}\n", names.function(function), names.book(function.file()))
        });
        let globals: Vec<String> = names.program.global_dependencies().map(|index| names.global(index)).collect();
        let globals =
            if globals.is_empty() { String::new() } else { format!("globals of the host: {}\n", globals.join(", ")) };
        let text = format!("{}\n{}{globals}", counts.join(", "), entry.unwrap_or_default());
        self.out += &text;
    }
}

fn run(arguments: &Arguments) -> Result<(Verdict, String), Failure> {
    let bundle = match Bundle::open(arguments, &arguments.files[0])? {
        Ok(bundle) => bundle,
        Err(report) => return Ok((Verdict::Refused, report)),
    };
    let _progress = Progress::of("writing".to_string());
    let mut shown = Shown::new(&bundle);
    if let Some(wanted) = arguments.value("--function") {
        let chosen = shown.names.chosen(wanted)?;
        chosen.into_iter().for_each(|function| shown.function(function));
        return Ok((Verdict::Delivered, shown.out.trim_start_matches('\n').to_string()));
    }
    let books: Vec<Text> = bundle.program().books().collect();
    for (index, file) in (0..).zip(books) {
        shown.book(index, file);
        say!(shown, "");
    }
    shown.loose_values();
    if arguments.has("--constants") {
        shown.constants();
    }
    shown.totals();
    Ok((Verdict::Delivered, shown.out))
}
