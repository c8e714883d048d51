//! `clover graph`: the control flow of functions, as SVG or for Graphviz.

use crate::arguments::{Arguments, Choice, Command, Failure, Verdict};
use crate::blocks::{Block, Flow};
use crate::bundle::{self, Bundle};
use crate::names::Names;
use crate::progress::Progress;
use crate::reading::read;
use crate::style::counted;
use crate::{dot, input, svg};
use clover_back_end::{Function, Operand};
use std::collections::BTreeSet;

pub const COMMAND: Command = Command {
    name: "graph",
    operands: "FILE",
    files: (1, 1),
    about: "draws the control flow of functions",
    details: "\
Draws the control flow of the functions of the bundle's first book, or of one function: blocks with what
they compute, ways that a condition takes, loops and rescue. The SVG needs no other program; the other
form is for Graphviz. What a block computes is read off its instructions.",
    choices: &[
        &[
            Choice { name: "--function", value: Some("NAME"), about: "one function: `name`, or `Model.name`" },
            Choice { name: "--format", value: Some("FORM"), about: "`svg`, unless `dot` is given" },
            Choice { name: "--instructions", value: None, about: "shows instructions in place of what they compute" },
            Choice { name: "--output", value: Some("FILE"), about: "writes there and not to standard output" },
        ],
        input::CHOICES,
        bundle::CHOICES,
    ],
    run,
};

/// A function to draw.
pub struct Picture {
    pub title: String,
    pub about: String,
    pub flow: Flow,
    /// Of each block.
    pub lines: Vec<Vec<String>>,
    /// What its names stand for.
    pub notes: Vec<String>,
}

/// `line 7`, or `lines 7 to 9`.
pub fn span(lines: &[u32]) -> String {
    match lines {
        [] => String::new(),
        [line] => format!("line {line}"),
        [first, .., last] => format!("lines {first} to {last}"),
    }
}

impl Picture {
    fn new(names: &Names, function: Function, instructions: bool) -> Picture {
        let flow = Flow::of(function);
        let lines = if instructions { plain(names, function, &flow) } else { read(names, function, &flow) };
        let public = if names.known(function).public { "public " } else { "" };
        let place = names.known(function).position.line;
        let from = if place > 0 { format!(", line {place}") } else { String::new() };
        let locals = counted(function.locals() as usize, "local");
        let about =
            format!("{}{from}: {}, {locals}", names.book(function.file()), counted(flow.code.len(), "instruction"));
        let title = format!("{public}function {}", names.signature(function));
        Picture { title, about, lines, notes: notes(names, &flow), flow }
    }

    pub fn block(&self, at: usize) -> (&Block, &[String]) {
        (&self.flow.blocks[at], &self.lines[at])
    }
}

/// The instructions of each block by name.
fn plain(names: &Names, function: Function, flow: &Flow) -> Vec<Vec<String>> {
    let line = |at: usize| {
        let (instruction, _) = flow.code[at];
        let operand = names.operand(function, instruction.opcode(), instruction.operand());
        format!("{at:>3}  {} {operand}", instruction.opcode()).trim_end().to_string()
    };
    flow.blocks.iter().map(|block| (block.start..block.end).map(line).collect()).collect()
}

/// Values of the top-level names that the code reads, and the globals.
fn notes(names: &Names, flow: &Flow) -> Vec<String> {
    let operands = |wanted: Operand| -> BTreeSet<u64> {
        let each = flow.code.iter().map(|&(instruction, _)| instruction);
        each.filter(|i| i.opcode().operand() == wanted).map(|i| i.operand()).collect()
    };
    let values = operands(Operand::ContextLocal).into_iter();
    let mut out: Vec<String> = values
        .filter_map(|index| Some(format!("{} = {}", names.context(index), names.context_value(index)?)))
        .collect();
    let marked: BTreeSet<u64> = names.program.global_dependencies().collect();
    let pushed = |i: &clover_back_end::Instruction| i.opcode() != clover_back_end::OpCode::PushConstant;
    let each = flow.code.iter().map(|&(instruction, _)| instruction).filter(pushed);
    let globals: BTreeSet<u64> = each
        .filter(|i| i.opcode().operand() == Operand::Constant && marked.contains(&i.operand()))
        .map(|i| i.operand())
        .collect();
    out.extend(globals.into_iter().map(|index| format!("{} is a global of the host", names.global(index))));
    out
}

/// The functions of the bundle's first book, which is compiled last.
fn of_root<'a>(names: &Names<'a>) -> Vec<Function<'a>> {
    let root = names.program.books().len().saturating_sub(1) as u64;
    names.program.functions().filter(|function| function.file() == root).collect()
}

fn run(arguments: &Arguments) -> Result<(Verdict, String), Failure> {
    let form = arguments.one_of("--format", &["svg", "dot"])?.unwrap_or(0);
    let bundle = match Bundle::open(arguments, &arguments.files[0])? {
        Ok(bundle) => bundle,
        Err(report) => return Ok((Verdict::Refused, report)),
    };
    let _progress = Progress::of("drawing".to_string());
    let names = Names::of(&bundle);
    let chosen = match arguments.value("--function") {
        Some(wanted) => names.chosen(wanted)?,
        None => of_root(&names),
    };
    let instructions = arguments.has("--instructions");
    let pictures: Vec<Picture> = chosen.into_iter().map(|f| Picture::new(&names, f, instructions)).collect();
    let text = if form == 0 { svg::draw(&pictures) } else { dot::write(&pictures) };
    let Some(file) = arguments.value("--output") else { return Ok((Verdict::Delivered, text)) };
    std::fs::write(file, text).map_err(|error| Failure::new(format!("{file}: {error}")))?;
    Ok((Verdict::Delivered, String::new()))
}
