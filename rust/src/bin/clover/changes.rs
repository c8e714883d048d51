//! What changed in a function's code.

use crate::align::{align, hunks, Hunk};
use crate::blocks::target;
use crate::diff::Side;
use clover_back_end::{Constant, Function, Instruction, OpCode, Operand, Position};
use std::collections::BTreeMap;

/// How top-level names are read.
#[derive(Clone, Copy, Debug, PartialEq, Eq)]
pub enum Reading {
    Names,
    /// From the book's first top-level name.
    Distances,
}

/// A run of instructions that is not the same.
pub struct Change {
    pub place: String,
    pub old: Vec<String>,
    pub new: Vec<String>,
    /// Where one instruction has another operand: its name, and both operands.
    pub single: Option<(String, String, String)>,
    /// Lines of the sources that the instructions come from, with a sign.
    pub sources: Vec<(char, String)>,
}

pub struct CodeChanges {
    pub changes: Vec<Change>,
    /// Whether an instruction that is the same stands at another place.
    pub moved: bool,
}

/// An instruction as it is compared. A jump is compared by where it leads, once the rest is.
#[derive(Clone, PartialEq)]
struct Item {
    opcode: OpCode,
    operand: Compared,
}

#[derive(Clone, PartialEq)]
enum Compared {
    Number(u64),
    Value(u64, String),
    Named(String, usize),
    Jump,
}

struct Code<'a> {
    side: &'a Side<'a>,
    function: Function<'a>,
    instructions: Vec<(Instruction, Position)>,
    /// Each local by its name, and its place among those of that name.
    locals: Vec<Compared>,
    /// The book's first top-level name.
    first_context: u64,
    items: Vec<Item>,
}

fn locals(side: &Side, function: Function) -> Vec<Compared> {
    let mut met: BTreeMap<String, usize> = BTreeMap::new();
    let each = (0..function.locals()).map(|number| {
        let name = side.names.local(function, number);
        let before = met.entry(name.clone()).or_default();
        *before += 1;
        Compared::Named(name, *before)
    });
    each.collect()
}

fn first_context(side: &Side, file: u64) -> u64 {
    let mut locals = (0..).zip(side.names.program.context_locals());
    locals.find(|(_, local)| local.file == file).map_or(0, |(first, _)| first)
}

impl<'a> Code<'a> {
    fn new((side, function): (&'a Side<'a>, Function<'a>), reading: Reading) -> Code<'a> {
        let instructions: Vec<_> = function.instructions().collect();
        let (locals, first_context) = (locals(side, function), first_context(side, function.file()));
        let mut code = Code { side, function, instructions, locals, first_context, items: Vec::new() };
        code.items = code.instructions.iter().map(|&(instruction, _)| code.item(instruction, reading)).collect();
        code
    }

    fn item(&self, instruction: Instruction, reading: Reading) -> Item {
        let (opcode, operand) = (instruction.opcode(), instruction.operand());
        let compared = match opcode.operand() {
            Operand::Constant => self.constant(operand),
            Operand::Local => self.locals.get(operand as usize).cloned().unwrap_or(Compared::Number(operand)),
            Operand::ContextLocal if reading == Reading::Names => Compared::Named(self.side.names.context(operand), 0),
            Operand::ContextLocal => Compared::Number(operand.wrapping_sub(self.first_context)),
            Operand::Instruction => Compared::Jump,
            Operand::Operation | Operand::Count | Operand::Unused => Compared::Number(operand),
        };
        Item { opcode, operand: compared }
    }

    /// A constant by kind and value: texts by what they say, floats by their bits.
    fn constant(&self, index: u64) -> Compared {
        let names = &self.side.names;
        match names.program.constant(index) {
            Some(constant @ (Constant::Text(_) | Constant::Model(_) | Constant::Function(_))) => {
                Compared::Value(constant.kind(), names.constant(index))
            }
            Some(constant) => Compared::Value(constant.kind(), constant.value().to_string()),
            None => Compared::Number(index),
        }
    }

    fn operand(&self, at: usize) -> String {
        let (instruction, _) = self.instructions[at];
        match target(instruction) {
            Some(to) => format!("to {to}"),
            None => self.side.names.operand(self.function, instruction.opcode(), instruction.operand()),
        }
    }

    fn text(&self, at: usize) -> String {
        format!("{} {}", self.instructions[at].0.opcode(), self.operand(at)).trim_end().to_string()
    }

    fn line(&self, at: usize) -> u32 {
        let last = self.instructions.len().saturating_sub(1);
        self.instructions.get(at.min(last)).map_or(0, |(_, position)| position.line)
    }

    /// The source lines of some instructions, each once.
    fn sources(&self, range: &std::ops::Range<usize>) -> Vec<(u32, String)> {
        let Some(file) = self.side.names.program.book(self.function.file()) else { return Vec::new() };
        let mut lines: Vec<u32> = range.clone().map(|at| self.line(at)).collect();
        lines.sort_unstable();
        lines.dedup();
        lines.iter().filter_map(|&line| Some((line, self.side.bundle.sources.line(file, line)?.to_string()))).collect()
    }
}

/// Pairs whose jumps lead to other places are not the same.
fn jumps_agree(old: &Code, new: &Code, pairs: &[(usize, usize)]) -> Vec<(usize, usize)> {
    let landing_old = |to: usize| pairs.get(pairs.partition_point(|pair| pair.0 < to)).map(|pair| pair.0);
    let landing_new = |to: usize| pairs.get(pairs.partition_point(|pair| pair.1 < to)).map(|pair| pair.1);
    let agree = |&&(one, two): &&(usize, usize)| {
        let (Some(was), Some(is)) = (target(old.instructions[one].0), target(new.instructions[two].0)) else {
            return true;
        };
        match (landing_old(was), landing_new(is)) {
            (Some(was), Some(is)) => pairs.binary_search(&(was, is)).is_ok(),
            (was, is) => was.is_none() && is.is_none(),
        }
    };
    pairs.iter().filter(agree).copied().collect()
}

pub fn code_changes<'a>(
    old: (&'a Side<'a>, Function<'a>),
    new: (&'a Side<'a>, Function<'a>),
    reading: Reading,
) -> CodeChanges {
    let (old, new) = (Code::new(old, reading), Code::new(new, reading));
    let pairs = align(&old.items, &new.items);
    let pairs = jumps_agree(&old, &new, &pairs);
    let moved = pairs.iter().any(|&(one, two)| old.instructions[one].1 != new.instructions[two].1);
    let found = hunks(&pairs, old.items.len(), new.items.len());
    CodeChanges { changes: found.iter().map(|hunk| change(&old, &new, hunk)).collect(), moved }
}

fn change(old: &Code, new: &Code, hunk: &Hunk) -> Change {
    let texts = |code: &Code, range: &std::ops::Range<usize>| range.clone().map(|at| code.text(at)).collect();
    let (was, is) = (old.line(hunk.old.start), new.line(hunk.new.start));
    let place = if was == is { format!("line {is}") } else { format!("line {is} (was {was})") };
    let one = (hunk.old.len(), hunk.new.len()) == (1, 1);
    let (first, other) = (hunk.old.start, hunk.new.start);
    let same = one && old.instructions[first].0.opcode() == new.instructions[other].0.opcode();
    let single = same.then(|| (old.instructions[first].0.opcode().to_string(), old.operand(first), new.operand(other)));
    let (before, after) = (old.sources(&hunk.old), new.sources(&hunk.new));
    let mut sources = Vec::new();
    let text = |lines: &[(u32, String)]| lines.iter().map(|(_, text)| text.clone()).collect::<Vec<_>>();
    if text(&before) != text(&after) {
        sources.extend(text(&before).into_iter().map(|line| ('-', line)));
        sources.extend(text(&after).into_iter().map(|line| ('+', line)));
    }
    Change { place, old: texts(old, &hunk.old), new: texts(new, &hunk.new), single, sources }
}
