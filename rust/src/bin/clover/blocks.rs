//! The control flow of a function: runs of instructions that are entered at their first and left at
//! their last one.

use clover_back_end::{Function, Instruction, OpCode, Position};
use std::collections::{BTreeMap, BTreeSet};

/// Why one block follows another.
#[derive(Clone, Copy, Debug, PartialEq, Eq, PartialOrd, Ord)]
pub enum Way {
    /// There is no other.
    Always,
    /// A condition holds.
    True,
    /// A condition does not hold.
    False,
    /// A loop has another value.
    Next,
    /// A loop has no more values.
    Done,
}

#[derive(Clone, Debug)]
pub struct Block {
    /// Its instructions, from the first to behind the last.
    pub start: usize,
    pub end: usize,
    pub ways: Vec<(Way, usize)>,
    /// Loops around it, by their heads, the outermost first.
    pub loops: Vec<usize>,
    /// Whether a way leads back to it from below.
    pub head: bool,
    /// Whether the function's rescue starts here.
    pub rescue: bool,
    /// Whether the entry or the rescue leads to it.
    pub reached: bool,
}

pub struct Flow {
    pub code: Vec<(Instruction, Position)>,
    pub blocks: Vec<Block>,
}

/// Where a jump goes.
pub fn target(instruction: Instruction) -> Option<usize> {
    let jumps = matches!(instruction.opcode(), OpCode::Jump | OpCode::JumpIf);
    jumps.then(|| instruction.operand() as usize)
}

/// Whether control never goes on to the next instruction.
fn leaves(instruction: Instruction) -> bool {
    matches!(instruction.opcode(), OpCode::Jump | OpCode::Return)
}

/// First instructions of blocks. One may lie behind the last instruction.
fn starts(code: &[(Instruction, Position)], rescue: usize) -> BTreeSet<usize> {
    let mut starts = BTreeSet::from([0]);
    starts.extend((rescue > 0).then_some(rescue));
    for (at, &(instruction, _)) in code.iter().enumerate() {
        starts.extend(target(instruction));
        if target(instruction).is_some() || leaves(instruction) {
            starts.insert(at + 1);
        }
    }
    // A block behind the end is there only if something leads to it.
    let led = code.iter().any(|&(instruction, _)| target(instruction) == Some(code.len()));
    if !led && rescue != code.len() {
        starts.remove(&code.len());
    }
    starts
}

impl Flow {
    pub fn of(function: Function) -> Flow {
        let code: Vec<_> = function.instructions().collect();
        let rescue = function.rescue_position() as usize;
        let starts: Vec<usize> = starts(&code, rescue).into_iter().collect();
        let number: BTreeMap<usize, usize> = starts.iter().enumerate().map(|(block, &start)| (start, block)).collect();
        let ends = starts.iter().skip(1).copied().chain([code.len()]);
        let mut blocks: Vec<Block> = starts.iter().zip(ends).map(|(&start, end)| Block::plain(start, end)).collect();
        for block in &mut blocks {
            block.ways = ways(&code, block.start, block.end, &number);
            block.rescue = rescue > 0 && block.start == rescue;
        }
        reach(&mut blocks);
        loops(&mut blocks);
        Flow { code, blocks }
    }

    /// The instructions of a block.
    pub fn code_of(&self, block: &Block) -> &[(Instruction, Position)] {
        &self.code[block.start..block.end]
    }

    /// The lines that a block's instructions come from, in order and each once.
    pub fn lines(&self, block: &Block) -> Vec<u32> {
        let lines: BTreeSet<u32> = self.code_of(block).iter().map(|(_, place)| place.line).filter(|&l| l > 0).collect();
        lines.into_iter().collect()
    }
}

impl Block {
    fn plain(start: usize, end: usize) -> Block {
        Block { start, end, ways: Vec::new(), loops: Vec::new(), head: false, rescue: false, reached: false }
    }
}

fn ways(
    code: &[(Instruction, Position)],
    start: usize,
    end: usize,
    number: &BTreeMap<usize, usize>,
) -> Vec<(Way, usize)> {
    let next = number.get(&end).copied().filter(|_| end > start);
    let Some(&(last, _)) = code[start..end].last() else { return Vec::new() };
    let (taken, other) = match code[start..end] {
        [.., (before, _), _] if before.opcode() == OpCode::ForNext => (Way::Done, Way::Next),
        _ => (Way::True, Way::False),
    };
    let to = target(last).map(|to| number[&to]);
    match (last.opcode(), to) {
        (OpCode::JumpIf, Some(to)) => {
            let mut both: Vec<_> = [(taken, to)].into_iter().chain(next.map(|next| (other, next))).collect();
            both.sort_unstable();
            both
        }
        (OpCode::Jump, Some(to)) => vec![(Way::Always, to)],
        (OpCode::Return, _) => Vec::new(),
        _ => next.map(|next| (Way::Always, next)).into_iter().collect(),
    }
}

fn reach(blocks: &mut [Block]) {
    let mut open: Vec<usize> = (0..blocks.len()).filter(|&at| at == 0 || blocks[at].rescue).collect();
    while let Some(at) = open.pop() {
        if !std::mem::replace(&mut blocks[at].reached, true) {
            open.extend(blocks[at].ways.iter().map(|&(_, to)| to));
        }
    }
}

/// A way to an earlier block closes a loop.
fn loops(blocks: &mut [Block]) {
    let mut before = vec![Vec::new(); blocks.len()];
    let ways = |from: usize| blocks[from].ways.iter().map(move |&(_, to)| (from, to));
    let all: Vec<(usize, usize)> = (0..blocks.len()).flat_map(ways).collect();
    all.iter().for_each(|&(from, to)| before[to].push(from));
    for (tail, head) in all.into_iter().filter(|(from, to)| to <= from) {
        blocks[head].head = true;
        inside(tail, head, &before).into_iter().for_each(|at| blocks[at].loops.push(head));
    }
    for block in blocks {
        block.loops.sort_unstable();
        block.loops.dedup();
    }
}

/// The blocks of a loop: those that lead to its tail without passing its head.
fn inside(tail: usize, head: usize, before: &[Vec<usize>]) -> BTreeSet<usize> {
    let mut inside = BTreeSet::from([head]);
    let mut open = vec![tail];
    while let Some(at) = open.pop() {
        if inside.insert(at) {
            open.extend(&before[at]);
        }
    }
    inside
}

/// Labels of jump targets: `L1`, `L2` in their order.
pub fn labels(code: &[(Instruction, Position)]) -> BTreeMap<usize, String> {
    let targets: BTreeSet<usize> = code.iter().filter_map(|&(instruction, _)| target(instruction)).collect();
    (1..).zip(targets).map(|(number, target)| (target, format!("L{number}"))).collect()
}
