//! An independent reading of the whole back end: from records and area lengths to the reply and the
//! words of the twelve areas. Written from 01, the fixed readings and the Rust, on records and flat
//! areas; it calls nothing of the Rust, so that a comparison of the two says something.

use crate::areas::{area, capacities, entries, Areas, Counts, Lengths, Reply, AREAS, ENTRY_WORDS};
use crate::books::{children, needed, order};
use crate::records::{kind, Record, MAIN};
use crate::shape::{check, Refusal};
use std::collections::{HashMap, HashSet};

const BOOK_FAULTY: u64 = 7;
const RING: u64 = 8;
const AREA_FULL: u64 = 9;
const NAME_NOT_PUBLIC: u64 = 11;

pub mod op {
    pub const POP: u64 = 0x01;
    pub const PUSH_CONSTANT: u64 = 0x02;
    pub const RETURN: u64 = 0x05;
    pub const LOCAL_SET: u64 = 0x06;
    pub const LOCAL_GET: u64 = 0x07;
    pub const LOCAL_INIT: u64 = 0x08;
    pub const CONTEXT_SET: u64 = 0x0C;
    pub const CONTEXT_GET: u64 = 0x0D;
    pub const GLOBAL_SET: u64 = 0x11;
    pub const GLOBAL_GET: u64 = 0x12;
    pub const INSTANCE_SET: u64 = 0x13;
    pub const INSTANCE_GET: u64 = 0x14;
    pub const INDEX_SET: u64 = 0x15;
    pub const INDEX_GET: u64 = 0x16;
    pub const OPERATION: u64 = 0x21;
    pub const NOT: u64 = 0x22;
    pub const NEGATIVE: u64 = 0x23;
    pub const CALL: u64 = 0x32;
    pub const ARRAY: u64 = 0x36;
    pub const JUMP: u64 = 0x51;
    pub const JUMP_IF: u64 = 0x52;
    pub const FOR_NEXT: u64 = 0x56;
    pub const ITERATE: u64 = 0x57;
}

/// Infix values of 01 with a meaning of their own here.
mod infix {
    pub const ASSIGN: u64 = 0;
    pub const NOT_EQUAL: u64 = 12;

    pub fn is_compound(value: u64) -> bool {
        (6..=10).contains(&value)
    }

    /// The operand of Operation, none for 0 and for 19.
    pub fn operation(value: u64) -> Option<u64> {
        Some(match value {
            1..=5 => value - 1,
            6..=10 => value - 6,
            11 | 12 => 5,
            13 => 6,
            14 => 7,
            15 => 8,
            16 => 9,
            17 => 257,
            18 => 258,
            _ => return None,
        })
    }
}

const PREFIX_MINUS: u64 = 0;
const PREFIX_NOT: u64 = 1;

/// Kinds of constants (01, "Emission"), from 0.
pub mod constant {
    pub const NULL: u64 = 0;
    pub const BOOLEAN: u64 = 1;
    pub const INTEGER: u64 = 2;
    pub const FLOAT: u64 = 3;
    pub const TEXT: u64 = 4;
    pub const MODEL: u64 = 5;
    pub const FUNCTION: u64 = 6;
}

const NULL_CONSTANT: u64 = 0;
const TRUE_CONSTANT: u64 = 1;
const FALSE_CONSTANT: u64 = 2;

mod error {
    pub const VARIABLE_EXISTS: u64 = 1;
    pub const CAN_NOT_ASSIGN: u64 = 2;
    pub const UNKNOWN_OPERATION: u64 = 3;
    pub const RESCUE_LAYER: u64 = 4;
    pub const CONSTANT_ONLY: u64 = 5;
    pub const PROPERTY_EXISTS: u64 = 6;
    pub const PARAMETER_EXISTS: u64 = 7;
    pub const INSTANCE_FUNCTION: u64 = 8;
    pub const NOT_A_MODEL: u64 = 9;
    pub const NO_MODEL: u64 = 10;
    pub const RING: u64 = 11;
}

pub fn instruction(opcode: u64, operand: u64) -> u64 {
    opcode << 56 | operand
}

fn opcode(word: u64) -> u64 {
    word >> 56
}

/// Where the work stops.
#[derive(Debug, Clone, Copy, PartialEq, Eq)]
enum Stop {
    /// The area that the first step beyond it asked for.
    Full(usize),
    /// The include with a name that is not public, in strict mode.
    NotPublic(usize),
}

use Stop::{Full, NotPublic};

type Step<T = ()> = Result<T, Stop>;

/// Which of the later requests' rules hold.
#[derive(Debug, Clone, Copy, Default, PartialEq, Eq)]
pub struct Rules {
    /// 2026-07: all names of an include together.
    pub strict: bool,
}

/// What a run tells beside the answer.
pub struct Run {
    pub reply: Reply,
    pub areas: Areas,
    /// For each area and each number of entries, the step that first needed that many.
    pub reached: [Vec<u64>; AREAS],
    /// Steps taken in all.
    pub steps: u64,
    /// Where the Rust's `emit_return` panics, and this emits Return.
    pub panics: bool,
}

impl Run {
    fn refused((row, place): Refusal) -> Run {
        Run {
            reply: Reply::refusal(row, place),
            areas: Default::default(),
            reached: Default::default(),
            steps: 0,
            panics: false,
        }
    }

    /// The greatest use of each area at any step.
    pub fn peaks(&self) -> Counts {
        std::array::from_fn(|i| self.reached[i].len() as u64)
    }
}

/// State of the function that is being compiled. Names and breaks are flat, with the starts of the
/// scopes beside them; instruction numbers count from `base` in the code area.
struct FunctionWork {
    base: usize,
    parameters: u64,
    locals: u64,
    rescue: u64,
    instance: bool,
    depth: u64,
    names: Vec<(u64, u64)>,
    /// Places in `names` of each name, innermost last.
    places: HashMap<u64, Vec<usize>>,
    scopes: Vec<usize>,
    breaks: Vec<usize>,
    loops: Vec<usize>,
}

/// What a name of the present book stands for: its context local.
type ContextNames = HashMap<u64, u64>;

struct Work<'a> {
    records: &'a [Record],
    rules: Rules,
    capacities: Counts,
    used: Counts,
    reached: [Vec<u64>; AREAS],
    steps: u64,
    panics: bool,

    code: Vec<[u64; 2]>,
    constants: Vec<[u64; 3]>,
    integers: HashMap<u64, u64>,
    /// By their bits (2026-05).
    floats: HashMap<u64, u64>,
    texts: HashMap<u64, u64>,
    functions: Vec<[u64; 8]>,
    models: Vec<[u64; 2]>,
    properties: Vec<[u64; 2]>,
    methods: Vec<[u64; 3]>,
    method_places: HashMap<(u64, u64), usize>,
    context: Vec<[u64; 4]>,
    public: Vec<[u64; 3]>,
    public_places: HashMap<(u64, u64), usize>,
    errors: Vec<[u64; 4]>,
    books: Vec<u64>,
    entry_point: u64,

    /// The present book.
    file: u64,
    context_names: ContextNames,
    /// Index in area 12 of each finished book.
    finished: HashMap<u64, u64>,
}

impl<'a> Work<'a> {
    fn new(records: &'a [Record], capacities: Counts) -> Work<'a> {
        Work {
            records,
            rules: Rules::default(),
            capacities,
            used: [0; AREAS],
            reached: Default::default(),
            steps: 0,
            panics: false,
            code: Vec::new(),
            constants: Vec::new(),
            integers: HashMap::new(),
            floats: HashMap::new(),
            texts: HashMap::new(),
            functions: Vec::new(),
            models: Vec::new(),
            properties: Vec::new(),
            methods: Vec::new(),
            method_places: HashMap::new(),
            context: Vec::new(),
            public: Vec::new(),
            public_places: HashMap::new(),
            errors: Vec::new(),
            books: Vec::new(),
            entry_point: 0,
            file: 0,
            context_names: HashMap::new(),
            finished: HashMap::new(),
        }
    }

    /// From a standing program on: its entries as they stand, in areas that end with their totals. Of equal constants
    /// the first is shared.
    fn onto(mut self, areas: &Areas, entry_point: u64) -> Work<'a> {
        self.code = entries(&areas[area::CODE - 1]);
        self.constants = entries(&areas[area::CONSTANTS - 1]);
        self.functions = entries(&areas[area::FUNCTIONS - 1]);
        self.models = entries(&areas[area::MODELS - 1]);
        self.properties = entries(&areas[area::PROPERTIES - 1]);
        self.methods = entries(&areas[area::METHODS - 1]);
        self.context = entries(&areas[area::CONTEXT - 1]);
        self.public = entries(&areas[area::PUBLIC - 1]);
        self.books = areas[area::BOOKS - 1].clone();
        self.entry_point = entry_point;
        for (index, &[kind, value, _]) in (0..).zip(&self.constants) {
            let known = match kind {
                constant::INTEGER => &mut self.integers,
                constant::FLOAT => &mut self.floats,
                constant::TEXT => &mut self.texts,
                _ => continue,
            };
            known.entry(value).or_insert(index);
        }
        self.method_places = (0..).zip(&self.methods).map(|(place, m)| ((m[0], m[1]), place)).collect();
        self.public_places = (0..).zip(&self.public).map(|(place, p)| ((p[0], p[1]), place)).collect();
        self.finished = self.books.iter().copied().zip(0..).collect();
        self.file = self.books.len() as u64;
        self.used = std::array::from_fn(|i| (areas[i].len() / ENTRY_WORDS[i]) as u64);
        self.reached = self.used.map(|count| vec![0; count as usize]);
        self
    }

    /// One entry more of an area.
    fn take(&mut self, number: usize) -> Step {
        let i = number - 1;
        if self.used[i] >= self.capacities[i] {
            return Err(Full(number));
        }
        self.used[i] += 1;
        if self.used[i] > self.reached[i].len() as u64 {
            self.reached[i].push(self.steps);
        }
        self.steps += 1;
        Ok(())
    }

    fn give(&mut self, number: usize, count: usize) {
        self.used[number - 1] -= count as u64;
    }

    fn children(&self, at: usize) -> Vec<usize> {
        children(self.records, at)
    }

    fn error(&mut self, number: u64, at: usize) -> Step {
        self.take(area::ERRORS)?;
        let r = self.records[at];
        self.errors.push([number, r.position, r.kind, r.value]);
        Ok(())
    }

    // Constants.

    fn add_constant(&mut self, kind: u64, value: u64) -> Step<u64> {
        self.take(area::CONSTANTS)?;
        self.constants.push([kind, value, 0]);
        Ok(self.constants.len() as u64 - 1)
    }

    fn integer(&mut self, value: u64) -> Step<u64> {
        if let Some(&known) = self.integers.get(&value) {
            return Ok(known);
        }
        let index = self.add_constant(constant::INTEGER, value)?;
        self.integers.insert(value, index);
        Ok(index)
    }

    /// 2026-05: the first number that has these 64 bits as a float.
    fn float(&mut self, bits: u64) -> Step<u64> {
        if let Some(&known) = self.floats.get(&bits) {
            return Ok(known);
        }
        let index = self.add_constant(constant::FLOAT, bits)?;
        self.floats.insert(bits, index);
        Ok(index)
    }

    fn text(&mut self, value: u64) -> Step<u64> {
        if let Some(&known) = self.texts.get(&value) {
            return Ok(known);
        }
        let index = self.add_constant(constant::TEXT, value)?;
        self.texts.insert(value, index);
        Ok(index)
    }

    fn global(&mut self, name: u64) -> Step<u64> {
        let index = self.text(name)?;
        self.constants[index as usize][2] = 1;
        Ok(index)
    }

    // Instructions.

    fn next(&self, f: &FunctionWork) -> u64 {
        (self.code.len() - f.base) as u64
    }

    fn last_position(&self, f: &FunctionWork) -> u64 {
        self.code[f.base..].last().map_or(0, |entry| entry[1])
    }

    fn last_opcode(&self, f: &FunctionWork) -> Option<u64> {
        self.code[f.base..].last().map(|entry| opcode(entry[0]))
    }

    fn emit(&mut self, f: &FunctionWork, opcode: u64, operand: u64, position: u64) -> Step<u64> {
        self.take(area::CODE)?;
        let index = self.next(f);
        self.code.push([instruction(opcode, operand), position]);
        Ok(index)
    }

    /// At the position of the instruction before.
    fn emit_here(&mut self, f: &FunctionWork, opcode: u64, operand: u64) -> Step<u64> {
        self.emit(f, opcode, operand, self.last_position(f))
    }

    fn patch(&mut self, f: &FunctionWork, index: u64, opcode: u64, target: u64) {
        self.code[f.base + index as usize][0] = instruction(opcode, target);
    }

    /// The value of a run of statements: that of a last expression, nothing after a return, else null.
    fn leave_value(&mut self, f: &FunctionWork) -> Step {
        match self.last_opcode(f) {
            Some(op::POP) => {
                self.code.pop();
                self.give(area::CODE, 1);
            }
            Some(op::RETURN) => {}
            _ => {
                self.emit_here(f, op::PUSH_CONSTANT, NULL_CONSTANT)?;
            }
        }
        Ok(())
    }

    fn emit_return(&mut self, f: &FunctionWork, position: u64) -> Step {
        self.leave_value(f)?;
        let last = self.last_opcode(f);
        self.panics |= last.is_none();
        if last != Some(op::RETURN) {
            self.emit(f, op::RETURN, 0, position)?;
        }
        Ok(())
    }

    // Names inside a function.

    fn find(&self, f: &FunctionWork, name: u64) -> Option<u64> {
        f.places.get(&name).and_then(|places| places.last()).map(|&place| f.names[place].1)
    }

    /// A new local of the innermost scope; none if the scope has the name.
    fn define(&mut self, f: &mut FunctionWork, name: u64) -> Step<Option<u64>> {
        let scope = *f.scopes.last().expect("a function has a scope");
        let places = f.places.entry(name).or_default();
        if places.last().is_some_and(|&place| place >= scope) {
            return Ok(None);
        }
        self.take(area::NAMES)?;
        let local = f.locals;
        f.locals += 1;
        places.push(f.names.len());
        f.names.push((name, local));
        Ok(Some(local))
    }

    fn enter(&mut self, f: &mut FunctionWork) {
        f.scopes.push(f.names.len());
    }

    fn leave(&mut self, f: &mut FunctionWork) {
        let start = f.scopes.pop().expect("a scope was entered");
        self.give(area::NAMES, f.names.len() - start);
        for (name, _) in f.names.drain(start..) {
            f.places.get_mut(&name).expect("a name has places").pop();
        }
    }

    // Expressions.

    fn expression(&mut self, f: &mut FunctionWork, at: usize) -> Step {
        let r = self.records[at];
        match r.kind {
            kind::IDENTIFIER => self.identifier(f, r),
            kind::THIS => self.emit(f, op::LOCAL_GET, 0, r.position).map(drop),
            kind::NULL => self.emit(f, op::PUSH_CONSTANT, NULL_CONSTANT, r.position).map(drop),
            kind::BOOLEAN => {
                let index = if r.value == 1 { TRUE_CONSTANT } else { FALSE_CONSTANT };
                self.emit(f, op::PUSH_CONSTANT, index, r.position).map(drop)
            }
            kind::INTEGER | kind::FLOAT | kind::STRING => {
                let index = match r.kind {
                    kind::INTEGER => self.integer(r.value)?,
                    kind::FLOAT => self.float(r.value)?,
                    _ => self.text(r.value)?,
                };
                self.emit(f, op::PUSH_CONSTANT, index, r.position).map(drop)
            }
            kind::ARRAY => {
                let values = self.children(at);
                self.all(f, &values)?;
                self.emit(f, op::ARRAY, values.len() as u64, r.position).map(drop)
            }
            kind::CALL => {
                let parts = self.children(at);
                self.all(f, &parts)?;
                self.emit(f, op::CALL, parts.len() as u64 - 1, r.position).map(drop)
            }
            kind::PREFIX => self.prefix(f, at),
            kind::INFIX => self.infix(f, at),
            kind::INSTANCE_GET => self.pair(f, at, op::INSTANCE_GET),
            kind::INDEX_GET => self.pair(f, at, op::INDEX_GET),
            kind::IF => self.if_expression(f, at),
            other => unreachable!("kind {other} is no expression"),
        }
    }

    fn all(&mut self, f: &mut FunctionWork, places: &[usize]) -> Step {
        places.iter().try_for_each(|&at| self.expression(f, at))
    }

    /// Both parts of a get, then the instruction: a get, or a set where it is a target.
    fn pair(&mut self, f: &mut FunctionWork, at: usize, opcode: u64) -> Step {
        let parts = self.children(at);
        self.all(f, &parts)?;
        self.emit(f, opcode, 0, self.records[at].position).map(drop)
    }

    fn identifier(&mut self, f: &mut FunctionWork, r: Record) -> Step {
        let (opcode, operand) = if let Some(local) = self.find(f, r.value) {
            (op::LOCAL_GET, local)
        } else if let Some(&local) = self.context_names.get(&r.value) {
            (op::CONTEXT_GET, local)
        } else {
            (op::GLOBAL_GET, self.global(r.value)?)
        };
        self.emit(f, opcode, operand, r.position).map(drop)
    }

    fn prefix(&mut self, f: &mut FunctionWork, at: usize) -> Step {
        let r = self.records[at];
        self.expression(f, at + 1)?;
        match r.value {
            PREFIX_MINUS => self.emit(f, op::NEGATIVE, 0, r.position).map(drop),
            PREFIX_NOT => self.emit(f, op::NOT, 0, r.position).map(drop),
            _ => self.error(error::UNKNOWN_OPERATION, at),
        }
    }

    fn infix(&mut self, f: &mut FunctionWork, at: usize) -> Step {
        let r = self.records[at];
        let parts = self.children(at);
        let (left, right) = (parts[0], parts[1]);
        if r.value == infix::ASSIGN {
            self.expression(f, right)?;
            return self.assign(f, at, left);
        }
        let Some(operation) = infix::operation(r.value) else {
            return self.error(error::UNKNOWN_OPERATION, at);
        };
        self.expression(f, left)?;
        self.expression(f, right)?;
        self.emit(f, op::OPERATION, operation, r.position)?;
        if r.value == infix::NOT_EQUAL {
            self.emit(f, op::NOT, 0, r.position)?;
        }
        if infix::is_compound(r.value) {
            self.assign(f, at, left)?;
        }
        Ok(())
    }

    /// The target of an assignment; a name's set stands at the operator, a get's at the get.
    fn assign(&mut self, f: &mut FunctionWork, at: usize, target: usize) -> Step {
        let position = self.records[at].position;
        let t = self.records[target];
        match t.kind {
            kind::IDENTIFIER => {
                let (opcode, operand) = if let Some(local) = self.find(f, t.value) {
                    (op::LOCAL_SET, local)
                } else if let Some(&local) = self.context_names.get(&t.value) {
                    (op::CONTEXT_SET, local)
                } else {
                    (op::GLOBAL_SET, self.global(t.value)?)
                };
                self.emit(f, opcode, operand, position).map(drop)
            }
            kind::INSTANCE_GET => self.pair(f, target, op::INSTANCE_SET),
            kind::INDEX_GET => self.pair(f, target, op::INDEX_SET),
            _ => self.error(error::CAN_NOT_ASSIGN, at),
        }
    }

    fn if_expression(&mut self, f: &mut FunctionWork, at: usize) -> Step {
        let parts = self.children(at);
        self.expression(f, parts[0])?;
        let to_true = self.emit_here(f, op::JUMP_IF, 0)?;
        match parts.get(2) {
            Some(&block) => self.block(f, block)?,
            None => drop(self.emit_here(f, op::PUSH_CONSTANT, NULL_CONSTANT)?),
        }
        let to_end = self.emit_here(f, op::JUMP, 0)?;
        self.patch(f, to_true, op::JUMP_IF, self.next(f));
        self.block(f, parts[1])?;
        self.patch(f, to_end, op::JUMP, self.next(f));
        Ok(())
    }

    fn block(&mut self, f: &mut FunctionWork, at: usize) -> Step {
        self.enter(f);
        for statement in self.children(at) {
            self.statement(f, statement)?;
        }
        self.leave(f);
        self.leave_value(f)
    }

    // Statements.

    fn statement(&mut self, f: &mut FunctionWork, at: usize) -> Step {
        f.depth += 1;
        let r = self.records[at];
        match r.kind {
            kind::LOCAL => self.locals(f, at)?,
            kind::RETURN => self.emit_return(f, r.position)?,
            kind::BREAK => self.break_statement(f, r.position)?,
            kind::RESCUE if f.depth > 1 => self.error(error::RESCUE_LAYER, at)?,
            kind::RESCUE => {
                self.emit_return(f, r.position)?;
                f.rescue = self.next(f);
            }
            kind::FOR => self.for_statement(f, at)?,
            kind::EXPRESSION => {
                self.expression(f, at + 1)?;
                self.emit_here(f, op::POP, 0)?;
            }
            other => unreachable!("kind {other} is no statement"),
        }
        f.depth -= 1;
        Ok(())
    }

    /// The name stands before its value is compiled; a repeated name's value is not compiled.
    fn locals(&mut self, f: &mut FunctionWork, at: usize) -> Step {
        for pair in self.children(at).chunks(2) {
            let (name, value) = (self.records[pair[0]], pair[1]);
            match self.define(f, name.value)? {
                None => self.error(error::VARIABLE_EXISTS, pair[0])?,
                Some(_) if self.records[value].kind == kind::ABSENT => {}
                Some(local) => {
                    self.expression(f, value)?;
                    self.emit(f, op::LOCAL_INIT, local, name.position)?;
                }
            }
        }
        Ok(())
    }

    fn break_statement(&mut self, f: &mut FunctionWork, position: u64) -> Step {
        if f.loops.is_empty() {
            return Ok(());
        }
        let index = self.emit(f, op::JUMP, 0, position)?;
        self.take(area::BREAKS)?;
        f.breaks.push(index as usize);
        Ok(())
    }

    fn for_statement(&mut self, f: &mut FunctionWork, at: usize) -> Step {
        let position = self.records[at].position;
        let parts = self.children(at);
        let name = self.records[parts[0]];
        let enumerable = f.locals;
        let iterator = f.locals + 1;
        f.locals += 2;
        self.enter(f);
        f.loops.push(f.breaks.len());

        self.expression(f, parts[1])?;
        self.emit(f, op::LOCAL_SET, enumerable, position)?;
        self.emit_here(f, op::POP, 0)?;
        let zero = self.integer(0)?;
        self.emit(f, op::PUSH_CONSTANT, zero, position)?;
        self.emit(f, op::LOCAL_SET, iterator, position)?;
        self.emit_here(f, op::POP, 0)?;
        let local = self.define(f, name.value)?.expect("the scope is new");

        let start = self.emit(f, op::FOR_NEXT, enumerable, position)?;
        let exit = self.emit_here(f, op::JUMP_IF, 0)?;
        self.emit(f, op::LOCAL_SET, local, name.position)?;
        self.emit_here(f, op::POP, 0)?;
        for &statement in &parts[2..] {
            self.statement(f, statement)?;
        }
        self.emit_here(f, op::ITERATE, iterator)?;
        self.emit_here(f, op::JUMP, start)?;

        let end = self.next(f);
        self.patch(f, exit, op::JUMP_IF, end);
        let first = f.loops.pop().expect("the loop was entered");
        for index in f.breaks.split_off(first) {
            self.patch(f, index as u64, op::JUMP, end);
            self.give(area::BREAKS, 1);
        }
        self.leave(f);
        Ok(())
    }

    // Definitions.

    /// A new context local of the book; none if the book has the name.
    fn define_context(&mut self, name: u64) -> Step<Option<u64>> {
        if self.context_names.contains_key(&name) {
            return Ok(None);
        }
        self.take(area::CONTEXT)?;
        let index = self.context.len() as u64;
        self.context_names.insert(name, index);
        self.context.push([self.file, name, 0, 0]);
        Ok(Some(index))
    }

    fn set_context(&mut self, local: u64, constant: u64) {
        let entry = &mut self.context[local as usize];
        entry[2] = 1;
        entry[3] = constant;
    }

    fn publish(&mut self, name: u64, constant: u64) -> Step {
        if let Some(&place) = self.public_places.get(&(self.file, name)) {
            self.public[place][2] = constant;
            return Ok(());
        }
        self.take(area::PUBLIC)?;
        self.public_places.insert((self.file, name), self.public.len());
        self.public.push([self.file, name, constant]);
        Ok(())
    }

    fn definition(&mut self, at: usize) -> Step {
        let r = self.records[at];
        match r.kind {
            kind::LOCAL_DEFINITION => self.local_definition(at),
            kind::INCLUDE => self.include(at),
            kind::MODEL => self.model(at).map(drop),
            kind::PUBLIC_MODEL => {
                let constant = self.model(at)?;
                self.publish(r.value, constant)
            }
            kind::FUNCTION => self.function_definition(at).map(drop),
            kind::PUBLIC_FUNCTION => {
                let constant = self.function_definition(at)?;
                self.publish(r.value, constant)
            }
            kind::IMPLEMENT => self.implement(at),
            kind::APPLY => self.apply(at),
            other => unreachable!("kind {other} is no definition"),
        }
    }

    fn local_definition(&mut self, at: usize) -> Step {
        for pair in self.children(at).chunks(2) {
            let Some(local) = self.define_context(self.records[pair[0]].value)? else {
                continue;
            };
            let value = self.records[pair[1]];
            let constant = match value.kind {
                kind::ABSENT => continue,
                kind::NULL => NULL_CONSTANT,
                kind::BOOLEAN if value.value == 1 => TRUE_CONSTANT,
                kind::BOOLEAN => FALSE_CONSTANT,
                kind::INTEGER => self.integer(value.value)?,
                kind::FLOAT => self.float(value.value)?,
                _ => {
                    self.error(error::CONSTANT_ONLY, pair[1])?;
                    continue;
                }
            };
            self.set_context(local, constant);
        }
        Ok(())
    }

    fn include(&mut self, at: usize) -> Step {
        let source = self.finished.get(&self.records[at].value).copied();
        if self.rules.strict && !self.all_public(at, source) {
            return Err(NotPublic(at));
        }
        for pair in self.children(at).chunks(2) {
            let (public, alias) = (self.records[pair[0]].value, self.records[pair[1]].value);
            let Some(local) = self.define_context(alias)? else {
                continue;
            };
            let place = source.and_then(|file| self.public_places.get(&(file, public)));
            if let Some(&place) = place {
                self.set_context(local, self.public[place][2]);
            }
        }
        Ok(())
    }

    /// Whether every name that an include lists is public in its file.
    fn all_public(&self, at: usize, source: Option<u64>) -> bool {
        let names = self.children(at).into_iter().step_by(2).map(|pair| self.records[pair].value);
        let mut keys = names.map(|name| source.map(|file| (file, name)));
        keys.all(|key| key.is_some_and(|key| self.public_places.contains_key(&key)))
    }

    /// Answers the model's constant.
    fn model(&mut self, at: usize) -> Step<u64> {
        let name = self.records[at].value;
        let index = self.models.len() as u64;
        let mut known = HashSet::new();
        for property in self.children(at) {
            let text = self.records[property].value;
            if !known.insert(text) {
                self.error(error::PROPERTY_EXISTS, property)?;
            } else {
                self.take(area::PROPERTIES)?;
                self.properties.push([index, text]);
            }
        }
        self.take(area::MODELS)?;
        self.models.push([self.file, name]);
        let constant = self.add_constant(constant::MODEL, index)?;
        if let Some(local) = self.define_context(name)? {
            self.set_context(local, constant);
        }
        Ok(constant)
    }

    /// Parameters, body and the closing return; the record is not yet made.
    fn function(&mut self, at: usize) -> Step<FunctionWork> {
        let mut f = FunctionWork {
            base: self.code.len(),
            parameters: 0,
            locals: 0,
            rescue: 0,
            instance: false,
            depth: 0,
            names: Vec::new(),
            places: HashMap::new(),
            scopes: Vec::new(),
            breaks: Vec::new(),
            loops: Vec::new(),
        };
        self.enter(&mut f);
        for child in self.children(at) {
            let r = self.records[child];
            if kind::is_statement(r.kind) {
                self.statement(&mut f, child)?;
                continue;
            }
            f.parameters += 1;
            f.instance |= r.kind == kind::THIS_PARAMETER;
            if self.define(&mut f, r.value)?.is_none() {
                self.error(error::PARAMETER_EXISTS, child)?;
            }
        }
        self.emit_return(&f, self.last_position(&f))?;
        self.leave(&mut f);
        Ok(f)
    }

    fn add_function(&mut self, f: &FunctionWork, name: u64) -> Step<u64> {
        self.take(area::FUNCTIONS)?;
        let count = self.next(f);
        self.functions.push([
            f.parameters,
            f.locals,
            f.rescue,
            f.instance as u64,
            f.base as u64,
            count,
            self.file,
            name,
        ]);
        Ok(self.functions.len() as u64 - 1)
    }

    /// Answers the function's constant, or null's after error 8.
    fn function_definition(&mut self, at: usize) -> Step<u64> {
        let name = self.records[at].value;
        let local = self.define_context(name)?;
        let f = self.function(at)?;
        if f.instance {
            self.give(area::CODE, self.code.len() - f.base);
            self.code.truncate(f.base);
            self.error(error::INSTANCE_FUNCTION, at)?;
            return Ok(NULL_CONSTANT);
        }
        let index = self.add_function(&f, name)?;
        let constant = self.add_constant(constant::FUNCTION, index)?;
        if let Some(local) = local {
            self.set_context(local, constant);
        }
        if name == MAIN {
            self.entry_point = index;
        }
        Ok(constant)
    }

    /// The model that a name of the book stands for; error 9 or 10 at the record if it is none.
    fn find_model(&mut self, at: usize) -> Step<Option<u64>> {
        let Some(&local) = self.context_names.get(&self.records[at].value) else {
            self.error(error::NO_MODEL, at)?;
            return Ok(None);
        };
        let [_, _, mark, constant] = self.context[local as usize];
        let [kind, model, _] = self.constants[constant as usize];
        if mark == 1 && kind == constant::MODEL {
            return Ok(Some(model));
        }
        self.error(error::NOT_A_MODEL, at)?;
        Ok(None)
    }

    fn set_method(&mut self, model: u64, name: u64, function: u64) -> Step {
        if let Some(&place) = self.method_places.get(&(model, name)) {
            self.methods[place][2] = function;
            return Ok(());
        }
        self.take(area::METHODS)?;
        self.method_places.insert((model, name), self.methods.len());
        self.methods.push([model, name, function]);
        Ok(())
    }

    fn implement(&mut self, at: usize) -> Step {
        let mut made = Vec::new();
        for function in self.children(at) {
            let name = self.records[function].value;
            let f = self.function(function)?;
            made.push((name, self.add_function(&f, name)?));
        }
        if let Some(model) = self.find_model(at)? {
            for (name, function) in made {
                self.set_method(model, name, function)?;
            }
        }
        Ok(())
    }

    fn apply(&mut self, at: usize) -> Step {
        let source = self.find_model(at + 1)?;
        let copied: Vec<[u64; 3]> = self.methods.iter().filter(|method| Some(method[0]) == source).copied().collect();
        if let Some(model) = self.find_model(at + 2)? {
            for [_, name, function] in copied {
                self.set_method(model, name, function)?;
            }
        }
        Ok(())
    }

    // Books.

    fn book(&mut self, at: usize) -> Step {
        self.context_names.clear();
        for definition in self.children(at) {
            self.definition(definition)?;
        }
        self.finished.insert(self.records[at].value, self.file);
        self.file += 1;
        Ok(())
    }

    /// Everything after row 6; answers row 7 or 8, or nothing where the program is delivered.
    fn bundle(&mut self, books: &crate::books::Books) -> Step<Option<Refusal>> {
        if self.constants.is_empty() {
            self.add_constant(constant::NULL, 0)?;
            self.add_constant(constant::BOOLEAN, 1)?;
            self.add_constant(constant::BOOLEAN, 0)?;
        }
        for _ in books {
            self.take(area::BOOKS)?;
        }
        let (ready, left) = order(books);
        for file in ready {
            self.books.push(file);
            self.book(books[&file].at)?;
            if !self.errors.is_empty() {
                return Ok(Some((BOOK_FAULTY, file)));
            }
        }
        for &file in &left {
            self.take(area::ERRORS)?;
            self.errors.push([error::RING, 0, 0, file]);
        }
        Ok((!left.is_empty()).then_some((RING, left.len() as u64)))
    }

    fn delivered(&self) -> (Reply, Areas) {
        let areas: Areas = [
            self.code.concat(),
            self.constants.concat(),
            self.functions.concat(),
            self.models.concat(),
            self.properties.concat(),
            self.methods.concat(),
            self.context.concat(),
            self.public.concat(),
            Vec::new(),
            Vec::new(),
            Vec::new(),
            self.books.clone(),
        ];
        let totals = self.used;
        let globals = self.constants.iter().filter(|c| c[2] == 1).count() as u64;
        // 2026-08: "1 when fresh"; who runs this onto a program counts on from that.
        (Reply { row: 0, place: 0, totals, entry_point: self.entry_point, globals, bundles: 1 }, areas)
    }
}

/// The reply and the areas' words for a bundle, with areas of these lengths in words.
pub fn compile(words: &[u64], lengths: &Lengths) -> Run {
    compile_by(Rules::default(), words, lengths)
}

/// The same under later requests' rules.
pub fn compile_by(rules: Rules, words: &[u64], lengths: &Lengths) -> Run {
    let records = match check(words) {
        Ok(records) => records,
        Err(refusal) => return Run::refused(refusal),
    };
    let books = match needed(&records) {
        Ok(books) => books,
        Err(refusal) => return Run::refused(refusal),
    };
    compile_books(rules, &records, &books, capacities(lengths), None)
}

/// Everything after row 6, for books that are known: fresh, or from a standing program on, which is its areas up to
/// their totals and its entry point.
pub fn compile_books(
    rules: Rules,
    records: &[Record],
    books: &crate::books::Books,
    capacities: Counts,
    standing: Option<(&Areas, u64)>,
) -> Run {
    let fresh = Work { rules, ..Work::new(records, capacities) };
    match standing {
        None => finish(fresh, books),
        Some((areas, entry_point)) => finish(fresh.onto(areas, entry_point), books),
    }
}

/// Everything after row 6: the work, and what is answered where it ends.
fn finish(mut work: Work, books: &crate::books::Books) -> Run {
    let outcome = work.bundle(books);
    let mut areas = Areas::default();
    let reply = match outcome {
        Err(Full(number)) => Reply::refusal(AREA_FULL, number as u64),
        Err(NotPublic(at)) => Reply::refusal(NAME_NOT_PUBLIC, at as u64),
        Ok(Some((row, place))) => {
            areas[area::ERRORS - 1] = work.errors.concat();
            Reply::refusal(row, place)
        }
        Ok(None) => {
            let (reply, filled) = work.delivered();
            areas = filled;
            reply
        }
    };
    Run { reply, areas, reached: work.reached, steps: work.steps, panics: work.panics }
}

/// The row-9 place that these capacities must meet in a run without any, none if they hold: the
/// area whose first entry beyond comes at the earliest step. A second way to the same answer.
pub fn first_beyond(run: &Run, capacities: &Counts) -> Option<u64> {
    let beyond = |i: usize| run.reached[i].get(capacities[i] as usize).map(|&step| (step, i as u64 + 1));
    (0..AREAS).filter_map(beyond).min().map(|(_, number)| number)
}
