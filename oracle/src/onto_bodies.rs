//! Bodies of functions for onto_work.rs: `function_state.rs`, expressions and statements, in the Rust's order of steps.

use crate::areas::area;
use crate::onto_work::{boolean, Work, FLOAT, INTEGER, NULL, TEXT};
use crate::records::kind;

/// Opcodes of opcode.rs that books emit.
mod op {
    pub const POP: u64 = 1;
    pub const PUSH_CONSTANT: u64 = 2;
    pub const RETURN: u64 = 5;
    pub const LOCAL_SET: u64 = 6;
    pub const LOCAL_GET: u64 = 7;
    pub const LOCAL_INIT: u64 = 8;
    pub const CONTEXT_SET: u64 = 12;
    pub const CONTEXT_GET: u64 = 13;
    pub const GLOBAL_SET: u64 = 17;
    pub const GLOBAL_GET: u64 = 18;
    pub const INSTANCE_SET: u64 = 19;
    pub const INSTANCE_GET: u64 = 20;
    pub const INDEX_SET: u64 = 21;
    pub const INDEX_GET: u64 = 22;
    pub const OPERATION: u64 = 33;
    pub const NOT: u64 = 34;
    pub const NEGATIVE: u64 = 35;
    pub const CALL: u64 = 50;
    pub const ARRAY: u64 = 54;
    pub const JUMP: u64 = 81;
    pub const JUMP_IF: u64 = 82;
    pub const FOR_NEXT: u64 = 86;
    pub const ITERATE: u64 = 87;
}

/// Operands of Operation by infix value, 1 to 18.
const OPERATIONS: [u64; 18] = [0, 1, 2, 3, 4, 0, 1, 2, 3, 4, 5, 5, 6, 7, 8, 9, 257, 258];
const NOT_EQUAL: u64 = 12;

fn word(opcode: u64, operand: u64) -> u64 {
    opcode * (1 << 56) + operand
}

/// `FunctionState`.
#[derive(Default)]
pub(crate) struct Function {
    pub(crate) parameters: u64,
    pub(crate) locals: u64,
    pub(crate) rescue: u64,
    pub(crate) instance: bool,
    depth: u64,
    /// Names and locals of each scope.
    scopes: Vec<Vec<(u64, u64)>>,
    /// Jumps of the breaks of each loop.
    loops: Vec<Vec<usize>>,
    /// Instruction word and position.
    pub(crate) code: Vec<[u64; 2]>,
}

impl Function {
    /// With its first scope.
    pub(crate) fn new() -> Function {
        Function { scopes: vec![Vec::new()], ..Function::default() }
    }

    pub(crate) fn last_position(&self) -> u64 {
        self.code.last().map_or(0, |last| last[1])
    }

    fn last_opcode(&self) -> Option<u64> {
        self.code.last().map(|last| last[0] >> 56)
    }

    pub(crate) fn next(&self) -> u64 {
        self.code.len() as u64
    }

    fn find_local(&self, name: u64) -> Option<u64> {
        let found = |scope: &Vec<(u64, u64)>| scope.iter().find(|entry| entry.0 == name).map(|entry| entry.1);
        self.scopes.iter().rev().find_map(found)
    }

    fn anonymous(&mut self) -> u64 {
        self.locals += 1;
        self.locals - 1
    }

    /// `replace_instruction`.
    fn replace(&mut self, index: usize, opcode: u64, operand: u64) {
        self.code[index][0] = word(opcode, operand);
    }
}

impl Work<'_> {
    // Instructions.

    fn emit(&mut self, f: &mut Function, opcode: u64, operand: u64, position: u64) -> usize {
        self.take(area::CODE, self.tables.of_area(area::CODE).len() + f.code.len() + 1);
        f.code.push([word(opcode, operand), position]);
        f.code.len() - 1
    }

    /// `emit_opcode_without_position`: at the last position.
    fn emit_here(&mut self, f: &mut Function, opcode: u64, operand: u64) -> usize {
        self.emit(f, opcode, operand, f.last_position())
    }

    fn remove_pop_or_push_null(&mut self, f: &mut Function) {
        match f.last_opcode() {
            Some(op::POP) => {
                f.code.pop();
            }
            Some(op::RETURN) => {}
            _ => {
                self.emit_here(f, op::PUSH_CONSTANT, NULL);
            }
        }
    }

    /// 01: where the Rust panics on a list emptied of its only Pop, Return is emitted.
    pub(crate) fn emit_return(&mut self, f: &mut Function, position: u64) {
        self.remove_pop_or_push_null(f);
        if f.last_opcode() != Some(op::RETURN) {
            self.emit(f, op::RETURN, 0, position);
        }
    }

    pub(crate) fn define_local(&mut self, f: &mut Function, name: u64) -> Option<u64> {
        let scope = f.scopes.last_mut().expect("a function has a scope");
        if scope.iter().any(|entry| entry.0 == name) {
            return None;
        }
        let local = f.locals;
        f.locals += 1;
        scope.push((name, local));
        self.take(area::NAMES, f.scopes.iter().map(Vec::len).sum());
        Some(local)
    }

    // Expressions.

    /// Where a name is read or set: its opcode and operand. `opcodes` are for a local, a context local, a global.
    fn named(&mut self, f: &Function, name: u64, opcodes: [u64; 3]) -> (u64, u64) {
        if let Some(local) = f.find_local(name) {
            return (opcodes[0], local);
        }
        if let Some(&(_, local)) = self.locals.iter().find(|entry| entry.0 == name) {
            return (opcodes[1], local);
        }
        (opcodes[2], self.global(name))
    }

    fn expressions(&mut self, f: &mut Function, parts: &[usize]) {
        parts.iter().for_each(|&at| self.expression(f, at));
    }

    fn expression(&mut self, f: &mut Function, at: usize) {
        if self.is_stopped() {
            return;
        }
        let r = self.records[at];
        let parts = self.children(at);
        let (opcode, operand) = match r.kind {
            kind::IDENTIFIER => self.named(f, r.value, [op::LOCAL_GET, op::CONTEXT_GET, op::GLOBAL_GET]),
            kind::THIS => (op::LOCAL_GET, 0),
            kind::NULL => (op::PUSH_CONSTANT, NULL),
            kind::BOOLEAN => (op::PUSH_CONSTANT, boolean(r.value)),
            kind::INTEGER => (op::PUSH_CONSTANT, self.constant(INTEGER, r.value)),
            kind::FLOAT => (op::PUSH_CONSTANT, self.constant(FLOAT, r.value)),
            kind::STRING => (op::PUSH_CONSTANT, self.constant(TEXT, r.value)),
            kind::ARRAY | kind::CALL | kind::INSTANCE_GET | kind::INDEX_GET => {
                self.expressions(f, &parts);
                match r.kind {
                    kind::ARRAY => (op::ARRAY, parts.len() as u64),
                    kind::CALL => (op::CALL, parts.len() as u64 - 1),
                    kind::INSTANCE_GET => (op::INSTANCE_GET, 0),
                    _ => (op::INDEX_GET, 0),
                }
            }
            kind::PREFIX => {
                self.expressions(f, &parts);
                match r.value {
                    0 => (op::NEGATIVE, 0),
                    1 => (op::NOT, 0),
                    _ => return self.error(3, at),
                }
            }
            kind::INFIX => return self.infix(f, at, &parts),
            _ => return self.if_expression(f, &parts),
        };
        self.emit(f, opcode, operand, r.position);
    }

    fn infix(&mut self, f: &mut Function, at: usize, parts: &[usize]) {
        let r = self.records[at];
        match r.value {
            0 => self.expression(f, parts[1]),
            1..=18 => {
                self.expressions(f, parts);
                self.emit(f, op::OPERATION, OPERATIONS[r.value as usize - 1], r.position);
                if r.value == NOT_EQUAL {
                    self.emit(f, op::NOT, 0, r.position);
                }
            }
            _ => self.error(3, at),
        }
        if matches!(r.value, 0 | 6..=10) {
            self.assign_left_part(f, at);
        }
    }

    /// `compile_assign_expression_left_part` of the infix at `at`.
    fn assign_left_part(&mut self, f: &mut Function, at: usize) {
        let (infix, left) = (self.records[at], self.records[at + 1]);
        match left.kind {
            kind::IDENTIFIER => {
                let (opcode, operand) = self.named(f, left.value, [op::LOCAL_SET, op::CONTEXT_SET, op::GLOBAL_SET]);
                self.emit(f, opcode, operand, infix.position);
            }
            kind::INSTANCE_GET | kind::INDEX_GET => {
                let parts = self.children(at + 1);
                self.expressions(f, &parts);
                let opcode = if left.kind == kind::INSTANCE_GET { op::INSTANCE_SET } else { op::INDEX_SET };
                self.emit(f, opcode, 0, left.position);
            }
            _ => self.error(2, at),
        }
    }

    fn block(&mut self, f: &mut Function, at: usize) {
        f.scopes.push(Vec::new());
        self.children(at).into_iter().for_each(|statement| self.statement(f, statement));
        f.scopes.pop();
        self.remove_pop_or_push_null(f);
    }

    /// 01: "An if emits its false part before its true part."
    fn if_expression(&mut self, f: &mut Function, parts: &[usize]) {
        self.expression(f, parts[0]);
        let to_true = self.emit_here(f, op::JUMP_IF, 0);
        match parts.get(2) {
            Some(&part) => self.block(f, part),
            None => {
                self.emit_here(f, op::PUSH_CONSTANT, NULL);
            }
        }
        let to_end = self.emit_here(f, op::JUMP, 0);
        f.replace(to_true, op::JUMP_IF, f.next());
        self.block(f, parts[1]);
        f.replace(to_end, op::JUMP, f.next());
    }

    // Statements.

    pub(crate) fn statement(&mut self, f: &mut Function, at: usize) {
        if self.is_stopped() {
            return;
        }
        let r = self.records[at];
        f.depth += 1;
        match r.kind {
            kind::LOCAL => self.local_statement(f, at),
            kind::RETURN => self.emit_return(f, r.position),
            kind::BREAK if f.loops.is_empty() => {}
            kind::BREAK => {
                let jump = self.emit(f, op::JUMP, 0, r.position);
                f.loops.last_mut().expect("not empty").push(jump);
                self.take(area::BREAKS, f.loops.iter().map(Vec::len).sum());
            }
            kind::RESCUE if f.depth > 1 => self.error(4, at),
            kind::RESCUE => {
                self.emit_return(f, r.position);
                f.rescue = f.next();
            }
            kind::FOR => self.for_statement(f, at),
            _ => {
                self.expression(f, at + 1);
                self.emit_here(f, op::POP, 0);
            }
        }
        f.depth -= 1;
    }

    fn local_statement(&mut self, f: &mut Function, at: usize) {
        for pair in self.children(at).chunks_exact(2) {
            let name = self.records[pair[0]];
            let Some(local) = self.define_local(f, name.value) else {
                self.error(1, pair[0]);
                continue;
            };
            if self.records[pair[1]].kind != kind::ABSENT {
                self.expression(f, pair[1]);
                self.emit(f, op::LOCAL_INIT, local, name.position);
            }
        }
    }

    fn for_statement(&mut self, f: &mut Function, at: usize) {
        let position = self.records[at].position;
        let parts = self.children(at);
        let name = self.records[parts[0]];
        let (enumerable, iterator) = (f.anonymous(), f.anonymous());
        f.scopes.push(Vec::new());
        f.loops.push(Vec::new());
        self.expression(f, parts[1]);
        self.emit(f, op::LOCAL_SET, enumerable, position);
        self.emit_here(f, op::POP, 0);
        let zero = self.constant(INTEGER, 0);
        self.emit(f, op::PUSH_CONSTANT, zero, position);
        self.emit(f, op::LOCAL_SET, iterator, position);
        self.emit_here(f, op::POP, 0);
        let local = self.define_local(f, name.value).expect("the scope is new");
        let start = f.next();
        self.emit(f, op::FOR_NEXT, enumerable, position);
        let exit = self.emit_here(f, op::JUMP_IF, 0);
        self.emit(f, op::LOCAL_SET, local, name.position);
        self.emit_here(f, op::POP, 0);
        parts[2..].iter().for_each(|&statement| self.statement(f, statement));
        self.emit_here(f, op::ITERATE, iterator);
        self.emit_here(f, op::JUMP, start);
        let end = f.next();
        f.replace(exit, op::JUMP_IF, end);
        for jump in f.loops.pop().expect("the loop was entered") {
            f.replace(jump, op::JUMP, end);
        }
        f.scopes.pop();
    }
}
