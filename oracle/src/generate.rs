//! Bundles to try: every kind and operator, several books, each error, and broken ones. Case `index`
//! of a seed is the same everywhere.

use crate::damage::damage;
use crate::random::Random;
use crate::records::{flatten, kind, position, Node, MAIN, MAX_LEVEL, MAX_PLACE, MAX_TEXT};
use std::collections::BTreeMap;

#[derive(Clone, Debug)]
pub struct Case {
    pub words: Vec<u64>,
    /// Row and place, where the way it was broken says them.
    pub expected: Option<(u64, u64)>,
}

/// How big cases are.
#[derive(Clone, Copy, Debug, PartialEq, Eq)]
pub enum Sizes {
    /// From nothing to some hundred records, now and then thousands.
    Mixed,
    /// Thousands of records, many books, great depth.
    Large,
}

/// Compound assignment to a get compiles its target twice, so nested ones double the work; the Rust
/// has no areas that would stop it.
const MAX_DOUBLINGS: u32 = 7;

/// Written out, since the bits of `f64::NAN` are not promised.
const NAN: u64 = 0x7FF8_0000_0000_0000;

/// What a name of a book stands for, as far as implement and apply care.
#[derive(Clone, Copy, PartialEq, Eq)]
enum Meaning {
    Model,
    Other,
}

#[derive(Default)]
struct BookPlan {
    /// Names of the book; the first definition counts.
    names: BTreeMap<u64, Meaning>,
    /// Public names; the last definition counts.
    public: BTreeMap<u64, Meaning>,
}

struct Generator {
    random: Random,
    /// Texts to choose from; few, so that names meet.
    palette: Vec<u64>,
    /// Number of the 41s.
    this: u64,
    /// In 1,000: how often something is done that is an error.
    slips: u64,
    /// Records still to be spent.
    budget: i64,
    /// Deepest level allowed.
    deepest: usize,
    doublings: u32,
    wide_positions: bool,
    far_positions: bool,
    fresh: u64,
    scopes: Vec<Vec<u64>>,
    loops: usize,
}

const EXPRESSION_LEAVES: [u64; 7] =
    [kind::IDENTIFIER, kind::THIS, kind::NULL, kind::INTEGER, kind::FLOAT, kind::STRING, kind::BOOLEAN];

impl Generator {
    fn new(mut random: Random, sizes: Sizes) -> Generator {
        let (budget, deepest) = match sizes {
            Sizes::Large => match random.below(4) {
                0 => (8000, 64),
                1 => (3000, 30),
                2 => (1500, 64),
                _ => (4000, 12),
            },
            Sizes::Mixed => match random.weighted(&[30, 30, 20, 10, 2, 6]) {
                0 => (random.below(15) as i64, 12),
                1 => (random.between(10, 60) as i64, 14),
                2 => (random.between(40, 200) as i64, 20),
                3 => (random.between(100, 600) as i64, 30),
                4 => (random.between(1000, 4000) as i64, 24),
                _ => (random.between(100, 400) as i64, 64),
            },
        };
        let slips = random.pick(&[0, 0, 0, 0, 0, 3, 10, 40, 200]);
        let this = random.pick(&[2, 2, 3, 3, 7, 7, 12, 500, 500, MAX_TEXT, MAX_TEXT, MAIN]);
        let wide_positions = random.chance(300);
        let far_positions = random.chance(150);
        let mut generator = Generator {
            random,
            palette: Vec::new(),
            this,
            slips,
            budget,
            deepest,
            doublings: 0,
            wide_positions,
            far_positions,
            fresh: 2000,
            scopes: Vec::new(),
            loops: 0,
        };
        generator.fill_palette();
        generator
    }

    fn fill_palette(&mut self) {
        let count = self.random.between(3, 14);
        for _ in 0..count {
            let text = match self.random.below(12) {
                0 => MAIN,
                1 => self.this,
                2 => MAX_TEXT - self.random.below(3),
                3 => self.random.between(1, MAX_TEXT),
                _ => self.random.between(1, 30),
            };
            self.palette.push(text);
        }
    }

    fn slip(&mut self) -> bool {
        self.random.chance(self.slips)
    }

    fn text(&mut self) -> u64 {
        self.random.pick(&self.palette.clone())
    }

    /// A text that nothing else names.
    fn fresh(&mut self) -> u64 {
        self.fresh += 1;
        self.fresh
    }

    fn position(&mut self) -> u64 {
        // Beyond the Rust's 16 bits: `real.rs` maps these back.
        if self.far_positions {
            let line = self.random.pick(&[0, 1, 65_536, MAX_PLACE - 1, MAX_PLACE, 70_000]);
            return position(line, self.random.pick(&[0, 1, 65_536, 1_048_577, MAX_PLACE]));
        }
        if self.wide_positions {
            let line = self.random.pick(&[0, 1, 65_534, 65_535, 300, 40_000]);
            return position(line, self.random.pick(&[0, 1, 65_535, 77, 32_768]));
        }
        position(self.random.below(400), self.random.below(90))
    }

    fn node(&mut self, kind: u64, value: u64, children: Vec<Node>) -> Node {
        self.budget -= 1;
        let position = if kind::has_no_position(kind) { 0 } else { self.position() };
        Node::new(kind, position, value, children)
    }

    fn leaf(&mut self, kind: u64, value: u64) -> Node {
        self.node(kind, value, Vec::new())
    }

    fn name(&mut self, text: u64) -> Node {
        self.leaf(kind::NAME, text)
    }

    // Values.

    fn integer(&mut self) -> u64 {
        match self.random.below(6) {
            0 => 0,
            1 => self.random.pick(&[i64::MIN, i64::MAX, -1, i64::MIN + 1]) as u64,
            2 => self.random.next(),
            _ => self.random.below(9),
        }
    }

    fn float(&mut self) -> u64 {
        match self.random.below(6) {
            0 => self.random.next(),
            1 => self.random.pick(&[NAN, NAN | 1 << 63, 0x7FF0_0000_0000_0001, 1 << 63]),
            _ => self.random.pick(&[0.5f64, 1.0, -0.0, 0.0, f64::INFINITY, 1.35]).to_bits(),
        }
    }

    fn leaf_expression(&mut self) -> Node {
        let kind = match self.random.below(3) {
            0 => kind::IDENTIFIER,
            _ => self.random.pick(&EXPRESSION_LEAVES),
        };
        let value = match kind {
            kind::IDENTIFIER => self.known_name(),
            kind::INTEGER => self.integer(),
            kind::FLOAT => self.float(),
            kind::STRING => self.text(),
            kind::BOOLEAN => self.random.below(2),
            _ => 0,
        };
        self.leaf(kind, value)
    }

    /// Mostly a name that is in scope.
    fn known_name(&mut self) -> u64 {
        let scope = self.scopes.len();
        if scope > 0 && self.random.chance(500) {
            let scope = self.random.index(scope);
            if !self.scopes[scope].is_empty() {
                return self.random.pick(&self.scopes[scope].clone());
            }
        }
        self.text()
    }

    /// Defines a name in the innermost scope; a repeated one is a slip.
    fn defined_name(&mut self) -> u64 {
        let mut name = self.text();
        let scope = self.scopes.last().expect("inside a function").clone();
        if !scope.is_empty() && self.slip() {
            name = self.random.pick(&scope);
        } else if scope.contains(&name) {
            name = self.fresh();
        }
        self.scopes.last_mut().expect("inside a function").push(name);
        name
    }

    // Expressions. `level` is the level of the record that is made.

    fn expression(&mut self, level: usize) -> Node {
        if self.budget <= 0 || level >= self.deepest {
            return self.leaf_expression();
        }
        let may_hold_block = level + 2 <= self.deepest;
        let weights = [40, 8, 8, 40, if may_hold_block { 22 } else { 0 }, 12, 10, 10];
        match self.random.weighted(&weights) {
            0 => self.leaf_expression(),
            1 => {
                let count = self.random.below(4);
                let values = self.expressions(level + 1, count);
                self.node(kind::ARRAY, 0, values)
            }
            2 => {
                let value = if self.slip() { 2 } else { self.random.below(2) };
                let right = self.expression(level + 1);
                self.node(kind::PREFIX, value, vec![right])
            }
            3 => self.infix(level),
            4 => self.if_expression(level),
            5 => {
                let count = self.random.between(1, 4);
                let parts = self.expressions(level + 1, count);
                self.node(kind::CALL, 0, parts)
            }
            6 => self.get(level, kind::INSTANCE_GET),
            _ => self.get(level, kind::INDEX_GET),
        }
    }

    fn expressions(&mut self, level: usize, count: u64) -> Vec<Node> {
        (0..count).map(|_| self.expression(level)).collect()
    }

    fn get(&mut self, level: usize, kind: u64) -> Node {
        let parts = self.expressions(level + 1, 2);
        self.node(kind, 0, parts)
    }

    fn infix(&mut self, level: usize) -> Node {
        let value = match self.random.weighted(&[30, 30, 40]) {
            0 => 0,
            1 => self.random.between(6, 10),
            _ if self.slip() => 19,
            _ => self.random.pick(&[1, 2, 3, 4, 5, 11, 12, 13, 14, 15, 16, 17, 18]),
        };
        let assigns = value == 0 || (6..=10).contains(&value);
        let left =
            if assigns && !self.slip() { self.target(level + 1, value != 0) } else { self.expression(level + 1) };
        let right = self.expression(level + 1);
        self.node(kind::INFIX, value, vec![left, right])
    }

    fn target(&mut self, level: usize, compound: bool) -> Node {
        let may_get = level < self.deepest && !(compound && self.doublings >= MAX_DOUBLINGS);
        match self.random.below(if may_get { 3 } else { 1 }) {
            0 => {
                let name = self.known_name();
                self.leaf(kind::IDENTIFIER, name)
            }
            which => {
                self.doublings += compound as u32;
                let get = self.get(level, if which == 1 { kind::INSTANCE_GET } else { kind::INDEX_GET });
                self.doublings -= compound as u32;
                get
            }
        }
    }

    fn if_expression(&mut self, level: usize) -> Node {
        let mut parts = vec![self.expression(level + 1)];
        let blocks = self.random.between(1, 2);
        for _ in 0..blocks {
            parts.push(self.block(level + 1));
        }
        self.node(kind::IF, 0, parts)
    }

    fn block(&mut self, level: usize) -> Node {
        self.scopes.push(Vec::new());
        let count = self.random.pick(&[0, 1, 1, 1, 2, 3]);
        let statements = self.statements(level + 1, count, false);
        self.scopes.pop();
        self.node(kind::BLOCK, 0, statements)
    }

    // Statements.

    fn statements(&mut self, level: usize, count: u64, top: bool) -> Vec<Node> {
        if level > self.deepest {
            return Vec::new();
        }
        let mut out = Vec::new();
        for _ in 0..count {
            if self.budget <= 0 {
                break;
            }
            out.push(self.statement(level, top));
        }
        out
    }

    fn statement(&mut self, level: usize, top: bool) -> Node {
        let deep = level < self.deepest;
        let in_loop = self.loops > 0;
        let weights = [
            if deep { 20 } else { 1 },
            12,
            if in_loop { 20 } else { 5 },
            if top { 6 } else { 0 },
            if deep { 18 } else { 0 },
            if deep { 45 } else { 0 },
        ];
        match self.random.weighted(&weights) {
            0 => self.locals(level),
            1 => self.leaf(kind::RETURN, 0),
            2 if !top && self.slip() => self.leaf(kind::RESCUE, 0),
            2 => self.leaf(kind::BREAK, 0),
            3 => self.leaf(kind::RESCUE, 0),
            4 => self.for_statement(level),
            _ => {
                let inner = self.expression(level + 1);
                self.node(kind::EXPRESSION, 0, vec![inner])
            }
        }
    }

    fn locals(&mut self, level: usize) -> Node {
        let count = if level < self.deepest { self.random.pick(&[0, 1, 1, 1, 2, 3]) } else { 0 };
        let mut parts = Vec::new();
        for _ in 0..count {
            let name = self.defined_name();
            parts.push(self.name(name));
            let absent = self.random.chance(200);
            let value = if absent { self.leaf(kind::ABSENT, 0) } else { self.expression(level + 1) };
            parts.push(value);
        }
        self.node(kind::LOCAL, 0, parts)
    }

    fn for_statement(&mut self, level: usize) -> Node {
        let name = self.text();
        let name_node = self.name(name);
        self.scopes.push(Vec::new());
        // The enumerable stands inside the loop: a break in it belongs to this loop.
        self.loops += 1;
        let enumerable = self.expression(level + 1);
        self.scopes.last_mut().expect("just pushed").push(name);
        let count = self.random.pick(&[0, 1, 1, 2, 3]);
        let body = self.statements(level + 1, count, false);
        self.loops -= 1;
        self.scopes.pop();
        let mut parts = vec![name_node, enumerable];
        parts.extend(body);
        self.node(kind::FOR, 0, parts)
    }

    // Definitions.

    fn function(&mut self, kind: u64, name: u64, method: bool) -> Node {
        self.scopes = vec![Vec::new()];
        let mut children = Vec::new();
        let count = self.random.pick(&[0, 0, 1, 1, 2, 3]);
        let with_this = if method { self.random.chance(600) } else { self.slip() };
        let this_place = self.random.below(count + 1);
        for i in 0..=count {
            if with_this && i == this_place && (!self.scopes[0].contains(&self.this) || self.slip()) {
                self.scopes[0].push(self.this);
                children.push(self.leaf(kind::THIS_PARAMETER, self.this));
            }
            if i < count {
                let name = self.defined_name();
                children.push(self.name(name));
            }
        }
        if method && self.slip() {
            children.push(self.leaf(kind::THIS_PARAMETER, self.this));
        }
        if self.slip() {
            children.push(self.unknown_operation());
        }
        let count = self.random.pick(&[0, 1, 1, 2, 3, 4, 6]);
        // Level 1 is the document, 2 the function or the implement.
        let level = if method { 4 } else { 3 };
        let spine = self.deepest > 30 && self.random.chance(500);
        let body = if spine { vec![self.spine(level)] } else { self.statements(level, count, true) };
        children.extend(body);
        self.scopes.clear();
        self.node(kind, name, children)
    }

    /// A statement that leaves a lone Pop, on which `emit_return` panics.
    fn unknown_operation(&mut self) -> Node {
        let parts = vec![self.leaf_expression(), self.leaf_expression()];
        let inner = self.node(kind::INFIX, 19, parts);
        self.node(kind::EXPRESSION, 0, vec![inner])
    }

    /// One statement that goes down to the deepest level allowed, with little beside the way.
    fn spine(&mut self, level: usize) -> Node {
        let keep = self.budget;
        self.budget = 0;
        let bottom = self.random.between(self.deepest as u64 - 20, self.deepest as u64) as usize;
        let statement = self.spine_statement(level, bottom);
        self.budget = keep - statement.size() as i64;
        statement
    }

    fn spine_statement(&mut self, level: usize, bottom: usize) -> Node {
        if level >= bottom {
            return self.leaf(kind::BREAK, 0);
        }
        match self.random.below(4) {
            0 => {
                let name = self.fresh();
                let name = self.name(name);
                let value = self.spine_expression(level + 1, bottom);
                self.node(kind::LOCAL, 0, vec![name, value])
            }
            1 => {
                let name = self.text();
                let name = self.name(name);
                self.loops += 1;
                let in_enumerable = level + 1 < bottom && self.random.chance(500);
                let (enumerable, body) = if in_enumerable {
                    (self.spine_expression(level + 1, bottom), self.leaf(kind::BREAK, 0))
                } else {
                    (self.leaf_expression(), self.spine_statement(level + 1, bottom))
                };
                self.loops -= 1;
                self.node(kind::FOR, 0, vec![name, enumerable, body])
            }
            _ => {
                let inner = self.spine_expression(level + 1, bottom);
                self.node(kind::EXPRESSION, 0, vec![inner])
            }
        }
    }

    fn spine_expression(&mut self, level: usize, bottom: usize) -> Node {
        if level >= bottom {
            return self.leaf_expression();
        }
        let may_hold_block = level + 2 <= bottom;
        match self.random.below(if may_hold_block { 8 } else { 5 }) {
            0 => {
                let inner = self.spine_expression(level + 1, bottom);
                let value = self.random.below(2);
                self.node(kind::PREFIX, value, vec![inner])
            }
            1 => {
                let mut values = vec![self.leaf_expression(), self.spine_expression(level + 1, bottom)];
                self.random.shuffle(&mut values);
                self.node(kind::ARRAY, 0, values)
            }
            2 => {
                let mut values = vec![self.leaf_expression(), self.spine_expression(level + 1, bottom)];
                self.random.shuffle(&mut values);
                let value = self.random.pick(&[1, 5, 11, 12, 17, 18]);
                self.node(kind::INFIX, value, values)
            }
            3 if level + 1 < bottom && self.doublings < MAX_DOUBLINGS => {
                self.doublings += 1;
                let mut parts = vec![self.spine_expression(level + 2, bottom), self.leaf_expression()];
                self.doublings -= 1;
                self.random.shuffle(&mut parts);
                let kind = self.random.pick(&[kind::INSTANCE_GET, kind::INDEX_GET]);
                let target = self.node(kind, 0, parts);
                let value = self.random.between(6, 10);
                let right = self.leaf_expression();
                self.node(kind::INFIX, value, vec![target, right])
            }
            3 | 4 => {
                let mut values = vec![self.leaf_expression(), self.spine_expression(level + 1, bottom)];
                self.random.shuffle(&mut values);
                let kind = self.random.pick(&[kind::CALL, kind::INSTANCE_GET, kind::INDEX_GET]);
                self.node(kind, 0, values)
            }
            5 => {
                let condition = self.spine_expression(level + 1, bottom);
                let block = self.leaf(kind::BLOCK, 0);
                self.node(kind::IF, 0, vec![condition, block])
            }
            which => {
                let condition = self.leaf_expression();
                let statement = self.spine_statement(level + 2, bottom);
                let deep = self.node(kind::BLOCK, 0, vec![statement]);
                let mut parts = vec![condition, deep];
                if which == 7 {
                    let empty = self.leaf(kind::BLOCK, 0);
                    let place = self.random.between(1, 2) as usize;
                    parts.insert(place, empty);
                }
                self.node(kind::IF, 0, parts)
            }
        }
    }

    /// A name for a definition; now and then one that the book has.
    fn definition_name(&mut self) -> u64 {
        if self.random.chance(150) {
            MAIN
        } else {
            self.text()
        }
    }

    fn local_definition(&mut self, plan: &mut BookPlan) -> Node {
        let count = self.random.pick(&[0, 1, 1, 2, 4]);
        let mut parts = Vec::new();
        for _ in 0..count {
            let name = self.definition_name();
            parts.push(self.name(name));
            let repeated = plan.names.contains_key(&name);
            plan.names.entry(name).or_insert(Meaning::Other);
            // The value of a repeated name is not looked at, so anything may stand there.
            let (kind, value) = if self.slip() || repeated && self.random.chance(500) {
                match self.random.below(3) {
                    0 => (kind::IDENTIFIER, self.text()),
                    1 => (kind::STRING, self.text()),
                    _ => (kind::OTHER_TOKEN, 0),
                }
            } else {
                match self.random.below(5) {
                    0 => (kind::NULL, 0),
                    1 => (kind::INTEGER, self.integer()),
                    2 => (kind::FLOAT, self.float()),
                    3 => (kind::BOOLEAN, self.random.below(2)),
                    _ => (kind::ABSENT, 0),
                }
            };
            let value = self.leaf(kind, value);
            parts.push(value);
        }
        self.node(kind::LOCAL_DEFINITION, 0, parts)
    }

    /// `compiled` are the public names of that book where it is sure to be compiled by then.
    fn include(&mut self, plan: &mut BookPlan, file: u64, compiled: Option<&BTreeMap<u64, Meaning>>) -> Node {
        let count = self.random.pick(&[0, 1, 1, 2, 3]);
        let mut parts = Vec::new();
        for _ in 0..count {
            let mut public = self.text();
            if let Some(names) = compiled {
                if !names.is_empty() && self.random.chance(800) {
                    let keys: Vec<u64> = names.keys().copied().collect();
                    public = self.random.pick(&keys);
                }
            }
            let alias = if self.random.chance(400) { public } else { self.definition_name() };
            let meaning = compiled.and_then(|names| names.get(&public)).copied().unwrap_or(Meaning::Other);
            plan.names.entry(alias).or_insert(meaning);
            parts.push(self.name(public));
            parts.push(self.name(alias));
        }
        self.node(kind::INCLUDE, file, parts)
    }

    fn model(&mut self, plan: &mut BookPlan) -> Node {
        let name = self.definition_name();
        let count = self.random.pick(&[0, 1, 2, 3, 5]);
        let mut properties: Vec<u64> = Vec::new();
        for _ in 0..count {
            let mut property = self.text();
            if !properties.is_empty() && self.slip() {
                property = self.random.pick(&properties);
            } else if properties.contains(&property) {
                property = self.fresh();
            }
            properties.push(property);
        }
        let parts = properties.into_iter().map(|property| self.name(property)).collect();
        plan.names.entry(name).or_insert(Meaning::Model);
        let public = self.random.chance(500);
        if public {
            plan.public.insert(name, Meaning::Model);
        }
        self.node(if public { kind::PUBLIC_MODEL } else { kind::MODEL }, name, parts)
    }

    fn function_definition(&mut self, plan: &mut BookPlan) -> Node {
        let name = self.definition_name();
        plan.names.entry(name).or_insert(Meaning::Other);
        let public = self.random.chance(400);
        if public {
            plan.public.insert(name, Meaning::Other);
        }
        self.function(if public { kind::PUBLIC_FUNCTION } else { kind::FUNCTION }, name, false)
    }

    /// A name that stands for a model, or anything as a slip; none where there is neither.
    fn model_name(&mut self, plan: &BookPlan) -> Option<u64> {
        if self.slip() {
            let others: Vec<u64> =
                plan.names.iter().filter(|(_, &m)| m == Meaning::Other).map(|(&name, _)| name).collect();
            return Some(match self.random.below(3) {
                0 => self.fresh(),
                1 if !others.is_empty() => self.random.pick(&others),
                _ => self.text(),
            });
        }
        let models: Vec<u64> = plan.names.iter().filter(|(_, &m)| m == Meaning::Model).map(|(&name, _)| name).collect();
        if models.is_empty() {
            return None;
        }
        Some(self.random.pick(&models))
    }

    fn implement(&mut self, plan: &BookPlan) -> Option<Node> {
        let model = self.model_name(plan)?;
        let count = self.random.pick(&[0, 1, 1, 2, 3]);
        let mut functions = Vec::new();
        for _ in 0..count {
            let name = self.definition_name();
            functions.push(self.function(kind::FUNCTION, name, true));
        }
        Some(self.node(kind::IMPLEMENT, model, functions))
    }

    fn apply(&mut self, plan: &BookPlan) -> Option<Node> {
        let source = self.model_name(plan)?;
        let target = self.model_name(plan)?;
        let parts = vec![self.name(source), self.name(target)];
        Some(self.node(kind::APPLY, 0, parts))
    }

    /// A definition other than an include.
    fn definition(&mut self, plan: &mut BookPlan) -> Option<Node> {
        Some(match self.random.weighted(&[15, 20, 40, 18, 10]) {
            0 => self.local_definition(plan),
            1 => self.model(plan),
            2 => self.function_definition(plan),
            3 => return self.implement(plan),
            _ => return self.apply(plan),
        })
    }
}

/// The include graph of a bundle.
struct Graph {
    files: Vec<u64>,
    /// Leading includes of each book, as files; books come after those that they include.
    leading: Vec<Vec<u64>>,
    /// Includes below the first other definition (2026-04).
    late: Vec<Vec<u64>>,
}

fn graph(g: &mut Generator, sizes: Sizes) -> Graph {
    let count = match sizes {
        Sizes::Large => g.random.pick(&[1, 3, 8, 40]),
        Sizes::Mixed => g.random.pick(&[1, 1, 1, 1, 2, 2, 3, 3, 4, 6, 9]),
    };
    let range = g.random.pick(&[count as u64 + 2, 30 + count as u64, MAX_TEXT]);
    let mut files: Vec<u64> = Vec::new();
    while files.len() < count {
        let file = g.random.between(1, range);
        if !files.contains(&file) {
            files.push(file);
        }
    }
    let dense = g.random.pick(&[100, 300, 500, 800]);
    let with_late = g.random.chance(if count > 1 { 700 } else { 40 });
    let mut leading = Vec::new();
    let mut late = Vec::new();
    for book in 0..count {
        let earlier = files[..book].to_vec();
        leading.push(earlier.iter().copied().filter(|_| g.random.chance(dense)).collect::<Vec<_>>());
        late.push(if with_late { late_includes(g, &files, book) } else { Vec::new() });
    }
    // The last book is the root; it needs a way to the others.
    if count > 1 && leading[count - 1].is_empty() && g.random.chance(900) {
        let file = files[count - 2];
        leading[count - 1].push(file);
    }
    for list in &mut leading {
        // The same file may be included twice.
        if !list.is_empty() && g.random.chance(150) {
            let file = g.random.pick(list);
            list.push(file);
        }
        g.random.shuffle(list);
    }
    break_graph(g, &files, &mut leading);
    Graph { files, leading, late }
}

/// Mostly of books that come before this one, so that most bundles have no ring; now and then of any, or of one that is absent.
fn late_includes(g: &mut Generator, files: &[u64], book: usize) -> Vec<u64> {
    let count = g.random.pick(&[0, 1, 1, 2, 4]);
    let mut late = Vec::new();
    for _ in 0..count {
        match g.random.weighted(&[960, 25, 15]) {
            0 if book > 0 => late.push(g.random.pick(&files[..book])),
            0 if files.len() > 1 => {}
            0 | 1 => late.push(g.random.pick(files)),
            _ => late.push(g.fresh()),
        }
    }
    late
}

/// Now and then a ring, a book that includes itself, or a missing book.
fn break_graph(g: &mut Generator, files: &[u64], leading: &mut [Vec<u64>]) {
    if g.random.chance(50) {
        let from = g.random.index(files.len());
        let file = g.random.pick(&files[from..]);
        leading[from].push(file);
    }
    if g.random.chance(40) {
        let from = g.random.index(files.len());
        for _ in 0..g.random.between(1, 3) {
            let file = g.fresh();
            leading[from].push(file);
        }
    }
}

fn books(g: &mut Generator, sizes: Sizes) -> Vec<Node> {
    let graph = graph(g, sizes);
    let count = graph.files.len();
    let share = g.budget / count as i64;
    let mut public: BTreeMap<u64, BTreeMap<u64, Meaning>> = BTreeMap::new();
    let mut out = Vec::new();
    for book in 0..count {
        let mut plan = BookPlan::default();
        let mut definitions = Vec::new();
        for &file in &graph.leading[book] {
            let known = public.get(&file).cloned();
            definitions.push(g.include(&mut plan, file, known.as_ref()));
        }
        g.budget = share;
        let mut late = graph.late[book].clone();
        let mut idle = 0;
        while g.budget > 0 && idle < 20 {
            idle += 1;
            let Some(definition) = g.definition(&mut plan) else { continue };
            definitions.push(definition);
            if let Some(file) = late.pop() {
                let known = public.get(&file).cloned();
                definitions.push(g.include(&mut plan, file, known.as_ref()));
            }
        }
        public.insert(graph.files[book], plan.public);
        out.push(Node::new(kind::DOCUMENT, 0, graph.files[book], definitions));
    }
    let root = out.pop().expect("at least one book");
    g.random.shuffle(&mut out);
    out.insert(0, root);
    if g.random.chance(15) {
        let mut twin = out[g.random.index(out.len())].clone();
        if g.random.chance(500) {
            twin.children.clear();
        }
        let place = g.random.between(1, out.len() as u64) as usize;
        out.insert(place, twin);
    }
    out
}

/// The first record at level 65, counted over the trees.
fn first_too_deep(nodes: &[Node], level: usize, index: &mut u64) -> Option<u64> {
    for node in nodes {
        if level > MAX_LEVEL {
            return Some(*index);
        }
        *index += 1;
        if let Some(found) = first_too_deep(&node.children, level + 1, index) {
            return Some(found);
        }
    }
    None
}

/// What a well-made bundle answers by its depth and its file numbers alone.
fn foretold(documents: &[Node]) -> Option<(u64, u64)> {
    if let Some(index) = first_too_deep(documents, 1, &mut 0) {
        return Some((4, index));
    }
    let mut index = 0;
    for (number, document) in documents.iter().enumerate() {
        if documents[..number].iter().any(|earlier| earlier.value == document.value) {
            return Some((5, index));
        }
        index += document.size() as u64;
    }
    None
}

/// Case `index` of a seed.
pub fn case(seed: u64, index: u64, sizes: Sizes) -> Case {
    let mut random = Random::for_case(seed, index);
    let damaged = random.chance(150);
    // Past the deepest level on purpose, now and then.
    let too_deep = random.chance(15);
    let mut g = Generator::new(random.clone(), sizes);
    if too_deep {
        g.deepest = MAX_LEVEL + 1 + g.random.index(3);
        g.budget = g.budget.max(200);
    }
    if g.random.chance(4) {
        return Case { words: Vec::new(), expected: Some((3, 0)) };
    }
    let documents = books(&mut g, sizes);
    if damaged {
        return damage(&mut g.random, documents);
    }
    Case { words: flatten(&documents), expected: foretold(&documents) }
}
