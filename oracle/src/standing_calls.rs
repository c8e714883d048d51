//! Calls on standing programs from a seed: sequences of bundles laid on one after the other, with trials and commits, copies
//! of standing books, rings across, refusals of every row in between, lengths that are just enough or not, and programs
//! damaged in each field of each area. Each call has all that it is lent; `Call::answer` is what it must answer.

use crate::areas::{area, Areas, Counts, Lengths, AREAS, ENTRY_WORDS, MAX_ENTRIES};
use crate::damage::damage;
use crate::generate::{case, Sizes};
use crate::model::instruction;
use crate::random::Random;
use crate::records::{flatten, kind, trees, Node, MAIN, MAX_TEXT};
use crate::shape::check;
use crate::standing::{entries_of, fresh, program_check, run, trial, Call, Order, Totals, MOST_BUNDLES};
use std::collections::{BTreeMap, BTreeSet};

/// Code entries that a call of these may make; compound targets would double them without end.
const MOST_CODE: u64 = 20_000;

/// Room without end but for code.
pub const ROOMY: Counts = {
    let mut capacities = [MAX_ENTRIES; AREAS];
    capacities[area::CODE - 1] = MOST_CODE;
    capacities
};

const AREA_FULL: u64 = 9;
/// 2026-06's greatest line and column.
const MOST_PLACE: u64 = 99_999_999;

/// A program between two calls: entries up to the totals.
#[derive(Clone, Debug, PartialEq, Eq)]
pub struct Program {
    pub entries: Areas,
    pub totals: Totals,
}

impl Program {
    /// The least that passes the check: three constants.
    pub fn least() -> Program {
        let mut entries = Areas::default();
        entries[area::CONSTANTS - 1] = vec![0, 0, 0, 1, 1, 0, 1, 0, 0];
        Program::of(entries, 0)
    }

    pub fn of(entries: Areas, entry_point: u64) -> Program {
        let areas = std::array::from_fn(|i| (entries[i].len() / ENTRY_WORDS[i]) as u64);
        let globals = entries[area::CONSTANTS - 1].chunks(3).filter(|entry| entry[2] == 1).count() as u64;
        Program { totals: Totals { areas, entry_point, globals, bundles: 1 }, entries }
    }

    /// Entries and then zeros; never shorter than the entries.
    pub fn lent(&self, lengths: &Lengths) -> Areas {
        std::array::from_fn(|i| {
            let mut area = self.entries[i].clone();
            area.resize(lengths[i].max(area.len()), 0);
            area
        })
    }

    fn list<const N: usize>(&self, number: usize) -> Vec<[u64; N]> {
        crate::areas::entries(&self.entries[number - 1])
    }

    fn files(&self) -> Vec<u64> {
        self.entries[area::BOOKS - 1].clone()
    }

    /// Public names of each file, and whether they are models.
    fn public(&self) -> BTreeMap<u64, Vec<(u64, bool)>> {
        let constants: Vec<[u64; 3]> = self.list(area::CONSTANTS);
        let mut out: BTreeMap<u64, Vec<(u64, bool)>> = BTreeMap::new();
        for [file, name, constant] in self.list(area::PUBLIC) {
            let is_model = constants[constant as usize][0] == 5;
            out.entry(self.files()[file as usize]).or_default().push((name, is_model));
        }
        out
    }

    /// Values of the constants of a kind.
    fn values(&self, kind: u64) -> Vec<u64> {
        self.list::<3>(area::CONSTANTS).into_iter().filter(|c| c[0] == kind).map(|c| c[1]).collect()
    }
}

// Programs that no bundle makes but that stand.

/// A program with entries in any order, repeats, code in no function and in several, marks anywhere and operands that mean
/// nothing.
pub fn odd(random: &mut Random) -> Program {
    let count = |random: &mut Random, most: u64| random.below(most + 1);
    let text = |random: &mut Random| random.pick(&[1, 2, 3, 4, 5, 9, MAX_TEXT]);
    let mut entries = Areas::default();
    let mut books: Vec<u64> = vec![1, 2, 3, 4, 9, 30, MAX_TEXT];
    random.shuffle(&mut books);
    books.truncate(random.between(1, 4) as usize);
    let files = books.len() as u64;
    entries[area::BOOKS - 1] = books;
    let models = random.pick(&[0, 1, 2, 2, 3]);
    let functions = random.pick(&[0, 1, 2, 3, 4]);
    let code = count(random, 10);
    for _ in 0..models {
        entries[area::MODELS - 1].extend([random.below(files), text(random)]);
    }
    entries[area::CONSTANTS - 1] = vec![0, 0, random.below(2), 1, 1, 0, 1, 0, random.below(2)];
    for _ in 0..count(random, 9) {
        let (kind, value) = match random.below(9) {
            0 => random.pick(&[(0, 0), (1, 0), (1, 1)]),
            1 | 2 => (2, random.pick(&[0, 1, 7, u64::MAX, 1 << 63])),
            3 => (3, random.pick(&[0, 1 << 63, 0.5f64.to_bits(), 0x7FF8_0000_0000_0001, 7])),
            4 | 5 => (4, text(random)),
            6 | 7 if models > 0 => (5, random.below(models)),
            8 if functions > 0 => (6, random.below(functions)),
            _ => (2, 3),
        };
        entries[area::CONSTANTS - 1].extend([kind, value, random.below(2)]);
    }
    let constants = entries[area::CONSTANTS - 1].len() as u64 / 3;
    let of_models: Vec<u64> = (0..constants).filter(|&at| entries[area::CONSTANTS - 1][3 * at as usize] == 5).collect();
    for _ in 0..functions {
        let length = if code == 0 { 0 } else { random.below(code + 1) };
        let start = if length == 0 { random.pick(&[0, code, u64::MAX]) } else { random.below(code - length + 1) };
        let (parameters, locals) = (random.pick(&[0, 1, u64::MAX]), random.pick(&[0, 1, 3, u64::MAX]));
        let rescue = random.below(length + 1);
        let (file, name) = (random.below(files), text(random));
        entries[area::FUNCTIONS - 1].extend([parameters, locals, rescue, random.below(2), start, length, file, name]);
    }
    for _ in 0..if models > 0 { count(random, 4) } else { 0 } {
        entries[area::PROPERTIES - 1].extend([random.below(models), text(random)]);
    }
    let mut keys = BTreeSet::new();
    for _ in 0..if models > 0 && functions > 0 { count(random, 4) } else { 0 } {
        let key = (random.below(models), text(random));
        if keys.insert(key) {
            entries[area::METHODS - 1].extend([key.0, key.1, random.below(functions)]);
        }
    }
    for _ in 0..count(random, 4) {
        let (mark, constant) = if random.chance(500) { (1, random.below(constants)) } else { (0, 0) };
        entries[area::CONTEXT - 1].extend([random.below(files), text(random), mark, constant]);
    }
    let context = entries[area::CONTEXT - 1].len() as u64 / 4;
    let mut keys = BTreeSet::new();
    for _ in 0..count(random, 5) {
        let key = (random.below(files), text(random));
        if keys.insert(key) {
            let constant = if random.chance(500) && !of_models.is_empty() {
                random.pick(&of_models)
            } else {
                random.below(constants)
            };
            entries[area::PUBLIC - 1].extend([key.0, key.1, constant]);
        }
    }
    let over: Vec<[u64; 8]> = crate::areas::entries(&entries[area::FUNCTIONS - 1]);
    for at in 0..code {
        let having: Vec<&[u64; 8]> = over.iter().filter(|f| f[5] > 0 && f[4] <= at && at - f[4] < f[5]).collect();
        let most = |field: usize| having.iter().map(|f| f[field]).min().unwrap_or((1 << 56) - 1);
        let (locals, length) = (most(1).min((1 << 56) - 1), most(5));
        let word = match random.below(8) {
            0 => instruction(random.pick(&[0x02, 0x11, 0x12]), random.below(constants)),
            1 if context > 0 => instruction(random.pick(&[0x0C, 0x0D]), random.below(context)),
            2 if locals > 0 => instruction(random.pick(&[0x06, 0x07, 0x08, 0x56, 0x57]), locals - 1),
            3 => instruction(random.pick(&[0x51, 0x52]), length),
            4 => instruction(0x07, 0),
            5 => instruction(0x21, random.pick(&[0, 9, 257, 258])),
            6 => instruction(random.pick(&[0x31, 0x41, 0x32, 0x36]), random.pick(&[0, 1, (1 << 56) - 1])),
            _ => instruction(random.pick(&[0x01, 0x05, 0x13, 0x14, 0x15, 0x16, 0x22, 0x23]), random.below(6)),
        };
        let position = random.pick(&[0, 5, MOST_PLACE, MOST_PLACE << 32, MOST_PLACE << 32 | MOST_PLACE]);
        entries[area::CODE - 1].extend([word, position]);
    }
    let entry_point = if functions > 0 { random.below(functions) } else { 0 };
    Program::of(entries, entry_point)
}

// Bundles that have to do with a program.

struct Author<'a> {
    random: &'a mut Random,
    texts: Vec<u64>,
    integers: Vec<u64>,
    floats: Vec<u64>,
    /// Names of methods that there are.
    methods: Vec<u64>,
    this: u64,
}

impl Author<'_> {
    fn position(&mut self) -> u64 {
        self.random.below(90_000)
    }

    fn text(&mut self) -> u64 {
        if self.random.chance(600) {
            self.random.between(1, 9)
        } else {
            self.random.pick(&self.texts.clone())
        }
    }

    fn leaf(&mut self, kind: u64, value: u64) -> Node {
        let position = if kind::has_no_position(kind) { 0 } else { self.position() };
        Node::leaf(kind, position, value)
    }

    fn node(&mut self, kind: u64, value: u64, children: Vec<Node>) -> Node {
        Node { children, ..self.leaf(kind, value) }
    }

    fn name(&mut self, text: u64) -> Node {
        self.leaf(kind::NAME, text)
    }

    fn expression(&mut self, depth: u64) -> Node {
        let value = match self.random.below(if depth == 0 { 7 } else { 12 }) {
            0 | 1 => (kind::IDENTIFIER, self.text()),
            2 => (kind::INTEGER, self.random.pick(&self.integers.clone())),
            3 => (kind::FLOAT, self.random.pick(&self.floats.clone())),
            4 => (kind::STRING, self.text()),
            5 => (kind::BOOLEAN, self.random.below(2)),
            6 => (kind::THIS, 0),
            7 => {
                let target = self.text();
                let target = self.leaf(kind::IDENTIFIER, target);
                let (value, right) = (self.random.pick(&[0, 6]), self.expression(depth - 1));
                return self.node(kind::INFIX, value, vec![target, right]);
            }
            8 => {
                let parts = vec![self.expression(depth - 1), self.expression(depth - 1)];
                let value = self.random.pick(&[1, 11, 12, 18]);
                return self.node(kind::INFIX, value, parts);
            }
            9 => {
                let parts = vec![self.expression(depth - 1), self.expression(depth - 1)];
                let kind = self.random.pick(&[kind::CALL, kind::INDEX_GET, kind::ARRAY]);
                return self.node(kind, 0, parts);
            }
            10 => {
                let inner = self.statement(depth - 1);
                let parts = vec![self.expression(0), Node::new(kind::BLOCK, 0, 0, vec![inner])];
                return Node::new(kind::IF, 0, 0, parts);
            }
            _ => (kind::NULL, 0),
        };
        self.leaf(value.0, value.1)
    }

    fn statement(&mut self, depth: u64) -> Node {
        match self.random.below(8) {
            0 => {
                let name = self.text();
                let parts = vec![self.name(name), self.expression(0)];
                self.node(kind::FOR, 0, parts)
            }
            1 => self.leaf(kind::RETURN, 0),
            2 => {
                let name = self.random.between(100, 1 << 19);
                let parts = vec![self.name(name), self.expression(depth)];
                self.node(kind::LOCAL, 0, parts)
            }
            _ => {
                let inner = self.expression(depth);
                Node::new(kind::EXPRESSION, 0, 0, vec![inner])
            }
        }
    }

    fn function(&mut self, kind: u64, name: u64, method: bool) -> Node {
        let mut children = Vec::new();
        if method && self.random.chance(500) {
            children.push(self.leaf(kind::THIS_PARAMETER, self.this));
        }
        for _ in 0..self.random.below(4) {
            children.push(self.statement(2));
        }
        self.node(kind, name, children)
    }

    /// A book: includes with their public names, then or between them other definitions. `known` are public names by
    /// file, and whether they are models.
    fn book(&mut self, file: u64, includes: &[u64], known: &BTreeMap<u64, Vec<(u64, bool)>>) -> Node {
        // Names of the book that stand for models; the first definition of a name counts.
        let mut names: BTreeMap<u64, bool> = BTreeMap::new();
        let mut definitions = Vec::new();
        for &from in includes {
            let mut pairs = Vec::new();
            for _ in 0..self.random.below(3) {
                let public = known.get(&from).filter(|list| !list.is_empty());
                let model = public.and_then(|list| list.iter().find(|(_, is_model)| *is_model)).copied();
                let (public, is_model) = match public {
                    Some(_) if model.is_some() && self.random.chance(400) => model.expect("just asked"),
                    Some(list) if self.random.chance(900) => self.random.pick(list),
                    _ => (self.text(), false),
                };
                let alias = if self.random.chance(500) { public } else { self.text() };
                names.entry(alias).or_insert(is_model);
                pairs.extend([self.name(public), self.name(alias)]);
            }
            definitions.push(self.node(kind::INCLUDE, from, pairs));
        }
        for _ in 0..self.random.below(5) {
            let models: Vec<u64> = names.iter().filter(|(_, &is)| is).map(|(&name, _)| name).collect();
            let slip = self.random.chance(60);
            let model = match models.is_empty() || slip {
                true => self.text(),
                false => self.random.pick(&models),
            };
            let name = if self.random.chance(150) { MAIN } else { self.text() };
            let definition = match self.random.below(8) {
                0 => {
                    let value = match self.random.below(4) {
                        0 => self.leaf(kind::ABSENT, 0),
                        1 if slip => self.leaf(kind::STRING, name),
                        1 => self.leaf(kind::NULL, 0),
                        2 => {
                            let value = self.random.pick(&self.integers.clone());
                            self.leaf(kind::INTEGER, value)
                        }
                        _ => {
                            let value = self.random.pick(&self.floats.clone());
                            self.leaf(kind::FLOAT, value)
                        }
                    };
                    names.entry(name).or_insert(false);
                    let name = self.name(name);
                    Node::new(kind::LOCAL_DEFINITION, 0, 0, vec![name, value])
                }
                1 => {
                    names.entry(name).or_insert(true);
                    let property = self.text();
                    let parts = vec![self.name(property)];
                    let kind = self.random.pick(&[kind::MODEL, kind::PUBLIC_MODEL, kind::PUBLIC_MODEL]);
                    self.node(kind, name, parts)
                }
                2..=4 => {
                    names.entry(name).or_insert(false);
                    let kind = self.random.pick(&[kind::FUNCTION, kind::PUBLIC_FUNCTION]);
                    self.function(kind, name, false)
                }
                5 | 6 if !models.is_empty() || slip => {
                    let mut methods = Vec::new();
                    for _ in 0..self.random.below(3) {
                        let known = !self.methods.is_empty() && self.random.chance(500);
                        let name = if known { self.random.pick(&self.methods.clone()) } else { self.text() };
                        methods.push(self.function(kind::FUNCTION, name, true));
                    }
                    self.node(kind::IMPLEMENT, model, methods)
                }
                _ if !models.is_empty() || slip => {
                    let source = if models.is_empty() { model } else { self.random.pick(&models) };
                    let parts = vec![self.name(source), self.name(model)];
                    Node::new(kind::APPLY, 0, 0, parts)
                }
                _ => continue,
            };
            // Now and then ahead of the includes, which count all the same.
            let early = self.random.chance(150) && !matches!(definition.kind, kind::IMPLEMENT | kind::APPLY);
            let at = if early { 0 } else { definitions.len() };
            definitions.insert(at, definition);
        }
        Node::new(kind::DOCUMENT, 0, file, definitions)
    }
}

/// A bundle of one to four new books over a program: includes of standing and of new books with their public names, the
/// program's own texts, integers and floats, models of standing books implemented and applied.
pub fn linked(random: &mut Random, program: &Program) -> Vec<Node> {
    let standing = program.files();
    let mut known = program.public();
    let mut files = Vec::new();
    let count = random.pick(&[1, 1, 2, 3, 4]);
    while files.len() < count {
        let most = random.pick(&[40, MAX_TEXT]);
        let file = random.between(1, most);
        if !standing.contains(&file) && !files.contains(&file) {
            files.push(file);
        }
    }
    let more = |from: Vec<u64>, usual: &[u64]| [&from[..], usual].concat();
    let this = random.pick(&[7, 8]);
    let mut author = Author {
        texts: more(program.values(4), &[1, 9, MAX_TEXT]),
        integers: more(program.values(2), &[0, 7, u64::MAX]),
        floats: more(program.values(3), &[0, 1 << 63, 0.5f64.to_bits(), 0x7FF8_0000_0000_0000]),
        methods: program.list::<3>(area::METHODS).into_iter().map(|method| method[1]).collect(),
        random,
        this,
    };
    let mut out = Vec::new();
    for at in 0..count {
        let mut includes = Vec::new();
        for _ in 0..author.random.below(4) {
            let from = match author.random.below(40) {
                0 => author.random.between(1, 60),
                1 => files[author.random.index(count)],
                2..=15 if at > 0 => files[author.random.index(at)],
                _ if !standing.is_empty() => author.random.pick(&standing),
                _ => continue,
            };
            includes.push(from);
        }
        let book = author.book(files[at], &includes, &known);
        let public = book.children.iter().filter(|d| matches!(d.kind, kind::PUBLIC_MODEL | kind::PUBLIC_FUNCTION));
        known.insert(files[at], public.map(|d| (d.value, d.kind == kind::PUBLIC_MODEL)).collect());
        out.push(book);
    }
    // The last one is the root; what it does not reach is not needed.
    out.reverse();
    if count > 1 && random.chance(700) {
        let file = out[1].value;
        out[0].children.insert(0, Node::leaf(kind::INCLUDE, 0, file));
    }
    out
}

/// A bundle that changes what a delivery may change of a program: a standing model's methods get other functions, standing
/// texts are marked, `main` is defined; then, now and then, something is wrong, so that all of it has to be taken back. None
/// where no model is public.
fn touching(random: &mut Random, program: &Program) -> Option<Vec<Node>> {
    let constants: Vec<[u64; 3]> = program.list(area::CONSTANTS);
    let public: Vec<[u64; 3]> = program.list(area::PUBLIC);
    let models: Vec<[u64; 3]> = public.into_iter().filter(|p| constants[p[2] as usize][0] == 5).collect();
    if models.is_empty() {
        return None;
    }
    let [file, name, constant] = random.pick(&models);
    let methods: Vec<[u64; 3]> = program.list(area::METHODS);
    let mut own: Vec<u64> = methods.iter().filter(|m| m[0] == constants[constant as usize][1]).map(|m| m[1]).collect();
    own.push(random.between(1, 9));
    let named = |kind, text, children| Node::new(kind, 0, text, children);
    let leaf = |kind, text| Node::leaf(kind, 0, text);
    let texts = [&program.values(4)[..], &[9]].concat();
    let read = |random: &mut Random| {
        let inner = leaf(kind::IDENTIFIER, random.pick(&texts));
        Node::new(kind::EXPRESSION, 0, 0, vec![inner])
    };
    let alias = random.between(TOUCHING, TOUCHING + 1000);
    let model = alias + 2000;
    let method = named(kind::FUNCTION, random.pick(&own), vec![read(random)]);
    let source = program.files()[file as usize];
    let mut definitions = vec![
        named(kind::INCLUDE, source, vec![leaf(kind::NAME, name), leaf(kind::NAME, alias)]),
        named(kind::IMPLEMENT, alias, vec![method]),
    ];
    if random.chance(400) {
        definitions.push(named(kind::PUBLIC_MODEL, model, Vec::new()));
        let method = named(kind::FUNCTION, random.pick(&own), Vec::new());
        definitions.push(named(kind::IMPLEMENT, model, vec![method]));
        let (source, target) = random.pick(&[(model, alias), (alias, model), (alias, alias)]);
        definitions.push(Node::new(kind::APPLY, 0, 0, vec![leaf(kind::NAME, source), leaf(kind::NAME, target)]));
    }
    if random.chance(500) {
        definitions.push(named(kind::FUNCTION, MAIN, vec![read(random)]));
    }
    match random.below(6) {
        0 => definitions.push(leaf(kind::IMPLEMENT, alias + 3000)),
        1 => {
            let unknown = leaf(kind::NAME, alias + 3000);
            definitions.push(named(kind::INCLUDE, source, vec![unknown.clone(), unknown]));
        }
        _ => {}
    }
    let book = Node::new(kind::DOCUMENT, 0, alias, definitions);
    // Behind it a book that is at fault, one that waits for itself, or one that is good.
    let behind = alias + 4000;
    let include = leaf(kind::INCLUDE, alias);
    Some(match random.below(6) {
        0 => vec![named(kind::DOCUMENT, behind, vec![include, leaf(kind::IMPLEMENT, 5)]), book],
        1 => vec![named(kind::DOCUMENT, behind, vec![include, leaf(kind::INCLUDE, behind)]), book],
        2 => vec![named(kind::DOCUMENT, behind, vec![include]), book],
        _ => vec![book],
    })
}

/// The first of the texts that these books have for themselves.
const TOUCHING: u64 = 600_000;

/// A copy of a standing book that says something else: what it holds is not compiled, nor are its includes followed.
fn copy(random: &mut Random, file: u64, others: &[u64]) -> Node {
    let include = |file| Node::leaf(kind::INCLUDE, 0, file);
    let mut definitions = vec![Node::leaf(kind::PUBLIC_MODEL, 0, random.between(1, 9))];
    match random.below(4) {
        0 => definitions.push(include(random.between(1, MAX_TEXT))),
        1 if !others.is_empty() => definitions.push(include(random.pick(others))),
        2 => definitions.push(Node::leaf(kind::IMPLEMENT, 0, MAX_TEXT - 7)),
        _ => {}
    }
    Node::new(kind::DOCUMENT, 0, file, definitions)
}

/// Positions within the limits of 2026-06, whatever the packing they were drawn for.
fn placed(words: &mut [u64]) {
    for record in words.chunks_exact_mut(4) {
        if record[2] <= 0xFFFF_FFFF && record[2] > MOST_PLACE {
            record[2] %= 65_536;
        }
    }
}

/// The words of a bundle for a program. `shelf` are books that belong together.
pub fn bundle(random: &mut Random, program: &Program, shelf: &[Node]) -> Vec<u64> {
    let standing = program.files();
    let mut documents = match random.below(12) {
        // Some book of the shelf as the root, with all others or with some.
        0..=3 if !shelf.is_empty() => {
            let mut documents = shelf.to_vec();
            random.shuffle(&mut documents);
            if random.chance(200) {
                documents.truncate(random.between(1, documents.len() as u64) as usize);
            }
            documents
        }
        // Without those that stand: they need no copy.
        4 | 5 if shelf.iter().any(|book| !standing.contains(&book.value)) => {
            let mut documents: Vec<Node> = shelf.iter().filter(|b| !standing.contains(&b.value)).cloned().collect();
            random.shuffle(&mut documents);
            documents
        }
        // Anything at all.
        6 if random.chance(400) => {
            let mut words = case(random.next(), 0, Sizes::Mixed).words;
            placed(&mut words);
            return words;
        }
        7..=9 => touching(random, program).unwrap_or_else(|| linked(random, program)),
        _ => linked(random, program),
    };
    if !standing.is_empty() && random.chance(250) {
        let own: Vec<u64> = documents.iter().map(|d| d.value).collect();
        let file = random.pick(&standing);
        if !own.contains(&file) {
            let place = random.index(documents.len() + 1);
            documents.insert(place, copy(random, file, &own));
        }
    }
    match random.below(40) {
        // A book twice.
        0 => {
            let twin = documents[random.index(documents.len())].clone();
            documents.push(twin);
        }
        // Two books that include each other.
        1 if documents.len() > 1 => {
            let (first, second) = (documents[0].value, documents[1].value);
            documents[0].children.push(Node::leaf(kind::INCLUDE, 0, second));
            documents[1].children.push(Node::leaf(kind::INCLUDE, 0, first));
        }
        2 | 3 => {
            let mut words = damage(random, documents).words;
            placed(&mut words);
            return words;
        }
        // Too deep.
        4 => {
            let deep =
                (3..66).fold(Node::leaf(kind::NULL, 0, 0), |inner, _| Node::new(kind::PREFIX, 0, 1, vec![inner]));
            let body = Node::new(kind::EXPRESSION, 0, 0, vec![deep]);
            let last = documents.len() - 1;
            documents[last].children.push(Node::new(kind::FUNCTION, 0, 3, vec![body]));
        }
        _ => {}
    }
    let mut words = flatten(&documents);
    placed(&mut words);
    words
}

// Damage.

/// Words that a field is changed to: its neighbours, and those at the limits of texts, a total and words.
fn other_words(old: u64, total: u64) -> [u64; 20] {
    [
        0,
        1,
        2,
        3,
        7,
        MAX_TEXT,
        MAX_TEXT + 1,
        MOST_PLACE,
        MOST_PLACE + 1,
        MOST_PLACE << 32,
        (MOST_PLACE + 1) << 32,
        u64::MAX,
        1 << 63,
        1 << 56,
        old | 1 << 32,
        old.wrapping_add(1),
        old.wrapping_sub(1),
        total,
        total.wrapping_sub(1),
        total.wrapping_add(1),
    ]
}

fn other_word(random: &mut Random, old: u64, totals: &Totals) -> u64 {
    let total = random.pick(&totals.areas);
    if random.chance(100) {
        random.next()
    } else {
        random.pick(&other_words(old, total))
    }
}

/// The opcodes that there are, and some that are not.
const OPCODES: [u64; 30] = [
    0x01, 0x02, 0x05, 0x06, 0x07, 0x08, 0x0C, 0x0D, 0x11, 0x12, 0x13, 0x14, 0x15, 0x16, 0x21, 0x22, 0x23, 0x31, 0x32,
    0x36, 0x41, 0x51, 0x52, 0x56, 0x57, 0x00, 0xFF, 0x03, 0x42, 0x58,
];

/// An instruction's opcode or operand otherwise.
fn other_instruction(random: &mut Random, old: u64, totals: &Totals) -> u64 {
    let operand = other_word(random, old & ((1 << 56) - 1), totals) & ((1 << 56) - 1);
    match random.below(3) {
        0 => instruction(random.pick(&OPCODES), old & ((1 << 56) - 1)),
        1 => instruction(old >> 56, operand),
        _ => instruction(random.pick(&OPCODES), operand),
    }
}

/// One field of one area otherwise, or a total, an area's length, a key, the entry point, the count of marks or of bundles.
/// The program may stand all the same.
pub fn damaged(random: &mut Random, areas: &mut Areas, totals: &mut Totals) {
    let used: Vec<usize> = (1..=AREAS).filter(|&number| totals.of(number) > 0 && number != area::ERRORS).collect();
    let number = if used.is_empty() { area::CONSTANTS } else { random.pick(&used) };
    let (i, width) = (number - 1, ENTRY_WORDS[number - 1]);
    let entries = (totals.areas[i].min((areas[i].len() / width) as u64)) as usize;
    match random.below(20) {
        0..=9 if entries > 0 => {
            let field = random.index(width);
            let at = random.index(entries) * width + field;
            let old = areas[i][at];
            areas[i][at] = match (number, field) {
                (area::CODE, 0) => other_instruction(random, old, totals),
                _ => other_word(random, old, totals),
            };
        }
        // A repeated key.
        10 | 11 if entries > 1 => {
            let words = random.between(1, width.min(2) as u64) as usize;
            let (from, to) = (random.index(entries) * width, random.index(entries) * width);
            let key = areas[i][from..from + words].to_vec();
            areas[i][to..to + words].copy_from_slice(&key);
        }
        // A word beyond.
        12 | 13 => {
            let any = random.index(AREAS);
            let from = (totals.areas[any] as usize).saturating_mul(ENTRY_WORDS[any]).min(areas[any].len());
            if areas[any].len() > from {
                let at = from + random.index(areas[any].len() - from);
                areas[any][at] = random.pick(&[1, 2, u64::MAX]);
            }
        }
        // Totals of any area, 9 and 10 too.
        14 | 15 => {
            let any = random.index(AREAS);
            totals.areas[any] = match random.below(3) {
                0 => random.pick(&[0, 1, 1 << 56, 1 << 61, 1 << 62, 1 << 63, u64::MAX]),
                1 => totals.areas[any].wrapping_sub(1),
                _ => totals.areas[any].wrapping_add(1),
            };
        }
        16 => areas[i].truncate(areas[i].len().min(entries * width).saturating_sub(1)),
        17 => totals.entry_point = other_word(random, totals.entry_point, totals),
        18 => totals.globals = other_word(random, totals.globals, totals),
        _ => totals.bundles = random.pick(&[0, 1, 2, MOST_BUNDLES, MOST_BUNDLES + 1, u64::MAX, 1 << 32]),
    }
}

/// A program with entries in every area that may have some: two books, models with properties and methods, a loop and an if,
/// context locals with and without values, marked and unmarked constants of every kind.
pub fn sample() -> Program {
    let named = |kind, text, children| Node::new(kind, 7, text, children);
    let leaf = |kind: u64, value| Node::leaf(kind, if kind::has_no_position(kind) { 0 } else { 9 }, value);
    let read = |text| Node::new(kind::EXPRESSION, 0, 0, vec![leaf(kind::IDENTIFIER, text)]);
    let value = |kind, value| Node::new(kind::EXPRESSION, 0, 0, vec![leaf(kind, value)]);
    let names = |texts: &[u64]| texts.iter().map(|&text| leaf(kind::NAME, text)).collect::<Vec<_>>();
    let block = Node::new(kind::BLOCK, 0, 0, vec![leaf(kind::BREAK, 0)]);
    let leaves = Node::new(kind::IF, 0, 0, vec![leaf(kind::IDENTIFIER, 30), block]);
    let body = vec![
        leaf(kind::NAME, 30),
        named(
            kind::FOR,
            0,
            vec![leaf(kind::NAME, 31), leaf(kind::IDENTIFIER, 30), Node::new(kind::EXPRESSION, 0, 0, vec![leaves])],
        ),
        read(32),
        value(kind::STRING, 33),
        value(kind::FLOAT, 1 << 63),
        leaf(kind::RESCUE, 0),
        read(20),
    ];
    let method = |name, this| named(kind::FUNCTION, name, vec![leaf(kind::THIS_PARAMETER, this), read(30)]);
    let first = vec![
        named(kind::PUBLIC_MODEL, 20, names(&[40, 41])),
        named(kind::IMPLEMENT, 20, vec![method(50, 7), method(51, 7)]),
        named(kind::PUBLIC_FUNCTION, 21, body),
        Node::new(kind::LOCAL_DEFINITION, 0, 0, vec![leaf(kind::NAME, 22), leaf(kind::ABSENT, 0)]),
    ];
    let second = vec![
        named(kind::INCLUDE, 2, names(&[20, 23, 21, 24])),
        named(kind::MODEL, 25, names(&[40])),
        Node::new(kind::APPLY, 0, 0, names(&[23, 25])),
        named(kind::FUNCTION, MAIN, vec![read(24), read(25)]),
    ];
    let words = flatten(&[document(3, second), document(2, first)]);
    let run = run(&words, false, None, ROOMY).expect("rows 2 to 6");
    let mut program = Program::of(run.areas, run.reply.entry_point);
    program.totals.bundles = 5;
    program
}

fn document(file: u64, definitions: Vec<Node>) -> Node {
    Node::new(kind::DOCUMENT, 0, file, definitions)
}

/// Every single damage of a program as lent: each field of each entry by each of `other_words` for every total; each opcode
/// and limit of an operand; each word beyond; each area cut; each total; the entry point, the marks' count, the bundles'
/// count; each key set to each other.
pub fn each_damage(areas: &Areas, totals: &Totals) -> Vec<(Areas, Totals)> {
    let mut out = Vec::new();
    let mut limits: Vec<u64> = totals.areas.to_vec();
    limits.sort_unstable();
    limits.dedup();
    let others = |old: u64| -> BTreeSet<u64> { limits.iter().flat_map(|&total| other_words(old, total)).collect() };
    for i in (0..AREAS).filter(|&i| i != area::ERRORS - 1) {
        let width = ENTRY_WORDS[i];
        let end = totals.areas[i] as usize * width;
        for at in 0..areas[i].len() {
            let old = areas[i][at];
            let words = if at >= end {
                BTreeSet::from([1, u64::MAX])
            } else if i == area::CODE - 1 && at % width == 0 {
                let operand = old & ((1 << 56) - 1);
                let operands = others(operand).into_iter().map(|word| instruction(old >> 56, word & ((1 << 56) - 1)));
                operands.chain(OPCODES.map(|opcode| instruction(opcode, operand))).collect()
            } else {
                others(old)
            };
            for word in words.into_iter().filter(|&word| word != old) {
                let mut changed = areas.clone();
                changed[i][at] = word;
                out.push((changed, *totals));
            }
        }
        for length in [end, end.saturating_sub(1)] {
            let mut changed = areas.clone();
            changed[i].truncate(length);
            out.push((changed, *totals));
        }
        let keys = width.min(2);
        for (from, to) in (0..end).step_by(width).flat_map(|from| (0..end).step_by(width).map(move |to| (from, to))) {
            let mut changed = areas.clone();
            let key = areas[i][from..from + keys].to_vec();
            changed[i][to..to + keys].copy_from_slice(&key);
            out.push((changed, *totals));
        }
    }
    for i in 0..AREAS {
        for word in others(totals.areas[i]) {
            let mut changed = *totals;
            changed.areas[i] = word;
            out.push((areas.clone(), changed));
        }
    }
    for word in others(totals.entry_point) {
        out.push((areas.clone(), Totals { entry_point: word, ..*totals }));
    }
    for word in others(totals.globals) {
        out.push((areas.clone(), Totals { globals: word, ..*totals }));
    }
    for bundles in [0, 1, 2, MOST_BUNDLES, MOST_BUNDLES + 1, 1 << 32, u64::MAX] {
        out.push((areas.clone(), Totals { bundles, ..*totals }));
    }
    out
}

// Calls.

/// Lengths worth lending: exactly what is needed, one entry short in one area, little, plenty; never below the totals.
fn some_lengths(random: &mut Random, peaks: &Counts, totals: &Counts) -> Lengths {
    let style = random.below(5);
    let short = random.index(AREAS);
    std::array::from_fn(|i| {
        let peak = peaks[i].max(if i == area::ERRORS - 1 { 0 } else { totals[i] });
        let entries = match style {
            0 => peak,
            1 if i == short => peak.saturating_sub(1),
            1 => peak + random.below(3),
            2 if random.chance(200) => random.below(peak + 1),
            2 => peak,
            _ => peak + random.below(12),
        };
        let least = if i == area::ERRORS - 1 { 0 } else { totals[i] };
        // A tail shorter than an entry counts for nothing.
        entries.max(least) as usize * ENTRY_WORDS[i] + random.index(ENTRY_WORDS[i])
    })
}

/// The totals that a commit is given: mostly those of the trial.
fn trial_totals(random: &mut Random, call: &Call, totals: &Totals, other: &[u64]) -> Totals {
    let mut out = trial(&call.words, call.strict, &call.areas, totals).totals;
    match random.below(12) {
        0 => out.bundles = random.pick(&[0, out.bundles.wrapping_add(1), out.bundles.wrapping_sub(1), u64::MAX]),
        1 => {
            let number = random.pick(&[area::FUNCTIONS, area::CONSTANTS, area::MODELS, area::CONTEXT, area::BOOKS]);
            out.areas[number - 1] = out.areas[number - 1].wrapping_add(random.pick(&[1, u64::MAX]));
        }
        2 => out.entry_point = out.entry_point.wrapping_add(random.pick(&[1, u64::MAX])),
        3 => out.globals = out.globals.wrapping_add(random.pick(&[1, u64::MAX])),
        // Totals that line 1 does not show.
        4 => {
            let number = random.pick(&[1, 5, 6, 8, 9, 10, 11]);
            out.areas[number - 1] = random.next();
        }
        // Another bundle's.
        5 => out = trial(other, call.strict, &call.areas, totals).totals,
        _ => {}
    }
    out
}

/// A call on the program, in lengths of its own; area 11 is lent with any words and any total.
fn call(random: &mut Random, program: &Program, words: Vec<u64>, other: &[u64]) -> Call {
    let strict = random.chance(350);
    let lent = program.lent(&[0; AREAS]);
    let peaks = run(&words, strict, Some((&lent, &program.totals)), ROOMY).map(|run| run.peaks());
    let lengths = some_lengths(random, &peaks.unwrap_or(program.totals.areas), &program.totals.areas);
    let mut areas = program.lent(&lengths);
    let mut totals = program.totals;
    if random.chance(700) {
        let stale = random.pick(&[1, u64::MAX, 0xA5A5]);
        areas[area::ERRORS - 1].fill(stale);
        totals.areas[area::ERRORS - 1] = random.pick(&[0, 1, 5, u64::MAX]);
    }
    if random.chance(200) {
        damaged(random, &mut areas, &mut totals);
    }
    let mut call = Call { order: Order::Lay(totals), words, strict, areas };
    match random.below(5) {
        0 => call.order = Order::Trial(totals),
        1 | 2 => call.order = Order::Commit(totals, trial_totals(random, &call, &totals, other)),
        _ => {}
    }
    call
}

/// Whether a bundle's code stays within what these calls may make.
fn is_modest(words: &[u64], program: Option<&Program>) -> bool {
    let lent = program.map(|program| (program.lent(&[0; AREAS]), program.totals));
    let run = run(words, false, lent.as_ref().map(|(areas, totals)| (areas, totals)), ROOMY);
    !run.is_ok_and(|run| run.reply.row == AREA_FULL)
}

/// Books that belong together, from the generator of bundles; none where it made a broken bundle.
pub fn shelf(random: &mut Random) -> Vec<Node> {
    let mut words = case(random.next(), 0, Sizes::Mixed).words;
    placed(&mut words);
    if check(&words).is_err() || !is_modest(&words, None) {
        return Vec::new();
    }
    let mut books = trees(&words).expect("a bundle within the tree rules");
    // Late includes were drawn from all books, so that they make rings now that they count.
    if random.chance(800) {
        for book in &mut books {
            let first = book.children.iter().position(|d| d.kind != kind::INCLUDE).unwrap_or(0);
            let leading: Vec<u64> = book.children[..first].iter().map(|d| d.value).collect();
            book.children.retain(|d| d.kind != kind::INCLUDE || leading.contains(&d.value));
        }
    }
    books
}

/// A sequence of calls: the program of each is what the one before left. The first may be a fresh call.
pub fn calls(seed: u64, index: u64) -> Vec<Call> {
    let mut random = Random::for_case(seed, index);
    let shelf = shelf(&mut random);
    let mut out = Vec::new();
    let mut program = match random.below(4) {
        0 if random.chance(300) => Program::least(),
        0 | 1 => odd(&mut random),
        _ => {
            let words = bundle(&mut random, &Program::least(), &shelf);
            if !is_modest(&words, None) {
                return out;
            }
            let peaks = run(&words, false, None, ROOMY).map(|run| run.peaks()).unwrap_or_default();
            let lengths = some_lengths(&mut random, &peaks, &[0; AREAS]);
            let areas = lengths.map(|length| vec![0xA5A5; length]);
            let first = Call { order: Order::Fresh, words, strict: random.chance(200), areas };
            let answered = fresh(&first.words, first.strict, &lengths);
            out.push(first);
            match answered.row {
                0 => Program { entries: entries_of(&answered.areas, &answered.totals), totals: answered.totals },
                _ => Program::least(),
            }
        }
    };
    program.totals.bundles = random.pick(&[1, 1, 2, 1000, MOST_BUNDLES - 1, MOST_BUNDLES]);
    for _ in 0..random.between(2, 7) {
        let words = bundle(&mut random, &program, &shelf);
        let other = bundle(&mut random, &program, &shelf);
        if !is_modest(&words, Some(&program)) || !is_modest(&other, Some(&program)) {
            continue;
        }
        let call = call(&mut random, &program, words, &other);
        let answered = call.answer();
        let laid = matches!(call.order, Order::Lay(_) | Order::Commit(..));
        if answered.row == 0 && laid {
            program = Program { entries: entries_of(&answered.areas, &answered.totals), totals: answered.totals };
        }
        out.push(call);
        if program_check(&program.lent(&[0; AREAS]), &program.totals).is_some() {
            // Past the greatest count.
            program.totals.bundles = 1;
        }
    }
    out
}

#[cfg(test)]
mod tests {
    use super::*;
    use crate::areas::capacities;
    use crate::books::order;
    use crate::model::first_beyond;
    use crate::records::{records, Record};
    use crate::standing::{lay_on, needed, standing_files, Answered, PROGRAM_PLACE};
    use crate::strict::{cut, foretold, full_before, not_public, Names};

    #[test]
    fn odd_programs_stand() {
        for index in 0..5000 {
            let program = odd(&mut Random::for_case(41, index));
            assert_eq!(program_check(&program.lent(&[0; AREAS]), &program.totals), None, "{program:?}");
        }
    }

    /// What a word of an entry must be.
    #[derive(Clone, Copy)]
    enum Rule {
        Any,
        Text,
        AtMost(u64),
        /// Below the total of an area.
        Below(usize),
        /// At most the entry's word of this number.
        NoMoreThan(usize),
    }

    /// The program check a second time, from a table of the entries' words and from the functions' side.
    fn second_check(areas: &Areas, totals: &Totals) -> Option<usize> {
        use Rule::*;
        let total = |number: usize| totals.areas[number - 1];
        let mut failing = BTreeSet::new();
        let tables: [(usize, &[Rule]); 10] = [
            (1, &[Any, Any]),
            (2, &[AtMost(6), Any, AtMost(1)]),
            (3, &[Any, Any, NoMoreThan(5), AtMost(1), Any, Any, Below(12), Text]),
            (4, &[Below(12), Text]),
            (5, &[Below(4), Text]),
            (6, &[Below(4), Text, Below(3)]),
            (7, &[Below(12), Text, AtMost(1), Below(2)]),
            (8, &[Below(12), Text, Below(2)]),
            (9, &[Any, Any]),
            (12, &[Text]),
        ];
        for (number, rules) in tables {
            let keys = match number {
                6 | 8 => 2,
                12 => 1,
                _ => 0,
            };
            let mut seen = Vec::new();
            for (at, entry) in areas[number - 1].chunks_exact(rules.len()).enumerate() {
                if at as u64 >= total(number) {
                    break;
                }
                for (&word, &rule) in entry.iter().zip(rules) {
                    let good = match rule {
                        Any => true,
                        Text => word != 0 && word < 1 << 20,
                        AtMost(most) => word <= most,
                        Below(other) => word < total(other),
                        NoMoreThan(field) => word <= entry[field],
                    };
                    if !good {
                        failing.insert(number);
                    }
                }
                if keys > 0 && seen.contains(&entry[..keys].to_vec()) {
                    failing.insert(number);
                }
                seen.push(entry[..keys].to_vec());
                let bad_value = match (number, entry) {
                    (2, [0, value, _]) => *value > 0,
                    (2, [1, value, _]) => *value > 1,
                    (2, [4, value, _]) => !(1..1 << 20).contains(value),
                    (2, [5, value, _]) => *value >= total(4),
                    (2, [6, value, _]) => *value >= total(3),
                    (7, [_, _, 0, constant]) => *constant > 0,
                    _ => false,
                };
                if bad_value {
                    failing.insert(number);
                }
            }
        }
        for number in 1..=12 {
            let (words, width) = (&areas[number - 1], ENTRY_WORDS[number - 1]);
            let end = total(number).saturating_mul(width as u64);
            let past = end > words.len() as u64;
            if past || words[end as usize..].iter().any(|&word| word > 0) || [9, 10].contains(&number) && end > 0 {
                failing.insert(number);
            }
        }
        let constants = &areas[1];
        if total(2) < 3 || constants.len() < 9 || [0, 1, 3, 4, 6, 7].map(|at| constants[at]) != [0, 0, 1, 1, 1, 0] {
            failing.insert(2);
        }
        let marks = constants.chunks_exact(3).take(total(2).min(1 << 40) as usize).filter(|c| c[2] == 1).count();
        if marks as u64 != totals.globals {
            failing.insert(2);
        }
        if total(3) == 0 && totals.entry_point != 0 || total(3) > 0 && totals.entry_point >= total(3) {
            failing.insert(3);
        }
        let code: Vec<&[u64]> = areas[0].chunks_exact(2).take(total(1).min(1 << 40) as usize).collect();
        for entry in &code {
            let (opcode, operand) = (entry[0] >> 56, entry[0] << 8 >> 8);
            let good = match opcode {
                0x01 | 0x05..=0x08 | 0x13..=0x16 | 0x22 | 0x23 | 0x31 | 0x32 | 0x36 | 0x41 | 0x51 | 0x52 => true,
                0x56 | 0x57 => true,
                0x02 | 0x11 | 0x12 => operand < total(2),
                0x0C | 0x0D => operand < total(7),
                0x21 => operand < 10 || operand == 257 || operand == 258,
                _ => false,
            };
            if !good || entry[1] >> 32 >= 100_000_000 || entry[1] % (1 << 32) >= 100_000_000 {
                failing.insert(1);
            }
        }
        for function in areas[2].chunks_exact(8).take(total(3).min(1 << 40) as usize) {
            let (locals, start, length) = (function[1], function[4], function[5]);
            let inside = start.checked_add(length).is_some_and(|end| end <= total(1));
            if length > 0 && !inside {
                failing.insert(3);
            }
            let own = code.iter().skip(start.min(1 << 40) as usize).take(length.min(1 << 40) as usize);
            for entry in own {
                let (opcode, operand) = (entry[0] >> 56, entry[0] << 8 >> 8);
                let good = match opcode {
                    0x06 | 0x08 | 0x56 | 0x57 => operand < locals,
                    0x07 => operand < locals || operand == 0,
                    0x51 | 0x52 => operand <= length,
                    _ => true,
                };
                if !good {
                    failing.insert(1);
                }
            }
        }
        if totals.bundles == 0 || totals.bundles > 4_294_967_294 {
            failing.insert(12);
        }
        failing.remove(&11);
        failing.first().copied()
    }

    #[test]
    fn each_damage_twice_read() {
        let program = sample();
        assert!((1..=AREAS).all(|number| program.totals.of(number) > 0 || (9..=11).contains(&number)));
        let lengths = std::array::from_fn(|i| program.entries[i].len() + 2 * ENTRY_WORDS[i] - 1);
        let areas = program.lent(&lengths);
        assert_eq!(program_check(&areas, &program.totals), None);
        let mut found = [0u64; AREAS + 1];
        for (areas, totals) in each_damage(&areas, &program.totals) {
            let failing = program_check(&areas, &totals);
            assert_eq!(failing, second_check(&areas, &totals));
            found[failing.unwrap_or(0)] += 1;
        }
        println!("each damage {found:?}");
        for number in (0..=AREAS).filter(|&number| number != area::ERRORS) {
            assert!(found[number] > 5, "{found:?}");
        }
    }

    #[test]
    fn damaged_programs_twice_read() {
        let mut found = [0u64; AREAS + 1];
        for index in 0..30_000 {
            let mut random = Random::for_case(42, index);
            let program = if random.chance(500) {
                odd(&mut random)
            } else {
                let words = flatten(&linked(&mut random, &Program::least()));
                let answered = fresh(&words, false, &[4000; AREAS]);
                if answered.row != 0 {
                    continue;
                }
                Program { entries: entries_of(&answered.areas, &answered.totals), totals: answered.totals }
            };
            let lengths = some_lengths(&mut random, &program.totals.areas, &program.totals.areas);
            let (mut areas, mut totals) = (program.lent(&lengths), program.totals);
            for _ in 0..random.between(1, 2) {
                damaged(&mut random, &mut areas, &mut totals);
            }
            let failing = program_check(&areas, &totals);
            assert_eq!(failing, second_check(&areas, &totals), "case {index}: {areas:?} {totals:?}");
            found[failing.unwrap_or(0)] += 1;
        }
        for number in (0..=AREAS).filter(|&number| number != area::ERRORS) {
            assert!(found[number] > 20, "{found:?}");
        }
    }

    /// What a refusal by the work, or a trial, leaves of the areas; area 11 apart.
    fn is_kept(call: &Call, answered: &Answered) {
        for i in (0..AREAS).filter(|&i| i != area::ERRORS - 1) {
            assert_eq!(answered.areas[i], call.areas[i], "area {}", i + 1);
        }
    }

    /// "delivery leaves standing functions as lent": of what stands only marks, functions of methods and the entry point
    /// may be others.
    fn changes_little(call: &Call, totals: &Totals, answered: &Answered) {
        for number in (1..=AREAS).filter(|&number| number != area::ERRORS) {
            let width = ENTRY_WORDS[number - 1];
            let end = totals.of(number) as usize * width;
            let pairs = call.areas[number - 1][..end].iter().zip(&answered.areas[number - 1][..end]);
            for (at, (&lent, &left)) in pairs.enumerate() {
                let may = match number {
                    area::CONSTANTS => at % width == 2 && (lent, left) == (0, 1),
                    area::METHODS => at % width == 2,
                    _ => false,
                };
                assert!(lent == left || may, "area {number}, word {at}");
            }
        }
    }

    /// Row and place of the work a second time: row 9 from the steps of a run without limits, row 11 from the order of the
    /// books and their public names.
    fn foretold_work(call: &Call, totals: &Totals) -> (u64, u64) {
        let program = Some((&call.areas, totals));
        let free = match run(&call.words, false, program, ROOMY) {
            Err(refusal) => return refusal,
            Ok(free) => free,
        };
        let lent = capacities(&call.areas.each_ref().map(|area| area.len()));
        let limited = match first_beyond(&free, &lent) {
            Some(place) => (AREA_FULL, place),
            None => (free.reply.row, free.reply.place),
        };
        if !call.strict {
            return limited;
        }
        let files: Vec<u64> = entries_of(&call.areas, totals)[area::BOOKS - 1].clone();
        let mut standing = Names::new();
        for &file in &files {
            standing.insert(file, BTreeSet::new());
        }
        for entry in entries_of(&call.areas, totals)[area::PUBLIC - 1].chunks(3) {
            standing.get_mut(&files[entry[0] as usize]).expect("it stands").insert(entry[1]);
        }
        let records = check(&call.words).expect("rows 2 to 4");
        let books = needed(&records, &standing_files(&call.areas, totals)).expect("rows 5 and 6");
        let (order, _) = order(&books);
        let found = not_public(&call.words, &order, &standing);
        let full = found.and_then(|found| {
            let words = cut(&call.words, &books, &order, found);
            full_before(&run(&words, false, program, ROOMY).expect("rows 2 to 6"), &lent)
        });
        foretold((free.reply.row, free.reply.place), limited, &order, found, full)
    }

    #[test]
    fn sequences_of_calls() {
        let mut rows = BTreeMap::new();
        let mut full = [0u64; AREAS + 1];
        let mut unfit = [0u64; AREAS + 1];
        let (mut grown, mut marks, mut methods, mut taken_back) = (0, 0, 0, 0);
        for index in 0..4000 {
            for call in calls(43, index) {
                let answered = call.answer();
                *rows.entry(answered.row).or_insert(0u64) += 1;
                assert_eq!(answered.areas.each_ref().map(Vec::len), call.areas.each_ref().map(Vec::len));
                let totals = match call.order {
                    Order::Fresh => {
                        assert!(answered.row == 0 || answered.totals == Totals::default());
                        continue;
                    }
                    Order::Lay(totals) | Order::Trial(totals) | Order::Commit(totals, _) => totals,
                };
                if let Some(number) = program_check(&call.areas, &totals) {
                    unfit[number] += 1;
                    let place = PROGRAM_PLACE + number as u64;
                    assert_eq!(answered, Answered { row: 3, place, totals, areas: call.areas.clone() });
                    continue;
                }
                // The row of the work, then 12 and 13.
                let mut expected = foretold_work(&call, &totals);
                let laid = lay_on(&call.words, call.strict, &call.areas, &totals);
                assert_eq!((laid.row, laid.place), expected, "case {index}");
                if let Order::Commit(_, given) = call.order {
                    if given.bundles != totals.bundles {
                        expected = (12, totals.bundles);
                    } else if expected.0 == 0 && given.line_1() != laid.totals.line_1() {
                        expected = (13, 0);
                    }
                    let tried = trial(&call.words, call.strict, &call.areas, &totals);
                    if given == tried.totals {
                        assert_eq!(answered, laid, "a commit of the trial's totals");
                        assert_eq!((answered.row, answered.place), (tried.row, tried.place));
                    }
                }
                assert_eq!((answered.row, answered.place), expected);
                full[if answered.row == AREA_FULL { answered.place as usize } else { 0 }] += 1;
                let errors = &answered.areas[area::ERRORS - 1];
                let listed = errors.iter().any(|&word| word != 0);
                assert_eq!(listed, [7, 8].contains(&answered.row), "listed errors");
                if answered.row != 0 {
                    assert_eq!(answered.totals, totals);
                    is_kept(&call, &answered);
                    // Refused, where a part of the bundle would have changed what stands.
                    let own = TOUCHING..=TOUCHING + 1000;
                    let touches = |r: &Record| r.kind == kind::IMPLEMENT && own.contains(&r.value);
                    let is_touching = records(&call.words).iter().any(touches);
                    taken_back += u64::from(is_touching && [7, 8, 9, 11, 13].contains(&answered.row));
                    continue;
                }
                if let Order::Trial(_) = call.order {
                    is_kept(&call, &answered);
                    assert_eq!(answered.totals, Totals { bundles: totals.bundles, ..laid.totals });
                    continue;
                }
                // 1.14: a delivery passes the next check, but for the greatest count.
                assert_eq!(answered.totals.bundles, totals.bundles + 1);
                let next = program_check(&answered.areas, &answered.totals);
                assert_eq!(next.is_some(), totals.bundles == MOST_BUNDLES);
                assert_eq!(program_check(&answered.areas, &Totals { bundles: 1, ..answered.totals }), None);
                changes_little(&call, &totals, &answered);
                grown +=
                    u64::from(totals.of(area::BOOKS) > 0 && answered.totals.of(area::BOOKS) > totals.of(area::BOOKS));
                let changed = |number: usize| {
                    let end = totals.of(number) as usize * ENTRY_WORDS[number - 1];
                    u64::from(call.areas[number - 1][..end] != answered.areas[number - 1][..end])
                };
                marks += changed(area::CONSTANTS);
                methods += changed(area::METHODS);
            }
        }
        println!(
            "rows {rows:?}, row 9 {full:?}, unfit {unfit:?}, grown {grown}, marks {marks}, methods {methods}, \
             taken back {taken_back}"
        );
        for row in [0, 2, 3, 4, 5, 6, 7, 8, 9, 11, 12, 13] {
            assert!(rows.get(&row).is_some_and(|&count| count > 10), "{rows:?}");
        }
        for number in (1..=AREAS).filter(|&number| number != area::ERRORS) {
            assert!(unfit[number] > 0, "{unfit:?}");
        }
        assert!((1..=AREAS).all(|number| full[number] > 0), "{full:?}");
        assert!(grown > 500 && marks > 50 && methods > 50 && taken_back > 50);
    }

    /// The books of a bundle laid on one by one, in the order of their compiling, give the program of all at once.
    #[test]
    fn one_by_one_is_all_at_once() {
        let (mut tried, mut books) = (0, 0);
        for index in 0..3000 {
            let mut random = Random::for_case(44, index);
            let documents =
                if random.chance(500) { shelf(&mut random) } else { linked(&mut random, &Program::least()) };
            if documents.len() < 2 {
                continue;
            }
            let words = flatten(&documents);
            let Ok(whole) = run(&words, false, None, ROOMY) else { continue };
            if whole.reply.row != 0 {
                continue;
            }
            tried += 1;
            let mut program = Program::least();
            let lengths = std::array::from_fn(|i| whole.peaks()[i] as usize * ENTRY_WORDS[i]);
            for &file in &whole.areas[area::BOOKS - 1] {
                let mut bundle: Vec<Node> = documents.iter().filter(|d| d.value == file).cloned().collect();
                // Copies of others, which stand or are not needed.
                bundle.extend(documents.iter().filter(|d| d.value != file && random.chance(300)).cloned());
                let areas = program.lent(&lengths);
                let answered = lay_on(&flatten(&bundle), false, &areas, &program.totals);
                assert_eq!((answered.row, answered.place), (0, 0));
                program = Program { entries: entries_of(&answered.areas, &answered.totals), totals: answered.totals };
                books += 1;
            }
            assert_eq!(program.entries, whole.areas, "case {index}");
            let totals = Totals {
                areas: whole.reply.totals,
                entry_point: whole.reply.entry_point,
                globals: whole.reply.globals,
                bundles: 1 + whole.reply.totals[area::BOOKS - 1],
            };
            assert_eq!(program.totals, totals);
        }
        assert!(tried > 300 && books > 1000, "{tried} {books}");
    }
}
