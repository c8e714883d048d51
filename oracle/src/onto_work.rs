//! The work of a call on a program after row 6 (02, 2026-01): books compiled one after the other onto tables that hold a
//! program already. Written from 01, 02 and the Rust, apart from model.rs: entries are searched for from the front of
//! plain tables, a function keeps its code to itself until it is added (onto_bodies.rs), and each entry taken is held
//! against the room lent.

use crate::areas::{area, Areas, Counts, AREAS, ENTRY_WORDS};
use crate::onto::Fault;
use crate::onto_bodies::Function;
use crate::records::{kind, Record, MAIN};
use crate::standing::Totals;

/// One entry of an area: its words, as docs/FORMAT.md has them.
pub type Entry = Vec<u64>;

/// A program's entries by area, and its entry point.
#[derive(Clone, Debug, PartialEq, Eq)]
pub struct Tables {
    areas: [Vec<Entry>; AREAS],
    pub entry_point: u64,
}

impl Tables {
    /// The entries of a program that passed the check, up to its totals; area 11 has none of a program's.
    pub fn of(areas: &Areas, totals: &Totals) -> Tables {
        let entries = |i: usize| {
            let count = if i + 1 == area::ERRORS { 0 } else { totals.areas[i] as usize };
            areas[i].chunks_exact(ENTRY_WORDS[i]).take(count).map(<[u64]>::to_vec).collect()
        };
        Tables { areas: std::array::from_fn(entries), entry_point: totals.entry_point }
    }

    pub fn of_area(&self, number: usize) -> &[Entry] {
        &self.areas[number - 1]
    }

    fn entry(&mut self, number: usize, index: u64) -> &mut Entry {
        &mut self.areas[number - 1][index as usize]
    }

    pub fn counts(&self) -> Counts {
        std::array::from_fn(|i| self.areas[i].len() as u64)
    }

    pub fn marked(&self) -> u64 {
        self.of_area(area::CONSTANTS).iter().filter(|constant| constant[2] == 1).count() as u64
    }

    /// The first entry that begins with these words.
    fn find(&self, number: usize, key: &[u64]) -> Option<u64> {
        self.of_area(number).iter().position(|entry| entry.starts_with(key)).map(|at| at as u64)
    }
}

/// Kinds of constants that are added (01, "Emission").
pub(crate) const INTEGER: u64 = 2;
pub(crate) const FLOAT: u64 = 3;
pub(crate) const TEXT: u64 = 4;
const MODEL: u64 = 5;
const FUNCTION: u64 = 6;

/// 01: "0, 1, 2 are null, true, false".
pub(crate) const NULL: u64 = 0;

pub(crate) fn boolean(value: u64) -> u64 {
    2 - value
}

pub struct Work<'a> {
    pub(crate) records: &'a [Record],
    strict: bool,
    room: Counts,
    fault: Option<Fault>,
    /// What stood when the work began.
    stood: Counts,
    pub tables: Tables,
    /// The most entries in use at any step.
    pub peaks: Counts,
    /// Row 9: the area of the first step beyond the room lent.
    pub full: Option<usize>,
    /// Row 11: the include's record.
    pub not_public: Option<usize>,
    /// `locals` of the present book: names with their context locals.
    pub(crate) locals: Vec<(u64, u64)>,
}

impl<'a> Work<'a> {
    pub fn new(records: &'a [Record], strict: bool, room: Counts, tables: Tables, fault: Option<Fault>) -> Work<'a> {
        let stood = tables.counts();
        Work {
            records,
            strict,
            room,
            fault,
            stood,
            tables,
            peaks: stood,
            full: None,
            not_public: None,
            locals: Vec::new(),
        }
    }

    fn is(&self, fault: Fault) -> bool {
        self.fault == Some(fault)
    }

    /// Whether the answer is known: nothing that the work would still do can change it.
    pub fn is_stopped(&self) -> bool {
        self.full.is_some() || self.not_public.is_some()
    }

    /// 01, row 9: "area number, at the first step needing an entry beyond it".
    pub(crate) fn take(&mut self, number: usize, in_use: usize) {
        if self.is_stopped() {
            return;
        }
        let i = number - 1;
        let mut in_use = in_use as u64;
        if self.is(Fault::StandingNotCounted) {
            in_use -= self.stood[i];
        }
        self.peaks[i] = self.peaks[i].max(in_use);
        if in_use > self.room[i] {
            self.full = Some(number);
        }
    }

    fn add(&mut self, number: usize, entry: Entry) -> u64 {
        let index = self.tables.of_area(number).len();
        self.take(number, index + 1);
        self.tables.areas[number - 1].push(entry);
        index as u64
    }

    /// 01, area 12: "one per needed book, taken before the first is compiled".
    pub fn take_books(&mut self, needed: usize) {
        let stood = self.tables.of_area(area::BOOKS).len();
        (1..=needed).for_each(|count| self.take(area::BOOKS, stood + count));
    }

    pub fn errors(&self) -> &[Entry] {
        self.tables.of_area(area::ERRORS)
    }

    pub(crate) fn error(&mut self, number: u64, at: usize) {
        let record = self.records[at];
        self.add(area::ERRORS, vec![number, record.position, record.kind, record.value]);
    }

    /// Error 11: "zeros, then the file number".
    pub fn ring_error(&mut self, file: u64) {
        self.add(area::ERRORS, vec![11, 0, 0, file]);
    }

    pub(crate) fn children(&self, at: usize) -> Vec<usize> {
        let end = at + self.records[at].span as usize;
        let hop = |&child: &usize| Some(child + self.records[child].span as usize).filter(|&next| next < end);
        std::iter::successors(Some(at + 1).filter(|&first| first < end), hop).collect()
    }

    // Constants.

    /// 01 and 2026-05: equal integers, texts and floats share; 2026-01: "sharing takes the first".
    pub(crate) fn constant(&mut self, kind: u64, value: u64) -> u64 {
        let mut known = self.tables.find(area::CONSTANTS, &[kind, value]);
        if self.is(Fault::SharingStartsAnew) {
            known = known.filter(|&index| index >= self.stood[area::CONSTANTS - 1]);
        }
        if self.is(Fault::LastShared) {
            let constants = self.tables.of_area(area::CONSTANTS);
            known = constants.iter().rposition(|entry| entry.starts_with(&[kind, value])).map(|at| at as u64);
        }
        known.unwrap_or_else(|| self.add(area::CONSTANTS, vec![kind, value, 0]))
    }

    pub(crate) fn global(&mut self, name: u64) -> u64 {
        let index = self.constant(TEXT, name);
        let stands = index < self.stood[area::CONSTANTS - 1];
        if !(stands && self.is(Fault::StandingUnmarked)) {
            self.tables.entry(area::CONSTANTS, index)[2] = 1;
        }
        index
    }

    // Definitions.

    /// The index in area 12 of the book at work: standing books count.
    fn file(&self) -> u64 {
        let finished = self.tables.of_area(area::BOOKS).len() as u64;
        if self.is(Fault::FilesFromZero) {
            return finished - self.stood[area::BOOKS - 1];
        }
        finished
    }

    /// 01: "A repeated top-level name keeps the first local without error".
    fn define_context(&mut self, name: u64) -> Option<u64> {
        if self.locals.iter().any(|entry| entry.0 == name) {
            return None;
        }
        let local = self.add(area::CONTEXT, vec![self.file(), name, 0, 0]);
        self.locals.push((name, local));
        Some(local)
    }

    fn set_value(&mut self, local: Option<u64>, constant: u64) {
        if let Some(local) = local {
            self.tables.entry(area::CONTEXT, local)[2..].copy_from_slice(&[1, constant]);
        }
    }

    /// One entry per key (words ahead of the last): a repeated key keeps its entry and takes the last value.
    fn keep_last(&mut self, number: usize, key: [u64; 2], value: u64) {
        match self.tables.find(number, &key) {
            None => {
                self.add(number, vec![key[0], key[1], value]);
            }
            Some(index) if index < self.stood[number - 1] && self.is(Fault::MethodNotReplaced) => {}
            Some(index) => self.tables.entry(number, index)[2] = value,
        }
    }

    fn publish(&mut self, name: u64, constant: u64) {
        self.keep_last(area::PUBLIC, [self.file(), name], constant);
    }

    fn definition(&mut self, at: usize) {
        let r = self.records[at];
        match r.kind {
            kind::LOCAL_DEFINITION => self.local_definition(at),
            kind::INCLUDE => self.include(at),
            kind::MODEL | kind::PUBLIC_MODEL => {
                let constant = self.model(at);
                if r.kind == kind::PUBLIC_MODEL {
                    self.publish(r.value, constant);
                }
            }
            kind::FUNCTION | kind::PUBLIC_FUNCTION => {
                let constant = self.function_definition(at);
                if r.kind == kind::PUBLIC_FUNCTION {
                    self.publish(r.value, constant);
                }
            }
            kind::IMPLEMENT => self.implement(at),
            _ => self.apply(at),
        }
    }

    fn local_definition(&mut self, at: usize) {
        for pair in self.children(at).chunks_exact(2) {
            let value = self.records[pair[1]];
            let Some(local) = self.define_context(self.records[pair[0]].value) else { continue };
            let constant = match value.kind {
                kind::ABSENT => continue,
                kind::NULL => NULL,
                kind::BOOLEAN => boolean(value.value),
                kind::INTEGER => self.constant(INTEGER, value.value),
                kind::FLOAT => self.constant(FLOAT, value.value),
                _ => {
                    self.error(5, pair[1]);
                    continue;
                }
            };
            self.set_value(Some(local), constant);
        }
    }

    /// 2026-07, one definition for one name and for a list: the constants of the names, none where one is not public there.
    fn public_values(&self, file: u64, names: &[u64]) -> Option<Vec<u64>> {
        let book = self.tables.find(area::BOOKS, &[file])?;
        if book < self.stood[area::BOOKS - 1] && self.is(Fault::StandingNamesHidden) {
            return None;
        }
        let value = |&name: &u64| {
            let place = self.tables.find(area::PUBLIC, &[book, name])?;
            Some(self.tables.of_area(area::PUBLIC)[place as usize][2])
        };
        names.iter().map(value).collect()
    }

    fn include(&mut self, at: usize) {
        let file = self.records[at].value;
        let texts: Vec<u64> = self.children(at).into_iter().map(|child| self.records[child].value).collect();
        let names: Vec<u64> = texts.iter().step_by(2).copied().collect();
        if self.strict && !names.is_empty() && self.public_values(file, &names).is_none() {
            self.not_public = Some(at);
            return;
        }
        for pair in texts.chunks_exact(2) {
            let Some(local) = self.define_context(pair[1]) else { continue };
            if let Some(values) = self.public_values(file, &pair[..1]) {
                self.set_value(Some(local), values[0]);
            }
        }
    }

    fn model(&mut self, at: usize) -> u64 {
        let name = self.records[at].value;
        let index = self.tables.of_area(area::MODELS).len() as u64;
        let mut properties = Vec::new();
        for child in self.children(at) {
            let property = self.records[child].value;
            if properties.contains(&property) {
                self.error(6, child);
            } else {
                properties.push(property);
                self.add(area::PROPERTIES, vec![index, property]);
            }
        }
        self.add(area::MODELS, vec![self.file(), name]);
        let constant = self.add(area::CONSTANTS, vec![MODEL, index, 0]);
        let local = self.define_context(name);
        self.set_value(local, constant);
        constant
    }

    /// `compile_function_definition_base`.
    fn function_base(&mut self, at: usize) -> Function {
        let mut f = Function::new();
        for child in self.children(at) {
            let r = self.records[child];
            if kind::is_statement(r.kind) {
                self.statement(&mut f, child);
                continue;
            }
            f.parameters += 1;
            f.instance |= r.kind == kind::THIS_PARAMETER;
            if self.define_local(&mut f, r.value).is_none() {
                self.error(7, child);
            }
        }
        let position = f.last_position();
        self.emit_return(&mut f, position);
        f
    }

    /// Its code is counted already.
    fn add_function(&mut self, f: Function, name: u64) -> u64 {
        let (start, length) = (self.tables.of_area(area::CODE).len() as u64, f.next());
        self.tables.areas[area::CODE - 1].extend(f.code.iter().map(|entry| entry.to_vec()));
        let file = self.file();
        let head = [f.parameters, f.locals, f.rescue, f.instance as u64];
        self.add(area::FUNCTIONS, [head, [start, length, file, name]].concat())
    }

    fn function_definition(&mut self, at: usize) -> u64 {
        let name = self.records[at].value;
        let local = self.define_context(name);
        let f = self.function_base(at);
        if f.instance {
            self.error(8, at);
            return NULL;
        }
        let function = self.add_function(f, name);
        let constant = self.add(area::CONSTANTS, vec![FUNCTION, function, 0]);
        self.set_value(local, constant);
        if name == MAIN {
            self.tables.entry_point = function;
        }
        constant
    }

    /// `find_model_index_by_local_name`.
    fn find_model(&mut self, at: usize) -> Option<u64> {
        let name = self.records[at].value;
        let Some(&(_, local)) = self.locals.iter().find(|entry| entry.0 == name) else {
            self.error(10, at);
            return None;
        };
        let value = &self.tables.of_area(area::CONTEXT)[local as usize][2..];
        let constant = &self.tables.of_area(area::CONSTANTS)[value[1] as usize];
        let model = (value[0] == 1 && constant[0] == MODEL).then_some(constant[1]);
        if model.is_none() {
            self.error(9, at);
        }
        model
    }

    fn implement(&mut self, at: usize) {
        let mut made = Vec::new();
        for child in self.children(at) {
            let name = self.records[child].value;
            let f = self.function_base(child);
            made.push((name, self.add_function(f, name)));
        }
        self.set_methods(at, made);
    }

    fn apply(&mut self, at: usize) {
        let source = self.find_model(at + 1);
        let methods = self.tables.of_area(area::METHODS).iter();
        let copied = methods.filter(|method| Some(method[0]) == source).map(|method| (method[1], method[2])).collect();
        self.set_methods(at + 2, copied);
    }

    fn set_methods(&mut self, at: usize, methods: Vec<(u64, u64)>) {
        if let Some(model) = self.find_model(at) {
            methods.into_iter().for_each(|(name, f)| self.keep_last(area::METHODS, [model, name], f));
        }
    }

    /// `compile_document`.
    pub fn book(&mut self, at: usize) {
        self.locals.clear();
        if self.is(Fault::StandingLocalsVisible) {
            let standing = self.tables.of_area(area::CONTEXT).iter().zip(0..self.stood[area::CONTEXT - 1]);
            self.locals = standing.map(|(entry, local)| (entry[1], local)).collect();
        }
        for definition in self.children(at) {
            if self.is_stopped() {
                return;
            }
            self.definition(definition);
        }
        let file = self.records[at].value;
        self.tables.areas[area::BOOKS - 1].push(vec![file]);
    }
}
