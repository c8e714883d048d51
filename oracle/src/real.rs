//! The original back end, driven: `compile_document` on a fresh `CompilerContext` in 01's order,
//! then `to_program`, and all of it read back. The dependency solver of the Rust says which books
//! are missing, which are ready and which are left in a ring: it is fed each book's includes alone, so
//! that its `get_dependencies` lists them all (2026-04).

use crate::areas::{Answer, Delivery, ErrorAnswer, FunctionAnswer, ModelAnswer};
use crate::books::{needed, order};
use crate::documents::{self, Builder, Positions, Texts};
use crate::merge::merge_floats;
use crate::records::{kind, position, Record};
use clover::backend::compiler::{compile_document, CompilerContext};
use clover::backend::dependency_solver::DependencySolver;
use clover::intermediate::ast::*;
use clover::intermediate::{CompileErrorList, Position, Token, TokenValue};
use clover::runtime::object::Object;
use clover::runtime::opcode::OpCode;
use clover::runtime::program::Program;
use std::cell::{Cell, RefCell};
use std::collections::{BTreeMap, BTreeSet, HashMap, HashSet};
use std::panic::{self, AssertUnwindSafe};
use std::sync::Once;

const BOOK_MISSING: u64 = 6;
const BOOK_FAULTY: u64 = 7;
const RING: u64 = 8;
const RING_ERROR: u64 = 11;

#[derive(Debug, PartialEq, Eq)]
pub enum Outcome {
    Answer(Answer),
    /// `emit_return` on a list emptied of its only Pop.
    Panicked,
    /// The bundle numbers `this` as `main`, and something depends on it.
    Inexpressible,
    /// Any other panic, a stub's or a check's: always a difference.
    Unforeseen(String),
}

pub(crate) const MESSAGES: [&str; 10] = [
    "variable already exists",
    "can not assign",
    "unknown operation",
    "rescue can only in the layer of function",
    "value in local definition can be constant only",
    "property already exists",
    "parameter already exists",
    "instance function can inside implement block only",
    "is not a model",
    "can not found model",
];

thread_local! {
    static QUIET: Cell<bool> = const { Cell::new(false) };
    static LAST_PANIC: RefCell<String> = const { RefCell::new(String::new()) };
}

/// A panic inside the Rust is an answer here, not a message on the screen.
pub(crate) fn quiet<T>(work: impl FnOnce() -> T) -> Result<T, String> {
    static HOOK: Once = Once::new();
    HOOK.call_once(|| {
        let loud = panic::take_hook();
        panic::set_hook(Box::new(move |info| {
            if QUIET.with(Cell::get) {
                LAST_PANIC.with(|last| *last.borrow_mut() = info.to_string());
            } else {
                loud(info);
            }
        }));
    });
    QUIET.with(|flag| flag.set(true));
    let outcome = panic::catch_unwind(AssertUnwindSafe(work));
    QUIET.with(|flag| flag.set(false));
    outcome.map_err(|_| LAST_PANIC.with(|last| last.borrow().clone()))
}

/// Only the panic that 01 names may be met; any other is a fault of the oracle or news.
pub(crate) fn is_the_known_panic(message: &str) -> bool {
    message.contains("function_state.rs") && message.contains("`Option::unwrap()` on a `None` value")
}

/// Drives the Rust over records that rows 2 to 5 have nothing against; equal floats of its pool are merged.
pub fn run(records: &[Record]) -> Outcome {
    run_counting(records).0
}

/// The same, with the entries of its pool that the merging took away.
pub fn run_counting(records: &[Record]) -> (Outcome, u64) {
    match run_unmerged(records) {
        Outcome::Answer(answer) => {
            let (answer, merged) = merge_floats(answer);
            (Outcome::Answer(answer), merged)
        }
        outcome => (outcome, 0),
    }
}

fn run_unmerged(records: &[Record]) -> Outcome {
    let texts = Texts::new(records);
    if !texts.consistent(records) {
        return Outcome::Inexpressible;
    }
    let all_fit = records.iter().all(|record| documents::fits(record.position));
    let positions = if all_fit { Positions::Given } else { Positions::Tagged };
    let driven = Driven { records, texts, positions };
    match quiet(|| driven.answer()) {
        Ok(answer) => Outcome::Answer(answer),
        Err(message) if is_the_known_panic(&message) => Outcome::Panicked,
        Err(message) => Outcome::Unforeseen(message),
    }
}

/// The books of a bundle as the Rust holds them, in 01's order, made before anything is timed.
pub struct Prepared {
    books: Vec<Document>,
    /// Their includes alone, for the solver.
    includes: Vec<Document>,
    /// Which of them is the root.
    root: usize,
}

impl Prepared {
    /// For a bundle that is delivered.
    pub fn new(records: &[Record]) -> Prepared {
        let texts = Texts::new(records);
        assert!(texts.consistent(records), "the Rust can hold it");
        let books = needed(records).expect("every book is there");
        let (files, left) = order(&books);
        assert!(left.is_empty(), "no ring");
        let builder = Builder { records, texts, positions: Positions::Given };
        let root = files.iter().position(|&file| file == records[0].value).expect("the root is needed");
        let books: Vec<Document> = files.iter().map(|file| builder.document(books[file].at)).collect();
        let includes = books.iter().map(includes_alone).collect();
        Prepared { books, includes, root }
    }

    /// `compile_document` of each book, then `to_program`.
    #[inline(never)]
    pub fn compile(&self) -> (CompilerContext, Program) {
        let mut context = CompilerContext::new();
        for book in &self.books {
            compile_document(book, &mut context).expect("no errors");
        }
        let program = context.to_program();
        (context, program)
    }

    /// As `compile_to` does it, its solver choosing the books; nothing is read or parsed.
    #[inline(never)]
    pub fn compile_with_solver(&self) -> (CompilerContext, Program) {
        let mut context = CompilerContext::new();
        let both = self.books.iter().zip(&self.includes);
        let documents: HashMap<&str, (&Document, &Document)> = both.map(|both| (&*both.0.filename, both)).collect();
        let mut solver = DependencySolver::new();
        solver.solve(&self.includes[self.root], &no_books());
        while let Some(name) = solver.get_unsolved_filename() {
            solver.solve(documents[&*name].1, &no_books());
        }
        while let Some(name) = solver.get_next_no_dependency_filename() {
            compile_document(documents[&*name].0, &mut context).expect("no errors");
            solver.set_loaded(&name);
        }
        let program = context.to_program();
        (context, program)
    }
}

pub(crate) struct Driven<'a> {
    pub(crate) records: &'a [Record],
    pub(crate) texts: Texts,
    /// Given where all fit the Rust's 16 bits, else tagged and mapped back.
    pub(crate) positions: Positions,
}

/// The bundle as the Rust holds it, with the order of compiling.
pub(crate) struct Planned {
    pub(crate) documents: BTreeMap<u64, (usize, Document)>,
    pub(crate) order: Vec<u64>,
    pub(crate) left: Vec<u64>,
}

fn no_books() -> HashSet<String> {
    HashSet::new()
}

/// A book with nothing but its includes.
pub(crate) fn includes_alone(book: &Document) -> Document {
    let is_include = |definition: &&Definition| matches!(definition, Definition::Include(_));
    Document {
        definitions: book.definitions.iter().filter(is_include).cloned().collect(),
        filename: book.filename.clone(),
    }
}

impl Driven<'_> {
    pub(crate) fn builder(&self, positions: Positions) -> Builder<'_> {
        Builder { records: self.records, texts: self.texts, positions }
    }

    fn file(&self, name: &str) -> u64 {
        self.texts.number(name)
    }

    /// Loads what the solver asks for; answers row 6's place where a book is missing.
    fn load(
        &self,
        solver: &mut DependencySolver,
        documents: &BTreeMap<u64, (usize, Document)>,
    ) -> Result<Vec<u64>, u64> {
        let root = self.records[0].value;
        let mut loaded = vec![root];
        let mut missing = BTreeSet::new();
        solver.solve(&includes_alone(&documents[&root].1), &no_books());
        while let Some(name) = solver.get_unsolved_filename() {
            let file = self.file(&name);
            match documents.get(&file) {
                Some((_, document)) => {
                    loaded.push(file);
                    solver.solve(&includes_alone(document), &no_books());
                }
                // An empty book in its place lets the solver go on, so that all missing ones are seen.
                None => {
                    missing.insert(file);
                    solver.solve(&Document { definitions: Vec::new(), filename: name }, &no_books());
                }
            }
        }
        missing.first().map_or(Ok(loaded), |&file| Err(file))
    }

    /// 01's order, checked at each choice against the solver, which takes any ready book.
    fn plan(&self, positions: Positions) -> Result<Planned, Answer> {
        let documents: BTreeMap<u64, (usize, Document)> = self
            .builder(positions)
            .documents()
            .into_iter()
            .map(|(file, at, document)| (file, (at, document)))
            .collect();
        let mut solver = DependencySolver::new();
        let loaded = self.load(&mut solver, &documents).map_err(|place| Answer::Refused {
            row: BOOK_MISSING,
            place,
            errors: Vec::new(),
        })?;
        let mut open: BTreeMap<u64, BTreeSet<u64>> = BTreeMap::new();
        for file in loaded {
            let names = includes_alone(&documents[&file].1).get_dependencies();
            open.insert(file, names.iter().map(|name| self.file(name)).collect());
        }
        let mut order = Vec::new();
        loop {
            let choice = solver.get_next_no_dependency_filename().map(|name| self.file(&name));
            let ready = open.iter().find(|(_, needs)| needs.is_empty()).map(|(&file, _)| file);
            assert_eq!(choice.is_some(), ready.is_some(), "the solver sees no ready book where there is one");
            let Some(file) = ready else { break };
            assert!(open[&choice.expect("checked")].is_empty(), "the solver's choice is not ready");
            solver.set_loaded(&self.texts.string(file));
            open.remove(&file);
            for needs in open.values_mut() {
                needs.remove(&file);
            }
            order.push(file);
        }
        let mut left: Vec<u64> = solver.get_cycle_reference_list().iter().map(|name| self.file(name)).collect();
        left.sort_unstable();
        assert_eq!(left, open.into_keys().collect::<Vec<_>>(), "the solver keeps other books");
        Ok(Planned { documents, order, left })
    }

    fn answer(&self) -> Answer {
        let planned = match self.plan(self.positions) {
            Ok(planned) => planned,
            Err(refusal) => return refusal,
        };
        let mut context = CompilerContext::new();
        for &file in &planned.order {
            if let Err(errors) = compile_document(&planned.documents[&file].1, &mut context) {
                return Answer::Refused { row: BOOK_FAULTY, place: file, errors: self.errors(&errors) };
            }
        }
        if !planned.left.is_empty() {
            let errors = planned.left.iter().map(|&file| [RING_ERROR, 0, 0, file]).collect();
            return Answer::Refused { row: RING, place: planned.left.len() as u64, errors };
        }
        Answer::Delivered(self.read(&planned, context))
    }

    /// Numbers by message, positions as they came, and the record of each token by a second run in
    /// which every record has a position of its own.
    fn errors(&self, errors: &CompileErrorList) -> Vec<ErrorAnswer> {
        self.numbered(errors, &self.tagged_errors())
    }

    /// The same, with the errors of the second run.
    pub(crate) fn numbered(&self, errors: &CompileErrorList, tagged: &CompileErrorList) -> Vec<ErrorAnswer> {
        assert_eq!(errors.errors.len(), tagged.errors.len(), "positions change the errors");
        let pairs = errors.errors.iter().zip(&tagged.errors);
        pairs
            .map(|(error, tag)| {
                let number = 1 + MESSAGES.iter().position(|m| *m == error.message).expect("a message of 01") as u64;
                let at = documents::tag(tag.token.position) - 1;
                let record = self.records[at];
                let token = self.builder(self.positions).token(at);
                assert_eq!(error.message, tag.message, "positions change the errors");
                assert!(error.token.value == token.value || is_nan(&token.value), "the token is another record's");
                [number, self.position(error.token.position), record.kind, record.value]
            })
            .collect()
    }

    /// The word of a position that the Rust answered.
    fn position(&self, found: Position) -> u64 {
        match self.positions {
            Positions::Given => position(u64::from(found.line), u64::from(found.column)),
            Positions::Tagged => documents::tag(found).checked_sub(1).map_or(0, |at| self.records[at].position),
        }
    }

    fn tagged_errors(&self) -> CompileErrorList {
        let planned = self.plan(Positions::Tagged).unwrap_or_else(|_| panic!("positions change the order"));
        let mut context = CompilerContext::new();
        let mut documents = planned.order.iter().map(|file| &planned.documents[file].1);
        documents.find_map(|document| compile_document(document, &mut context).err()).expect("it had errors before")
    }

    pub(crate) fn read(&self, planned: &Planned, mut context: CompilerContext) -> Delivery {
        let program = context.to_program();
        let info = program.file_info.as_ref().expect("to_program gives it");
        let mut globals: Vec<u64> = program.global_dependencies.iter().map(|&index| index as u64).collect();
        globals.sort_unstable();
        let names = self.context_names(planned, program.local_count);
        let books: Vec<u64> = info.filenames.iter().map(|name| self.file(name)).collect();
        assert_eq!(info.function_names.len(), program.functions.len());
        assert_eq!(info.model_names.len(), program.models.len());
        Delivery {
            functions: self.functions(&program),
            constants: program.constants.iter().map(|object| self.constant(object)).collect(),
            globals,
            models: self.models(&program),
            context: names
                .into_iter()
                .enumerate()
                .map(|(local, (file, name))| (file, name, program.local_values.get(&local).map(|&c| c as u64)))
                .collect(),
            public: self.public(planned, &mut context, program.local_count),
            entry_point: program.entry_point as u64,
            books,
        }
    }

    fn functions(&self, program: &Program) -> Vec<FunctionAnswer> {
        let info = program.file_info.as_ref().expect("to_program gives it");
        let positions = &program.debug_info.as_ref().expect("to_program gives it").functions;
        let read = |index: usize| {
            let function = &program.functions[index];
            assert_eq!(function.instructions.len(), positions[index].len());
            let places = positions[index].iter().map(|&position| self.position(position));
            FunctionAnswer {
                parameters: function.parameter_count as u64,
                locals: function.local_count as u64,
                rescue: function.rescue_position as u64,
                instance: function.is_instance,
                file: info.function_files[index] as u64,
                name: self.texts.number(&info.function_names[index]),
                code: function.instructions.iter().map(Into::<u64>::into).zip(places).collect(),
            }
        };
        (0..program.functions.len()).map(read).collect()
    }

    fn models(&self, program: &Program) -> Vec<ModelAnswer> {
        let info = program.file_info.as_ref().expect("to_program gives it");
        let read = |index: usize| {
            let model = &program.models[index];
            let properties: Vec<u64> = model.property_names.iter().map(|n| self.texts.number(&n.borrow())).collect();
            for (place, name) in model.property_names.iter().enumerate() {
                assert_eq!(model.property_indices.get(name.borrow().as_str()), Some(&place));
            }
            ModelAnswer {
                file: info.model_files[index] as u64,
                name: self.texts.number(&info.model_names[index]),
                properties,
                methods: model.functions.iter().map(|(n, &f)| (self.texts.number(n), f as u64)).collect(),
            }
        };
        (0..program.models.len()).map(read).collect()
    }

    /// Kind and value, kinds in 01's order from 0.
    fn constant(&self, object: &Object) -> (u64, u64) {
        match object {
            Object::Null => (0, 0),
            Object::Boolean(value) => (1, *value as u64),
            Object::Integer(value) => (2, *value as u64),
            Object::Float(value) => (3, value.to_bits()),
            Object::String(value) => (4, self.texts.number(&value.borrow())),
            Object::Model(index) => (5, *index as u64),
            Object::Function(index) => (6, *index as u64),
            _ => panic!("no such constant is ever added"),
        }
    }

    /// Texts that the book's definitions name: all that can become public names or context locals,
    /// and some that can not.
    fn names_in(&self, at: usize) -> Vec<u64> {
        let end = at + self.records[at].span as usize;
        let names = self.records[at + 1..end]
            .iter()
            .filter(|r| matches!(r.kind, kind::NAME | kind::THIS_PARAMETER | kind::MODEL..=kind::IMPLEMENT));
        names.map(|r| r.value).collect::<BTreeSet<_>>().into_iter().collect()
    }

    /// Public names are kept in a private field, so they are asked for: a last book includes every
    /// name of every book under an alias of its own, and its context values are the answers.
    fn public(&self, planned: &Planned, context: &mut CompilerContext, locals: usize) -> BTreeMap<(u64, u64), u64> {
        let mut asked = Vec::new();
        let mut definitions = Vec::new();
        for (book, file) in planned.order.iter().enumerate() {
            let names = self.names_in(planned.documents[file].0);
            let first = asked.len();
            asked.extend(names.iter().map(|&name| (book as u64, name)));
            definitions.push(Definition::Include(IncludeDefinition {
                public_names: names.iter().map(|&name| identifier(self.texts.string(name))).collect(),
                aliases: (first..asked.len()).map(|i| identifier(format!("probe{i}"))).collect(),
                filename: Token::new(TokenValue::String(self.texts.string(*file)), Position::none()),
            }));
        }
        let printed = cfg!(debug_assertions).then(|| self.printed_public(context));
        let probe = Document { definitions, filename: "probe".to_string() };
        compile_document(&probe, context).expect("includes give no errors");
        let program = context.to_program();
        assert_eq!(program.local_count, locals + asked.len());
        let answers = asked.into_iter().enumerate();
        let public =
            answers.filter_map(|(i, key)| program.local_values.get(&(locals + i)).map(|&c| (key, c as u64))).collect();
        assert!(printed.is_none_or(|printed| printed == public), "the probe misses a public name");
        public
    }

    /// The same as the context prints it: slower, and bound to the form of `Debug`, so that it only
    /// confirms the probe in tests.
    fn printed_public(&self, context: &CompilerContext) -> BTreeMap<(u64, u64), u64> {
        let text = format!("{context:?}");
        let mut public = BTreeMap::new();
        for book in text.split("AssemblyState {").skip(1) {
            let after = |label: &str| book.split_once(label).expect("a field of AssemblyState").1;
            let index = after("index: ").split(',').next().and_then(|digits| digits.parse().ok()).expect("a number");
            let list = after("public_indices: {").split('}').next().expect("split gives one");
            for pair in list.split(", ").filter(|pair| !pair.is_empty()) {
                let (name, constant) = pair.split_once(": ").expect("a name and a constant");
                public.insert((index, self.texts.number(name.trim_matches('"'))), constant.parse().expect("a number"));
            }
        }
        public
    }

    /// Names of context locals are kept nowhere, so they are asked for: every book is compiled again
    /// with a function at its end that reads each name; it is named as the book's first local, and so
    /// defines none itself.
    fn context_names(&self, planned: &Planned, count: usize) -> Vec<(u64, u64)> {
        let mut found = vec![(0, 0); count];
        let mut context = CompilerContext::new();
        for (book, file) in planned.order.iter().enumerate() {
            let (at, document) = &planned.documents[file];
            let names = self.names_in(*at);
            let before = context.to_program().local_count;
            let probe = probe_function(&names, self.texts);
            let mut document = document.clone();
            // A name that the book has: its first definition with a name, if there is any.
            let Some(name) = document.definitions.iter().find_map(first_name) else {
                compile_document(&document, &mut context).expect("it had no errors before");
                continue;
            };
            document.definitions.push(Definition::Function(FunctionDefinition { name, ..probe }));
            compile_document(&document, &mut context).expect("it had no errors before");
            let program = context.to_program();
            let reads = &program.functions.last().expect("just added").instructions;
            let gets = reads.iter().filter(|i| i.opcode() != OpCode::Pop && i.opcode() != OpCode::Return);
            for (instruction, &name) in gets.zip(&names) {
                if instruction.opcode() == OpCode::ContextGet {
                    let local = instruction.operand() as usize;
                    assert!((before..program.local_count).contains(&local));
                    assert_eq!(found[local], (0, 0), "two names have one local");
                    found[local] = (book as u64, name);
                }
            }
        }
        assert!(found.iter().all(|&(_, name)| name != 0), "a context local has no name");
        found
    }
}

fn is_nan(value: &TokenValue) -> bool {
    matches!(value, TokenValue::Float(value) if value.is_nan())
}

fn identifier(name: String) -> Token {
    Token::new(TokenValue::Identifier(name), Position::none())
}

/// `names` read one after another.
fn probe_function(names: &[u64], texts: Texts) -> FunctionDefinition {
    let read = |&name: &u64| {
        Statement::Expression(Expression::Identifier(IdentifierExpression { token: identifier(texts.string(name)) }))
    };
    FunctionDefinition {
        name: identifier(String::new()),
        parameters: Vec::new(),
        body: names.iter().map(read).collect(),
    }
}

/// The first name that a definition gives to its book.
fn first_name(definition: &Definition) -> Option<Token> {
    match definition {
        Definition::Local(local) => local.variables.first().cloned(),
        Definition::Include(include) => include.aliases.first().cloned(),
        Definition::Model(model) | Definition::PublicModel(model) => Some(model.name.clone()),
        Definition::Function(function) | Definition::PublicFunction(function) => Some(function.name.clone()),
        Definition::Implement(_) | Definition::Apply(_) => None,
    }
}
