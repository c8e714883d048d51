//! The original back end with a context that is compiled on: the books of one bundle after those of another, as `compile_to`
//! does with loaded assemblies. Which books are skipped, missing, ready or left in a ring the Rust's own solver says, given the
//! files that are loaded. After an error the Rust keeps half a book, so its context is then made anew from what was delivered.

use crate::areas::{Answer, Delivery};
use crate::documents::{self, Positions, Texts};
use crate::merge::merge_floats;
use crate::real::{includes_alone, is_the_known_panic, quiet, Driven, Outcome, Planned};
use crate::records::{kind, records, Record};
use clover::backend::compiler::{compile_document, CompilerContext};
use clover::backend::dependency_solver::DependencySolver;
use clover::intermediate::ast::{Definition, Document};
use clover::intermediate::CompileErrorList;
use clover::runtime::program::{Model, Program};
use std::collections::{BTreeMap, BTreeSet, HashSet};

const BOOK_MISSING: u64 = 6;
const BOOK_FAULTY: u64 = 7;
const RING: u64 = 8;
const NAME_NOT_PUBLIC: u64 = 11;
const RING_ERROR: u64 = 11;

/// The books delivered so far, in the order in which they were compiled, and one context that was compiled on with each.
pub struct Grown {
    texts: Texts,
    this: u64,
    books: Vec<Vec<Record>>,
    live: CompilerContext,
}

/// What the Rust does with a bundle laid on, and the books that it would have compiled.
pub struct Laid {
    pub outcome: Outcome,
    books: Vec<Vec<Record>>,
    /// After row 7: what the Rust's context holds although it refused.
    pub kept: Option<Kept>,
}

/// What a context has more than before, and what it has changed of what stood.
#[derive(Clone, Copy, Debug, Default, PartialEq, Eq)]
pub struct Kept {
    pub files: usize,
    pub functions: usize,
    pub constants: usize,
    pub models: usize,
    pub locals: usize,
    pub globals: usize,
    pub methods_changed: bool,
    pub entry_point_changed: bool,
}

impl Kept {
    pub fn between(before: &Program, after: &Program) -> Kept {
        let files = |program: &Program| program.file_info.as_ref().expect("to_program gives it").filenames.len();
        let methods = |(old, new): (&Model, &Model)| old.functions != new.functions;
        Kept {
            files: files(after) - files(before),
            functions: after.functions.len() - before.functions.len(),
            constants: after.constants.len() - before.constants.len(),
            models: after.models.len() - before.models.len(),
            locals: after.local_count - before.local_count,
            globals: after.global_dependencies.len() - before.global_dependencies.len(),
            methods_changed: before.models.iter().zip(&after.models).any(methods),
            entry_point_changed: before.entry_point != after.entry_point,
        }
    }
}

/// Records of the documents of a list, one after the other.
fn documents_of(records: &[Record]) -> Vec<(usize, &[Record])> {
    let starts = std::iter::successors(Some(0), |&at: &usize| records.get(at).map(|r| at + r.span as usize));
    let whole = |at: usize| (at, &records[at..at + records[at].span as usize]);
    starts.take_while(|&at| at < records.len()).map(whole).collect()
}

/// What the Rust's solver says of a bundle: the books to compile, in 01's order, and those left.
struct Solved {
    order: Vec<u64>,
    left: Vec<u64>,
}

/// `compile_to`'s loading and ordering, or row 6's place.
fn solve(
    documents: &BTreeMap<u64, Document>,
    root: u64,
    texts: &Texts,
    loaded: &HashSet<String>,
) -> Result<Solved, u64> {
    let mut solver = DependencySolver::new();
    let mut missing = BTreeSet::new();
    let mut asked: BTreeSet<u64> = BTreeSet::new();
    solver.solve(&includes_alone(&documents[&root]), loaded);
    if !loaded.contains(&texts.string(root)) {
        asked.insert(root);
    }
    while let Some(name) = solver.get_unsolved_filename() {
        let file = texts.number(&name);
        asked.insert(file);
        if !documents.contains_key(&file) {
            missing.insert(file);
        }
        let empty = Document { definitions: Vec::new(), filename: name };
        solver.solve(&documents.get(&file).map_or(empty, includes_alone), loaded);
    }
    if let Some(&file) = missing.first() {
        return Err(file);
    }
    let mut order = Vec::new();
    while solver.get_next_no_dependency_filename().is_some() {
        // The Rust takes any ready book, 01 the smallest: a book is ready where a solver that has the rest still names it.
        let waits = |file: &u64| {
            let needs = includes_alone(&documents[file]).get_dependencies();
            needs.iter().any(|name| !loaded.contains(name) && asked.contains(&texts.number(name)))
        };
        let ready = asked.iter().copied().find(|file| !waits(file)).expect("the solver has a ready book");
        asked.remove(&ready);
        solver.set_loaded(&texts.string(ready));
        order.push(ready);
    }
    let mut left: Vec<u64> = solver.get_cycle_reference_list().iter().map(|name| texts.number(name)).collect();
    left.sort_unstable();
    assert_eq!(left, asked.into_iter().collect::<Vec<_>>(), "the solver keeps other books");
    Ok(Solved { order, left })
}

/// Names that a book gives out: those of its public models and functions.
fn public_names(document: &Document) -> BTreeSet<String> {
    let name = |definition: &Definition| match definition {
        Definition::PublicModel(model) => Some(model.name.value.to_string()),
        Definition::PublicFunction(function) => Some(function.name.value.to_string()),
        _ => None,
    };
    document.definitions.iter().filter_map(name).collect()
}

impl Grown {
    /// Nothing yet; `this` is the number of the 41s of every bundle to come.
    pub fn new(this: u64) -> Grown {
        Grown { texts: Texts::with_this(this), this, books: Vec::new(), live: CompilerContext::new() }
    }

    fn records(&self) -> Vec<Record> {
        self.books.concat()
    }

    /// Goes on from a delivery: its books are compiled onto the one context.
    pub fn grow(&mut self, laid: Laid) {
        let mut at = self.records().len();
        self.books.extend(laid.books.iter().cloned());
        let records = self.records();
        let driven = Driven { records: &records, texts: self.texts, positions: Positions::Tagged };
        let builder = driven.builder(Positions::Tagged);
        for book in laid.books {
            compile_document(&builder.document(at), &mut self.live).expect("it had no errors before");
            at += book.len();
        }
    }

    /// The program that the one context holds in the end.
    pub fn read(self) -> Delivery {
        let records = self.records();
        let driven = Driven { records: &records, texts: self.texts, positions: Positions::Tagged };
        let builder = driven.builder(Positions::Tagged);
        let mut planned = Planned { documents: BTreeMap::new(), order: Vec::new(), left: Vec::new() };
        for (at, book) in documents_of(&records) {
            planned.documents.insert(book[0].value, (at, builder.document(at)));
            planned.order.push(book[0].value);
        }
        match merge_floats(Answer::Delivered(driven.read(&planned, self.live))).0 {
            Answer::Delivered(delivery) => delivery,
            Answer::Refused { .. } => unreachable!("merging keeps a delivery"),
        }
    }

    /// One number of `this`, which is not `main`'s where it matters: else no strings tell the texts apart.
    fn is_expressible(&self, records: &[Record]) -> bool {
        let mut others = records.iter().filter(|r| r.kind == kind::THIS_PARAMETER && r.value != self.this);
        others.next().is_none() && self.texts.consistent(records)
    }

    /// A bundle that rows 2 to 5 have nothing against, laid onto the program.
    pub fn lay(&self, words: &[u64], strict: bool) -> Laid {
        let bundle = records(words);
        // Every book that the Rust is given, standing ones first, in one list, so that a record has one number.
        let all: Vec<Record> = self.books.iter().flatten().chain(&bundle).copied().collect();
        let from = all.len() - bundle.len();
        let texts = self.texts;
        if !self.is_expressible(&all) {
            return Laid { outcome: Outcome::Inexpressible, books: Vec::new(), kept: None };
        }
        let all_fit = all.iter().all(|record| documents::fits(record.position));
        let positions = if all_fit { Positions::Given } else { Positions::Tagged };
        let laying = Laying { driven: Driven { records: &all, texts, positions }, grown: self, from, strict };
        match quiet(|| laying.laid(&bundle)) {
            Ok(laid) => laid,
            Err(message) if is_the_known_panic(&message) => {
                Laid { outcome: Outcome::Panicked, books: Vec::new(), kept: None }
            }
            Err(message) => Laid { outcome: Outcome::Unforeseen(message), books: Vec::new(), kept: None },
        }
    }
}

struct Laying<'a> {
    driven: Driven<'a>,
    grown: &'a Grown,
    /// Where the bundle's records begin.
    from: usize,
    strict: bool,
}

impl Laying<'_> {
    /// The books that stand, and the bundle's own that do not, as the Rust holds them, with their records' places.
    fn planned(&self, positions: Positions, bundle: &[Record], order: &[u64], left: Vec<u64>) -> Planned {
        let builder = self.driven.builder(positions);
        let mut planned = Planned { documents: BTreeMap::new(), order: Vec::new(), left };
        let mut at = 0;
        for book in &self.grown.books {
            planned.documents.insert(book[0].value, (at, builder.document(at)));
            planned.order.push(book[0].value);
            at += book.len();
        }
        for (at, book) in documents_of(bundle) {
            if order.contains(&book[0].value) {
                planned.documents.insert(book[0].value, (self.from + at, builder.document(self.from + at)));
            }
        }
        planned.order.extend(order);
        planned
    }

    /// A context with the books that stand, and those of the bundle compiled on, up to the first with errors.
    fn compiled(&self, planned: &Planned) -> (CompilerContext, Option<(usize, CompileErrorList)>) {
        let mut context = CompilerContext::new();
        for (index, file) in planned.order.iter().enumerate() {
            if let Err(errors) = compile_document(&planned.documents[file].1, &mut context) {
                return (context, Some((index, errors)));
            }
        }
        (context, None)
    }

    /// Row 11, which the Rust does not have: for each book to compile the first include with a name that its file does not
    /// give out, by the documents alone.
    fn not_public(&self, planned: &Planned, file: u64) -> Option<u64> {
        let (at, _) = planned.documents[&file];
        let mut next = at + 1;
        for definition in &planned.documents[&file].1.definitions {
            if let Definition::Include(include) = definition {
                let source = self.driven.texts.number(&include.filename.value.to_string());
                let public = planned.documents.get(&source).map(|book| public_names(&book.1)).unwrap_or_default();
                let is_public = |name: &clover::intermediate::Token| public.contains(&name.value.to_string());
                if !include.public_names.iter().all(is_public) {
                    return Some((next - self.from) as u64);
                }
            }
            next += self.driven.records[next].span as usize;
        }
        None
    }

    fn laid(&self, bundle: &[Record]) -> Laid {
        let refused = |row, place, errors| Laid {
            outcome: Outcome::Answer(Answer::Refused { row, place, errors }),
            books: Vec::new(),
            kept: None,
        };
        let builder = self.driven.builder(self.driven.positions);
        let places = documents_of(bundle);
        let documents = places.iter().map(|(at, book)| (book[0].value, builder.document(self.from + at))).collect();
        let loaded = self.grown.books.iter().map(|book| self.driven.texts.string(book[0].value)).collect();
        let solved = match solve(&documents, bundle[0].value, &self.driven.texts, &loaded) {
            Ok(solved) => solved,
            Err(file) => return refused(BOOK_MISSING, file, Vec::new()),
        };
        let stood = self.grown.books.len();
        let planned = self.planned(self.driven.positions, bundle, &solved.order, solved.left);
        let (context, failed) = self.compiled(&planned);
        if self.strict {
            let reached = failed.as_ref().map_or(planned.order.len(), |(index, _)| index + 1);
            let added = &planned.order[stood..reached];
            if let Some(at) = added.iter().find_map(|&file| self.not_public(&planned, file)) {
                return refused(NAME_NOT_PUBLIC, at, Vec::new());
            }
        }
        if let Some((index, errors)) = failed {
            assert!(index >= stood, "a book that was delivered has errors");
            let tagged = self.planned(Positions::Tagged, bundle, &solved.order, Vec::new());
            let tagged = self.compiled(&tagged).1.expect("it had errors before").1;
            let errors = self.driven.numbered(&errors, &tagged);
            let laid = refused(BOOK_FAULTY, planned.order[index], errors);
            return Laid { kept: Some(self.kept(&planned, index, context)), ..laid };
        }
        if !planned.left.is_empty() {
            let errors = planned.left.iter().map(|&file| [RING_ERROR, 0, 0, file]).collect();
            return refused(RING, planned.left.len() as u64, errors);
        }
        let delivery = self.driven.read(&planned, context);
        let (answer, _) = merge_floats(Answer::Delivered(delivery));
        let of = |file: &u64| places.iter().find(|place| place.1[0].value == *file).expect("it is there").1.to_vec();
        Laid { outcome: Outcome::Answer(answer), books: planned.order[stood..].iter().map(of).collect(), kept: None }
    }

    /// What the Rust's context holds after an error that it did not hold before the bundle.
    fn kept(&self, planned: &Planned, failed: usize, context: CompilerContext) -> Kept {
        let mut before = CompilerContext::new();
        for file in &planned.order[..self.grown.books.len()] {
            compile_document(&planned.documents[file].1, &mut before).expect("it had no errors before");
        }
        let kept = Kept::between(&before.to_program(), &context.to_program());
        assert_eq!(kept.files, failed + 1 - self.grown.books.len(), "the Rust keeps the file of a book with errors");
        kept
    }
}
