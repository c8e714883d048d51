//! Laying on, trial and commit (02, 2026-01 and 2026-08): the Rust's half book, the comparisons of the reading with the Rust
//! and with the other reading, and planted faults that these must see.

use clover::backend::compiler::{compile_document, compile_to, CompilerContext, Storage};
use clover::intermediate::CompileErrorList;
use oracle::documents::{Builder, Positions, Texts};
use oracle::onto::{Fault, Lent, Reading};
use oracle::onto_calls::{compare_calls, Standing};
use oracle::onto_grown::{compare_self, Look};
use oracle::onto_real::Kept;
use oracle::onto_small::compare_small;
use oracle::records::{flatten, kind, records, Node};
use oracle::standing_calls::Program;
use std::io::{Read, Write};

const RIGHT: Reading = Reading { fault: None };

// The Rust's half book (reading 2.12).

/// No files but those that a test compiles itself.
struct NoFiles;

impl Storage for NoFiles {
    fn load_file(&self, filename: &str) -> Result<String, CompileErrorList> {
        Err(CompileErrorList::new(filename))
    }

    fn get_reader(&self, filename: &str) -> Result<Box<dyn Read>, CompileErrorList> {
        Err(CompileErrorList::new(filename))
    }

    fn get_writer(&self, filename: &str) -> Result<Box<dyn Write>, CompileErrorList> {
        Err(CompileErrorList::new(filename))
    }
}

/// Book 2, which stands, is empty; book 3 has function 10 with an empty body and implements 11, which is nowhere.
fn half_book() -> [Node; 2] {
    let definitions = vec![Node::leaf(kind::FUNCTION, 0, 10), Node::leaf(kind::IMPLEMENT, 0, 11)];
    [Node::leaf(kind::DOCUMENT, 0, 2), Node::new(kind::DOCUMENT, 0, 3, definitions)]
}

/// What the Rust keeps of it: the file, the function, its constant and its context local.
const HALF: Kept = Kept {
    files: 1,
    functions: 1,
    constants: 1,
    models: 0,
    locals: 1,
    globals: 0,
    methods_changed: false,
    entry_point_changed: false,
};

#[test]
fn the_rust_keeps_half_a_book() {
    let list = records(&flatten(&half_book()));
    let builder = Builder { records: &list, texts: Texts::new(&list), positions: Positions::Given };
    let mut context = CompilerContext::new();
    compile_document(&builder.document(0), &mut context).expect("book 2 is delivered");
    let before = context.to_program();
    let errors = compile_document(&builder.document(1), &mut context).expect_err("book 3 is refused");
    assert_eq!(errors.errors.len(), 1);
    assert_eq!(errors.errors[0].message, "can not found model");
    assert_eq!(Kept::between(&before, &context.to_program()), HALF);
}

#[test]
fn the_papers_ask_for_nothing_of_it() {
    let [first, second] = half_book();
    let areas = Program::least().lent(&[80; 12]);
    let totals = Program::least().totals;
    let stands = RIGHT.lay_on(&flatten(&[first]), false, Lent { areas: &areas, totals: &totals });
    assert_eq!(stands.row, 0);
    let lent = Lent { areas: &stands.areas, totals: &stands.totals };
    let refused = RIGHT.lay_on(&flatten(&[second]), false, lent);
    assert_eq!((refused.row, refused.place, refused.totals), (7, 3, stands.totals));
    assert_eq!((&refused.areas[..10], &refused.areas[11]), (&stands.areas[..10], &stands.areas[11]));
    assert_eq!(refused.areas[10][..8], [10, 0, kind::IMPLEMENT, 11, 0, 0, 0, 0]);
}

#[test]
fn from_its_source_by_compile_to() {
    let mut context = CompilerContext::new();
    compile_to(&mut context, "", "two", &NoFiles).expect("an empty book");
    let before = context.to_program();
    let faulty = "function f()\nend\nimplement g\nend\n";
    let errors = compile_to(&mut context, faulty, "three", &NoFiles).expect_err("there is no model g");
    assert_eq!(errors.errors[0].message, "can not found model");
    let half = context.to_program();
    assert_eq!(Kept::between(&before, &half), HALF);
    assert_eq!(half.file_info.as_ref().expect("it is given").filenames, ["two", "three"]);
    // The book counts as loaded now: put right, it is passed over without an error, and nothing of it is compiled.
    let right = "model g\nend\nfunction f()\nend\nimplement g\nend\n";
    compile_to(&mut context, right, "three", &NoFiles).expect("no errors");
    assert_eq!(Kept::between(&half, &context.to_program()), Kept::default());
    // In a context without the half book it is delivered.
    let mut other = CompilerContext::new();
    compile_to(&mut other, right, "three", &NoFiles).expect("no errors");
    assert_eq!(other.to_program().models.len(), 1);
}

// The comparisons, and that they can fail.

#[test]
fn grown_programs_are_the_rusts() {
    let seen = compare_self(RIGHT, Look::AllLeft, 11, 600, false);
    assert_eq!(seen.first, None);
    assert!(seen.programs() > 1200, "{seen:?}");
    for row in [2, 3, 4, 5, 6, 7, 8, 9, 11, 12, 13] {
        assert!(seen.refused.get(&row).is_some_and(|&n| n > 0), "row {row}: {seen:?}");
        assert!(seen.refitted.get(&row).is_some_and(|&n| n > 0), "row {row}: {seen:?}");
    }
    assert!(seen.marked > 0 && seen.replaced > 0 && seen.half_books > 0, "{seen:?}");
}

#[test]
fn small_books_laid_after_each_other() {
    let seen = compare_small(RIGHT, Look::AllLeft, 2, None);
    assert_eq!(seen.first, None);
    // 241 books of up to two of the 15 definitions, in two modes, on each of those that are delivered.
    assert!(seen.sequences % (2 * 241) == 0 && seen.sequences > 10_000, "{seen:?}");
    assert!(seen.programs() > seen.sequences, "{seen:?}");
}

#[test]
fn both_readings_are_alike() {
    let seen = compare_calls(&mut Standing, 12, 400);
    assert_eq!(seen.first, None);
    assert!(seen.calls > 1500 && seen.delivered > 500, "{seen:?}");
}

/// Programs that books make have no two constants to share but by a fault, and the Rust has no slots, so that it says nothing of
/// these.
const NOT_THE_RUSTS: [Fault; 3] = [Fault::LastShared, Fault::SlotsLeft, Fault::SlotsCleared];

#[test]
fn planted_faults_are_seen_by_the_rust() {
    for fault in Fault::ALL.into_iter().filter(|fault| !NOT_THE_RUSTS.contains(fault)) {
        let seen = compare_self(Reading { fault: Some(fault) }, Look::AllLeft, 1, 1500, true);
        assert_eq!(seen.differences, 1, "{fault:?}");
    }
}

#[test]
fn planted_faults_are_seen_by_the_other_reading() {
    for fault in Fault::ALL {
        let seen = compare_calls(&mut Reading { fault: Some(fault) }, 1, 300);
        assert!(seen.differences > 0, "{fault:?}");
    }
}

#[test]
fn what_a_refusal_leaves_is_seen_at_the_next_bundle() {
    let left = [Fault::MarkLeft, Fault::MethodLeft, Fault::EntryPointLeft, Fault::TotalsZero, Fault::HalfBook];
    for fault in left {
        let seen = compare_self(Reading { fault: Some(fault) }, Look::NextBundle, 1, 1500, true);
        assert_eq!(seen.differences, 1, "{fault:?}");
    }
    assert_eq!(compare_self(RIGHT, Look::NextBundle, 1, 100, true).differences, 0);
}
