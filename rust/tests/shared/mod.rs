//! What the tests of standing programs share: books, programs of them, and a memory to lend.
#![allow(dead_code)] // each of them uses some

use clover_back_end::records::{Definitions, Records};
use clover_back_end::{columns_to_records, Area, Mode, Position, Reply, StandingProgram, Text, Totals, AREAS};
use std::path::Path;

pub const NONE: Position = Position::NONE;
/// Files.
pub const BEAMS: Text = Text::from_number(2);
pub const ROOFS: Text = Text::from_number(3);
pub const ABSENT: Text = Text::from_number(8);
/// Names.
pub const THIS: Text = Text::from_number(7);
pub const LOAD: Text = Text::from_number(9);
pub const BEAM: Text = Text::from_number(20);
pub const SPAN: Text = Text::from_number(21);
pub const BENDS: Text = Text::from_number(40);
pub const BREAKS: Text = Text::from_number(41);

/// What writes a book.
pub type Book = fn(&mut Definitions);

pub fn bundle(books: &[(Text, Book)]) -> Vec<u64> {
    let mut tree = Records::new();
    books.iter().for_each(|(file, inside)| tree.document(*file, inside));
    tree.into_words()
}

/// A public model with a method, a public function, a private one that says a text, and a name with a value.
pub fn beams(book: &mut Definitions) {
    book.public_model(BEAM, |model| model.property(SPAN));
    book.implement(BEAM, |methods| methods.function(BENDS).this_parameter(THIS).body(|_| {}));
    book.public_function(SPAN).body(|body| body.expression(|slot| slot.float(1.35, Position::new(3, 5))));
    book.function(LOAD).body(|body| body.expression(|slot| slot.string(LOAD)));
    book.local(|local| local.integer(ABSENT, 7, NONE));
}

/// A method of the other book's model again and one more, and a `main` that reads a global by the name of the text above.
pub fn roofs(book: &mut Definitions) {
    book.include(BEAMS, |names| names.name(BEAM, BEAM));
    book.implement(BEAM, |methods| {
        methods.function(BENDS).body(|_| {});
        methods.function(BREAKS).this_parameter(THIS).body(|_| {});
    });
    book.function(Text::MAIN).body(|body| body.expression(|slot| slot.identifier(LOAD)));
}

/// The same and then a model that is nowhere: an error 10.
pub fn faulty(book: &mut Definitions) {
    roofs(book);
    book.implement(ABSENT.at(Position::new(9, 11)), |_| {});
}

pub fn empty(_: &mut Definitions) {}

pub fn standing(books: &[(Text, Book)]) -> StandingProgram {
    StandingProgram::compiled(&bundle(books), Mode::Present).expect("delivered")
}

pub fn laid(mut program: StandingProgram, books: &[(Text, Book)]) -> StandingProgram {
    program.lay_on(&bundle(books), Mode::Present).expect("delivered");
    program
}

pub fn examples() -> Vec<Vec<u64>> {
    let folder = Path::new(env!("CARGO_MANIFEST_DIR")).join("../examples");
    let names = ["snow", "drift", "combination", "utilisation", "limit_state", "misspelt"];
    let read = |name| std::fs::read(folder.join(format!("{name}.col"))).expect("an example");
    names.map(|name| columns_to_records(&read(name)).expect("a column file")).to_vec()
}

/// Where a saved program has its number of bundles.
pub const BUNDLES: usize = Totals::WORDS;

/// A program saved, but with this number of bundles.
pub fn counting(bundles: u64, program: &StandingProgram) -> Vec<u64> {
    let mut words = program.to_words();
    words[BUNDLES] = bundles;
    words
}

// Memory of the caller's own.

pub const STALE: u64 = 0xA5A5;
pub const BESIDE: usize = 8;
pub const SLOTS: usize = 30;
/// Words of each area; every one has a tail shorter than an entry.
pub const ROOM: [usize; AREAS] = [101, 100, 121, 51, 51, 50, 102, 50, 51, 50, 51, 50];

/// The program of `beams` in a memory of these lengths with stale words as area 11 and as slots, and words beside all; the totals,
/// with another of area 11.
pub fn lent() -> (Vec<u64>, Totals) {
    let program = standing(&[(BEAMS, beams)]);
    let mut all = vec![STALE; BESIDE];
    for (&area, length) in Area::ALL.iter().zip(ROOM) {
        let mut words = program.program().words(area).to_vec();
        words.resize(length, if area == Area::Errors { STALE } else { 0 });
        all.extend(words);
    }
    all.extend([STALE; SLOTS + BESIDE]);
    (all, Totals { errors: 5, ..program.totals() })
}

pub fn inside(all: &[u64]) -> &[u64] {
    &all[BESIDE..all.len() - BESIDE]
}

/// A call on the words inside: its reply, and these words after it; those beside must stay.
pub fn between(mut all: Vec<u64>, call: impl FnOnce(&mut [u64]) -> Reply) -> (Reply, Vec<u64>) {
    let end = all.len() - BESIDE;
    let reply = call(&mut all[BESIDE..end]);
    assert!(all[..BESIDE].iter().chain(&all[end..]).all(|&word| word == STALE));
    (reply, inside(&all).to_vec())
}

/// The words that a refusal leaves: all as lent, but these errors and zeros as area 11, and zeros as slots.
pub fn left(all: &[u64], errors: &[u64]) -> Vec<u64> {
    let mut words = inside(all).to_vec();
    let (start, end) = (ROOM[..10].iter().sum::<usize>(), ROOM.iter().sum::<usize>());
    words[start..start + ROOM[10]].fill(0);
    words[start..start + errors.len()].copy_from_slice(errors);
    words[end..].fill(0);
    words
}
