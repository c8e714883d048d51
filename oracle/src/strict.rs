//! What row 11 must be (02, 2026-07), a second time beside the model's strict mode: from the order of the
//! books and the names of their 13s and 15s alone. Where row 9 comes first is foretold from a present-mode
//! run of a bundle that ends at the include. Above each rule stands the sentence that it comes from.

use crate::areas::{Counts, AREAS};
use crate::books::Books;
use crate::model::Run;
use crate::records::{flatten, kind, trees, Node};
use std::collections::{BTreeMap, BTreeSet};

const BOOK_FAULTY: u64 = 7;
const RING: u64 = 8;
const AREA_FULL: u64 = 9;
const NAME_NOT_PUBLIC: u64 = 11;

/// Public names by file number.
pub type Names = BTreeMap<u64, BTreeSet<u64>>;

/// An include that lists a name which is not public in its file.
#[derive(Clone, Copy, Debug, PartialEq, Eq)]
pub struct Found {
    /// File number of the book that has it.
    pub book: u64,
    /// "the include's record index".
    pub place: u64,
}

/// 01: "13 public model, .. 15 public function (name)"; a name that is public anywhere in a book is public when the book
/// is finished.
fn public_names(document: &Node) -> BTreeSet<u64> {
    let public = |d: &&Node| matches!(d.kind, kind::PUBLIC_MODEL | kind::PUBLIC_FUNCTION);
    document.children.iter().filter(public).map(|d| d.value).collect()
}

/// "an include gives values only if every name it lists is public in that file": the public name of each pair, whatever
/// its alias is; an include that lists none lacks none.
fn all_public(include: &Node, known: &Names) -> bool {
    let mut names = include.children.iter().step_by(2).map(|name| name.value);
    names.all(|name| known.get(&include.value).is_some_and(|names| names.contains(&name)))
}

/// "11 "name not public", the include's record index, as that include is reached": the first include, through the books
/// in the order of their compiling and through each book from its beginning, that lists a name which is not public. The
/// words are a bundle that rows 2 to 6 have nothing against; `standing` are the public names of standing books, by
/// file number.
pub fn not_public(words: &[u64], order: &[u64], standing: &Names) -> Option<Found> {
    let documents = trees(words).expect("a bundle within the tree rules");
    let mut known = standing.clone();
    for &book in order {
        let (mut at, document) = placed(&documents, book);
        at += 1;
        for definition in &document.children {
            if definition.kind == kind::INCLUDE && !all_public(definition, &known) {
                return Some(Found { book, place: at });
            }
            at += definition.size() as u64;
        }
        known.insert(book, public_names(document));
    }
    None
}

/// The document of a file number, with its record index.
fn placed(documents: &[Node], file: u64) -> (u64, &Node) {
    let which = documents.iter().position(|d| d.value == file).expect("the book is in the bundle");
    let before: usize = documents[..which].iter().map(Node::size).sum();
    (before as u64, &documents[which])
}

/// A bundle that needs the same books in the same order and, in present mode, takes the same steps up to that include
/// and none after it, but for the errors of a ring. What would be compiled from the include on is left out; the includes
/// that make books needed stay, without names.
pub fn cut(words: &[u64], books: &Books, order: &[u64], found: Found) -> Vec<u64> {
    let mut documents = trees(words).expect("a bundle within the tree rules");
    let turn = |book: u64| order.iter().position(|&file| file == book).unwrap_or(order.len());
    let mut at = 0;
    for document in &mut documents {
        let file = document.value;
        at += 1;
        let Some(book) = books.get(&file) else {
            at += document.size() as u64 - 1;
            continue;
        };
        let mut kept = Vec::new();
        for definition in &document.children {
            let before = turn(file) < turn(found.book) || file == found.book && at < found.place;
            if before {
                kept.push(definition.clone());
            } else if definition.kind == kind::INCLUDE && book.needs.contains(&definition.value) {
                kept.push(Node::leaf(kind::INCLUDE, 0, definition.value));
            }
            at += definition.size() as u64;
        }
        document.children = kept;
    }
    flatten(&documents)
}

/// Row 9 ahead of the include: its place, from the run without limits of the bundle that is cut there.
pub fn full_before(cut: &Run, capacities: &Counts) -> Option<u64> {
    let ring = if cut.reply.row == RING { cut.reply.place } else { 0 };
    let end = cut.steps - ring;
    let beyond = |i: usize| cut.reached[i].get(capacities[i] as usize).map(|&step| (step, i as u64 + 1));
    (0..AREAS).filter_map(beyond).filter(|&(step, _)| step < end).min().map(|(_, number)| number)
}

/// Row and place of strict mode for a bundle that rows 2 to 6 have nothing against. `unlimited` is what present mode
/// answers without limits, `limited` what it answers with these lengths, `full` row 9 ahead of the include.
pub fn foretold(
    unlimited: (u64, u64),
    limited: (u64, u64),
    order: &[u64],
    found: Option<Found>,
    full: Option<u64>,
) -> (u64, u64) {
    let turn = |book: u64| order.iter().position(|&file| file == book);
    match found {
        // "Strict programs equal the present ones whenever both are delivered", and nothing else differs either.
        None => limited,
        // Row 7 of an earlier book ends the work there.
        Some(found) if unlimited.0 == BOOK_FAULTY && turn(unlimited.1) < turn(found.book) => limited,
        // "as that include is reached; at this point it comes before row 7 for the same book".
        Some(found) => match full {
            Some(area) => (AREA_FULL, area),
            None => (NAME_NOT_PUBLIC, found.place),
        },
    }
}

#[cfg(test)]
mod tests {
    use super::*;
    use crate::areas::{area, capacities, Areas, Lengths, ENTRY_WORDS, UNLIMITED};
    use crate::books::{needed, order};
    use crate::generate::{case, Sizes};
    use crate::model::{compile, compile_by, first_beyond, Rules};
    use crate::pieces::{document, function, include, named};
    use crate::random::Random;
    use crate::shape::check;

    const STRICT: Rules = Rules { strict: true };

    /// Row and place that strict mode must answer with these lengths.
    fn expected(words: &[u64], lengths: &Lengths) -> (u64, u64) {
        let row = |run: &Run| (run.reply.row, run.reply.place);
        let (free, tight) = (compile(words, &UNLIMITED), compile(words, lengths));
        if (2..=6).contains(&free.reply.row) {
            return row(&free);
        }
        let records = check(words).expect("rows 2 to 4");
        let books = needed(&records).expect("rows 5 and 6");
        let (order, _) = order(&books);
        let found = not_public(words, &order, &Names::new());
        let full = found.and_then(|found| {
            let cut = compile(&cut(words, &books, &order, found), &UNLIMITED);
            full_before(&cut, &capacities(lengths))
        });
        foretold(row(&free), row(&tight), &order, found, full)
    }

    /// Strict mode of the model on these books must answer this, and the second computation too.
    fn answers(books: &[Node], lengths: &Lengths, row: u64, place: u64) {
        let words = flatten(books);
        assert_eq!(expected(&words, lengths), (row, place));
        let run = compile_by(STRICT, &words, lengths);
        assert_eq!((run.reply.row, run.reply.place), (row, place));
        if row == NAME_NOT_PUBLIC {
            // 01: "after any other refusal every area is zero"; "every total 0".
            assert_eq!(run.areas, Areas::default());
            assert_eq!(run.reply.words()[2..], [0; 15]);
        }
    }

    fn model(name: u64) -> Node {
        named(kind::MODEL, name, Vec::new())
    }

    fn publics(name: u64) -> Node {
        named(kind::PUBLIC_FUNCTION, name, Vec::new())
    }

    #[test]
    fn reading_2_every_name_it_lists() {
        // The alias is there already.
        let books = [document(2, vec![include(5, &[]), model(4), include(5, &[(6, 4)])]), document(5, vec![])];
        answers(&books, &UNLIMITED, 11, 3);
        // A name listed twice, and one of two that is not public.
        let root = |names: &[(u64, u64)]| [document(2, vec![include(5, names)]), document(5, vec![publics(6)])];
        answers(&root(&[(6, 4), (6, 7)]), &UNLIMITED, 0, 0);
        answers(&root(&[(6, 4), (7, 7)]), &UNLIMITED, 11, 1);
        answers(&root(&[(7, 4), (6, 7)]), &UNLIMITED, 11, 1);
    }

    #[test]
    fn reading_3_no_names() {
        answers(&[document(2, vec![include(3, &[])]), document(3, vec![])], &UNLIMITED, 0, 0);
    }

    #[test]
    fn reading_4_before_its_aliases() {
        let books =
            [document(2, vec![include(5, &[]), model(8), include(5, &[(6, 7)])]), document(5, vec![publics(9)])];
        let with = |entries: usize| {
            let mut lengths = UNLIMITED;
            lengths[area::CONTEXT - 1] = entries * ENTRY_WORDS[area::CONTEXT - 1];
            lengths
        };
        answers(&books, &with(2), 11, 3);
        answers(&books, &with(1), 9, 7);
    }

    #[test]
    fn reading_5_before_row_7_of_the_same_book() {
        let faulty = || named(kind::IMPLEMENT, 77, vec![]);
        let books = [document(2, vec![include(5, &[]), faulty(), include(5, &[(6, 7)])]), document(5, vec![])];
        answers(&books, &UNLIMITED, 11, 3);
        // Not before row 9 of an earlier step of the book, nor before row 7 of an earlier book.
        let mut lengths = UNLIMITED;
        lengths[area::ERRORS - 1] = 0;
        answers(&books, &lengths, 9, 11);
        answers(&[document(2, vec![include(5, &[(6, 7)])]), document(5, vec![faulty()])], &UNLIMITED, 7, 5);
        // An error behind the include.
        let behind = [document(2, vec![include(5, &[(6, 7)]), faulty()]), document(5, vec![])];
        answers(&behind, &UNLIMITED, 11, 1);
    }

    #[test]
    fn readings_6_and_7_public_in_that_file() {
        // A private name.
        let private = document(5, vec![function(3, &[], vec![])]);
        answers(&[document(2, vec![include(5, &[(3, 4)])]), private], &UNLIMITED, 11, 1);
        // Public models and functions, private and public of one name.
        let both = || document(5, vec![function(3, &[], vec![]), named(kind::PUBLIC_MODEL, 3, vec![]), publics(7)]);
        answers(&[document(2, vec![include(5, &[(3, 4), (7, 8)])]), both()], &UNLIMITED, 0, 0);
        // The record index is that of the bundle: the second document's second record.
        let books = [
            document(9, vec![include(2, &[])]),
            document(2, vec![include(5, &[(6, 4)])]),
            document(5, vec![publics(7)]),
        ];
        answers(&books, &UNLIMITED, 11, 3);
        // A public name of another book is not one of that file.
        let books = [
            document(9, vec![include(2, &[]), include(5, &[(3, 4)])]),
            document(2, vec![publics(3)]),
            document(5, vec![]),
        ];
        answers(&books, &UNLIMITED, 11, 2);
    }

    #[test]
    fn reading_8_absent_books_and_rings() {
        answers(&[document(2, vec![include(5, &[(6, 4)])])], &UNLIMITED, 6, 5);
        answers(&[document(2, vec![include(2, &[(6, 4)])])], &UNLIMITED, 8, 1);
        // A ready book with such an include comes before the ring.
        let books = [
            document(2, vec![include(3, &[]), include(2, &[])]),
            document(3, vec![include(4, &[(6, 7)])]),
            document(4, vec![]),
        ];
        answers(&books, &UNLIMITED, 11, 4);
    }

    #[test]
    fn standing_names_are_asked_too() {
        let words = flatten(&[document(2, vec![include(5, &[(6, 4)])])]);
        let standing = |names: &[u64]| Names::from([(5, names.iter().copied().collect())]);
        assert_eq!(not_public(&words, &[2], &standing(&[6])), None);
        assert_eq!(not_public(&words, &[2], &standing(&[7])), Some(Found { book: 2, place: 1 }));
    }

    /// Generated bundles in both modes, with each area exactly full, each one entry short in turn, and all empty.
    #[test]
    fn strict_mode_is_foretold() {
        let (mut rows, mut early, mut tried) = ([0u64; 12], 0, 0);
        for index in 0..2500 {
            let words = case(31, index, Sizes::Mixed).words;
            let mut free = UNLIMITED;
            free[0] = 200_000;
            let present = compile(&words, &free);
            if present.reply.row == AREA_FULL {
                continue;
            }
            let mut random = Random::new(index);
            let peaks = present.peaks();
            let exact: Lengths = std::array::from_fn(|i| peaks[i] as usize * ENTRY_WORDS[i]);
            let mut all = vec![UNLIMITED, exact, [0; AREAS]];
            for _ in 0..3 {
                let i = random.index(AREAS);
                let mut short = exact;
                short[i] = random.index(peaks[i] as usize + 1) * ENTRY_WORDS[i];
                all.push(short);
            }
            for lengths in all {
                let strict = compile_by(STRICT, &words, &lengths);
                let must = expected(&words, &lengths);
                assert_eq!((strict.reply.row, strict.reply.place), must, "case {index}, lengths {lengths:?}");
                tried += 1;
                rows[must.0 as usize] += 1;
                let limited = compile(&words, &lengths);
                match must.0 {
                    NAME_NOT_PUBLIC => assert_eq!(strict.areas, Areas::default()),
                    // Reading 11: any other answer is the present mode's, word for word.
                    AREA_FULL => {
                        assert_eq!(limited.reply, strict.reply);
                        early += u64::from(expected(&words, &UNLIMITED).0 == NAME_NOT_PUBLIC);
                    }
                    _ => assert_eq!((limited.reply, &limited.areas), (strict.reply, &strict.areas)),
                }
                if limited.reply.row == AREA_FULL && must.0 != AREA_FULL {
                    assert_eq!(must.0, NAME_NOT_PUBLIC);
                    assert_eq!(Some(limited.reply.place), first_beyond(&present, &capacities(&lengths)));
                }
            }
        }
        assert!(tried > 5000 && early > 50, "{tried} {early}");
        for row in [0, 6, 7, 9, 11] {
            assert!(rows[row] > 50, "{rows:?}");
        }
        assert!(rows[8] > 5, "{rows:?}");
    }
}
