//! Programs that stand: bundles laid onto them, what a refusal leaves, programs saved and loaded, and the call over the caller's
//! own memory.
#![cfg(feature = "link")]

mod shared;

use clover_back_end::records::Records;
use clover_back_end::{calls, compile, errors_in_words};
use clover_back_end::{Area, Areas, ErrorKind, LoadError, Mode, Position, Program, Refusal, Reply, StandingProgram};
use clover_back_end::{ShapeFault, Text, Texts, Totals, AREAS};
use shared::*;

// Deliveries.

#[test]
fn onto_the_least_program_as_by_itself() {
    let own = [bundle(&[(BEAMS, beams)]), bundle(&[(ROOFS, roofs), (BEAMS, beams)]), bundle(&[(BEAMS, empty)])];
    for tree in own.into_iter().chain(examples()) {
        let fresh = StandingProgram::compiled(&tree, Mode::Present).expect("delivered");
        let mut least = StandingProgram::least();
        least.lay_on(&tree, Mode::Present).expect("delivered");
        assert_eq!((fresh.totals().bundles, least.to_words()), (1, counting(2, &fresh)));
    }
    let least = StandingProgram::least();
    assert_eq!((least.program().constants().len(), least.totals().bundles), (3, 1));
}

/// The second bundle needs no copy of the book that stands; one bundle of both compiles them in this order.
#[test]
fn one_after_the_other_as_all_at_once() {
    let both = standing(&[(ROOFS, roofs), (BEAMS, beams)]);
    let grown = laid(standing(&[(BEAMS, beams)]), &[(ROOFS, roofs)]);
    assert_eq!(grown.to_words(), counting(2, &both));
    assert!(grown.program().books().eq([BEAMS, ROOFS]));
    // And from nothing, each by itself.
    let grown = laid(laid(StandingProgram::least(), &[(BEAMS, beams)]), &[(ROOFS, roofs)]);
    assert_eq!(grown.to_words(), counting(3, &both));
}

/// Of what stands a delivery may set marks, give a method another function, and name another entry point.
#[test]
fn a_delivery_leaves_what_stood() {
    let stood = standing(&[(BEAMS, beams)]);
    let grown = laid(stood.clone(), &[(ROOFS, roofs)]);
    let (old, new) = (stood.program(), grown.program());
    let functions = stood.totals().functions;
    let text = old.constants().position(|constant| constant.value() == LOAD.number()).expect("the text");
    for &area in Area::ALL {
        let mut words = old.words(area).to_vec();
        match area {
            Area::Constants => words[3 * text + 2] = 1,
            // The new function of the method's key, which comes first of the bundle.
            Area::Methods => words[2] = functions,
            _ => {}
        }
        assert_eq!(new.words(area)[..words.len()], words, "{area}");
    }
    assert_eq!((old.totals().global_dependencies, new.totals().global_dependencies), (0, 1));
    assert_eq!(new.totals().entry_point, functions + 2);
    let methods: Vec<_> = new.model(0).expect("a model").methods().collect();
    assert_eq!(methods.iter().map(|method| method.name).collect::<Vec<_>>(), [BENDS, BREAKS]);
    assert_eq!(new.entry_point().expect("main").name(), Text::MAIN);
    // Without a `main` the entry point stays.
    let grown = laid(grown, &[(Text::from_number(5), beams)]);
    assert_eq!(grown.totals().entry_point, functions + 2);
}

#[test]
fn books_that_stand_are_passed_over() {
    let stood = standing(&[(BEAMS, beams)]);
    // A copy that says something else, with an include that is nowhere; a root that stands.
    let copy: Book = |book| {
        book.public_model(ABSENT, |_| {});
        book.include(ABSENT, |_| {});
    };
    assert_eq!(laid(stood.clone(), &[(BEAMS, copy)]).to_words(), counting(2, &stood));
    let with_copy = laid(stood.clone(), &[(ROOFS, roofs), (BEAMS, copy)]);
    assert_eq!(with_copy.to_words(), laid(stood.clone(), &[(ROOFS, roofs)]).to_words());
    // Two books that include each other, where one stands.
    let back: Book = |book| book.include(BEAMS, |_| {});
    let ring: Book = |book| book.include(ROOFS, |_| {});
    let grown = laid(stood, &[(ROOFS, back), (BEAMS, ring)]);
    assert_eq!(grown.program().books().len(), 2);
    // A name of a standing book that is not public is no name of the bundle's.
    let reads: Book = |book| {
        book.include(BEAMS, |_| {});
        book.function(BENDS).body(|body| body.expression(|slot| slot.identifier(ABSENT)));
    };
    let grown = laid(standing(&[(BEAMS, beams)]), &[(ROOFS, reads)]);
    assert_eq!(grown.totals().global_dependencies, 1);
}

#[test]
fn many_bundles_grow_one_program() {
    let mut program = StandingProgram::least();
    for file in 100..160 {
        let mut tree = Records::new();
        tree.document(Text::from_number(file), |book| {
            if file > 100 {
                book.include(Text::from_number(file - 1), |names| names.name(SPAN, BENDS));
            }
            let all = |value: i64| (0..value).map(move |value| value * 1000 + file as i64);
            book.public_function(SPAN).body(|body| {
                all(20).for_each(|value| body.expression(|slot| slot.integer(value, NONE)));
                body.expression(|slot| slot.identifier(BENDS));
            });
        });
        program.lay_on(tree.words(), Mode::Strict).expect("delivered");
    }
    let read = program.program();
    assert_eq!((read.books().len(), read.functions().len(), read.public_names().len()), (60, 60, 60));
    let (memory, lengths) = program.memory();
    assert_eq!(clover_back_end::check_program(memory, lengths, program.totals()), Ok(()));
    assert_eq!(program.totals().bundles, 61);
    assert_eq!(StandingProgram::from_words(&program.to_words()).expect("saved").to_words(), program.to_words());
}

// Refusals.

/// Lays a bundle on that is refused, and sees to it that the program is as it stood.
fn refused(program: &mut StandingProgram, tree: &[u64], mode: Mode) -> Refusal {
    let (stood, totals) = (program.to_words(), program.totals());
    let refusal = program.lay_on(tree, mode).expect_err("refused");
    assert_eq!((program.to_words(), program.totals()), (stood, totals), "{refusal}");
    let (memory, lengths) = program.memory();
    assert_eq!(clover_back_end::check_program(memory, lengths, totals), Ok(()), "{refusal}");
    let slots = &memory[lengths.iter().sum()..];
    assert!(slots.iter().all(|&slot| slot == 0), "{refusal}");
    refusal
}

#[test]
fn a_refused_bundle_leaves_all_words() {
    let mut program = standing(&[(BEAMS, beams)]);
    let mut refuses = |tree: &[u64]| refused(&mut program, tree, Mode::Present);
    assert_eq!(refuses(&[1, 1, 0]), Refusal::BadLength);
    assert_eq!(refuses(&[]), Refusal::BadShape { record: 0, reason: Some(ShapeFault::NoRecords) });
    assert_eq!(refuses(&bundle(&[(ROOFS, roofs), (ROOFS, empty)])).row(), 5);
    let missing: Book = |book| {
        roofs(book);
        book.include(ABSENT, |_| {});
    };
    assert_eq!(refuses(&bundle(&[(ROOFS, missing)])), Refusal::BookMissing { file: ABSENT });
    // A method's function, a mark and an entry point are there when the error comes.
    let Refusal::BookFaulty { file, errors } = refuses(&bundle(&[(ROOFS, faulty)])) else { panic!("row 7") };
    assert_eq!((file, errors.len(), errors[0].kind), (ROOFS, 1, ErrorKind::ModelNotFound));
    let ring: Book = |book| book.include(Text::from_number(4), |_| {});
    let behind: Book = |book| {
        book.include(Text::from_number(4), |_| {});
        book.include(ROOFS, |_| {});
    };
    let tree = bundle(&[(Text::from_number(4), behind), (ROOFS, roofs)]);
    assert_eq!(refuses(&tree), Refusal::Ring { files: vec![Text::from_number(4)] });
    assert_eq!(refuses(&bundle(&[(Text::from_number(4), ring)])).row(), 8);
    // And the bundle that is right is delivered after them as it is without.
    let both = standing(&[(ROOFS, roofs), (BEAMS, beams)]);
    assert_eq!(laid(program, &[(ROOFS, roofs)]).to_words(), counting(2, &both));
}

#[test]
fn the_errors_of_a_refusal_are_listed() {
    let mut program = standing(&[(BEAMS, beams)]);
    refused(&mut program, &bundle(&[(ROOFS, faulty)]), Mode::Present);
    let lines = errors_in_words(program.words(Area::Errors), ROOFS, &Texts::new()).expect("known errors");
    assert_eq!(lines, "can not found model, 3, 9, 11, 16, 8\n");
    // Another refusal leaves none, and so does a delivery.
    refused(&mut program, &[1], Mode::Present);
    assert!(program.words(Area::Errors).iter().all(|&word| word == 0));
    refused(&mut program, &bundle(&[(ROOFS, faulty)]), Mode::Present);
    let program = laid(program, &[(ROOFS, roofs)]);
    assert!(program.words(Area::Errors).iter().all(|&word| word == 0));
}

/// Row 11 asks the names of a standing book, whatever a copy says, and of a book of the bundle.
#[test]
fn row_11_names_what_is_not_public() {
    let mut program = standing(&[(BEAMS, beams)]);
    let including: Book = |book| {
        book.include(BEAMS, |names| {
            names.name(SPAN, SPAN);
            names.name(LOAD, LOAD);
        });
    };
    let copy: Book = |book| {
        book.public_function(SPAN).body(|_| {});
        book.public_function(LOAD).body(|_| {});
    };
    for tree in [bundle(&[(ROOFS, including)]), bundle(&[(ROOFS, including), (BEAMS, copy)])] {
        let refusal = refused(&mut program, &tree, Mode::Strict);
        assert_eq!(refusal, Refusal::NameNotPublic { record: 1, name: Some(LOAD) });
    }
    let other: Book = |book| book.include(ABSENT, |names| names.name(BEAM, BEAM));
    let refusal = refused(&mut program, &bundle(&[(ROOFS, other), (ABSENT, copy)]), Mode::Strict);
    assert_eq!(refusal, Refusal::NameNotPublic { record: 1, name: Some(BEAM) });
    program.lay_on(&bundle(&[(ROOFS, including)]), Mode::Present).expect("the present mode delivers");
}

#[test]
fn a_full_area_is_grown_as_far_as_it_may() {
    // A loaded program has no room to spare.
    let saved = standing(&[(BEAMS, beams)]).to_words();
    let tree = bundle(&[(ROOFS, roofs)]);
    let both = counting(2, &standing(&[(ROOFS, roofs), (BEAMS, beams)]));
    let mut program = StandingProgram::from_words(&saved).expect("saved");
    let exact = program.memory().0.len();
    for most in [0, exact] {
        let refusal = program.lay_on_within(&tree, Mode::Present, most).expect_err("no room");
        assert_eq!(refusal, Refusal::AreaFull { area: Area::Books });
        assert_eq!((program.to_words(), program.memory().0.len()), (saved.clone(), exact));
    }
    // With every limit up to what suffices: refused by some area with all as it stood, or delivered.
    let mut full = Vec::new();
    for most in (exact..).step_by(50) {
        let mut program = StandingProgram::from_words(&saved).expect("saved");
        match program.lay_on_within(&tree, Mode::Present, most) {
            Ok(()) => {
                assert_eq!(program.to_words(), both);
                break;
            }
            Err(Refusal::AreaFull { area }) => {
                assert_eq!(program.to_words(), saved, "{area}");
                full.push(area);
            }
            Err(other) => panic!("{other}"),
        }
        assert!(program.memory().0.len() <= most.max(exact));
    }
    full.dedup();
    assert!(full.len() > 1, "{full:?}");
    program.lay_on(&tree, Mode::Present).expect("room");
    assert_eq!(program.to_words(), both);
}

// Saved and loaded.

/// The layout, fifteen totals, and then the entries.
#[test]
fn the_form_of_a_saved_program() {
    let least = StandingProgram::least().to_words();
    let head = [6, 0, 3, 0, 0, 0, 0, 0, 0, 0, 0, 0, 0, 0, 0, 1];
    assert_eq!(least, [&head[..], &[0, 0, 0, 1, 1, 0, 1, 0, 0]].concat());
    let program = standing(&[(BEAMS, beams)]);
    let words = program.to_words();
    assert_eq!((words[0], &words[1..16]), (calls::LAYOUT, &program.totals().words()[..]));
    let read = program.program();
    assert_eq!(words[16..], Area::ALL.iter().map(|&area| read.words(area)).collect::<Vec<_>>().concat());
}

#[test]
fn a_saved_program_comes_back() {
    for tree in examples() {
        let program = StandingProgram::compiled(&tree, Mode::Present).expect("delivered");
        let words = program.to_words();
        let loaded = StandingProgram::from_words(&words).expect("saved");
        assert_eq!((loaded.to_words(), loaded.totals()), (words, program.totals()));
        assert_eq!(format!("{:?}", loaded.program()), format!("{:?}", program.program()));
    }
}

#[test]
fn words_that_are_no_saved_program() {
    let saved = standing(&[(BEAMS, beams)]).to_words();
    let load = |words: &[u64]| StandingProgram::from_words(words).map(|_| ()).expect_err("no program");
    assert_eq!(load(&[]), LoadError::BadLength { words: 0, wanted: 16 });
    assert_eq!(load(&saved[..15]), LoadError::BadLength { words: 15, wanted: 16 });
    // As it was saved before the totals had the number of bundles.
    let before = [&[5], &saved[1..BUNDLES], &saved[BUNDLES + 1..]].concat();
    assert_eq!(load(&before), LoadError::OtherLayout { layout: 5 });
    let (words, wanted) = (saved.len(), saved.len() as u128);
    assert_eq!(load(&saved[..words - 1]), LoadError::BadLength { words: words - 1, wanted });
    assert_eq!(load(&[&saved[..], &[0]].concat()), LoadError::BadLength { words: words + 1, wanted });
    let with = |at: usize, word: u64| {
        let mut words = saved.clone();
        words[at] = word;
        load(&words)
    };
    // Totals that no memory has, and whose sum no word holds.
    for area in Area::ALL.iter().filter(|&&area| area != Area::Errors) {
        let at = area.number() as usize;
        let more = (u64::MAX - saved[at]) as u128 * area.entry_words() as u128;
        assert_eq!(with(at, u64::MAX), LoadError::BadLength { words, wanted: wanted + more }, "{area}");
    }
    assert_eq!(with(11, 1), LoadError::BadArea { area: Area::Errors });
    assert_eq!(with(13, 99), LoadError::BadArea { area: Area::Functions });
    assert_eq!(with(14, 1), LoadError::BadArea { area: Area::Constants });
    for bundles in [0, 4_294_967_295, 1 << 32, u64::MAX] {
        assert_eq!(with(BUNDLES, bundles), LoadError::BadArea { area: Area::Books }, "{bundles}");
    }
    let spelt = load(&saved[..words - 1]).to_string();
    assert_eq!(spelt, format!("no saved program: {} words in place of {words}", words - 1));
    assert_eq!(with(0, 5).to_string(), "no saved program: its layout is 5, and this crate is for 6");
    assert_eq!(with(13, 99).to_string(), "no saved program: area 3, functions, is no part of a program");
    // Areas 9 and 10 hold nothing between two calls.
    let mut scope = saved.clone();
    scope[9] = 1;
    let end = scope.len() - 1;
    scope.splice(end..end, [0, 0]);
    assert_eq!(load(&scope), LoadError::BadArea { area: Area::ScopeNames });
}

/// Each word of a saved program as one that nothing allows: all are refused but those that may be any.
#[test]
fn each_damaged_word_is_refused() {
    let program = standing(&[(ROOFS, roofs), (BEAMS, beams)]);
    let saved = program.to_words();
    let starts: Vec<usize> = Area::ALL
        .iter()
        .scan(16, |next, &area| {
            let start = *next;
            *next += program.program().words(area).len();
            Some(start)
        })
        .collect();
    let free = |at: usize| {
        let area = Area::ALL[starts.iter().rposition(|&start| start <= at).expect("behind the totals")];
        let (from, words) = (at - starts[area.number() as usize - 1], program.program().words(area));
        let entry = &words[from / area.entry_words() * area.entry_words()..];
        match (area, from % area.entry_words()) {
            // Parameters and locals.
            (Area::Functions, 0 | 1) => true,
            // The value of an integer or a float.
            (Area::Constants, 1) => entry[0] == 2 || entry[0] == 3,
            _ => false,
        }
    };
    for at in 0..saved.len() {
        let mut words = saved.clone();
        words[at] = u64::MAX;
        let loaded = StandingProgram::from_words(&words);
        assert_eq!(loaded.is_ok(), at >= 16 && free(at), "word {at}");
    }
}

/// The greatest number of bundles that stands leads to one that does not.
#[test]
fn the_number_of_bundles_has_an_end() {
    let stood = standing(&[(BEAMS, beams)]);
    let mut program = StandingProgram::from_words(&counting(4_294_967_294, &stood)).expect("the greatest");
    program.lay_on(&bundle(&[(ROOFS, roofs)]), Mode::Present).expect("delivered");
    assert_eq!(program.totals().bundles, 4_294_967_295);
    let words = program.to_words();
    let full = Refusal::BadProgram { area: Area::Books };
    assert_eq!(program.lay_on(&bundle(&[(ABSENT, empty)]), Mode::Present), Err(full.clone()));
    assert_eq!(program.trial(&bundle(&[(ABSENT, empty)]), Mode::Present), Err(full));
    assert_eq!(program.to_words(), words);
    let refused = StandingProgram::from_words(&words).map(|_| ()).expect_err("no call takes it");
    assert_eq!(refused, LoadError::BadArea { area: Area::Books });
}

/// A program that no bundle makes but that passes the check: it can be read and laid onto.
#[test]
fn an_odd_program_stands() {
    let counts = Totals { code: 2, constants: 5, functions: 2, context_locals: 1, books: 1, ..Totals::default() };
    let totals = Totals { bundles: 7, ..counts };
    // A `this` read without a local, and code in no function; an integer twice; a function without code that starts nowhere.
    let entries: [&[u64]; 5] = [
        &[7 << 56, 0, 6 << 56 | 99, 0],
        &[0, 0, 0, 1, 1, 0, 1, 0, 0, 2, 7, 0, 2, 7, 0],
        &[9, 0, 0, 0, u64::MAX, 0, 0, 5, 0, 0, 1, 1, 0, 1, 0, 6],
        &[0, 5, 0, 0],
        &[2],
    ];
    let words = [&[calls::LAYOUT][..], &totals.words(), &entries.concat()].concat();
    let mut program = StandingProgram::from_words(&words).expect("it passes the check");
    assert_eq!(program.to_words(), words);
    assert!(format!("{:?}", program.program()).contains("functions"));
    program.lay_on(&bundle(&[(ROOFS, beams)]), Mode::Strict).expect("delivered");
    assert_eq!((program.program().functions().len(), program.totals().bundles), (5, 8));
    let code: Vec<usize> = program.program().functions().map(|function| function.instructions().len()).collect();
    assert_eq!(code[..2], [0, 1]);
    // Of equal constants the first is shared.
    let local = program.program().context_locals().find(|local| local.name == ABSENT).expect("it is there");
    assert_eq!(local.constant, Some(3));
}

#[test]
fn only_a_delivery_stands() {
    let tree = bundle(&[(BEAMS, beams)]);
    assert!(Areas::for_tree(&tree).into_standing().is_none());
    let mut areas = Areas::for_tree(&tree);
    areas.compile(&tree).expect("delivered");
    assert!(areas.clone().into_standing().is_some());
    let mut lent = areas.clone();
    lent.lend();
    assert!(lent.into_standing().is_none());
    areas.compile(&[1]).expect_err("refused");
    assert!(areas.into_standing().is_none());
    let refusal = StandingProgram::compiled(&[1], Mode::Present).map(|_| ()).expect_err("refused");
    assert_eq!(refusal, Refusal::BadLength);
}

// The call over memory of the caller's own.

/// Lays on, and answers the reply and the words inside after it; those beside must stay.
fn called(tree: &[u64], mode: Mode, lengths: [usize; AREAS], totals: Totals, all: Vec<u64>) -> (Reply, Vec<u64>) {
    between(all, |memory| calls::lay_on(mode, tree, totals, lengths, memory).reply)
}

#[test]
fn a_call_in_memory_of_the_callers() {
    let (all, totals) = lent();
    let (reply, words) = called(&bundle(&[(ROOFS, roofs)]), Mode::Present, ROOM, totals, all.clone());
    let grown = standing(&[(ROOFS, roofs), (BEAMS, beams)]);
    assert_eq!(reply, Reply { number: 0, place: 0, totals: Totals { bundles: 2, ..grown.totals() } });
    let mut wanted = Vec::new();
    for (&area, length) in Area::ALL.iter().zip(ROOM) {
        wanted.extend(grown.program().words(area));
        wanted.resize(wanted.len() + length - grown.program().words(area).len(), 0);
    }
    wanted.resize(wanted.len() + SLOTS, 0);
    assert_eq!(words, wanted);
    // A root that stands: the program as it stood, no errors, no slots, and the total of area 11 is 0.
    let (reply, words) = called(&bundle(&[(BEAMS, empty)]), Mode::Strict, ROOM, totals, all.clone());
    assert_eq!(reply, Reply { number: 0, place: 0, totals: Totals { errors: 0, bundles: 2, ..totals } });
    assert_eq!(words, left(&all, &[]));
}

#[test]
fn a_call_that_is_refused() {
    let (all, totals) = lent();
    let refused = |tree: &[u64], mode| called(tree, mode, ROOM, totals, all.clone());
    let reply = |number, place| Reply { number, place, totals };
    assert_eq!(refused(&[1, 1], Mode::Present), (reply(2, 0), left(&all, &[])));
    let errors = [10, Position::new(9, 11).word(), 16, ABSENT.number()];
    assert_eq!(refused(&bundle(&[(ROOFS, faulty)]), Mode::Present), (reply(7, 3), left(&all, &errors)));
    let itself: Book = |book| book.include(ROOFS, |_| {});
    assert_eq!(refused(&bundle(&[(ROOFS, itself)]), Mode::Present), (reply(8, 1), left(&all, &[11, 0, 0, 3])));
    let private: Book = |book| book.include(BEAMS, |names| names.name(LOAD, LOAD));
    assert_eq!(refused(&bundle(&[(ROOFS, private)]), Mode::Strict), (reply(11, 1), left(&all, &[])));
    let mut short = ROOM;
    short[0] = 2 * totals.code as usize + 1;
    short[1] += ROOM[0] - short[0];
    let mut cut = all.clone();
    // Area 1 is an entry too short, and what it loses is area 2's: the constants move up.
    let (from, to) = (BESIDE + ROOM[0], BESIDE + short[0]);
    cut.copy_within(from..from + ROOM[1], to);
    cut[to + ROOM[1]..from + ROOM[1]].fill(0);
    let (found, words) = called(&bundle(&[(ROOFS, roofs)]), Mode::Present, short, totals, cut.clone());
    assert_eq!((found, words), (reply(9, 1), left(&cut, &[])));
}

/// Before everything else, and then every word stays: area 11 and the slots too.
#[test]
fn a_program_that_fails_the_check() {
    let (all, totals) = lent();
    let wrong = Totals { entry_point: 99, ..totals };
    for tree in [vec![1], bundle(&[(ROOFS, roofs)])] {
        let (reply, words) = called(&tree, Mode::Present, ROOM, wrong, all.clone());
        assert_eq!(reply, Reply { number: 3, place: 1_048_579, totals: wrong });
        assert_eq!(words, inside(&all));
    }
    // A word behind the functions.
    let mut dirty = all.clone();
    dirty[BESIDE + ROOM[..3].iter().sum::<usize>() - 1] = 1;
    let mut memory = inside(&dirty).to_vec();
    let answer = calls::lay_on(Mode::Present, &bundle(&[(ROOFS, roofs)]), totals, ROOM, &mut memory);
    let refusal = answer.program().map(|_| ()).expect_err("the check refuses");
    assert_eq!(refusal, Refusal::BadProgram { area: Area::Functions });
    assert_eq!(memory, inside(&dirty));
}

/// The views of a laid program are those of a fresh one.
#[test]
fn an_answer_can_be_read() {
    let (all, totals) = lent();
    let mut memory = inside(&all).to_vec();
    let tree = bundle(&[(ROOFS, roofs)]);
    let answer = calls::lay_on(Mode::Present, &tree, totals, ROOM, &mut memory);
    let program: Program<'_> = answer.program().expect("delivered");
    let mut areas = Areas::for_tree(&bundle(&[(ROOFS, roofs), (BEAMS, beams)]));
    let fresh = compile(&bundle(&[(ROOFS, roofs), (BEAMS, beams)]), &mut areas).expect("delivered");
    assert_eq!(format!("{program:?}"), format!("{fresh:?}"));
}
