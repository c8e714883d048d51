//! Bundles on trial, and their commits: what is answered, what stays, and what a commit is refused for.
#![cfg(feature = "link")]

mod shared;

use clover_back_end::{calls, check_program, errors_in_words};
use clover_back_end::{Area, Mode, Refusal, Reply, StandingProgram, Text, Texts, Totals, TrialTotals, AREAS};
use shared::*;

const THIRD: Text = Text::from_number(4);

/// Bundles onto `beams`, delivered and refused.
fn bundles() -> Vec<(Vec<u64>, Mode)> {
    let missing: Book = |book| book.include(ABSENT, |_| {});
    let itself: Book = |book| {
        roofs(book);
        book.include(ROOFS, |_| {});
    };
    let private: Book = |book| {
        roofs(book);
        book.include(BEAMS, |names| names.name(LOAD, LOAD));
    };
    vec![
        (bundle(&[(ROOFS, roofs)]), Mode::Present),
        (bundle(&[(ROOFS, roofs)]), Mode::Strict),
        (bundle(&[(ROOFS, empty)]), Mode::Present),
        (bundle(&[(BEAMS, empty)]), Mode::Present),
        (bundle(&[(ROOFS, private)]), Mode::Present),
        (vec![1], Mode::Present),
        (bundle(&[(ROOFS, empty), (ROOFS, empty)]), Mode::Present),
        (bundle(&[(ROOFS, missing)]), Mode::Present),
        (bundle(&[(ROOFS, faulty)]), Mode::Present),
        (bundle(&[(ROOFS, itself)]), Mode::Present),
        (bundle(&[(ROOFS, private)]), Mode::Strict),
    ]
}

/// The program, and that a later call takes it.
fn stands(program: &StandingProgram) -> Vec<u64> {
    let (memory, lengths) = program.memory();
    assert_eq!(check_program(memory, lengths, program.totals()), Ok(()));
    assert!(memory[lengths.iter().sum()..].iter().all(|&slot| slot == 0));
    program.to_words()
}

// Programs that the crate keeps.

#[test]
fn a_trial_says_what_laying_on_does() {
    let mut rows = Vec::new();
    for (tree, mode) in bundles() {
        let mut program = standing(&[(BEAMS, beams)]);
        let mut laid = program.clone();
        let answered = laid.lay_on(&tree, mode);
        let before = stands(&program);
        let tried = program.trial(&tree, mode);
        assert_eq!(stands(&program), before);
        assert_eq!(program.words(Area::Errors), laid.words(Area::Errors));
        match (tried, answered) {
            (Ok(trial), Ok(())) => {
                assert_eq!(trial.totals(), Totals { bundles: 1, ..laid.totals() });
                assert_eq!((trial.bundles(), laid.totals().bundles), (1, 2));
                // And so is the commit.
                program.commit(&tree, mode, trial).expect("as the trial said");
                assert_eq!(stands(&program), stands(&laid));
                rows.push(0);
            }
            (Err(tried), Err(laid)) => {
                assert_eq!(tried, laid);
                rows.push(tried.row());
            }
            (tried, answered) => panic!("{tried:?}, and laid on {answered:?}"),
        }
    }
    assert_eq!(rows, [0, 0, 0, 0, 0, 2, 5, 6, 7, 8, 11]);
}

#[test]
fn a_trial_may_be_dropped() {
    let mut program = standing(&[(BEAMS, beams)]);
    let before = stands(&program);
    for _ in 0..3 {
        let trial = program.trial(&bundle(&[(ROOFS, roofs)]), Mode::Present).expect("it would be delivered");
        assert_eq!((trial.totals().books, trial.bundles()), (2, 1));
        drop(trial);
        assert_eq!(stands(&program), before);
    }
    let program = laid(program, &[(ROOFS, roofs)]);
    assert_eq!(program.to_words(), counting(2, &standing(&[(ROOFS, roofs), (BEAMS, beams)])));
}

#[test]
fn the_errors_of_a_trial_are_listed() {
    let mut program = standing(&[(BEAMS, beams)]);
    let refusal = program.trial(&bundle(&[(ROOFS, faulty)]), Mode::Present).expect_err("row 7");
    assert_eq!(refusal.row(), 7);
    let lines = errors_in_words(program.words(Area::Errors), ROOFS, &Texts::new()).expect("known errors");
    assert_eq!(lines, "can not found model, 3, 9, 11, 16, 8\n");
    let _ = program.trial(&bundle(&[(ROOFS, roofs)]), Mode::Present).expect("it would be delivered");
    assert!(program.words(Area::Errors).iter().all(|&word| word == 0));
}

/// Row 12: something was delivered since, be it nothing but a bundle that stands; or the trial is of another program.
#[test]
fn a_stale_trial() {
    let tree = bundle(&[(ROOFS, roofs)]);
    let stale = Refusal::StaleTrial { bundles: 2 };
    for between in [bundle(&[(THIRD, beams)]), bundle(&[(BEAMS, empty)])] {
        let mut program = standing(&[(BEAMS, beams)]);
        let trial = program.trial(&tree, Mode::Present).expect("it would be delivered");
        program.lay_on(&between, Mode::Present).expect("delivered");
        let before = stands(&program);
        // Before the bundle is looked at.
        assert_eq!(program.commit(&[1], Mode::Present, trial), Err(stale.clone()));
        assert_eq!(stands(&program), before);
    }
    // A refused bundle changes nothing, and the trial is as good as before.
    let mut program = standing(&[(BEAMS, beams)]);
    let trial = program.trial(&tree, Mode::Present).expect("it would be delivered");
    program.lay_on(&bundle(&[(THIRD, faulty)]), Mode::Present).expect_err("refused");
    program.commit(&tree, Mode::Present, trial).expect("as the trial said");
    // A trial of fewer bundles, and of more.
    let trial = standing(&[(BEAMS, beams)]).trial(&bundle(&[(THIRD, empty)]), Mode::Present).expect("delivered");
    assert_eq!(program.commit(&bundle(&[(THIRD, empty)]), Mode::Present, trial), Err(stale));
    let mut fewer = standing(&[(BEAMS, beams)]);
    let trial = program.trial(&bundle(&[(THIRD, empty)]), Mode::Present).expect("delivered");
    let refused = fewer.commit(&bundle(&[(THIRD, empty)]), Mode::Present, trial);
    assert_eq!(refused, Err(Refusal::StaleTrial { bundles: 1 }));
}

/// Row 13 by another bundle, and what comes before it; bundles that lead to the same totals are not told apart.
#[test]
fn another_bundle_than_was_tried() {
    let mut program = standing(&[(BEAMS, beams)]);
    let before = stands(&program);
    let tree = bundle(&[(ROOFS, roofs)]);
    let mut committed = |other: &[u64], mode| {
        let trial = program.trial(&tree, Mode::Present).expect("it would be delivered");
        let refusal = program.commit(other, mode, trial).expect_err("another bundle");
        assert_eq!(stands(&program), before, "{refusal}");
        refusal
    };
    assert_eq!(committed(&bundle(&[(ROOFS, empty)]), Mode::Present), Refusal::TotalsDiffer);
    assert_eq!(committed(&bundle(&[(BEAMS, empty)]), Mode::Present), Refusal::TotalsDiffer);
    let more: Book = |book| {
        roofs(book);
        book.function(SPAN).body(|_| {});
    };
    assert_eq!(committed(&bundle(&[(ROOFS, more)]), Mode::Strict), Refusal::TotalsDiffer);
    // A refusal by the work comes first.
    assert_eq!(committed(&bundle(&[(ROOFS, faulty)]), Mode::Present).row(), 7);
    assert_eq!(committed(&[], Mode::Present).row(), 3);
    // Of a longer body no total tells.
    let longer: Book = |book| {
        book.include(BEAMS, |names| names.name(BEAM, BEAM));
        book.implement(BEAM, |methods| {
            methods.function(BENDS).body(|_| {});
            methods.function(BREAKS).this_parameter(THIS).body(|_| {});
        });
        book.function(Text::MAIN).body(|body| {
            body.expression(|slot| slot.identifier(LOAD));
            body.expression(|slot| slot.identifier(LOAD));
        });
    };
    let trial = program.trial(&tree, Mode::Present).expect("it would be delivered");
    let code = trial.totals().code;
    program.commit(&bundle(&[(ROOFS, longer)]), Mode::Present, trial).expect("the same seven totals");
    assert!(program.totals().code > code);
}

/// A commit is answered by its own mode.
#[test]
fn another_mode_than_was_tried() {
    let private: Book = |book| book.include(BEAMS, |names| names.name(LOAD, LOAD));
    let tree = bundle(&[(ROOFS, private)]);
    let mut program = standing(&[(BEAMS, beams)]);
    let trial = program.trial(&tree, Mode::Present).expect("the present mode delivers");
    let refusal = program.commit(&tree, Mode::Strict, trial).expect_err("strict mode refuses");
    assert_eq!(refusal, Refusal::NameNotPublic { record: 1, name: Some(LOAD) });
    let tree = bundle(&[(ROOFS, roofs)]);
    let trial = program.trial(&tree, Mode::Strict).expect("both modes deliver");
    program.commit(&tree, Mode::Present, trial).expect("the same program");
}

#[test]
fn a_trial_makes_room() {
    let (tree, both) = (bundle(&[(ROOFS, roofs)]), counting(2, &standing(&[(ROOFS, roofs), (BEAMS, beams)])));
    // A loaded program has no room to spare.
    let saved = standing(&[(BEAMS, beams)]).to_words();
    let mut program = StandingProgram::from_words(&saved).expect("saved");
    let exact = program.memory().0.len();
    for most in [0, exact] {
        let refusal = program.trial_within(&tree, Mode::Present, most).expect_err("no room");
        assert_eq!(refusal, Refusal::AreaFull { area: Area::Books });
        assert_eq!((program.to_words(), program.memory().0.len()), (saved.clone(), exact));
    }
    let mut full = Vec::new();
    let limits = (exact..).step_by(50);
    let suffices = limits.into_iter().find(|&most| {
        let mut program = StandingProgram::from_words(&saved).expect("saved");
        let tried = program.trial_within(&tree, Mode::Present, most);
        assert_eq!(stands(&program), saved);
        tried.map_err(|refusal| full.push(refusal.place())).is_ok()
    });
    full.dedup();
    assert!(full.len() > 1, "{full:?}");
    // What suffices for the trial does for the commit, and less does not.
    let mut program = StandingProgram::from_words(&saved).expect("saved");
    let trial = program.clone().trial(&tree, Mode::Present).expect("room");
    let refusal = program.commit_within(&tree, Mode::Present, trial, exact).expect_err("no room");
    assert_eq!((refusal.row(), stands(&program)), (9, saved));
    let most = suffices.expect("some limit does");
    let trial = program.trial_within(&tree, Mode::Present, most).expect("room");
    program.commit_within(&tree, Mode::Present, trial, most).expect("room");
    assert_eq!(stands(&program), both);
}

// The calls over memory of the caller's own.

fn tried(tree: &[u64], mode: Mode, totals: Totals, all: &[u64]) -> (Reply, Vec<u64>) {
    between(all.to_vec(), |memory| calls::trial(mode, tree, totals, ROOM, memory).reply)
}

fn laid_on(tree: &[u64], mode: Mode, totals: Totals, all: &[u64]) -> (Reply, Vec<u64>) {
    between(all.to_vec(), |memory| calls::lay_on(mode, tree, totals, ROOM, memory).reply)
}

fn committed(tree: &[u64], mode: Mode, totals: Totals, trial: Totals, all: &[u64]) -> (Reply, Vec<u64>) {
    between(all.to_vec(), |memory| calls::commit(mode, tree, totals, TrialTotals(trial), ROOM, memory).reply)
}

/// The words that a trial leaves: as lent, with laying on's area 11 and slots.
fn as_lent(all: &[u64], laid: &[u64]) -> Vec<u64> {
    let errors = ROOM[..10].iter().sum::<usize>();
    left(all, &laid[errors..errors + ROOM[10]])
}

#[test]
fn calls_in_memory_of_the_callers() {
    let (all, totals) = lent();
    for (tree, mode) in bundles() {
        let (reply, laid) = laid_on(&tree, mode, totals, &all);
        let (trial, words) = tried(&tree, mode, totals, &all);
        assert_eq!(trial, Reply { totals: Totals { bundles: totals.bundles, ..reply.totals }, ..reply });
        assert_eq!(words, as_lent(&all, &laid));
        assert_eq!(committed(&tree, mode, totals, trial.totals, &all), (reply, laid));
    }
}

#[test]
fn each_total_of_a_trial_otherwise() {
    let (all, totals) = lent();
    let tree = bundle(&[(ROOFS, roofs)]);
    let (laid, _) = laid_on(&tree, Mode::Present, totals, &all);
    let trial = tried(&tree, Mode::Present, totals, &all).0.totals.words();
    // Line 1 of a listing has functions, constants, models, context locals, entry point, files and global dependencies.
    let line_1 = [2, 1, 3, 6, AREAS, 11, AREAS + 1];
    let refused = |number, place| (Reply { number, place, totals }, left(&all, &[]));
    for at in 0..Totals::WORDS {
        for other in [trial[at].wrapping_add(1), trial[at].wrapping_sub(1), u64::MAX] {
            let mut words = trial;
            words[at] = other;
            let answered = committed(&tree, Mode::Present, totals, Totals::from_words(words), &all);
            match at {
                _ if at == Totals::WORDS - 1 => assert_eq!(answered, refused(12, totals.bundles)),
                _ if line_1.contains(&at) => assert_eq!(answered, refused(13, 0), "total {at}"),
                _ => assert_eq!(answered.0, laid, "total {at}"),
            }
        }
    }
}

/// The program check comes before row 12, and every word stays.
#[test]
fn a_program_that_fails_the_check() {
    let (all, totals) = lent();
    let tree = bundle(&[(ROOFS, roofs)]);
    for bundles in [0, 4_294_967_295, u64::MAX] {
        let wrong = Totals { bundles, ..totals };
        let unfit = (Reply { number: 3, place: 1_048_588, totals: wrong }, inside(&all).to_vec());
        assert_eq!(laid_on(&tree, Mode::Present, wrong, &all), unfit);
        assert_eq!(tried(&tree, Mode::Present, wrong, &all), unfit);
        assert_eq!(committed(&[1], Mode::Present, wrong, totals, &all), unfit);
        assert_eq!(committed(&tree, Mode::Present, wrong, wrong, &all), unfit);
    }
    let greatest = Totals { bundles: 4_294_967_294, ..totals };
    let trial = tried(&tree, Mode::Present, greatest, &all).0;
    assert_eq!((trial.number, trial.totals.bundles), (0, 4_294_967_294));
    let committed = committed(&tree, Mode::Present, greatest, trial.totals, &all).0;
    assert_eq!((committed.number, committed.totals.bundles), (0, 4_294_967_295));
}

/// What a trial answers is read as totals or a refusal, and never as a program.
#[test]
fn an_answer_can_be_read() {
    let (all, totals) = lent();
    let mut memory = inside(&all).to_vec();
    let tried = calls::trial(Mode::Present, &bundle(&[(ROOFS, faulty)]), totals, ROOM, &mut memory);
    let Err(Refusal::BookFaulty { file, errors }) = tried.totals() else { panic!("row 7") };
    assert_eq!((file, errors.len()), (ROOFS, 1));
    let tree = bundle(&[(ROOFS, roofs)]);
    let trial = calls::trial(Mode::Present, &tree, totals, ROOM, &mut memory).totals().expect("it would be delivered");
    let answer = calls::commit(Mode::Present, &tree, totals, trial, ROOM, &mut memory);
    assert_eq!(answer.program().expect("delivered").books().count(), 2);
}
