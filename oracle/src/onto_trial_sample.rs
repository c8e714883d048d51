//! Stored cases of trial and commit (02, 2026-08), beside those of laying on in onto_sample.rs, whose books they have.

use crate::areas::{area, Areas, Counts, AREAS};
use crate::onto::Reading;
use crate::onto_calls::answered;
use crate::onto_sample::{grown, lent, odd, peaks, pieces, Collected, Piece};
use crate::pieces::{document, function, include, leaf, locals, statement};
use crate::records::{flatten, kind, Node, MAIN};
use crate::standing::{Call, Order, Totals, MOST_BUNDLES};
use crate::standing_calls::Program;

/// What is tried: a mark, a method's function, another method and the entry point.
const TOUCHING: &str = "a mark, methods and the entry point";

/// Pieces of laying on that are tried, and committed as they were tried.
const PIECES: [&str; 14] = [
    TOUCHING,
    "a root that stands",
    "a copy of a standing book",
    "apply to a standing model",
    "a record of a copy breaks the rules",
    "a record of a copy is too deep",
    "a copy twice",
    "book missing, all taken back",
    "book faulty, all taken back",
    "ring of itself behind a good book",
    "strict: public names of a standing book",
    "strict: an error ahead of a private name, all taken back",
    "onto the least program",
    "a third bundle",
];

/// Areas that are an entry short in some cases.
const SHORT: [usize; 3] = [area::CODE, area::METHODS, area::BOOKS];

/// A program and a bundle for it.
#[derive(Clone)]
struct Case {
    program: Program,
    words: Vec<u64>,
    strict: bool,
}

impl Case {
    fn of(piece: Piece) -> Case {
        Case { program: grown(&piece.stands), words: flatten(&piece.bundle), strict: piece.strict }
    }

    fn named(name: &str) -> Case {
        Case::of(pieces().into_iter().find(|piece| piece.name == name).expect("a piece of this name"))
    }

    /// The program that `TOUCHING` has, with this bundle.
    fn onto_library(definitions: Vec<Node>) -> Case {
        Case { words: flatten(&[document(3, definitions)]), ..Case::named(TOUCHING) }
    }

    fn with_count(mut self, bundles: u64) -> Case {
        self.program.totals.bundles = bundles;
        self
    }

    /// The entries that the bundle needs.
    fn exactly(&self) -> Counts {
        peaks(&self.program, &self.words, self.strict)
    }

    /// The same with an area an entry short.
    fn short(&self, number: usize) -> Counts {
        let mut entries = self.exactly();
        entries[number - 1] -= 1;
        entries
    }

    fn call(&self, entries: &Counts, order: impl Fn(Totals) -> Order) -> Call {
        let (areas, totals) = lent(&self.program, entries);
        Call { order: order(totals), words: self.words.clone(), strict: self.strict, areas }
    }

    fn trial(&self, entries: &Counts) -> Call {
        self.call(entries, Order::Trial)
    }

    fn commit(&self, entries: &Counts, trial: Totals) -> Call {
        self.call(entries, |totals| Order::Commit(totals, trial))
    }

    /// What the trial answers, in exactly what it needs.
    fn tried(&self) -> Totals {
        answered(&Reading::default(), &self.trial(&self.exactly())).totals
    }
}

/// Nothing is lent, and the program has no constants.
fn nothing(order: impl Fn(Totals) -> Order) -> Call {
    let totals = Totals { bundles: 1, ..Totals::default() };
    Call { order: order(totals), words: vec![1], strict: false, areas: Areas::default() }
}

/// Numbers of bundles with which no program stands.
const UNFIT: [u64; 3] = [0, MOST_BUNDLES + 1, u64::MAX];

/// Onto a program that no bundle makes: the first of equal constants is taken, and a method gets another function.
fn onto_odd() -> Case {
    let value = |kind, value| statement(leaf(kind, value));
    let body = vec![value(kind::INTEGER, 7), value(kind::STRING, 9), value(kind::IDENTIFIER, 9)];
    let words = flatten(&[document(3, vec![include(2, &[(4, 12)]), function(10, &[], body)])]);
    Case { program: odd(), words, strict: false }
}

pub(crate) fn add_trials(collected: &mut Collected) {
    for name in PIECES {
        let case = Case::named(name);
        collected.add(&format!("{name}, exactly"), &case.trial(&case.exactly()));
    }
    let case = Case::named(TOUCHING);
    for number in SHORT {
        collected.add(&format!("{TOUCHING}, area {number} one short"), &case.trial(&case.short(number)));
    }
    let room = case.exactly();
    let broken = Case { words: vec![1], ..case.clone() };
    collected.add("bad length", &broken.trial(&room));
    collected.add("an odd program", &onto_odd().trial(&onto_odd().exactly()));
    for bundles in [1, MOST_BUNDLES] {
        collected.add(&format!("bundles {bundles}"), &case.clone().with_count(bundles).trial(&room));
    }
    for bundles in UNFIT {
        collected.add(&format!("check: bundles {bundles}"), &broken.clone().with_count(bundles).trial(&room));
    }
    let wrong = |totals: Totals| Order::Trial(Totals { entry_point: 99, ..totals });
    collected.add("check: the entry point past the functions", &broken.call(&room, wrong));
    collected.add("check: nothing at all", &nothing(Order::Trial));
}

/// The names of a trial's totals, in their order.
const TOTALS: [&str; AREAS + 2] = [
    "code",
    "constants",
    "functions",
    "models",
    "properties",
    "methods",
    "context locals",
    "public names",
    "scope names",
    "breaks",
    "errors",
    "books",
    "entry point",
    "global dependencies",
];

/// The trial's totals with one of these one more.
fn one_more(trial: &Totals, at: usize) -> Totals {
    let mut other = *trial;
    match at {
        AREAS => other.entry_point += 1,
        _ if at > AREAS => other.globals += 1,
        _ => other.areas[at] += 1,
    }
    other
}

/// A commit with the trial's count otherwise, on programs of several counts.
fn add_counts(collected: &mut Collected) {
    let case = Case::named(TOUCHING);
    let (room, trial) = (case.exactly(), case.tried());
    let count = trial.bundles;
    for bundles in [count + 1, count - 1, 0, MOST_BUNDLES + 1, u64::MAX] {
        let other = Totals { bundles, ..trial };
        collected.add(&format!("bundles {count}, tried with {bundles}"), &case.commit(&room, other));
    }
    for bundles in [1, MOST_BUNDLES] {
        let case = case.clone().with_count(bundles);
        collected.add(&format!("bundles {bundles}, as tried"), &case.commit(&room, case.tried()));
        collected.add(&format!("bundles {bundles}, tried with {count}"), &case.commit(&room, trial));
    }
    let broken = Case { words: vec![1], ..case.clone() };
    collected.add("stale before bad length", &broken.commit(&room, Totals { bundles: 9, ..trial }));
    collected.add("bad length", &broken.commit(&room, trial));
    for bundles in UNFIT {
        let case = case.clone().with_count(bundles);
        collected.add(&format!("check: bundles {bundles}"), &case.commit(&room, Totals { bundles, ..trial }));
    }
    let wrong = |totals: Totals| Order::Commit(Totals { entry_point: 99, ..totals }, Totals::default());
    collected.add("check: before stale and bad length", &broken.call(&room, wrong));
    collected.add("check: nothing at all", &nothing(|totals| Order::Commit(totals, totals)));
}

/// A commit with one of the trial's totals otherwise: seven are compared. What the work refuses comes before.
fn add_totals(collected: &mut Collected) {
    let case = Case::named(TOUCHING);
    let (room, trial) = (case.exactly(), case.tried());
    for (at, name) in TOTALS.iter().enumerate() {
        collected.add(&format!("one more of {name}"), &case.commit(&room, one_more(&trial, at)));
    }
    let strictly = Case { strict: true, ..case.clone() };
    collected.add("strict: one more of books", &strictly.commit(&room, one_more(&trial, area::BOOKS - 1)));
    for number in SHORT {
        let name = format!("area {number} one short before one more of books");
        collected.add(&name, &case.commit(&case.short(number), one_more(&trial, area::BOOKS - 1)));
    }
    for name in PIECES.into_iter().filter(|name| !name.starts_with("onto")) {
        let other = Case::named(name);
        let call = other.commit(&other.exactly(), one_more(&other.tried(), AREAS + 1));
        if answered(&Reading::default(), &call).row != 13 {
            collected.add(&format!("{name}, before one more of global dependencies"), &call);
        }
    }
}

/// A commit with another bundle, in another mode or in other lengths than its trial.
fn add_others(collected: &mut Collected) {
    let case = Case::named(TOUCHING);
    let trial = case.tried();
    let roomy = case.exactly().map(|entries| entries + 3);
    collected.add("longer areas", &case.commit(&roomy, trial));
    let other = |definitions| Case::onto_library(definitions);
    collected.add("another bundle", &other(vec![]).commit(&roomy, trial));
    let root = Case::named("a root that stands");
    collected.add("another bundle, whose root stands", &root.commit(&roomy, trial));
    let body = |statements: Vec<Node>| vec![function(MAIN, &[], statements)];
    let short = other(body(vec![]));
    let longer = other(body(vec![leaf(kind::RETURN, 0), leaf(kind::RETURN, 0)]));
    collected.add("another bundle with the same seven totals", &longer.commit(&roomy, short.tried()));
    let value = |value| vec![locals(kind::LOCAL_DEFINITION, vec![(20, leaf(kind::INTEGER, value))])];
    collected.add("another value with the same seven totals", &other(value(8)).commit(&roomy, other(value(9)).tried()));
    let private = other(vec![include(2, &[(8, 10)])]);
    let strict = Case { strict: true, ..private.clone() };
    collected.add("strict: tried in the present mode, a private name", &strict.commit(&roomy, private.tried()));
    let public = other(vec![include(2, &[(4, 10)])]);
    let strict = Case { strict: true, ..public.clone() };
    collected.add("tried in strict mode", &public.commit(&roomy, strict.tried()));
    collected.add("strict: tried in the present mode", &strict.commit(&roomy, public.tried()));
}

pub(crate) fn add_commits(collected: &mut Collected) {
    for name in PIECES {
        let case = Case::named(name);
        if answered(&Reading::default(), &case.trial(&case.exactly())).row == 0 {
            collected.add(&format!("{name}, exactly"), &case.commit(&case.exactly(), case.tried()));
        }
    }
    collected.add("an odd program", &onto_odd().commit(&onto_odd().exactly(), onto_odd().tried()));
    add_counts(collected);
    add_totals(collected);
    add_others(collected);
}
