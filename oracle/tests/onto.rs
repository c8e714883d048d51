//! Laying on, trial and commit (02, 2026-01 and 2026-08): the smallest inputs on which the readings of these requests and
//! their neighbours differ, each with the answer that the readings give.

use oracle::areas::{area, Areas, AREAS, ENTRY_WORDS};
use oracle::onto_calls::{judge, Standing};
use oracle::records::{flatten, kind, Node, MAIN};
use oracle::standing::{Answered, Call, Order, Totals};

const PROGRAM: u64 = 1_048_576;
const GREATEST: u64 = 4_294_967_294;

// Bundles.

fn leaf(kind: u64, value: u64) -> Node {
    Node::leaf(kind, 0, value)
}

fn name(text: u64) -> Node {
    leaf(kind::NAME, text)
}

fn book(file: u64, definitions: Vec<Node>) -> Node {
    Node::new(kind::DOCUMENT, 0, file, definitions)
}

/// Pairs of a public name and its alias.
fn include(file: u64, pairs: &[(u64, u64)]) -> Node {
    let names = pairs.iter().flat_map(|&(public, alias)| [name(public), name(alias)]).collect();
    Node::new(kind::INCLUDE, 0, file, names)
}

fn does(expression: Node) -> Node {
    Node::new(kind::EXPRESSION, 0, 0, vec![expression])
}

/// A function whose statements are these expressions.
fn function(kind: u64, text: u64, body: &[Node]) -> Node {
    Node::new(kind, 0, text, body.iter().cloned().map(does).collect())
}

fn private(text: u64, body: &[Node]) -> Node {
    function(kind::FUNCTION, text, body)
}

fn public(text: u64, body: &[Node]) -> Node {
    function(kind::PUBLIC_FUNCTION, text, body)
}

fn model(text: u64) -> Node {
    leaf(kind::PUBLIC_MODEL, text)
}

fn implement(model: u64, methods: &[u64]) -> Node {
    Node::new(kind::IMPLEMENT, 0, model, methods.iter().map(|&method| private(method, &[])).collect())
}

fn local(text: u64, value: Node) -> Node {
    Node::new(kind::LOCAL_DEFINITION, 0, 0, vec![name(text), value])
}

fn reads(text: u64) -> Node {
    leaf(kind::IDENTIFIER, text)
}

fn string(text: u64) -> Node {
    leaf(kind::STRING, text)
}

fn integer(value: u64) -> Node {
    leaf(kind::INTEGER, value)
}

/// An error 10.
fn fault() -> Node {
    implement(900, &[])
}

// Programs.

#[derive(Clone, Debug, PartialEq, Eq)]
struct Program {
    areas: Areas,
    totals: Totals,
}

/// Entries of each area, but for `less`: its number and how many it has.
fn room(entries: usize) -> [usize; AREAS] {
    ENTRY_WORDS.map(|width| width * entries)
}

impl Program {
    /// Three constants, no books.
    fn least() -> Program {
        Program::with_constants(&[])
    }

    /// The same with constants behind the three, unmarked: kind and value.
    fn with_constants(more: &[(u64, u64)]) -> Program {
        let mut areas: Areas = room(60).map(|words| vec![0; words]);
        let constants = [&[(0, 0), (1, 1), (1, 0)], more].concat();
        for (entry, (kind, value)) in areas[area::CONSTANTS - 1].chunks_exact_mut(3).zip(&constants) {
            entry.copy_from_slice(&[*kind, *value, 0]);
        }
        let mut totals = Totals { bundles: 1, ..Totals::default() };
        totals.areas[area::CONSTANTS - 1] = constants.len() as u64;
        Program { areas, totals }
    }

    fn call(&self, order: Order, words: &[u64], strict: bool) -> Answered {
        let call = Call { order, words: words.to_vec(), strict, areas: self.areas.clone() };
        // The other reading, of standing.rs, answers alike.
        judge(&mut Standing, &call).expect("both readings").answered
    }

    fn lays(&self, bundle: &[Node]) -> Answered {
        self.call(Order::Lay(self.totals), &flatten(bundle), false)
    }

    fn lays_strictly(&self, bundle: &[Node]) -> Answered {
        self.call(Order::Lay(self.totals), &flatten(bundle), true)
    }

    fn tries(&self, bundle: &[Node]) -> Answered {
        self.call(Order::Trial(self.totals), &flatten(bundle), false)
    }

    fn commits(&self, bundle: &[Node], trial: Totals) -> Answered {
        self.call(Order::Commit(self.totals, trial), &flatten(bundle), false)
    }

    /// With a bundle that is delivered.
    fn with(&self, bundle: &[Node]) -> Program {
        let answered = self.lays(bundle);
        assert_eq!((answered.row, answered.place), (0, 0));
        Program { areas: answered.areas, totals: answered.totals }
    }

    /// Areas as long as their entries, and so many more entries in each.
    fn cut(&self, more: u64) -> Program {
        let words = |i: usize| (self.totals.areas[i] + more) as usize * ENTRY_WORDS[i];
        Program { areas: std::array::from_fn(|i| self.areas[i][..words(i)].to_vec()), totals: self.totals }
    }

    fn resized(&self, number: usize, entries: usize) -> Program {
        let mut out = self.clone();
        out.areas[number - 1].resize(entries * ENTRY_WORDS[number - 1], 0);
        out
    }

    fn entry(&self, number: usize, index: usize) -> &[u64] {
        let width = ENTRY_WORDS[number - 1];
        &self.areas[number - 1][index * width..][..width]
    }

    fn total(&self, number: usize) -> u64 {
        self.totals.of(number)
    }

    /// Refused so, with all as lent but area 11, which has these errors and then zeros.
    fn refuses(&self, answered: &Answered, row: u64, place: u64, errors: &[[u64; 4]]) {
        assert_eq!((answered.row, answered.place), (row, place));
        assert_eq!(answered.totals, self.totals);
        let mut areas = self.areas.clone();
        areas[area::ERRORS - 1].fill(0);
        areas[area::ERRORS - 1][..errors.len() * 4].copy_from_slice(&errors.concat());
        assert_eq!(answered.areas, areas);
    }
}

/// Book 2: a public model 4 with method 5, a public function 6, a private one 7, a string 9 unmarked, and `main`.
fn library() -> Program {
    let main = private(MAIN, &[string(9)]);
    Program::least().with(&[book(2, vec![model(4), implement(4, &[5]), public(6, &[]), private(7, &[]), main])])
}

// Section 0.

#[test]
fn reading_0_3_and_0_4_the_check_comes_first_and_leaves_all() {
    let mut program = library();
    program.totals.entry_point = 77;
    program.areas[area::ERRORS - 1].fill(5);
    for order in
        [Order::Lay(program.totals), Order::Trial(program.totals), Order::Commit(program.totals, program.totals)]
    {
        let answered = program.call(order, &[1], false);
        assert_eq!((answered.row, answered.place), (3, PROGRAM + 3));
        assert_eq!(Program { areas: answered.areas, totals: answered.totals }, program);
    }
}

// Section 2.

#[test]
fn reading_2_1_standing_books_are_skipped_with_their_includes() {
    let program = library();
    let root = book(3, vec![include(2, &[(6, 8)]), private(10, &[reads(8)])]);
    let alone = program.lays(&[root.clone()]);
    assert_eq!(alone.row, 0);
    // Copies that would be another book, have errors, need an absent book or include the root.
    for copy in [vec![model(44)], vec![fault()], vec![include(99, &[])], vec![include(3, &[])]] {
        assert_eq!(program.lays(&[root.clone(), book(2, copy)]), alone);
    }
}

#[test]
fn reading_2_2_a_root_that_stands_is_delivered() {
    let program = library();
    let delivered = program.with(&[book(2, vec![fault()]), book(3, vec![fault()])]);
    assert_eq!(delivered.areas, program.areas);
    assert_eq!(delivered.totals, Totals { bundles: 3, ..program.totals });
}

#[test]
fn reading_2_3_rows_2_to_5_read_copies_too() {
    let program = library();
    let copy = || book(2, vec![model(4)]);
    program.refuses(&program.lays(&[book(3, vec![]), copy(), copy()]), 5, 3, &[]);
    assert_eq!(program.lays(&[book(3, vec![]), copy()]).row, 0);
    let wrong = flatten(&[book(3, vec![]), book(2, vec![leaf(kind::MODEL, 0)])]);
    program.refuses(&program.call(Order::Lay(program.totals), &wrong, false), 3, 2, &[]);
    let deep = (4..=65).fold(leaf(kind::NULL, 0), |inner, _| Node::new(kind::PREFIX, 0, 1, vec![inner]));
    let answered = program.lays(&[book(3, vec![]), book(2, vec![private(5, &[deep])])]);
    program.refuses(&answered, 4, 65, &[]);
}

#[test]
fn reading_2_4_rows_6_and_8_are_of_books_that_do_not_stand() {
    let program = library();
    let answered = program.lays(&[book(3, vec![include(5, &[]), include(2, &[]), include(4, &[])])]);
    program.refuses(&answered, 6, 4, &[]);
    let ring = |other: u64| [book(3, vec![include(other, &[])]), book(other, vec![include(3, &[])])];
    assert_eq!(program.lays(&ring(2)).row, 0);
    program.refuses(&program.lays(&ring(5)), 8, 2, &[[11, 0, 0, 3], [11, 0, 0, 5]]);
}

#[test]
fn reading_2_5_row_9_counts_what_stands() {
    let program = library();
    let exact = program.cut(0);
    // Nothing is needed, so no row 9 whatever is lent.
    assert_eq!(exact.lays(&[book(2, vec![])]).row, 0);
    // The first step is area 12's, before any of the book.
    let added = [book(3, vec![private(10, &[integer(5)])])];
    exact.refuses(&exact.lays(&added), 9, 12, &[]);
    // One function: code 2, constants 2, function, context local and book one each.
    let needs = [(1, 2), (2, 2), (3, 1), (7, 1), (12, 1)];
    let grown = needs
        .iter()
        .fold(exact, |program, &(number, more)| program.resized(number, program.total(number) as usize + more));
    assert_eq!(grown.lays(&added).row, 0);
    for (number, more) in needs {
        let short = grown.resized(number, grown.total(number) as usize + more - 1);
        short.refuses(&short.lays(&added), 9, number as u64, &[]);
    }
}

#[test]
fn reading_2_5_area_11_counts_from_0() {
    let mut program = library().resized(area::ERRORS, 1);
    program.areas[area::ERRORS - 1].fill(7);
    program.totals.areas[area::ERRORS - 1] = 5;
    program.refuses(&program.lays(&[book(3, vec![fault()])]), 7, 3, &[[10, 0, kind::IMPLEMENT, 900]]);
    program.refuses(&program.lays(&[book(3, vec![fault(), fault()])]), 9, 11, &[]);
    let none = program.resized(area::ERRORS, 0);
    none.refuses(&none.lays(&[book(3, vec![fault()])]), 9, 11, &[]);
}

#[test]
fn reading_2_6_a_delivery_changes_marks_methods_and_the_entry_point() {
    let program = library();
    assert_eq!((program.totals.entry_point, program.totals.globals), (3, 0));
    // Constant of string 9, unmarked.
    let text = (0..).find(|&i| program.entry(area::CONSTANTS, i) == [4, 9, 0]).expect("it stands");
    assert_eq!(program.entry(area::METHODS, 0), [0, 5, 0]);
    let body = vec![include(2, &[(4, 8)]), implement(8, &[5, 11]), private(10, &[reads(9)])];
    let after = program.with(&[book(3, body.clone())]);
    let mut stood = program.areas.clone();
    stood[area::CONSTANTS - 1][text * 3 + 2] = 1;
    stood[area::METHODS - 1][2] = 4;
    for (i, words) in stood.iter().enumerate() {
        let end = program.totals.areas[i] as usize * ENTRY_WORDS[i];
        assert_eq!(after.areas[i][..end], words[..end], "area {}", i + 1);
        let end = after.totals.areas[i] as usize * ENTRY_WORDS[i];
        assert!(after.areas[i][end..].iter().all(|&word| word == 0), "area {}", i + 1);
    }
    assert_eq!(after.totals.globals, 1);
    assert_eq!(after.entry(area::METHODS, 1), [0, 11, 5]);
    // Without a `main` the entry point stays, with one it is the last.
    assert_eq!(after.totals.entry_point, 3);
    let mains = [private(MAIN, &[]), private(MAIN, &[])];
    let moved = program.with(&[book(3, [body, mains.to_vec()].concat())]);
    assert_eq!(moved.totals.entry_point, 8);
    // Apply gives the standing model the functions of another.
    let apply = Node::new(kind::APPLY, 0, 0, vec![name(12), name(8)]);
    let body = vec![include(2, &[(4, 8)]), model(12), implement(12, &[13, 5]), apply];
    let applied = program.with(&[book(3, body)]);
    let methods: Vec<&[u64]> = (0..4).map(|i| applied.entry(area::METHODS, i)).collect();
    assert_eq!(methods, [[0, 5, 5], [1, 13, 4], [1, 5, 5], [0, 13, 4]]);
}

#[test]
fn reading_2_7_a_refusal_leaves_the_program() {
    let mut program = library();
    program.areas[area::ERRORS - 1].fill(3);
    program.totals.areas[area::ERRORS - 1] = 5;
    program.refuses(&program.lays(&[book(3, vec![include(99, &[])])]), 6, 99, &[]);
    // A mark, a method's function and the entry point would have changed before the error.
    let body = vec![include(2, &[(4, 8)]), implement(8, &[5]), private(MAIN, &[reads(9)]), fault()];
    let refused = program.lays(&[book(3, body.clone())]);
    program.refuses(&refused, 7, 3, &[[10, 0, kind::IMPLEMENT, 900]]);
    // And the next bundle fits as if nothing had been.
    let next = [book(3, body[..3].to_vec())];
    let on = Program { areas: refused.areas, totals: refused.totals };
    assert_eq!(on.lays(&next), program.lays(&next));
    // A delivery clears area 11 and its total.
    assert_eq!(on.with(&next).totals.areas[area::ERRORS - 1], 0);
    assert!(on.with(&next).areas[area::ERRORS - 1].iter().all(|&word| word == 0));
}

#[test]
fn readings_2_8_and_3_2_sharing_takes_the_first() {
    let half = 0.5f64.to_bits();
    let pool = [(2, 7), (2, 7), (3, half), (3, half), (3, 1 << 63), (4, 9), (4, 9), (0, 0), (1, 1)];
    let program = Program::with_constants(&pool);
    let values = [integer(7), leaf(kind::FLOAT, half), leaf(kind::FLOAT, 0), string(9)];
    let fixed = [leaf(kind::NULL, 0), leaf(kind::BOOLEAN, 1), reads(9)];
    let after = program.with(&[book(3, vec![private(10, &[values.to_vec(), fixed.to_vec()].concat())])]);
    let operands: Vec<u64> = (0..7).map(|i| after.entry(area::CODE, 2 * i)[0] & 0xFF_FFFF).collect();
    // Plus zero is new: only minus zero stands.
    assert_eq!(operands, [3, 5, 12, 8, 0, 1, 8]);
    assert_eq!(after.total(area::CONSTANTS), 14);
    assert_eq!((after.entry(area::CONSTANTS, 8)[2], after.entry(area::CONSTANTS, 9)[2]), (1, 0));
}

#[test]
fn reading_2_9_public_names_alone_are_visible() {
    let program = library();
    // Names 4 and 7 are context locals of book 2; here they are globals.
    let after = program.with(&[book(3, vec![private(10, &[reads(7)])])]);
    let code = program.total(area::CODE) as usize;
    assert_eq!(after.entry(area::CODE, code)[0] >> 56, 0x12);
    program.refuses(&program.lays(&[book(3, vec![implement(4, &[])])]), 7, 3, &[[10, 0, kind::IMPLEMENT, 4]]);
    // A private name gives no value; a public function is no model.
    let after = program.with(&[book(3, vec![include(2, &[(7, 8), (6, 9)])])]);
    let locals = program.total(area::CONTEXT) as usize;
    assert_eq!(after.entry(area::CONTEXT, locals), [1, 8, 0, 0]);
    assert_eq!(after.entry(area::CONTEXT, locals + 1)[..3], [1, 9, 1]);
    let answered = program.lays(&[book(3, vec![include(2, &[(6, 9)]), implement(9, &[])])]);
    program.refuses(&answered, 7, 3, &[[9, 0, kind::IMPLEMENT, 9]]);
    // Names of two books do not meet: each has its own locals and public names.
    let twin = program.with(&[book(3, vec![model(4), public(6, &[])])]);
    assert_eq!(twin.total(area::PUBLIC), program.total(area::PUBLIC) + 2);
}

#[test]
fn reading_2_10_another_bundle_may_number_this_otherwise() {
    let method = |this| Node::new(kind::FUNCTION, 0, 5, vec![leaf(kind::THIS_PARAMETER, this)]);
    let with_this = |file, this| [book(file, vec![model(4), Node::new(kind::IMPLEMENT, 0, 4, vec![method(this)])])];
    let after = Program::least().with(&with_this(2, 7)).with(&with_this(3, 8));
    assert_eq!(after.total(area::METHODS), 2);
    // Within one bundle there is one.
    let both = [with_this(4, 7), with_this(5, 8)].concat();
    after.refuses(&after.lays(&both), 3, 9, &[]);
}

// Section 3.

#[test]
fn reading_3_1_includes_below_other_definitions_count() {
    let program = library();
    let late = |file| [book(3, vec![model(8), include(file, &[])])];
    assert_eq!(program.lays(&late(2)).row, 0);
    program.refuses(&program.lays(&late(5)), 6, 5, &[]);
    program.refuses(&program.lays(&late(3)), 8, 1, &[[11, 0, 0, 3]]);
}

#[test]
fn reading_3_4_strict_mode_asks_the_standing_file() {
    let program = library();
    let asks = |names: &[(u64, u64)]| [book(3, vec![local(20, string(9)), include(2, names)])];
    // Error 5 first, then a name that 2 does not publish: 11, and no error is listed.
    program.refuses(&program.lays_strictly(&asks(&[(6, 8), (7, 9)])), 11, 4, &[]);
    program.refuses(&program.lays_strictly(&asks(&[(6, 8)])), 7, 3, &[[5, 0, kind::STRING, 9]]);
    // No names, and public ones; strict and present deliver the same.
    let fine = [book(3, vec![include(2, &[]), include(2, &[(6, 8), (4, 9)])])];
    assert_eq!(program.lays_strictly(&fine), program.lays(&fine));
    assert_eq!(program.lays(&fine).row, 0);
    // Row 11 comes before its aliases take entries; one entry short is row 9 only in the present mode.
    let short = program.cut(0).resized(area::BOOKS, 2);
    short.refuses(&short.lays_strictly(&[book(3, vec![include(2, &[(7, 9)])])]), 11, 1, &[]);
    short.refuses(&short.lays(&[book(3, vec![include(2, &[(7, 9)])])]), 9, 7, &[]);
    // The aliases of a root that stands are not looked at.
    assert_eq!(program.lays_strictly(&[book(2, vec![include(2, &[(7, 9)])])]).row, 0);
}

// Section 4.

#[test]
fn readings_4_1_4_2_and_4_8_trial_and_commit() {
    let mut program = library();
    program.areas[area::ERRORS - 1].fill(3);
    program.totals.areas[area::ERRORS - 1] = 5;
    let bundle = [book(3, vec![private(MAIN, &[reads(9)])])];
    let laid = program.lays(&bundle);
    let trial = program.tries(&bundle);
    assert_eq!((laid.row, trial.row, laid.totals.bundles), (0, 0, 3));
    assert_eq!(trial.totals, Totals { bundles: 2, ..laid.totals });
    let mut areas = program.areas.clone();
    areas[area::ERRORS - 1].fill(0);
    assert_eq!(trial.areas, areas);
    assert_eq!(program.commits(&bundle, trial.totals), laid);
    // A refusal is the same in all three.
    let bundle = [book(3, vec![fault()])];
    let laid = program.lays(&bundle);
    let trial = program.tries(&bundle);
    program.refuses(&laid, 7, 3, &[[10, 0, kind::IMPLEMENT, 900]]);
    assert_eq!(trial, laid);
    assert_eq!(program.commits(&bundle, trial.totals), laid);
}

#[test]
fn reading_4_3_line_1_is_compared() {
    let program = library();
    let of = |body: &[Node]| [book(3, vec![private(10, body)])];
    let trial = program.tries(&of(&[reads(10)])).totals;
    // Another bundle that differs only in the length of a body: not seen.
    let longer = of(&[reads(10), reads(10)]);
    assert_eq!(program.commits(&longer, trial).row, 0);
    assert_eq!(program.commits(&longer, trial), program.lays(&longer));
    // One with a constant more is.
    program.refuses(&program.commits(&of(&[integer(5)]), trial), 13, 0, &[]);
    let right = of(&[reads(10)]);
    let mut other = trial;
    for number in [1, 5, 6, 8, 9, 10, 11] {
        other.areas[number - 1] = u64::MAX;
    }
    assert_eq!(program.commits(&right, other), program.lays(&right));
    for number in [2, 3, 4, 7, 12] {
        let mut other = trial;
        other.areas[number - 1] += 1;
        program.refuses(&program.commits(&right, other), 13, 0, &[]);
    }
    program.refuses(&program.commits(&right, Totals { entry_point: 0, ..trial }), 13, 0, &[]);
    program.refuses(&program.commits(&right, Totals { globals: 1, ..trial }), 13, 0, &[]);
}

#[test]
fn readings_4_4_and_4_5_the_order_of_a_commit() {
    let mut program = library();
    program.areas[area::ERRORS - 1].fill(3);
    let bundle = [book(3, vec![private(10, &[])])];
    let trial = program.tries(&bundle).totals;
    for bundles in [0, 1, 3, GREATEST, u64::MAX] {
        let stale = Totals { bundles, ..trial };
        program.refuses(&program.commits(&bundle, stale), 12, 2, &[]);
        // Ahead of the bundle's own rows.
        let answered = program.call(Order::Commit(program.totals, stale), &[1], false);
        program.refuses(&answered, 12, 2, &[]);
    }
    // The work's refusal comes before 13.
    let other = Totals { entry_point: 99, ..trial };
    program.refuses(&program.commits(&[book(3, vec![fault()])], other), 7, 3, &[[10, 0, kind::IMPLEMENT, 900]]);
    program.refuses(&program.call(Order::Commit(program.totals, other), &[1], false), 2, 0, &[]);
    let short = program.cut(0).resized(area::ERRORS, 4);
    short.refuses(&short.commits(&bundle, other), 9, 12, &[]);
    // The program check comes before 12.
    let mut wrong = program.clone();
    wrong.totals.globals = 1;
    let answered = wrong.commits(&bundle, Totals { bundles: 9, ..trial });
    assert_eq!((answered.row, answered.place), (3, PROGRAM + 2));
}

#[test]
fn reading_4_6_the_greatest_count() {
    let mut program = library();
    let bundle = [book(2, vec![])];
    program.totals.bundles = GREATEST;
    assert_eq!(program.tries(&bundle).totals.bundles, GREATEST);
    let past = program.with(&bundle);
    assert_eq!(past.totals.bundles, GREATEST + 1);
    for bundles in [0, GREATEST + 1, u64::MAX] {
        let lent = Program { totals: Totals { bundles, ..past.totals }, ..past.clone() };
        let answered = lent.lays(&bundle);
        assert_eq!((answered.row, answered.place), (3, PROGRAM + 12));
        assert_eq!(answered.totals, lent.totals);
    }
}

#[test]
fn reading_4_7_a_commit_has_its_own_mode() {
    let program = library();
    let bundle = [book(3, vec![include(2, &[(7, 8)])])];
    let trial = program.tries(&bundle).totals;
    let order = Order::Commit(program.totals, trial);
    program.refuses(&program.call(order, &flatten(&bundle), true), 11, 1, &[]);
    assert_eq!(program.call(order, &flatten(&bundle), false).row, 0);
}
