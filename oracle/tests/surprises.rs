//! Where the Rust does what one may not expect; docs/ORACLE-NOTES.md tells them. From the real Rust.

use oracle::areas::{answer, Answer, Delivery, Lengths, UNLIMITED};
use oracle::model::{compile, instruction};
use oracle::pieces::{body, document, function, identifier, if_node, infix, leaf, name_node, statement};
use oracle::real::{run, Outcome};
use oracle::records::{flatten, kind, records, Node};

const PUSH: u64 = 0x02;
const RETURN: u64 = 0x05;
const LOCAL_GET: u64 = 0x07;
const JUMP: u64 = 0x51;
const JUMP_IF: u64 = 0x52;

fn delivered(words: &[u64]) -> Delivery {
    let model = compile(words, &UNLIMITED);
    let expected = answer(&model.reply, &model.areas);
    assert_eq!(run(&records(words)), Outcome::Answer(expected.clone()));
    match expected {
        Answer::Delivered(delivery) => delivery,
        refused => panic!("{refused:?}"),
    }
}

fn code(words: &[u64]) -> Vec<u64> {
    delivered(words).functions[0].code.iter().map(|&(word, _)| word).collect()
}

fn number(value: u64) -> Node {
    statement(leaf(kind::INTEGER, value))
}

/// Error 3, then `emit_return` takes the only Pop away and looks for a last instruction.
#[test]
fn the_smallest_panic() {
    let null = || leaf(kind::NULL, 0);
    let lone = || statement(infix(19, null(), null()));
    for rest in [vec![], vec![leaf(kind::RETURN, 0)], vec![leaf(kind::RESCUE, 0)]] {
        let words = body(&[], [vec![lone()], rest].concat());
        assert_eq!(run(&records(&words)), Outcome::Panicked);
        assert_eq!(compile(&words, &UNLIMITED).reply.row, 7);
    }
    // Two of them leave a Pop to look at.
    let twice = body(&[], vec![lone(), lone()]);
    assert!(matches!(run(&records(&twice)), Outcome::Answer(Answer::Refused { row: 7, .. })));
}

/// A statement that emits nothing does not take the value of the one before.
#[test]
fn a_value_shines_through_statements_that_emit_nothing() {
    let local = Node::new(kind::LOCAL, 0, 0, vec![name_node(5), Node::leaf(kind::ABSENT, 0, 0)]);
    for silent in [local, leaf(kind::BREAK, 0), Node::leaf(kind::LOCAL, 0, 0)] {
        assert_eq!(code(&body(&[], vec![number(7), silent])), [instruction(PUSH, 3), instruction(RETURN, 0)]);
    }
}

/// After an if that ends in Return, neither rescue nor the end adds a Return: the false part's Jump
/// goes to what follows, which is the rescue part, or nothing.
#[test]
fn the_false_part_of_a_returning_if_falls_into_the_rescue() {
    let returning = statement(if_node(identifier(4), vec![vec![leaf(kind::RETURN, 0)]]));
    let words = body(&[4], vec![returning, leaf(kind::RESCUE, 0), number(7)]);
    assert_eq!(delivered(&words).functions[0].rescue, 6);
    let expected = [
        instruction(LOCAL_GET, 0),
        instruction(JUMP_IF, 4),
        instruction(PUSH, 0),
        instruction(JUMP, 6),
        instruction(PUSH, 0),
        instruction(RETURN, 0),
        instruction(PUSH, 3),
        instruction(RETURN, 0),
    ];
    assert_eq!(code(&words), expected);
}

/// The second rescue stands where the first does; of two with something between, the last counts.
#[test]
fn the_last_rescue_counts() {
    let rescue = || leaf(kind::RESCUE, 0);
    assert_eq!(delivered(&body(&[], vec![rescue(), rescue()])).functions[0].rescue, 2);
    assert_eq!(delivered(&body(&[], vec![rescue(), number(7), rescue()])).functions[0].rescue, 4);
}

/// Any book's `main` is the entry point, the last compiled first; without one it is function 0.
#[test]
fn an_included_main_is_the_entry_point() {
    let include = Node::leaf(kind::INCLUDE, 0, 9);
    let library = document(9, vec![function(5, &[], vec![]), function(1, &[], vec![])]);
    let without = flatten(&[document(2, vec![include.clone(), function(6, &[], vec![])]), library.clone()]);
    assert_eq!(delivered(&without).entry_point, 1);
    let with = flatten(&[document(2, vec![include, function(1, &[], vec![])]), library]);
    assert_eq!(delivered(&with).entry_point, 2);
}

/// Error 8's public name still takes its entry, so that row 9 can come before row 7.
#[test]
fn the_public_name_of_error_8_takes_an_entry() {
    let this = Node::leaf(kind::THIS_PARAMETER, 0, 7);
    let words = flatten(&[document(2, vec![Node::new(kind::PUBLIC_FUNCTION, 0, 3, vec![this])])]);
    let mut lengths = [100; 12];
    assert_eq!(compile(&words, &lengths).reply.row, 7);
    lengths[7] = 0;
    let reply = compile(&words, &lengths).reply;
    assert_eq!((reply.row, reply.place), (9, 8));
}

/// A bundle may give the 41s the number of `main`; by numbers alone it has an answer.
#[test]
fn this_numbered_as_main_has_no_string() {
    let method = Node::new(kind::FUNCTION, 0, 5, vec![Node::leaf(kind::THIS_PARAMETER, 0, 1)]);
    let parts = vec![
        Node::leaf(kind::MODEL, 0, 3),
        Node::new(kind::IMPLEMENT, 0, 3, vec![method]),
        Node::leaf(kind::FUNCTION, 0, 1),
    ];
    let words = flatten(&[document(2, parts)]);
    assert_eq!(run(&records(&words)), Outcome::Inexpressible);
    let reply = compile(&words, &UNLIMITED).reply;
    assert_eq!((reply.row, reply.entry_point), (0, 1));
}

/// The first constants and the books' entries come before any book, ready or not; row 6 before them.
#[test]
fn row_9_may_come_before_row_8() {
    let itself = flatten(&[document(2, vec![Node::leaf(kind::INCLUDE, 0, 2)])]);
    let missing = flatten(&[document(2, vec![Node::leaf(kind::INCLUDE, 0, 3)])]);
    let mut lengths = [0; 12];
    fn row(words: &[u64], lengths: &Lengths) -> (u64, u64) {
        let reply = compile(words, lengths).reply;
        (reply.row, reply.place)
    }
    assert_eq!(row(&itself, &lengths), (9, 2));
    assert_eq!(row(&missing, &lengths), (6, 3));
    lengths[1] = 9;
    assert_eq!(row(&itself, &lengths), (9, 12));
    lengths[11] = 1;
    assert_eq!(row(&itself, &lengths), (9, 11));
    lengths[10] = 4;
    assert_eq!(row(&itself, &lengths), (8, 1));
}
