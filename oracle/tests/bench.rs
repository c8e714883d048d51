//! 01's own example and bench pieces, from the real Rust.

use oracle::areas::{answer, Answer, Delivery, FunctionAnswer, UNLIMITED};
use oracle::listing::{listing, listing_of_column};
use oracle::model::{compile, instruction};
use oracle::pieces::{bench, body, deep, doubled, example, more, requests, with_text};
use oracle::real::{run, Outcome};
use oracle::records::{flatten, records, Node, MAX_RECORDS, MAX_TEXT};
use oracle::shape::check;
use oracle::{columns, pieces};

fn piece(name: &str) -> Vec<u64> {
    let all = [bench(), more(), requests()].concat();
    all.into_iter().find(|(known, _)| *known == name).unwrap_or_else(|| panic!("no piece {name}")).1
}

/// What the real Rust answers; the model must say the same.
fn real(words: &[u64]) -> Answer {
    let model = compile(words, &UNLIMITED);
    match run(&records(words)) {
        Outcome::Answer(theirs) => {
            assert_eq!(theirs, answer(&model.reply, &model.areas));
            theirs
        }
        other => panic!("{other:?}"),
    }
}

fn delivered(words: &[u64]) -> Delivery {
    match real(words) {
        Answer::Delivered(delivery) => delivery,
        refused => panic!("{refused:?}"),
    }
}

fn only_function(name: &str) -> FunctionAnswer {
    let mut functions = delivered(&piece(name)).functions;
    assert_eq!(functions.len(), 1);
    functions.remove(0)
}

fn error_numbers(name: &str) -> Vec<u64> {
    match real(&piece(name)) {
        Answer::Refused { row: 7, place: 2, errors } => errors.iter().map(|error| error[0]).collect(),
        other => panic!("{other:?}"),
    }
}

const POP: u64 = 0x01;
const PUSH: u64 = 0x02;
const RETURN: u64 = 0x05;
const LOCAL_GET: u64 = 0x07;
const OPERATION: u64 = 0x21;
const NOT: u64 = 0x22;
const JUMP: u64 = 0x51;
const JUMP_IF: u64 = 0x52;

fn words(function: &FunctionAnswer) -> Vec<u64> {
    function.code.iter().map(|&(word, _)| word).collect()
}

#[test]
fn a_and_b_null_and_return_at_no_position() {
    for name in ["a empty body", "b lone outside break"] {
        assert_eq!(only_function(name).code, [(instruction(PUSH, 0), 0), (instruction(RETURN, 0), 0)]);
    }
}

#[test]
fn c_return_return() {
    assert_eq!(only_function("c return return").code.len(), 2);
}

#[test]
fn d_lone_rescue() {
    let function = only_function("d lone rescue");
    assert_eq!((function.code.len(), function.rescue), (2, 2));
}

#[test]
fn e_rescue_in_an_if() {
    assert_eq!(error_numbers("e rescue in an if"), [4]);
}

#[test]
fn f_equal_integers_and_equal_floats_share() {
    let push = |index| instruction(PUSH, index);
    let (pop, back) = (instruction(POP, 0), instruction(RETURN, 0));
    assert_eq!(words(&only_function("f seven twice")), [push(3), pop, push(3), back]);
    assert_eq!(words(&only_function("f half twice")), [push(3), pop, push(3), back]);
}

/// 2026-05: by all 64 bits, whoever adds them; an integer of the same bits is another constant.
#[test]
fn floats_share_by_their_bits() {
    const FLOAT: u64 = 3;
    const INTEGER: u64 = 2;
    let delivery = delivered(&piece("2026-05 floats by their bits"));
    let floats = [0.5f64.to_bits(), 0, 1 << 63, 0x7FF8_0000_0000_0000, 0x7FF8_0000_0000_0001];
    let [half, zero, minus_zero, nan, other_nan] = floats.map(|bits| (FLOAT, bits));
    let pool = [half, zero, minus_zero, (INTEGER, 0), (INTEGER, 1 << 63), nan, other_nan];
    assert_eq!(delivery.constants[3..10], pool);
    assert_eq!(delivery.constants.len(), 11);
    assert_eq!(delivery.context[0].2, Some(3));
    let pushed = words(&delivery.functions[0]);
    assert_eq!(pushed[..12], [3, 4, 5, 6, 7, 8, 9, 9, 8, 5, 4, 3].map(|index| instruction(PUSH, index)));
}

#[test]
fn g_lone_this() {
    let function = only_function("g lone this");
    assert_eq!(words(&function), [instruction(LOCAL_GET, 0), instruction(RETURN, 0)]);
    assert_eq!(function.locals, 0);
}

#[test]
fn h_for_with_break() {
    let code = words(&only_function("h for with break"));
    assert_eq!(code.len(), 15);
    assert_eq!(code[7], instruction(JUMP_IF, 13));
    assert_eq!(code[10], instruction(JUMP, 13));
}

#[test]
fn i_not_equal() {
    let code = words(&only_function("i not equal"));
    assert_eq!(code[2..4], [instruction(OPERATION, 5), instruction(NOT, 0)]);
}

#[test]
fn j_assignment_to_1() {
    assert_eq!(error_numbers("j assignment to 1"), [2]);
}

#[test]
fn k_implement_on_no_model() {
    assert_eq!(error_numbers("k implement on a function"), [9]);
    assert_eq!(error_numbers("k implement on an unknown name"), [10]);
}

const LISTING: &str = "\
1 1 4 0 1 0 1 0
2 0 1 1 0 0 0 3
3 0 0 2 6 7 0 0
3 0 1 2 6 82 0 4
3 0 2 2 6 2 0 0
3 0 3 2 6 81 0 6
3 0 4 2 6 2 0 0
3 0 5 3 5 5 0 0
4 0 0 0 0 0 0 0
4 1 1 0 0 0 0 1
4 2 1 0 0 0 0 0
4 3 6 0 0 0 0 0
8 0 3 0 0 0 0 0
10 0 0 0 0 0 0 2
";

#[test]
fn l_the_listing() {
    let made = String::from_utf8(listing(&real(&example()))).unwrap();
    assert!(made.lines().all(|line| line.len() == 73));
    let cut: Vec<String> = made.lines().map(|line| line.split_whitespace().collect::<Vec<_>>().join(" ")).collect();
    assert_eq!(cut.join("\n") + "\n", LISTING);
    assert_eq!(listing_of_column(&columns::lines(&example()), &UNLIMITED), made.into_bytes());
}

#[test]
fn the_example_needs_seven_entries_of_code_and_ends_with_six() {
    let free = compile(&example(), &UNLIMITED);
    assert_eq!((free.peaks()[0], free.reply.totals[0]), (7, 6));
    let mut lengths = [100; 12];
    lengths[0] = 14;
    assert_eq!(compile(&example(), &lengths).reply.row, 0);
    lengths[0] = 13;
    let full = compile(&example(), &lengths).reply;
    assert_eq!((full.row, full.place), (9, 1));
}

fn row(words: &[u64]) -> (u64, u64) {
    let reply = compile(words, &UNLIMITED).reply;
    (reply.row, reply.place)
}

#[test]
fn rows_2_to_4() {
    assert_eq!(row(&[]), (3, 0));
    assert_eq!(row(&[1, 1, 0]), (2, 0));
    assert_eq!(row(&deep(64)), (0, 0));
    assert_eq!(row(&deep(65)), (4, 64));
    assert_eq!(row(&with_text(MAX_TEXT)), (0, 0));
    assert_eq!(row(&with_text(MAX_TEXT + 1)), (3, 3));
    assert_eq!(row(&piece("an infix with one child is at fault itself")), (3, 3));
    assert_eq!(row(&piece("a child too many is at fault itself")), (3, 4));
    assert_eq!(row(&piece("two numbers of this")), (3, 6));
}

#[test]
fn as_many_records_as_there_may_be() {
    let names = vec![pieces::name_node(5); MAX_RECORDS - 2];
    let model = Node::new(12, 0, 3, names);
    let whole = flatten(&[pieces::document(2, vec![model])]);
    assert!(check(&whole).is_ok());
    let over = [whole, vec![1, 1, 0, 3]].concat();
    assert_eq!(check(&over).unwrap_err(), (2, 0));
}

#[test]
fn rows_5_to_8() {
    assert_eq!(row(&piece("book twice")), (5, 2));
    assert_eq!(row(&piece("books missing")), (6, 8));
    assert_eq!(row(&piece("self-include")), (8, 1));
    assert_eq!(row(&piece("ring of two and one behind")), (8, 3));
    assert_eq!(row(&piece("errors of the first faulty book only")), (7, 5));
    for name in ["books missing", "self-include", "ring of two and one behind", "errors of the first faulty book only"]
    {
        real(&piece(name));
    }
}

#[test]
fn the_panic_is_caught_and_foretold() {
    let words = piece("error 3 of an infix, where the Rust panics");
    assert_eq!(run(&records(&words)), Outcome::Panicked);
    let model = compile(&words, &UNLIMITED);
    assert!(model.panics);
    assert_eq!((model.reply.row, model.reply.place), (7, 2));
}

#[test]
fn every_small_piece_is_the_same_from_both() {
    for (name, words) in [bench(), more(), requests()].concat() {
        let model = compile(&words, &UNLIMITED);
        if model.reply.row == 0 || model.reply.row >= 6 {
            match run(&records(&words)) {
                Outcome::Answer(theirs) => assert_eq!(theirs, answer(&model.reply, &model.areas), "{name}"),
                Outcome::Panicked => assert!(model.panics, "{name}"),
                other => panic!("{name}: {other:?}"),
            }
        }
    }
}

#[test]
fn doublings_stop_at_the_area() {
    // The Rust would make 2^29 instructions of this; the reading stops where the area ends.
    let words = doubled(29);
    let mut lengths = UNLIMITED;
    lengths[0] = 20_000;
    let reply = compile(&words, &lengths).reply;
    assert_eq!((reply.row, reply.place), (9, 1));
    delivered(&doubled(10));
    assert_eq!(row(&body(&[], vec![])), (0, 0));
}
