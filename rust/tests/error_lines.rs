//! Errors in words, by the linked library.
#![cfg(feature = "link")]

use clover_back_end::{calls, columns_to_records, errors_in_words, table_to_records};
use clover_back_end::{Area, Areas, Converted, ErrorKind, Infix, Kind, Position, Refusal, Text, Texts};
use std::path::Path;

const FILE: Text = Text::from_number(2);

/// An entry of area 11.
fn entry(error: ErrorKind, (line, column): (u32, u32), token: Kind, value: u64) -> [u64; 4] {
    [error.number(), Position::new(line, column).word(), token.number(), value]
}

fn ring(file: u64) -> [u64; 4] {
    [ErrorKind::Ring.number(), 0, 0, file]
}

/// 1 `main`, 2 `snow.clover`, 3 with every kind of escape.
fn texts() -> Texts {
    let mut texts = Texts::new();
    texts.intern("snow.clover");
    texts.intern("a\\b \"c\"\n\u{7f}\u{e4}");
    texts
}

#[test]
fn a_line_has_six_fields() {
    let errors = [
        entry(ErrorKind::VariableExists, (12, 5), Kind::Name, 1),
        entry(ErrorKind::ValueNotConstant, (Position::MOST, 0), Kind::String, 3),
        entry(ErrorKind::CanNotAssign, (1, 2), Kind::Infix, Infix::PlusAssign.number()),
        entry(ErrorKind::UnknownOperation, (0, 0), Kind::Integer, i64::MIN as u64),
        entry(ErrorKind::UnknownOperation, (0, 0), Kind::Float, 1 << 63),
        ring(3),
        ring(4),
    ];
    let lines = errors_in_words(&errors.concat(), FILE, &texts()).expect("known errors");
    let escaped = r#""a\\b \"c\"\010\127\195\164""#;
    let wanted = [
        r#"variable already exists, "snow.clover", 12, 5, 40, "main""#.to_string(),
        format!(r#"value in local definition can be constant only, "snow.clover", 99999999, 0, 35, {escaped}"#),
        r#"can not assign, "snow.clover", 1, 2, 39, 6"#.to_string(),
        r#"unknown operation, "snow.clover", 0, 0, 33, -9223372036854775808"#.to_string(),
        r#"unknown operation, "snow.clover", 0, 0, 34, 9223372036854775808"#.to_string(),
        format!("ring, {escaped}, 0, 0, 0, 0"),
        "ring, 4, 0, 0, 0, 0".to_string(),
    ];
    assert_eq!(lines.lines().collect::<Vec<_>>(), wanted);
    assert!(lines.ends_with('\n'));
}

/// Every message but the ring's is the crate's own word for the error.
#[test]
fn messages_are_those_of_the_crate() {
    for &kind in ErrorKind::ALL.iter().filter(|&&kind| kind != ErrorKind::Ring) {
        let line = errors_in_words(&entry(kind, (1, 1), Kind::Null, 0), FILE, &Texts::new()).expect("a known error");
        assert_eq!(line, format!("{kind}, 2, 1, 1, 32, 0\n"));
    }
}

#[test]
fn the_list_ends_at_its_zeros() {
    let unknown = [12, 0, 40, 1];
    assert_eq!(errors_in_words(&[], FILE, &texts()), Ok(String::new()));
    assert_eq!(errors_in_words(&[[0; 4], unknown].concat(), FILE, &texts()), Ok(String::new()));
    // A tail shorter than an entry is none.
    assert_eq!(errors_in_words(&unknown[..3], FILE, &texts()), Ok(String::new()));
}

#[test]
fn unknown_errors_are_refused_by_index() {
    let good = ring(2);
    for unknown in [[12, 0, 40, 1], [0, 0, 0, 1], [4, 0, 48, 0], [4, 1 << 31, 23, 0], [1, 0, 40, 0], [11, 0, 0, 0]] {
        let list = [good, good, unknown, [99; 4]].concat();
        let refusal = errors_in_words(&list, FILE, &texts()).expect_err("row 3");
        assert_eq!(refusal, Refusal::UnknownError { index: 2 });
        assert_eq!((refusal.row(), refusal.place()), (3, 2));
    }
}

/// Texts longer than any guess.
#[test]
fn long_texts_are_written_whole() {
    let mut texts = texts();
    let long = texts.intern(&"\n".repeat(100_000));
    let lines = errors_in_words(&ring(long.number()), FILE, &texts).expect("a known error");
    assert_eq!(lines, format!("ring, \"{}\", 0, 0, 0, 0\n", "\\010".repeat(100_000)));
}

/// Any words may be starts and lengths; the output is overwritten whole, and nothing beside it.
#[test]
fn the_call_takes_any_table() {
    let errors = [ring(1), ring(2), ring(3)].concat();
    let table = [0, 4, u64::MAX, 2, 4, 0];
    let lines = b"ring, \"main\", 0, 0, 0, 0\nring, 2, 0, 0, 0, 0\nring, \"\", 0, 0, 0, 0\n";
    for room in [0, lines.len() - 1, lines.len(), lines.len() + 5] {
        let mut memory = vec![7; room + 8];
        let reply = calls::errors_in_words(&errors, u64::MAX, &table, b"main", &mut memory[4..room + 4]);
        assert_eq!((&memory[..4], &memory[room + 4..]), (&[7; 4][..], &[7; 4][..]));
        let out = &memory[4..room + 4];
        if room < lines.len() {
            assert_eq!(reply, Converted { number: 9, place: 13, total: 0 });
            assert_eq!(reply.line_bytes(), Err(Refusal::LineBufferShort));
            assert!(out.iter().all(|&byte| byte == 0));
        } else {
            assert_eq!(reply.line_bytes(), Ok(lines.len()));
            assert_eq!(&out[..lines.len()], lines);
            assert!(out[lines.len()..].iter().all(|&byte| byte == 0));
        }
    }
    let mut out = [7; 9];
    let reply = calls::errors_in_words(&[ring(1), [12; 4]].concat(), 2, &table, b"main", &mut out);
    assert_eq!((reply, out), (Converted { number: 3, place: 1, total: 0 }, [0; 9]));
}

/// What the compile call leaves in area 11, of a faulty book and of a ring.
#[test]
fn refused_bundles_have_their_lines() {
    let folder = Path::new(env!("CARGO_MANIFEST_DIR")).join("../examples");
    let read = |end: &str| std::fs::read_to_string(folder.join(format!("faulty.{end}"))).expect("an example");
    let tree = columns_to_records(read("col").as_bytes()).expect("a column file");
    let texts = Texts::from_lines(&read("texts")).expect("texts");
    let mut areas = Areas::for_tree(&tree);
    let refusal = areas.compile(&tree).expect_err("a faulty book");
    let Refusal::BookFaulty { file, errors } = refusal else { panic!("{refusal}") };
    let lines = errors_in_words(areas.words(Area::Errors), file, &texts).expect("known errors");
    assert_eq!(lines.lines().count(), errors.len());
    let shown = read("show");
    assert!(lines.lines().all(|line| shown.lines().any(|shown| shown == line)), "{lines}");

    let looped = [1, 2, 0, 2, 11, 1, 0, 2];
    let refusal = areas.compile(&looped).expect_err("a ring");
    assert_eq!(refusal.row(), 8);
    let lines = errors_in_words(areas.words(Area::Errors), Text::from_number(0), &texts).expect("known errors");
    assert_eq!(lines, "ring, \"faulty.clover\", 0, 0, 0, 0\n");

    // A delivery lists none.
    areas.compile(&table_to_records(b"", FILE).expect("no constants")).expect("a document alone");
    assert_eq!(errors_in_words(areas.words(Area::Errors), FILE, &texts), Ok(String::new()));
}
