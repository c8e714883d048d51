//! The converters, the ways of constant tables and the shape check of the linked library, and why they refuse.
#![cfg(feature = "link")]

use clover_back_end::records::{Records, RECORD_WORDS};
use clover_back_end::{check, columns_to_records, records_to_columns, records_to_table, table_to_records};
use clover_back_end::{LineFault, Position, Refusal, ShapeFault, Text, LINE_BYTES};
use std::path::Path;

fn tree() -> Records {
    let mut tree = Records::new();
    tree.document(Text::from_number(2), |book| {
        let f = Text::from_number(3).at(Position::new(1, 10));
        book.function(f).body(|body| body.expression(|slot| slot.integer(i64::MIN, Position::new(2, 5))));
    });
    tree
}

#[test]
fn records_come_back_from_their_file() {
    let tree = tree();
    assert_eq!(check(tree.words()), Ok(()));
    let file = records_to_columns(tree.words()).expect("good records");
    assert_eq!(file.len(), 4 * LINE_BYTES);
    assert!(file.ends_with(b" -9223372036854775808\n"));
    assert_eq!(columns_to_records(&file), Ok(tree.words().to_vec()));
}

#[test]
fn refusals_have_row_place_and_reason() {
    assert_eq!(check(&[1, 1, 0]), Err(Refusal::BadLength));
    assert_eq!(check(&[]), Err(Refusal::BadShape { record: 0, reason: Some(ShapeFault::NoRecords) }));
    let reason = Some(ShapeFault::SpanTooLong { span: 2, left: 1 });
    assert_eq!(check(&[1, 1, 0, 2, 1, 2, 0, 3]), Err(Refusal::BadShape { record: 1, reason }));
    let reason = Some(LineFault::Length(7));
    assert_eq!(columns_to_records(b"no line"), Err(Refusal::BadLine { line: 1, reason }));
    let reason = Some(ShapeFault::UnknownKind(7));
    assert_eq!(records_to_columns(&[7; 4]), Err(Refusal::BadShape { record: 0, reason }));
    let file = records_to_columns(tree().words()).expect("good records");
    let doubled = [&file[..LINE_BYTES], &file[..LINE_BYTES]].concat();
    let reason = Some(ShapeFault::SpanTooLong { span: 4, left: 2 });
    assert_eq!(columns_to_records(&doubled), Err(Refusal::BadShape { record: 0, reason }));
}

fn example(name: &str) -> Vec<u8> {
    let folder = Path::new(env!("CARGO_MANIFEST_DIR")).join("../examples");
    std::fs::read(folder.join(format!("{name}.col"))).expect("an example")
}

/// Every word of the examples spoilt in several ways: whatever is refused has a reason, and no record
/// of a tree that passes has one.
#[test]
fn every_refused_record_has_a_reason() {
    let mut refused = 0;
    for name in ["snow", "combination", "faulty"] {
        let good = columns_to_records(&example(name)).expect("a column file");
        for at in 0..good.len() {
            for word in [0, 1, 2, 7, 14, 25, 32, 40, 43, 49, good[at] + 1, 1 << 20, 1 << 40, u64::MAX] {
                let mut tree = good.clone();
                tree[at] = word;
                match check(&tree) {
                    Err(Refusal::BadShape { record, reason: None }) => panic!("{name}: word {at} is {word}: {record}"),
                    Err(_) => refused += 1,
                    Ok(()) => {}
                }
            }
        }
    }
    assert!(refused > 3000, "{refused}");
}

/// The same of the bytes of a line: each fault is found again.
#[test]
fn every_refused_line_has_a_reason() {
    let good = example("snow");
    for at in 0..4 * LINE_BYTES {
        for byte in *b" 0-9\nx" {
            let mut file = good.clone();
            file[at] = byte;
            if let Err(Refusal::BadLine { line, reason: None }) = columns_to_records(&file) {
                panic!("byte {at} is {byte}: line {line} has no reason");
            }
        }
    }
    assert_eq!(columns_to_records(&good).expect("a column file").len() / RECORD_WORDS, good.len() / LINE_BYTES);
}

#[test]
fn a_table_comes_back_with_its_file() {
    let line = |text: u64, kind: u64, value: &str| format!("{text:>8}{kind:>4}{value:>21}\n");
    let table = [line(3, 2, "-9223372036854775808"), line(4, 3, "4608758678669597082")].concat();
    let file = Text::from_number(5);
    let records = table_to_records(table.as_bytes(), file).expect("on its form");
    let integer = [33, 1, 0, 1 << 63];
    assert_eq!(records[..4], [1, 7, 0, 5]);
    assert_eq!(records[12..16], integer);
    assert_eq!(records[24..], [34, 1, 0, 1.35f64.to_bits()]);
    assert_eq!(records_to_table(&records), Ok((table.clone().into_bytes(), file)));
    assert_eq!(table_to_records(b"", file), Ok(vec![1, 1, 0, 5]));
    assert_eq!(
        table_to_records(&table.as_bytes()[1..], file).map_err(|refusal| (refusal.row(), refusal.place())),
        Err((1, 1))
    );
    let no_text = table_to_records(b"", Text::from_number(0));
    assert_eq!(no_text.map_err(|refusal| (refusal.row(), refusal.place())), Err((3, 0)));
}

#[test]
fn other_documents_are_no_tables() {
    let refused = |words: &[u64]| records_to_table(words).map_err(|refusal| (refusal.row(), refusal.place()));
    assert_eq!(refused(&[1, 2, 0, 5, 10, 1, 0, 0]), Err((10, 0)));
    assert_eq!(refused(&[1, 1, 0, 5, 1, 1, 0, 6]), Err((10, 1)));
    let refusal = records_to_table(&[1, 2, 0, 5, 10, 1, 0, 0]).expect_err("no table");
    assert_eq!(refusal.to_string(), "not a table: up to record 0 no table agrees");
}
