//! docs/FORMAT.md says what the crate's enums say, and its example is a bundle.

use clover_back_end::{Area, Constant, ErrorKind, Infix, Kind, OpCode, Operation, Prefix, Text};
use std::collections::BTreeMap;
use std::path::Path;

fn page() -> String {
    let path = Path::new(env!("CARGO_MANIFEST_DIR")).join("../docs/FORMAT.md");
    std::fs::read_to_string(path).expect("the page")
}

/// The cells of the tables of a section, row by row, without backticks.
fn cells(section: &str) -> Vec<Vec<String>> {
    let page = page();
    let start = page.find(&format!("\n## {section}\n")).unwrap_or_else(|| panic!("no section {section}"));
    let rest = &page[start + 4..];
    let section = &rest[..rest.find("\n## ").unwrap_or(rest.len())];
    let rows = section.lines().filter(|line| line.starts_with("| "));
    let cell = |text: &str| text.trim().replace('`', "");
    rows.map(|row| row.trim_matches('|').split('|').map(cell).collect()).collect()
}

/// Pairs of a number and the cell after it, wherever they stand in a row.
fn pairs(section: &str) -> Vec<(u64, String)> {
    let rows = cells(section);
    let each = rows.iter().flat_map(|row| row.windows(2));
    each.filter_map(|pair| Some((pair[0].parse().ok()?, pair[1].clone()))).collect()
}

/// The cell after the number is, or begins with, the word.
fn holds(pairs: &[(u64, String)], number: u64, word: &str) -> bool {
    pairs.iter().any(|(known, text)| *known == number && (text == word || text.starts_with(&format!("{word} "))))
}

#[test]
fn kinds_and_signs_are_those_of_the_crate() {
    let rows = cells("Records");
    let table: BTreeMap<u64, &Vec<String>> =
        rows.iter().filter(|row| row.len() == 5).filter_map(|row| Some((row[0].parse().ok()?, row))).collect();
    assert_eq!(
        table.keys().copied().collect::<Vec<_>>(),
        Kind::ALL.iter().map(|kind| kind.number()).collect::<Vec<_>>()
    );
    for &kind in Kind::ALL {
        let row = table[&kind.number()];
        assert_eq!(row[1], kind.word());
        assert_eq!(row[3] != "-", kind.has_position(), "{kind}");
        assert_eq!(row[4].contains("text") || row[4].contains("file"), kind.holds_text(), "{kind}");
    }
    let pairs = pairs("Records");
    let other = |word: &'static str| if word.starts_with("another") { "any other" } else { word };
    assert!(Infix::ALL.iter().all(|infix| holds(&pairs, infix.number(), other(infix.word()))));
    for prefix in Prefix::ALL {
        let text = format!("{} {}", prefix.number(), other(prefix.word()));
        assert!(table[&Kind::Prefix.number()][4].contains(&text), "{text}");
    }
}

#[test]
fn opcodes_operations_and_constants_are_those_of_the_crate() {
    let found = pairs("Instructions");
    assert!(OpCode::ALL.iter().all(|opcode| holds(&found, opcode.number(), opcode.word())));
    assert!(Operation::ALL.iter().all(|operation| holds(&found, operation.number(), operation.word())));
    let constants = [
        (Constant::Null, "null"),
        (Constant::Boolean(true), "boolean"),
        (Constant::Integer(1), "integer"),
        (Constant::Float(1.0), "float"),
        (Constant::Text(Text::MAIN), "text"),
        (Constant::Model(0), "model"),
        (Constant::Function(0), "function"),
    ];
    let found = pairs("The twelve areas");
    assert!(constants.iter().all(|(constant, word)| holds(&found, constant.kind(), word)));
}

#[test]
fn areas_rows_and_errors_are_those_of_the_crate() {
    let rows = cells("The twelve areas");
    for &area in Area::ALL {
        let wanted = [format!("{} {area}", area.number()), area.entry_words().to_string()];
        assert!(rows.iter().any(|row| row.len() == 3 && row[..2] == wanted), "{wanted:?}");
    }
    let found = pairs("Errors");
    assert!(ErrorKind::ALL.iter().all(|kind| holds(&found, kind.number(), kind.word())));
}

#[cfg(feature = "link")]
#[test]
fn the_example_is_a_bundle() {
    use clover_back_end::{columns_to_records, compile, Areas, LINE_BYTES};
    let page = page();
    let lines = page.lines().filter_map(|line| line.strip_prefix("    ")).filter(|line| line.len() == LINE_BYTES - 1);
    let file: String = lines.map(|line| format!("{line}\n")).collect();
    let tree = columns_to_records(file.as_bytes()).expect("a column file");
    let mut areas = Areas::for_tree(&tree);
    let program = compile(&tree, &mut areas).expect("no refusal");
    assert_eq!((tree.len() / 4, program.totals().code, program.totals().functions), (8, 6, 1));
}

#[cfg(feature = "link")]
#[test]
fn rows_have_their_words() {
    use clover_back_end::Refusal;
    let found = pairs("Refusals");
    let words =
        ["bad line", "bad length", "bad shape", "too deep", "book twice", "book missing", "book faulty", "ring"];
    assert!((1..).zip(words).all(|(row, word)| holds(&found, row, word)) && holds(&found, 9, "area full"));
    let deep = clover_back_end::check(&[]).expect_err("row 3");
    let commits = [Refusal::StaleTrial { bundles: 3 }, Refusal::TotalsDiffer];
    assert!([deep].iter().chain(&commits).all(|refusal| holds(&found, refusal.row(), refusal.word())));
}

/// The example of 'Errors in words' is what the library writes.
#[cfg(feature = "link")]
#[test]
fn the_example_of_errors_in_words_is_written() {
    use clover_back_end::{errors_in_words, Texts};
    let mut texts = Texts::new();
    let file = texts.intern("snow.clover");
    texts.intern("5\" \\\n");
    let table = texts.table();
    assert_eq!((table.places(), table.bytes()), (&[0, 4, 4, 11, 15, 5][..], &b"mainsnow.clover5\" \\\n"[..]));
    let at = |line: u64, column: u64| (line << 32) + column;
    let errors = [
        [1, at(12, 5), 40, 1],
        [5, at(3, 15), 35, 3],
        [5, at(4, 15), 33, u64::MAX],
        [2, at(7, 3), 39, 0],
        [11, 0, 0, 9],
    ];
    let lines = errors_in_words(&errors.concat(), file, &texts).expect("known errors");
    let shown: String = lines.lines().map(|line| format!("    {line}\n")).collect();
    assert!(page().contains(&format!("are\n\n{shown}\n")), "{shown}");
    let kinds: Vec<u64> = Kind::ALL.iter().filter(|kind| kind.holds_text()).map(|kind| kind.number()).collect();
    assert_eq!(kinds, [1, 11, 12, 13, 14, 15, 16, 30, 35, 40, 41]);
    assert!(page().contains("of kinds 1, 11 to 16, 30, 35, 40 and 41 a text"));
}

/// The examples of 'Laying on' and of 'Trial and commit', and the least program of 'A program saved'.
#[cfg(feature = "link")]
#[test]
fn the_examples_of_laying_on_are_so() {
    use clover_back_end::{Mode, Refusal, StandingProgram, Totals};
    let lines =
        |words: &[u64]| words.chunks(4).map(|record| format!("`{}`", spaced(record))).collect::<Vec<_>>().join(", ");
    let mut program = StandingProgram::compiled(&[1, 1, 0, 2], Mode::Present).expect("delivered");
    let totals = |program: &StandingProgram| (program.totals().constants, program.totals().books);
    // Beside these the number of bundles, 1.
    assert_eq!((totals(&program), program.totals().words().iter().sum::<u64>()), ((3, 1), 5));
    let missing = [1, 2, 0, 3, 11, 1, 0, 8];
    let refusal = program.lay_on(&missing, Mode::Present).expect_err("file 8 is missing");
    assert_eq!((refusal, totals(&program)), (Refusal::BookMissing { file: Text::from_number(8) }, (3, 1)));
    let including = [1, 2, 0, 3, 11, 1, 0, 2];
    program.lay_on(&including, Mode::Present).expect("delivered");
    assert_eq!((totals(&program), program.program().words(Area::Books)), ((3, 2), &[2, 3][..]));
    let page = page();
    assert!(page.contains(&format!("The bundle {}, file 3 with", lines(&including))), "{}", lines(&including));
    assert!(page.contains(&format!("The bundle {}\nis refused", lines(&missing))), "{}", lines(&missing));
    // 'Trial and commit': constants, books and bundles.
    let mut program = StandingProgram::compiled(&[1, 1, 0, 2], Mode::Present).expect("delivered");
    let three = |totals: Totals| [totals.constants, totals.books, totals.bundles];
    let spelt = |[constants, books, bundles]: [u64; 3]| format!("{constants}, {books} and {bundles}");
    let trial = program.trial(&including, Mode::Present).expect("it would be delivered");
    let answered = format!("answers the totals {} (constants, books, bundles)", spelt(three(trial.totals())));
    assert!(page.contains(&answered) && program.program().words(Area::Books) == [2], "{answered}");
    program.commit(&including, Mode::Present, trial).expect("delivered");
    let answered = format!("the commit with these totals answers {}.", spelt(three(program.totals())));
    assert!(page.contains(&answered), "{answered}");
    let least = StandingProgram::least().to_words();
    let parts = [&least[..1], &least[1..16], &least[16..]].map(|part| format!("`{}`", spaced(part))).join(", ");
    assert!(page.contains(&format!("The least program is {parts}.")), "{parts}");
}

#[cfg(feature = "link")]
fn spaced(words: &[u64]) -> String {
    words.iter().map(u64::to_string).collect::<Vec<_>>().join(" ")
}
