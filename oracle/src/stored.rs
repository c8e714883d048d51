//! The stored cases of the program `listing`: column files, one or more for each item that must be
//! shown. What a case shows is read off the case itself, so that no item is there in name alone.

use crate::areas::{answer, AREAS, UNLIMITED};
use crate::columns::{lines, read_words, LINE_BYTES, WIDTHS};
use crate::listing::{self, listing, printed, program_lengths, AREA_ENTRIES, INPUT_BYTES, OUTPUT_BYTES};
use crate::model::compile;
use crate::pieces::*;
use crate::records::{flatten, kind, records, Node, Record, MAX_LEVEL, MAX_TEXT};
use std::collections::BTreeSet;

/// The books of the longest input: each but the root takes a document and an include.
const MOST_BOOKS: u64 = 630;

pub struct Case {
    pub name: String,
    /// The column file.
    pub file: Vec<u8>,
}

/// Areas that an input of the program can fill, and those of which it can then ask one entry more.
///
/// - Of 8 it can not: each public name has its context local, and 7 is met first.
/// - 3 is never full: a function takes two entries of 1, or five records where error 3 leaves it one.
/// - 4 is never full: a model takes an entry of 2, where three stand already.
/// - 10 is never full: a break takes an entry of 1, behind at least one other.
/// - 12 is never full: a book takes a document and, but for the root, an include.
const FILLED: [usize; 8] = [1, 2, 5, 6, 7, 8, 9, 11];
const EXCEEDED: [usize; 7] = [1, 2, 5, 6, 7, 9, 11];

/// Opcodes that the back end emits.
const OPCODES: [u64; 23] = [
    0x01, 0x02, 0x05, 0x06, 0x07, 0x08, 0x0C, 0x0D, 0x11, 0x12, 0x13, 0x14, 0x15, 0x16, 0x21, 0x22, 0x23, 0x32, 0x36,
    0x51, 0x52, 0x56, 0x57,
];

/// What the cases must show. Row 2 and a number wider than its field are missing: a column file of
/// at most 1,260 lines has neither.
pub fn items() -> Vec<String> {
    let fixed = [
        "01's example",
        "a file of no bytes",
        "level 64, delivered",
        "level 65, row 4",
        "text 1,048,575, delivered",
        "text 1,048,576, row 3",
        "self-include, row 8",
        "ring of two, row 8",
        "two loops, breaks, rescue, implement and apply in one book",
        "input of 65,520 bytes, delivered",
        "input of 65,521 bytes",
        "input of 1,261 records",
        "delivery of 885 lines",
        "delivery of 886 lines, row 9, place 0",
        "refusal of 885 lines",
        "refusal of 886 lines, row 9, place 0",
    ];
    let mut out: Vec<String> = fixed.map(str::to_string).to_vec();
    out.extend([0, 1, 3, 4, 5, 6, 7, 8, 9].map(|row| format!("row {row}")));
    out.extend((1..=11).map(|error| format!("error {error}")));
    out.extend(FILLED.map(|area| format!("area {area} exactly full")));
    out.extend(EXCEEDED.map(|area| format!("area {area} one entry short")));
    out.extend((0..=11).map(|section| format!("section {section}")));
    out.extend((0..=6).map(|kind| format!("constant of kind {kind}")));
    out.extend(OPCODES.map(|code| format!("opcode {code}")));
    out.extend(kind::ALL.iter().map(|kind| format!("record of kind {kind}")));
    out
}

/// The level of the deepest record.
fn depth(records: &[Record]) -> usize {
    let mut open: Vec<usize> = Vec::new();
    let mut deepest = 0;
    for (at, r) in records.iter().enumerate() {
        open.retain(|&end| end > at);
        open.push(at + r.span as usize);
        deepest = deepest.max(open.len());
    }
    deepest
}

/// Whether a document with file `from` includes `to`.
fn includes(records: &[Record], from: u64, to: u64) -> bool {
    let mut file = 0;
    records.iter().any(|r| {
        if r.kind == kind::DOCUMENT {
            file = r.value;
        }
        r.kind == kind::INCLUDE && file == from && r.value == to
    })
}

/// Whether one document has all that the issue names.
fn is_rich(records: &[Record]) -> bool {
    records.iter().enumerate().filter(|(_, r)| r.kind == kind::DOCUMENT).any(|(at, document)| {
        let inside = &records[at..at + document.span as usize];
        let count = |kind: u64| inside.iter().filter(|r| r.kind == kind).count();
        let once = [kind::RESCUE, kind::IMPLEMENT, kind::APPLY];
        count(kind::FOR) >= 2 && count(kind::BREAK) >= 2 && once.iter().all(|&kind| count(kind) > 0)
    })
}

/// The numbers of each printed line.
fn numbers(out: &[u8]) -> Vec<Vec<String>> {
    let text = std::str::from_utf8(out).expect("digits and blanks");
    text.lines().map(|line| line.split_ascii_whitespace().map(str::to_string).collect()).collect()
}

/// Row and place of what is printed, 0 and 0 for a delivery.
fn row(out: &[u8]) -> (u64, u64) {
    let first = &numbers(out)[0];
    let number = |i: usize| first[i].parse().expect("a number");
    if first[0] == "0" {
        (number(1), number(2))
    } else {
        (0, 0)
    }
}

/// What is seen in the records of a file and in their compiling.
fn shown_by_records(words: &[u64], row: u64, found: &mut BTreeSet<String>) {
    let list = records(words);
    let mut show = |condition: bool, item: String| {
        if condition {
            found.insert(item);
        }
    };
    let has_text = |text| list.iter().any(|r| kind::holds_text(r.kind) && r.value == text);
    show(depth(&list) == MAX_LEVEL && row == 0, "level 64, delivered".to_string());
    show(depth(&list) == MAX_LEVEL + 1 && row == 4, "level 65, row 4".to_string());
    show(has_text(MAX_TEXT) && row == 0, "text 1,048,575, delivered".to_string());
    show(has_text(MAX_TEXT + 1) && row == 3, "text 1,048,576, row 3".to_string());
    if matches!(row, 1..=5) {
        return;
    }
    let root = list[0].value;
    let other = list.iter().find(|r| r.kind == kind::DOCUMENT && r.value != root);
    let is_ring = other.is_some_and(|r| includes(&list, root, r.value) && includes(&list, r.value, root));
    show(includes(&list, root, root) && row == 8, "self-include, row 8".to_string());
    show(is_ring && row == 8, "ring of two, row 8".to_string());
    show(is_rich(&list) && row == 0, "two loops, breaks, rescue, implement and apply in one book".to_string());
    if row == 6 {
        return;
    }
    list.iter().for_each(|r| show(true, format!("record of kind {}", r.kind)));
    let (run, free) = (compile(words, &program_lengths()), compile(words, &UNLIMITED));
    for area in 1..=AREAS {
        let full = run.peaks()[area - 1] == AREA_ENTRIES as u64;
        let over = free.peaks()[area - 1] == AREA_ENTRIES as u64 + 1;
        show(full && run.reply.row != 9, format!("area {area} exactly full"));
        show(over && (run.reply.row, run.reply.place) == (9, area as u64), format!("area {area} one entry short"));
    }
    let whole = listing(&answer(&run.reply, &run.areas));
    let (count, cut) = (whole.len() / listing::LINE_BYTES, OUTPUT_BYTES / listing::LINE_BYTES);
    let word = if run.reply.row == 0 { "delivery" } else { "refusal" };
    show(count == cut, format!("{word} of 885 lines"));
    show(count == cut + 1, format!("{word} of 886 lines, row 9, place 0"));
}

impl Case {
    fn new(name: impl Into<String>, file: Vec<u8>) -> Case {
        Case { name: name.into(), file }
    }

    pub fn out(&self) -> Vec<u8> {
        printed(&self.file)
    }

    /// The words of the file, if every line keeps to the form.
    pub fn words(&self) -> Option<Vec<u64>> {
        read_words(&self.file).ok()
    }

    /// The line of the index behind the file's name.
    pub fn line(&self) -> String {
        let out = self.out();
        let (row, place) = row(&out);
        let count = out.len() / listing::LINE_BYTES;
        format!("{}: row {row}, place {place}, {count} line{}", self.name, if count == 1 { "" } else { "s" })
    }

    /// The items that this case shows.
    pub fn shows(&self) -> BTreeSet<String> {
        let out = self.out();
        let (row, _) = row(&out);
        let mut found = BTreeSet::from([format!("row {row}")]);
        for line in numbers(&out) {
            found.insert(format!("section {}", line[0]));
            match line[0].as_str() {
                "3" => found.insert(format!("opcode {}", line[5])),
                "4" => found.insert(format!("constant of kind {}", line[2])),
                "11" => found.insert(format!("error {}", line[2])),
                _ => false,
            };
        }
        let mut show = |condition: bool, item: &str| {
            if condition {
                found.insert(item.to_string());
            }
        };
        show(self.file.is_empty(), "a file of no bytes");
        show(self.file == lines(&example()), "01's example");
        show(self.file.len() == INPUT_BYTES && row == 0, "input of 65,520 bytes, delivered");
        show(self.file.len() == INPUT_BYTES + 1, "input of 65,521 bytes");
        show(self.file.len() == INPUT_BYTES + LINE_BYTES, "input of 1,261 records");
        if self.file.len() <= INPUT_BYTES {
            if let Some(words) = self.words().filter(|words| !words.is_empty()) {
                shown_by_records(&words, row, &mut found);
            }
        }
        found
    }
}

// Bundles at the limits of the program.

/// File 2 with these definitions.
fn book(definitions: Vec<Node>) -> Vec<u8> {
    lines(&flatten(&[document(2, definitions)]))
}

/// A definition with error 10: the book is compiled to its end and then refused in one line.
fn fault() -> Node {
    named(kind::IMPLEMENT, MAX_TEXT, vec![])
}

fn array(values: Vec<Node>) -> Node {
    Node::new(kind::ARRAY, at(4, 4), 0, values)
}

fn method(name: u64, children: Vec<Node>) -> Node {
    Node::new(kind::FUNCTION, at(2, 10), name, children)
}

fn this(text: u64) -> Node {
    Node::leaf(kind::THIS_PARAMETER, at(1, 12), text)
}

/// A function that needs so many entries of code: compound targets and an array of nulls.
fn code(entries: usize) -> Node {
    // Doubled seven times they take 890, then come a Pop, Array and a Pop.
    let nulls = vec![leaf(kind::NULL, 0); entries - 893];
    function(3, &[], vec![statement(doubling(7)), statement(array(nulls))])
}

/// Public models, each a constant and a context local, and public functions with error 8, which have no constant.
fn public_names(models: u64, functions: u64) -> Vec<Node> {
    let model = |i| named(kind::PUBLIC_MODEL, 100 + i, vec![]);
    let function = |i| named(kind::PUBLIC_FUNCTION, 5000 + i, vec![this(7)]);
    (0..models).map(model).chain((0..functions).map(function)).collect()
}

fn properties(count: u64) -> Node {
    named(kind::MODEL, 3, (0..count).map(|i| name_node(100 + i)).collect())
}

/// A model with one property and this many errors 6.
fn property_errors(count: usize) -> Node {
    named(kind::MODEL, 3, vec![name_node(4); count + 1])
}

/// Ten models with the same hundred methods, downward by name, and so many more for the last model.
fn methods(more: u64) -> Vec<Node> {
    let model = |i: u64| named(kind::MODEL, 10 + i, vec![]);
    let own = (0..100).map(|i| method(200 - i, vec![])).collect();
    let last = (0..more).map(|i| method(300 + i, vec![])).collect();
    let mut out: Vec<Node> = (0..10).map(model).collect();
    out.push(named(kind::IMPLEMENT, 10, own));
    out.extend((1..10).map(|i| apply(10, 10 + i)));
    out.push(named(kind::IMPLEMENT, 19, last));
    out
}

/// 999 parameters and two loops, one after the other or one in the other.
fn scope_names(is_nested: bool) -> Node {
    let parameters: Vec<u64> = (0..999).map(|i| 100 + i).collect();
    let inner = for_node(5, identifier(100), vec![]);
    let body = if is_nested {
        vec![for_node(4, identifier(100), vec![inner])]
    } else {
        vec![for_node(4, identifier(100), vec![]), inner]
    };
    function(3, &parameters, body)
}

/// As many books as an input can have, a function in the root, and bare documents that none needs.
fn many_books(unneeded: u64) -> Vec<u8> {
    let mut definitions: Vec<Node> = (1..MOST_BOOKS).map(|i| include(10 + i, &[])).collect();
    definitions.push(function(3, &[], vec![]));
    let mut documents = vec![document(2, definitions)];
    documents.extend((1..MOST_BOOKS + unneeded).map(|i| document(10 + i, vec![])));
    lines(&flatten(&documents))
}

fn limits() -> Vec<Case> {
    let with_fault = |mut definitions: Vec<Node>| {
        definitions.push(fault());
        book(definitions)
    };
    let one_byte_more = [many_books(0), b"\n".to_vec()].concat();
    let breaks = |count| function(3, &[4], vec![for_node(5, identifier(4), vec![break_node(); count])]);
    vec![
        Case::new("1,000 entries of code, then error 10", with_fault(vec![code(1000)])),
        Case::new("1,001 entries of code", with_fault(vec![code(1001)])),
        Case::new("1,000 entries of code, a listing too long", book(vec![code(1000)])),
        Case::new("1,000 constants, context locals and public names, then error 8", book(public_names(997, 3))),
        Case::new("1,001 constants: the 998th model has no room for its own", book(public_names(998, 2))),
        Case::new("1,001 context locals: the public name 1,001 has no room for its own", book(public_names(997, 4))),
        Case::new(
            "501 functions: the last has no room for its code",
            book((0..501).map(|i| function(100 + i, &[], vec![])).collect()),
        ),
        Case::new("1,000 properties, then error 10", with_fault(vec![properties(1000)])),
        Case::new("1,001 properties", with_fault(vec![properties(1001)])),
        Case::new("1,000 methods, then error 10", with_fault(methods(0))),
        Case::new("1,001 methods", with_fault(methods(1))),
        Case::new("1,000 scope names alive, 1,001 in all", book(vec![scope_names(false)])),
        Case::new("1,001 scope names alive", book(vec![scope_names(true)])),
        Case::new("987 breaks: no room for the code behind them", with_fault(vec![breaks(987)])),
        Case::new("1,000 errors, a listing too long", book(vec![property_errors(1000)])),
        Case::new("1,001 errors", book(vec![property_errors(1001)])),
        Case::new("884 errors, 885 lines", book(vec![property_errors(884)])),
        Case::new("885 errors, 886 lines, a listing too long", book(vec![property_errors(885)])),
        Case::new("877 properties, 885 lines", book(vec![properties(877)])),
        Case::new("878 properties, 886 lines, a listing too long", book(vec![properties(878)])),
        Case::new("630 books in 1,260 records, the longest input", many_books(0)),
        Case::new("one byte more than the longest input", one_byte_more),
        Case::new("one record more than the longest input", many_books(1)),
    ]
}

// Lines off their form.

/// 01's example with the field of a line, both from 0, in other bytes.
fn with_field(line: usize, field: usize, text: &str) -> Vec<u8> {
    let mut file = lines(&example());
    let start = line * LINE_BYTES + WIDTHS[..field].iter().sum::<usize>();
    assert_eq!(text.len(), WIDTHS[field]);
    file[start..start + text.len()].copy_from_slice(text.as_bytes());
    file
}

/// A function with one integer, whose column has these bytes.
fn with_integer(text: &str) -> Vec<u8> {
    let mut file = lines(&body(&[], vec![statement(leaf(kind::INTEGER, 7))]));
    let end = file.len() - 1;
    file[end - 21..end].copy_from_slice(format!("{text:>21}").as_bytes());
    file
}

fn bad_lines() -> Vec<Case> {
    let whole = lines(&example());
    let cut = |end: usize| whole[..end].to_vec();
    let inserted = |at: usize, byte: u8| [&whole[..at], &[byte], &whole[at..]].concat();
    let twice = {
        let mut file = with_field(5, 0, "  3x");
        file[3 * LINE_BYTES] = b'\t';
        file
    };
    vec![
        Case::new("bad line: a letter in a kind", with_field(1, 0, "  1x")),
        Case::new("bad line: a span of blanks", with_field(1, 1, "        ")),
        Case::new("bad line: a leading zero", with_field(1, 1, "      07")),
        Case::new("bad line: a blank behind a number", with_field(1, 1, "      7 ")),
        Case::new("bad line: a blank inside a number", with_field(1, 3, "      1 0")),
        Case::new("bad line: a plus", with_field(1, 3, "      +10")),
        Case::new("bad shape: line 100,000,000", with_field(1, 2, "100000000")),
        Case::new("line 99,999,999 and column 99,999,999", with_both(1, " 99999999 99999999")),
        Case::new("bad shape: column 100,000,000", with_field(1, 3, "100000000")),
        Case::new("bad shape: line and column 999,999,999", with_both(1, "999999999999999999")),
        Case::new("bad line: a line of ten digits", ten_digits()),
        Case::new("bad line: fields of six, as they were before", old_width()),
        Case::new("bad line: a value past its 64 bits", with_field(0, 4, " 18446744073709551616")),
        Case::new("bad shape: the greatest value of 64 bits", with_field(0, 4, " 18446744073709551615")),
        Case::new("bad line: a sign that is no integer's", with_field(0, 4, "                   -2")),
        Case::new("bad line: an integer -0", with_integer("-0")),
        Case::new("bad line: a sign alone", with_integer("-")),
        Case::new("bad line: an integer -9,223,372,036,854,775,809", with_integer("-9223372036854775809")),
        Case::new("bad line: an integer 9,223,372,036,854,775,808", with_integer("9223372036854775808")),
        Case::new("the smallest integer", with_integer("-9223372036854775808")),
        Case::new("the greatest integer", with_integer("9223372036854775807")),
        Case::new("bad line: the last without its newline", cut(whole.len() - 1)),
        Case::new("bad line: a rest shorter than a line", cut(whole.len() - 20)),
        Case::new("bad line: a carriage return ahead of the newline", inserted(LINE_BYTES - 1, b'\r')),
        Case::new("bad line: an empty line between two", inserted(2 * LINE_BYTES, b'\n')),
        Case::new("bad line: an empty line at the end", inserted(whole.len(), b'\n')),
        Case::new("bad line: nothing but a newline", b"\n".to_vec()),
        Case::new("bad line: nothing but a line of blanks", [[b' '; LINE_BYTES - 1].as_slice(), b"\n"].concat()),
        Case::new("bad line: nothing but a comment", b"# a book\n".to_vec()),
        Case::new("bad line: a zero byte", with_field(2, 4, "\0                   4")),
        Case::new("bad line: the first of two, a tab", twice),
    ]
}

/// Line and column of a record together.
fn with_both(line: usize, text: &str) -> Vec<u8> {
    let mut file = lines(&example());
    let start = line * LINE_BYTES + WIDTHS[0] + WIDTHS[1];
    file[start..start + WIDTHS[2] + WIDTHS[3]].copy_from_slice(text.as_bytes());
    file
}

/// A line of the file with one digit more than its field.
fn ten_digits() -> Vec<u8> {
    let mut file = lines(&example());
    let start = LINE_BYTES + WIDTHS[0] + WIDTHS[1];
    file.splice(start..start + WIDTHS[2], *b"1000000000");
    file
}

/// The file with line and column in 6 bytes each.
fn old_width() -> Vec<u8> {
    let narrow = |line: &[u8]| [&line[..12], &line[15..21], &line[24..]].concat();
    lines(&example()).chunks(LINE_BYTES).flat_map(narrow).collect()
}

// Broken trees, and which refusal comes first.

fn bad_shapes() -> Vec<Case> {
    let of = |name: &str, words: &[u64]| Case::new(format!("bad shape: {name}"), lines(words));
    vec![
        of("a kind that is none", &[1, 2, 0, 2, 18, 1, 0, 3]),
        of("no document first", &[14, 1, 0, 3]),
        of("a document in a document", &[1, 2, 0, 2, 1, 1, 0, 3]),
        of("a span of 0", &[1, 2, 0, 2, 14, 0, 0, 3]),
        of("a span past its parent's end", &[1, 2, 0, 2, 14, 2, 0, 3, 1, 1, 0, 4]),
        of("a span past the last record", &[1, 3, 0, 2, 14, 1, 0, 3]),
        of("a position on a statement", &[1, 4, 0, 2, 14, 3, 0, 3, 25, 2, 1, 0, 32, 1, 0, 0]),
        of("a value on a null", &[1, 4, 0, 2, 14, 3, 0, 3, 25, 2, 0, 0, 32, 1, 0, 1]),
        of("text 0", &[1, 1, 0, 0]),
        of("file 1,048,576", &[1, 1, 0, MAX_TEXT + 1]),
        of("boolean 2", &[1, 4, 0, 2, 14, 3, 0, 3, 25, 2, 0, 0, 36, 1, 0, 2]),
        of("infix 20", &[1, 6, 0, 2, 14, 5, 0, 3, 25, 4, 0, 0, 39, 3, 0, 20, 32, 1, 0, 0, 32, 1, 0, 0]),
        of("a parameter behind a statement", &[1, 4, 0, 2, 14, 3, 0, 3, 21, 1, 0, 0, 40, 1, 0, 4]),
        of("an include with one name", &[1, 3, 0, 2, 11, 2, 0, 3, 40, 1, 0, 4]),
    ]
}

fn orders() -> Vec<Case> {
    let bundle = |documents: &[Node]| lines(&flatten(documents));
    let deep_and = |level: usize, kind: u64| {
        let mut words = deep(65);
        words[4 * (level - 1)] = kind;
        lines(&words)
    };
    let behind_shape = [lines(&[1, 2, 0, 2, 18, 1, 0, 3]), b"\n".to_vec()].concat();
    let missing_and_twice = bundle(&[document(2, vec![include(9, &[])]), document(3, vec![]), document(3, vec![])]);
    let ring = |definitions: Vec<Node>| {
        let root = document(5, vec![include(3, &[]), include(4, &[])]);
        bundle(&[root, document(4, definitions), document(3, vec![include(5, &[])])])
    };
    let over_behind = |first: Node| bundle(&[document(3, vec![include(2, &[]), code(1001)]), document(2, vec![first])]);
    vec![
        Case::new("a bad line behind a bad shape", behind_shape),
        Case::new("level 65 with a bad kind", deep_and(65, 99)),
        Case::new("a bad kind ahead of level 65", deep_and(64, 99)),
        Case::new("a bad kind behind level 65", lines(&[deep(65), vec![99, 1, 0, 0]].concat())),
        Case::new("a book twice and another missing", missing_and_twice),
        Case::new(
            "a book missing and one faulty",
            bundle(&[document(3, vec![include(9, &[]), include(2, &[])]), document(2, vec![fault()])]),
        ),
        Case::new("a ring and a book ahead of it that is faulty", ring(vec![fault()])),
        Case::new("a ring and a book ahead of it", ring(vec![])),
        Case::new("ring of two", bundle(&[document(2, vec![include(3, &[])]), document(3, vec![include(2, &[])])])),
        Case::new("self-include behind a definition", book(vec![function(3, &[], vec![]), include(2, &[(3, 4)])])),
        Case::new("area full in a book with an error before it", book(vec![fault(), code(1001)])),
        Case::new("area full in the book behind a faulty one", over_behind(fault())),
        Case::new("area full in the second book", over_behind(function(3, &[], vec![]))),
    ]
}

/// Two loops, breaks, rescue, implement and apply, with the rest of the language around them.
fn rich() -> Vec<u8> {
    let if_break = |text| statement(if_node(identifier(text), vec![vec![break_node()]]));
    let this_get = |text| get(kind::INSTANCE_GET, leaf(kind::THIS, 0), leaf(kind::STRING, text));
    let count = method(
        40,
        vec![
            this(7),
            name_node(4),
            for_node(5, identifier(4), vec![statement(infix(6, this_get(30), identifier(5))), if_break(5)]),
            leaf(kind::RESCUE, 0),
            statement(this_get(31)),
            leaf(kind::RETURN, 0),
        ],
    );
    let call = Node::new(kind::CALL, at(6, 9), 0, vec![identifier(20), leaf(kind::INTEGER, -3i64 as u64)]);
    let main = function(
        1,
        &[],
        vec![
            locals(kind::LOCAL, vec![(8, call), (9, absent())]),
            for_node(
                5,
                identifier(6),
                vec![
                    for_node(9, identifier(5), vec![if_break(9), statement(infix(0, identifier(6), identifier(9)))]),
                    statement(if_node(identifier(8), vec![vec![break_node()], vec![leaf(kind::RETURN, 0)]])),
                ],
            ),
            leaf(kind::RESCUE, 0),
            statement(array(vec![identifier(8), identifier(50), leaf(kind::STRING, 50)])),
        ],
    );
    book(vec![
        locals(kind::LOCAL_DEFINITION, vec![(6, leaf(kind::FLOAT, 0.5f64.to_bits())), (10, absent())]),
        named(kind::PUBLIC_MODEL, 20, vec![name_node(30), name_node(31)]),
        named(kind::MODEL, 21, vec![name_node(30)]),
        named(kind::IMPLEMENT, 20, vec![count, method(39, vec![])]),
        apply(20, 21),
        named(kind::IMPLEMENT, 21, vec![method(39, vec![this(7), statement(this_get(30))])]),
        main,
    ])
}

/// All cases, in the order of their numbers. Every piece that a column file can hold is one.
pub fn cases() -> Vec<Case> {
    let piece = |(name, words): (&str, Vec<u64>)| Case::new(format!("piece {name}"), lines(&words));
    let mut out: Vec<Case> = bench().into_iter().map(piece).collect();
    out.extend(
        more()
            .into_iter()
            .filter(|(_, words)| words.len() % 4 == 0)
            .map(|(name, words)| Case::new(name, lines(&words))),
    );
    out.push(Case::new("two loops, breaks, rescue, implement and apply", rich()));
    out.extend(bad_lines());
    out.extend(bad_shapes());
    out.extend(orders());
    out.extend(limits());
    out.extend(requests().into_iter().map(piece));
    out
}
