//! Column files from the span calculator (02, 2026-02), both ways, as an independent reading of that
//! request: the reply and the whole output. Above each rule stands the sentence that it comes from.

use crate::random::Random;
use crate::records::{flatten, kind, words, Node, Record, MAX_RECORDS, MAX_TEXT};
use crate::shape::{check, Refusal};

const BAD_LINE: u64 = 1;
const BAD_LENGTH: u64 = 2;
const BAD_SHAPE: u64 = 3;
const AREA_FULL: u64 = 9;
const NOT_A_TABLE: u64 = 10;

/// Bytes of a line with its newline.
pub const LINE_BYTES: usize = 8 + 4 + 21 + 1;
/// Lines whose document is the longest that row 2 lets pass.
pub const MAX_LINES: usize = (MAX_RECORDS - 1) / 3;

/// What the way to records answers: row and place, and the records written.
#[derive(Clone, Copy, Debug, Default, PartialEq, Eq)]
pub struct Reply {
    pub number: u64,
    pub place: u64,
    pub total: u64,
}

/// What the way back answers: row and place, the lines written, and "its file number beside them (0 in
/// a refusal)".
#[derive(Clone, Copy, Debug, Default, PartialEq, Eq)]
pub struct Tabled {
    pub number: u64,
    pub place: u64,
    pub total: u64,
    pub file: u64,
}

/// "kind in 4 (2 integer, 3 float), .. integers signed and floats as bits".
#[derive(Clone, Copy, Debug, PartialEq, Eq)]
pub enum Value {
    Integer(i64),
    Float(u64),
}

/// One line of a table.
#[derive(Clone, Copy, Debug, PartialEq, Eq)]
pub struct Entry {
    pub text: u64,
    pub value: Value,
}

/// 01: "Texts, file names included, are numbers 1 to 1,048,575".
fn is_text(number: u64) -> bool {
    (1..=MAX_TEXT).contains(&number)
}

/// "lines of three right-justified columns: text number in 8, kind in 4 (2 integer, 3 float), value in
/// 21, integers signed and floats as bits".
pub fn line(entry: &Entry) -> String {
    match entry.value {
        Value::Integer(value) => format!("{:>8}{:>4}{:>21}\n", entry.text, 2, value),
        Value::Float(bits) => format!("{:>8}{:>4}{:>21}\n", entry.text, 3, bits),
    }
}

/// The entry whose line this is; none for "a line off this form, a text out of range too". Whatever a
/// line's columns seem to say (`007`, `+7`, `-0`, a tab), it is on the form only if it is the line that
/// the entry would be written as.
pub fn entry(bytes: &[u8]) -> Option<Entry> {
    let text = std::str::from_utf8(bytes).ok()?;
    let column = |from: usize, to: usize| -> Option<i128> { text.get(from..to)?.trim_start_matches(' ').parse().ok() };
    let name = u64::try_from(column(0, 8)?).ok().filter(|&name| is_text(name))?;
    let number = column(12, 33)?;
    let value = match column(8, 12)? {
        2 => Value::Integer(i64::try_from(number).ok()?),
        3 => Value::Float(u64::try_from(number).ok()?),
        _ => return None,
    };
    let entry = Entry { text: name, value };
    (line(&entry).as_bytes() == bytes).then_some(entry)
}

/// "Turn such a table into one document record with a local definition per line, all positions 0".
pub fn document(file: u64, entries: &[Entry]) -> Vec<Record> {
    let record = |kind, span, value| Record { kind, span, position: 0, value };
    let mut out = vec![record(kind::DOCUMENT, 1 + 3 * entries.len() as u64, file)];
    for entry in entries {
        out.push(record(kind::LOCAL_DEFINITION, 3, 0));
        out.push(record(kind::NAME, 1, entry.text));
        out.push(match entry.value {
            Value::Integer(value) => record(kind::INTEGER, 1, value as u64),
            Value::Float(bits) => record(kind::FLOAT, 1, bits),
        });
    }
    out
}

/// "Checks: row 1 for a line off this form, a text out of range too; row 2 past its limit; row 3, place
/// 0, for a file number that is no text." In 01's order: "1; 2; then 3".
fn forward(table: &[u8], file: u64) -> Result<Vec<Record>, Refusal> {
    let mut entries = Vec::new();
    for (number, bytes) in (1..).zip(table.split_inclusive(|&byte| byte == b'\n')) {
        entries.push(entry(bytes).ok_or((BAD_LINE, number))?);
    }
    // 01, row 2: "over 1,048,576 records".
    if 1 + 3 * entries.len() > MAX_RECORDS {
        return Err((BAD_LENGTH, 0));
    }
    if !is_text(file) {
        return Err((BAD_SHAPE, 0));
    }
    Ok(document(file, &entries))
}

/// A table to the words of its document, in an output of so many words.
pub fn table_to_records(table: &[u8], file: u64, out_len: usize) -> (Reply, Vec<u64>) {
    let refused = |(number, place)| (Reply { number, place, total: 0 }, vec![0; out_len]);
    let records = match forward(table, file) {
        Ok(records) => records,
        Err(refusal) => return refused(refusal),
    };
    // "Short output is answered as in 01": "an output too short for a converter .. then gives 9, place
    // 0, output all zero".
    let mut out = words(&records);
    if out.len() > out_len {
        return refused((AREA_FULL, 0));
    }
    out.resize(out_len, 0);
    (Reply { number: 0, place: 0, total: records.len() as u64 }, out)
}

/// "then 10 "not a table" .., the index of the first record up to which no table agrees": the least i
/// such that no table's records are the given ones from record 0 to record i.
pub fn not_table(records: &[Record]) -> Option<u64> {
    // A table's document is 1 + 3n records long; the file number is the caller's.
    let span = records[0].span;
    if records[0].kind != kind::DOCUMENT || span % 3 != 1 || records[0].position != 0 {
        return Some(0);
    }
    for (at, r) in records.iter().enumerate().skip(1) {
        let agrees = match at % 3 {
            _ if at as u64 >= span => false,
            1 => (r.kind, r.span, r.position, r.value) == (kind::LOCAL_DEFINITION, 3, 0, 0),
            2 => (r.kind, r.span, r.position) == (kind::NAME, 1, 0),
            _ => matches!((r.kind, r.span, r.position), (kind::INTEGER | kind::FLOAT, 1, 0)),
        };
        if !agrees {
            return Some(at as u64);
        }
    }
    None
}

/// "Backward rows 2 to 4, then 10".
fn backward(words: &[u64]) -> Result<(u64, Vec<Entry>), Refusal> {
    let records = check(words)?;
    if let Some(place) = not_table(&records) {
        return Err((NOT_A_TABLE, place));
    }
    let lines = records[1..].chunks(3).map(|definition| Entry {
        text: definition[1].value,
        value: match definition[2].kind {
            kind::INTEGER => Value::Integer(definition[2].value as i64),
            _ => Value::Float(definition[2].value),
        },
    });
    Ok((records[0].value, lines.collect()))
}

/// "and such a document back into the same lines, with its file number beside them (0 in a refusal)",
/// in an output of so many bytes.
pub fn records_to_table(words: &[u64], out_len: usize) -> (Tabled, Vec<u8>) {
    let refused = |(number, place)| (Tabled { number, place, total: 0, file: 0 }, vec![0; out_len]);
    let (file, entries) = match backward(words) {
        Ok(read) => read,
        Err(refusal) => return refused(refusal),
    };
    let mut out: Vec<u8> = entries.iter().flat_map(|entry| line(entry).into_bytes()).collect();
    if out.len() > out_len {
        return refused((AREA_FULL, 0));
    }
    out.resize(out_len, 0);
    (Tabled { number: 0, place: 0, total: entries.len() as u64, file }, out)
}

// Inputs from a seed.

/// The bytes that a byte of a table is changed to, or that are put in.
pub const BYTES: &[u8] = b" -+0123456789\n\t\r";

/// File numbers at the edges of what is a text.
const FILES: [u64; 7] = [1, 2, 5, MAX_TEXT, 0, MAX_TEXT + 1, u64::MAX];

/// The bytes of a table.
pub fn table(entries: &[Entry]) -> Vec<u8> {
    entries.iter().flat_map(|entry| line(entry).into_bytes()).collect()
}

/// An entry with fields at their limits more often than not.
pub fn some_entry(random: &mut Random) -> Entry {
    let text = match random.below(3) {
        0 => random.pick(&[1, 2, 9, 10, 99_999, 100_000, 999_999, 1_000_000, MAX_TEXT - 1, MAX_TEXT]),
        1 => random.between(1, 4),
        _ => random.between(1, MAX_TEXT),
    };
    let value = if random.chance(500) {
        let value = match random.below(3) {
            0 => random.pick(&[i64::MIN, i64::MIN + 1, -10, -9, -1, 0, 1, 9, 10, i64::MAX - 1, i64::MAX]),
            1 => random.below(20) as i64 - 10,
            _ => random.next() as i64,
        };
        Value::Integer(value)
    } else {
        let bits = match random.below(3) {
            0 => random.pick(&[0, 1, 9, 10, (1 << 63) - 1, 1 << 63, u64::MAX - 1, u64::MAX, 0x7FF8_0000_0000_0001]),
            1 => random.pick(&[0.5f64, 1.35, -0.0, 1.0, f64::NEG_INFINITY]).to_bits(),
            _ => random.next(),
        };
        Value::Float(bits)
    };
    Entry { text, value }
}

/// No line to six.
pub fn some_entries(random: &mut Random) -> Vec<Entry> {
    (0..random.below(7)).map(|_| some_entry(random)).collect()
}

/// Every table that differs from this one by one byte changed, taken out or put in.
pub fn neighbours(table: &[u8]) -> Vec<Vec<u8>> {
    let mut out = Vec::new();
    for at in 0..=table.len() {
        for &byte in BYTES {
            out.push([&table[..at], &[byte], &table[at..]].concat());
            if at < table.len() {
                out.push([&table[..at], &[byte], &table[at + 1..]].concat());
            }
        }
        if at < table.len() {
            out.push([&table[..at], &table[at + 1..]].concat());
        }
    }
    out
}

/// One column of one line written otherwise, past the limits too.
fn changed_column(random: &mut Random, table: &[u8]) -> Vec<u8> {
    const TEXTS: [&str; 21] = [
        "",
        "-",
        "0",
        "-0",
        "1",
        "2",
        "3",
        "4",
        "33",
        "34",
        "-1",
        "1048575",
        "1048576",
        "9223372036854775807",
        "9223372036854775808",
        "-9223372036854775808",
        "-9223372036854775809",
        "18446744073709551615",
        "18446744073709551616",
        "100000000000000000000",
        "007",
    ];
    let mut out = table.to_vec();
    let start = random.index(table.len() / LINE_BYTES) * LINE_BYTES;
    let (from, width) = random.pick(&[(0, 8), (8, 4), (12, 21)]);
    let text = random.pick(&TEXTS);
    let text = if random.chance(150) { format!("{text:<width$}") } else { format!("{text:>width$}") };
    let text = &text[text.len() - width..];
    out[start + from..start + from + width].copy_from_slice(text.as_bytes());
    out
}

/// A call of the way to records.
#[derive(Clone, Debug, PartialEq, Eq)]
pub struct Forward {
    pub table: Vec<u8>,
    pub file: u64,
    pub out_len: usize,
}

/// Tables as they are, with one byte changed, taken out or put in, with a column rewritten, cut off; good and bad file
/// numbers; outputs exactly long enough, one short, longer and none.
pub fn forward_case(seed: u64, index: u64) -> Forward {
    let mut random = Random::for_case(seed, index);
    let entries = some_entries(&mut random);
    let mut table = table(&entries);
    match random.below(6) {
        0 if !table.is_empty() => table = changed_column(&mut random, &table),
        1 if !table.is_empty() => table.truncate(random.index(table.len())),
        2 | 3 => {
            let at = random.index(table.len() + 1);
            let byte = random.pick(BYTES);
            match random.below(3) {
                0 => table.insert(at, byte),
                1 if at < table.len() => drop(table.remove(at)),
                _ if at < table.len() => table[at] = byte,
                _ => table.push(random.below(256) as u8),
            }
        }
        _ => {}
    }
    let file = if random.chance(700) { random.between(1, MAX_TEXT) } else { random.pick(&FILES) };
    let needed = 4 * (1 + 3 * entries.len());
    Forward { table, file, out_len: some_length(&mut random, needed) }
}

fn some_length(random: &mut Random, needed: usize) -> usize {
    match random.below(6) {
        0 => needed.saturating_sub(1),
        1 => 0,
        2 => random.index(needed + 1),
        3 => needed + random.index(20),
        _ => needed,
    }
}

/// A call of the way back.
#[derive(Clone, Debug, PartialEq, Eq)]
pub struct Backward {
    pub words: Vec<u64>,
    pub out_len: usize,
}

/// Documents of tables, with one word or record changed, taken out, put in or doubled; small documents of other
/// definitions; two documents; lengths that are no records.
pub fn backward_case(seed: u64, index: u64) -> Backward {
    let mut random = Random::for_case(seed, index);
    let entries = some_entries(&mut random);
    let file = random.pick(&[1, 2, 5, MAX_TEXT]);
    let mut records = document(file, &entries);
    match random.below(10) {
        0..=3 => changed_record(&mut random, &mut records),
        4..=6 => {
            let documents = small_documents(&mut random);
            let words = flatten(&documents);
            return Backward { out_len: some_length(&mut random, words.len() / 12 * LINE_BYTES), words };
        }
        7 => records.extend(document(random.pick(&[1, 2, 5, 6]), &some_entries(&mut random))),
        _ => {}
    }
    let mut words = words(&records);
    if random.chance(50) {
        words.truncate(random.index(words.len() + 1));
    }
    Backward { out_len: some_length(&mut random, entries.len() * LINE_BYTES), words }
}

/// One word of one record, or one record, otherwise than a table has it.
fn changed_record(random: &mut Random, records: &mut Vec<Record>) {
    let at = random.index(records.len());
    let r = &mut records[at];
    match random.below(7) {
        0 => r.kind = random.pick(&kind::ALL),
        1 => r.span = random.pick(&[0, 1, 2, 3, 4, 5, r.span + 1, r.span + 3, r.span.wrapping_sub(1), u64::MAX]),
        2 => r.position = random.pick(&[1, 5, 1 << 16, 1 << 32, u64::MAX]),
        3 => r.value = random.pick(&[0, 1, 2, 3, MAX_TEXT, MAX_TEXT + 1, 1 << 63, u64::MAX]),
        4 => drop(records.remove(at)),
        5 => records.insert(at, records[at]),
        // A pair more in one definition, or one fewer, with the spans made anew.
        _ => {
            let mut whole = crate::records::trees(&words(records)).expect("a table's document");
            let definitions = &mut whole[0].children;
            if !definitions.is_empty() {
                let which = random.index(definitions.len());
                if random.chance(500) {
                    let pair = definitions[which].children.clone();
                    definitions[which].children.extend(pair);
                } else {
                    definitions[which].children.clear();
                }
            }
            *records = crate::records::records(&flatten(&whole));
        }
    }
}

/// A small definition of any kind over few values; now and then a table's own.
pub fn small_definition(random: &mut Random) -> Node {
    let place = |random: &mut Random| random.pick(&[0, 0, 0, 1]);
    let name = |random: &mut Random| Node::leaf(kind::NAME, place(random), random.pick(&[1, 3]));
    let value = |random: &mut Random| {
        let kind = random.pick(&[
            kind::INTEGER,
            kind::FLOAT,
            kind::INTEGER,
            kind::FLOAT,
            kind::NULL,
            kind::BOOLEAN,
            kind::STRING,
            kind::IDENTIFIER,
            kind::OTHER_TOKEN,
            kind::ABSENT,
        ]);
        let value = match kind {
            kind::INTEGER | kind::FLOAT | kind::BOOLEAN => random.below(2),
            kind::STRING | kind::IDENTIFIER => 3,
            _ => 0,
        };
        let position = if kind == kind::ABSENT { 0 } else { place(random) };
        Node::leaf(kind, position, value)
    };
    match random.below(14) {
        0..=5 => Node::new(kind::LOCAL_DEFINITION, 0, 0, vec![name(random), value(random)]),
        6 => {
            let pairs = random.pick(&[0, 2, 2, 3]);
            let children = (0..pairs).flat_map(|_| [name(random), value(random)]).collect();
            Node::new(kind::LOCAL_DEFINITION, 0, 0, children)
        }
        7 => {
            let children = (0..2 * random.below(3)).map(|_| name(random)).collect();
            Node::new(kind::INCLUDE, place(random), random.pick(&[2, 5]), children)
        }
        8 => {
            let children = (0..random.below(4)).map(|_| name(random)).collect();
            Node::new(random.pick(&[kind::MODEL, kind::PUBLIC_MODEL]), place(random), 3, children)
        }
        9 => Node::new(kind::FUNCTION, 0, 3, vec![name(random)]),
        10 => {
            let inner = Node::new(kind::EXPRESSION, 0, 0, vec![Node::leaf(kind::INTEGER, 0, 1)]);
            Node::new(kind::PUBLIC_FUNCTION, 0, 3, vec![inner])
        }
        11 => Node::new(kind::IMPLEMENT, 0, 3, vec![Node::new(kind::FUNCTION, 0, 3, Vec::new())]),
        12 => Node::new(kind::APPLY, 0, 0, vec![name(random), name(random)]),
        _ => Node::leaf(kind::MODEL, 0, 3),
    }
}

/// One document of up to three small definitions, now and then two.
pub fn small_documents(random: &mut Random) -> Vec<Node> {
    let count = random.pick(&[1, 1, 1, 1, 1, 2]);
    let one = |random: &mut Random| {
        let definitions = (0..random.below(4)).map(|_| small_definition(random)).collect();
        Node::new(kind::DOCUMENT, 0, random.pick(&[5, 6]), definitions)
    };
    (0..count).map(|_| one(random)).collect()
}

#[cfg(test)]
mod tests {
    use super::*;
    use crate::records::records;

    /// The three columns of a line, padded.
    fn padded(text: &str, kind: &str, value: &str) -> Vec<u8> {
        format!("{text:>8}{kind:>4}{value:>21}\n").into_bytes()
    }

    /// Row and place of the way to records with an output that is long enough.
    fn there(table: &[u8], file: u64) -> (u64, u64) {
        let (reply, _) = table_to_records(table, file, 4 * MAX_RECORDS);
        (reply.number, reply.place)
    }

    /// Row and place of the way back with an output that is long enough.
    fn back(words: &[u64]) -> (u64, u64) {
        let (reply, _) = records_to_table(words, 4096);
        (reply.number, reply.place)
    }

    #[test]
    fn reading_1_a_line() {
        assert_eq!(line(&Entry { text: 7, value: Value::Integer(-5) }), "       7   2                   -5\n");
        assert_eq!(LINE_BYTES, 34);
        assert_eq!(there(b"\n", 5), (1, 1));
        assert_eq!(there(b"       7   2                   -5\n", 5), (0, 0));
        assert_eq!(there(b"       7   2                   -5", 5), (1, 1), "no newline");
        assert_eq!(there(b"       7   2                   -5\n\n", 5), (1, 2), "an empty line");
        assert_eq!(there(b"       7   2                   -5\n ", 5), (1, 2), "a rest");
        assert_eq!(there(b"       7   2                   -5\r\n", 5), (1, 1));
        assert_eq!(there(&padded("7", "2", "05"), 5), (1, 1));
        assert_eq!(there(&padded("7", "2", "+5"), 5), (1, 1));
        assert_eq!(there(&padded("7", "2", "-0"), 5), (1, 1));
        assert_eq!(there(&padded("7", "3", "-0"), 5), (1, 1));
        assert_eq!(there(&padded("07", "2", "5"), 5), (1, 1));
        assert_eq!(there(&padded("7", "02", "5"), 5), (1, 1));
        assert_eq!(there(&padded("", "2", "5"), 5), (1, 1));
        assert_eq!(there(&padded("7", "", "5"), 5), (1, 1));
        assert_eq!(there(&padded("7", "2", ""), 5), (1, 1));
        assert_eq!(there(&padded("7", "2 ", "5"), 5), (1, 1), "not right-justified");
        assert_eq!(there(&padded("7", "2", "9223372036854775807"), 5), (0, 0));
        assert_eq!(there(&padded("7", "2", "9223372036854775808"), 5), (1, 1));
        assert_eq!(there(&padded("7", "2", "-9223372036854775808"), 5), (0, 0));
        assert_eq!(there(&padded("7", "2", "-9223372036854775809"), 5), (1, 1));
        assert_eq!(there(&padded("7", "3", "18446744073709551615"), 5), (0, 0));
        assert_eq!(there(&padded("7", "3", "18446744073709551616"), 5), (1, 1));
    }

    #[test]
    fn reading_2_kinds() {
        assert_eq!(there(&padded("1", "4", "0"), 5), (1, 1));
        for kind in ["0", "1", "5", "22", "33", "34", "-2", "9999"] {
            assert_eq!(there(&padded("1", kind, "0"), 5), (1, 1));
        }
        assert_eq!(there(&padded("1", "2", "0"), 5), (0, 0));
        assert_eq!(there(&padded("1", "3", "0"), 5), (0, 0));
    }

    #[test]
    fn reading_3_signs() {
        assert_eq!(there(&padded("1", "3", "-1"), 5), (1, 1));
        let minus_zero = padded("1", "3", "9223372036854775808");
        assert_eq!(there(&minus_zero, 5), (0, 0));
        let (_, words) = table_to_records(&minus_zero, 5, 16);
        assert_eq!(&words[12..], [34, 1, 0, 1 << 63]);
    }

    #[test]
    fn reading_4_texts() {
        assert_eq!(there(&padded("0", "2", "0"), 5), (1, 1));
        assert_eq!(there(&padded("1048575", "2", "0"), 5), (0, 0));
        assert_eq!(there(&padded("1048576", "2", "0"), 5), (1, 1));
    }

    #[test]
    fn readings_5_to_7_records() {
        let table = [padded("3", "2", "-1"), padded("3", "3", "1")].concat();
        let (reply, words) = table_to_records(&table, 5, 30);
        assert_eq!(reply, Reply { number: 0, place: 0, total: 7 });
        #[rustfmt::skip]
        let expected = [
            1, 7, 0, 5,
            10, 3, 0, 0, 40, 1, 0, 3, 33, 1, 0, u64::MAX,
            10, 3, 0, 0, 40, 1, 0, 3, 34, 1, 0, 1,
            0, 0,
        ];
        assert_eq!(words, expected);
        assert_eq!(table_to_records(b"", 5, 4), (Reply { number: 0, place: 0, total: 1 }, vec![1, 1, 0, 5]));
        assert_eq!(records_to_table(&[1, 1, 0, 5], 2), (Tabled { number: 0, place: 0, total: 0, file: 5 }, vec![0, 0]));
        // Two equal lines, text 1, a name equal to the file number.
        let twice = [padded("1", "2", "1"), padded("1", "2", "1"), padded("5", "2", "1")].concat();
        let (reply, words) = table_to_records(&twice, 5, 40);
        assert_eq!(reply.number, 0);
        assert_eq!(records_to_table(&words, twice.len()), (Tabled { number: 0, place: 0, total: 3, file: 5 }, twice));
    }

    #[test]
    fn readings_8_and_9_order_and_limit() {
        let good = padded("1", "2", "0");
        let most = good.repeat(MAX_LINES);
        let past = good.repeat(MAX_LINES + 1);
        let mut off = past.clone();
        let last = off.len() - 2;
        off[last] = b'x';
        assert_eq!(MAX_LINES, 349_525);
        let short = |table: &[u8], file| {
            let (reply, out) = table_to_records(table, file, 0);
            assert_eq!((reply.total, out.len()), (0, 0));
            (reply.number, reply.place)
        };
        assert_eq!(short(&off, 0), (1, 349_526));
        assert_eq!(short(&past, 0), (2, 0));
        assert_eq!(short(&most, 0), (3, 0));
        assert_eq!(short(&most, 1), (9, 0));
        let (reply, words) = table_to_records(&most, 1, 4 * MAX_RECORDS);
        assert_eq!(reply, Reply { number: 0, place: 0, total: MAX_RECORDS as u64 });
        assert_eq!(records_to_table(&words, most.len()).1, most);
    }

    #[test]
    fn reading_10_file_numbers() {
        for table in [&b""[..], &padded("1", "2", "0")] {
            for file in [0, MAX_TEXT + 1, u64::MAX] {
                assert_eq!(there(table, file), (3, 0));
            }
            for file in [1, MAX_TEXT] {
                assert_eq!(there(table, file), (0, 0));
            }
        }
        assert_eq!(there(b"\n", 0), (1, 1), "row 1 is first");
    }

    #[test]
    fn reading_11_rows_backward() {
        assert_eq!(back(&[]), (3, 0));
        assert_eq!(back(&[1, 1, 0]), (2, 0));
        assert_eq!(back(&[1, 1, 0, 0]), (3, 0));
        // Row 5 is not asked: the second document of the same file is no table.
        assert_eq!(back(&[1, 1, 0, 5, 1, 1, 0, 5]), (10, 1));
        // Rows 3 and 4 over all words come first.
        assert_eq!(back(&[1, 2, 0, 5, 10, 1, 0, 0, 1, 1, 0, 0]), (3, 2));
    }

    #[test]
    fn reading_12_the_first_record_up_to_which_no_table_agrees() {
        assert_eq!(back(&[1, 2, 0, 5, 10, 1, 0, 0]), (10, 0));
        let pairs = [40, 1, 0, 3, 33, 1, 0, 1, 40, 1, 0, 4, 33, 1, 0, 1];
        assert_eq!(back(&[&[1, 6, 0, 5, 10, 5, 0, 0], &pairs[..]].concat()), (10, 0));
        assert_eq!(back(&[&[1, 7, 0, 5, 10, 5, 0, 0], &pairs[..], &[10, 1, 0, 0]].concat()), (10, 1));
        assert_eq!(back(&[1, 4, 0, 5, 10, 3, 0, 0, 40, 1, 1, 3, 33, 1, 0, 1]), (10, 2));
        assert_eq!(back(&[1, 4, 0, 5, 10, 3, 0, 0, 40, 1, 0, 3, 36, 1, 0, 1]), (10, 3));
        assert_eq!(back(&[1, 4, 0, 5, 12, 3, 0, 3, 40, 1, 0, 3, 40, 1, 0, 3]), (10, 1));
        assert_eq!(back(&[1, 1, 0, 5, 1, 1, 0, 6]), (10, 1));
        assert_eq!(back(&[1, 4, 0, 5, 10, 3, 0, 0, 40, 1, 0, 3, 33, 1, 0, 1]), (0, 0));
        assert_eq!(back(&[1, 4, 0, 5, 10, 3, 0, 0, 40, 1, 0, 3, 33, 1, 7, 1]), (10, 3), "a value's position");
    }

    #[test]
    fn readings_13_to_15_replies_and_short_output() {
        let words = [1, 4, 0, 5, 10, 3, 0, 0, 40, 1, 0, 3, 33, 1, 0, 1];
        let (reply, out) = records_to_table(&words, 40);
        assert_eq!(reply, Tabled { number: 0, place: 0, total: 1, file: 5 });
        assert_eq!(out, [padded("3", "2", "1"), vec![0; 6]].concat());
        let (reply, out) = records_to_table(&words, 33);
        assert_eq!(reply, Tabled { number: 9, place: 0, total: 0, file: 0 });
        assert_eq!(out, vec![0; 33]);
        let (reply, out) = records_to_table(&[1, 2, 0, 5, 10, 1, 0, 0], 7);
        assert_eq!(reply, Tabled { number: 10, place: 0, total: 0, file: 0 });
        assert_eq!(out, vec![0; 7]);
        let table = padded("3", "2", "1");
        assert_eq!(table_to_records(&table, 5, 15), (Reply { number: 9, place: 0, total: 0 }, vec![0; 15]));
        let (reply, out) = table_to_records(&table, 5, 17);
        assert_eq!(reply, Reply { number: 0, place: 0, total: 4 });
        assert_eq!(out, [&words[..], &[0]].concat());
    }

    /// "Neither way loses a bit": a table that is taken comes back, byte for byte; every line on the form is one
    /// that an entry is written as.
    #[test]
    fn tables_come_back() {
        let mut rows = [0u64; 11];
        for index in 0..30_000 {
            let Forward { table, file, out_len } = forward_case(1, index);
            let (reply, out) = table_to_records(&table, file, out_len);
            assert_eq!(out.len(), out_len);
            rows[reply.number as usize] += 1;
            if reply.number != 0 {
                assert_eq!((reply.total, out.iter().any(|&word| word != 0)), (0, false));
                continue;
            }
            let total = reply.total as usize;
            assert!(out[4 * total..].iter().all(|&word| word == 0));
            let (back, bytes) = records_to_table(&out[..4 * total], table.len());
            assert_eq!((back.number, back.file, bytes), (0, file, table));
        }
        for row in [0, 1, 3, 9] {
            assert!(rows[row] > 500, "row {row}: {rows:?}");
        }
    }

    /// And a document that is taken comes back word for word.
    #[test]
    fn documents_come_back() {
        let mut rows = [0u64; 11];
        for index in 0..30_000 {
            let Backward { words, out_len } = backward_case(2, index);
            let (reply, out) = records_to_table(&words, out_len);
            assert_eq!(out.len(), out_len);
            rows[reply.number as usize] += 1;
            if reply.number != 0 {
                assert_eq!((reply.total, reply.file, out.iter().any(|&byte| byte != 0)), (0, 0, false));
                continue;
            }
            let length = LINE_BYTES * reply.total as usize;
            assert!(out[length..].iter().all(|&byte| byte == 0));
            let (there, again) = table_to_records(&out[..length], reply.file, words.len());
            assert_eq!((there.number, again), (0, words));
        }
        for row in [0, 3, 9, 10] {
            assert!(rows[row] > 500, "row {row}: {rows:?}");
        }
        assert!(rows[2] > 50, "{rows:?}");
    }

    /// Every byte of a good table changed, taken out or put in: row 1 with a line near it, or a table again.
    #[test]
    fn neighbours_of_a_table() {
        let entries = [
            Entry { text: MAX_TEXT, value: Value::Integer(i64::MIN) },
            Entry { text: 10, value: Value::Float(u64::MAX) },
            Entry { text: 1, value: Value::Integer(0) },
        ];
        let whole = table(&entries);
        let mut taken = 0;
        for changed in neighbours(&whole) {
            let (reply, out) = table_to_records(&changed, 5, 52);
            match reply.number {
                0 => {
                    taken += 1;
                    let words = &out[..4 * reply.total as usize];
                    assert_eq!(records_to_table(words, changed.len()).1, changed);
                }
                number => assert!(number == 1 && (1..=4).contains(&reply.place), "{reply:?}"),
            }
        }
        assert!(taken > 50);
    }

    /// All tables of up to three lines over few values.
    fn small_tables() -> Vec<Vec<Record>> {
        let mut lines = Vec::new();
        for text in [1, 3] {
            for value in [0, 1] {
                lines.push(Entry { text, value: Value::Integer(value) });
                lines.push(Entry { text, value: Value::Float(value as u64) });
            }
        }
        let mut lists: Vec<Vec<Entry>> = vec![Vec::new()];
        let mut all = lists.clone();
        for _ in 0..3 {
            lists = lists.iter().flat_map(|list| lines.iter().map(|&line| [&list[..], &[line]].concat())).collect();
            all.extend(lists.clone());
        }
        [5, 6].iter().flat_map(|&file| all.iter().map(move |entries| document(file, entries))).collect()
    }

    /// Row 10 a second time: the least record up to which none of the tables agrees. A table that agrees with a
    /// document has its length, so three lines are enough for documents of up to ten records.
    fn brute(given: &[Record], tables: &[Vec<Record>]) -> Option<u64> {
        if tables.iter().any(|table| table == given) {
            return None;
        }
        let agreeing = |i: usize| tables.iter().any(|table| table.len() > i && table[..=i] == given[..=i]);
        Some((0..given.len()).find(|&i| !agreeing(i)).expect("no table is this document") as u64)
    }

    #[test]
    fn row_10_by_brute_force() {
        let tables = small_tables();
        assert_eq!(tables.len(), 2 * (1 + 8 + 64 + 512));
        let mut places = [0u64; 16];
        let mut random = Random::new(3);
        let mut tried = 0;
        while tried < 6_000 {
            let given = match random.below(3) {
                0 => flatten(&small_documents(&mut random)),
                1 => {
                    let mut records = random.pick(&tables.iter().collect::<Vec<_>>()).clone();
                    changed_record(&mut random, &mut records);
                    words(&records)
                }
                _ => {
                    let mut records = random.pick(&tables.iter().collect::<Vec<_>>()).clone();
                    if random.chance(300) {
                        records.extend(random.pick(&tables.iter().collect::<Vec<_>>()).clone());
                    }
                    words(&records)
                }
            };
            let given = match check(&given) {
                Ok(given) => given,
                Err(_) => continue,
            };
            let few = |r: &Record| match r.kind {
                kind::DOCUMENT => [5, 6].contains(&r.value),
                kind::NAME => [1, 3].contains(&r.value),
                kind::INTEGER | kind::FLOAT => r.value <= 1,
                _ => true,
            };
            if given[0].span > 10 || !given.iter().all(few) {
                continue;
            }
            tried += 1;
            let expected = brute(&given, &tables);
            assert_eq!(not_table(&given), expected, "{given:?}");
            if let Some(place) = expected {
                places[(place as usize).min(15)] += 1;
            }
        }
        // Every place up to the end of ten records, and a second document behind.
        assert!(places[..11].iter().all(|&count| count > 0), "{places:?}");
    }

    /// Every document of up to three definitions of these, over all of its orders.
    #[test]
    fn row_10_on_all_small_documents() {
        let tables = small_tables();
        let pair = |value: Node| vec![Node::leaf(kind::NAME, 0, 3), value];
        let integer = || Node::leaf(kind::INTEGER, 0, 1);
        let local = |children: Vec<Node>| Node::new(kind::LOCAL_DEFINITION, 0, 0, children);
        let definitions = [
            local(pair(integer())),
            local(pair(Node::leaf(kind::FLOAT, 0, 0))),
            local(pair(Node::leaf(kind::FLOAT, 1, 0))),
            local(pair(Node::leaf(kind::BOOLEAN, 0, 1))),
            local(pair(Node::leaf(kind::ABSENT, 0, 0))),
            local(Vec::new()),
            local([pair(integer()), pair(integer())].concat()),
            Node::leaf(kind::INCLUDE, 0, 3),
            Node::new(kind::INCLUDE, 0, 3, pair(Node::leaf(kind::NAME, 0, 1))),
            Node::leaf(kind::MODEL, 0, 3),
            Node::new(kind::PUBLIC_MODEL, 0, 3, vec![Node::leaf(kind::NAME, 0, 1)]),
            Node::leaf(kind::FUNCTION, 0, 3),
            Node::new(kind::APPLY, 0, 0, pair(Node::leaf(kind::NAME, 0, 1))),
            Node::leaf(kind::IMPLEMENT, 0, 3),
        ];
        let mut lists: Vec<Vec<Node>> = vec![Vec::new()];
        let mut all = lists.clone();
        for _ in 0..3 {
            lists = lists
                .iter()
                .flat_map(|l| definitions.iter().map(|d| [&l[..], std::slice::from_ref(d)].concat()))
                .collect();
            all.extend(lists.clone());
        }
        for children in all {
            let given = records(&flatten(&[Node::new(kind::DOCUMENT, 0, 5, children)]));
            if given.len() <= 10 {
                assert_eq!(not_table(&given), brute(&given, &tables), "{given:?}");
            }
        }
    }
}
