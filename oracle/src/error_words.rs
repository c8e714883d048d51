//! Errors in words (02, 2026-10), as an independent reading of that request: the reply and the whole line
//! buffer. Beside it a reader that knows the lines alone and takes a delivery back to its errors. Above
//! each rule stands the sentence that it comes from.

use crate::random::Random;
use crate::records::{kind, MAX_TEXT};
pub use crate::tables::Reply;

const BAD_SHAPE: u64 = 3;
const AREA_FULL: u64 = 9;
/// "then row 9, place 13, for a short line buffer".
const LINE_BUFFER: u64 = 13;

/// Number, position, token kind, token value.
pub type Error = [u64; 4];

/// 2026-06: "A position becomes line × 2^32 + column, each at most 99,999,999".
const MOST_PLACE: u64 = 99_999_999;

/// 01: "Errors .., with the Rust's messages: 1 variable already exists; .. 11 ring."
const MESSAGES: [(u64, &str); 11] = [
    (1, "variable already exists"),
    (2, "can not assign"),
    (3, "unknown operation"),
    (4, "rescue can only in the layer of function"),
    (5, "value in local definition can be constant only"),
    (6, "property already exists"),
    (7, "parameter already exists"),
    (8, "instance function can inside implement block only"),
    (9, "is not a model"),
    (10, "can not found model"),
    (RING, "ring"),
];

const RING: u64 = 11;

/// The kinds of 01's tree with the values that 01 gives them: a text, any word, one of a few, or "Unused values are 0".
fn knows_token(kind: u64, value: u64) -> bool {
    match kind {
        // document (file), include (file), model, public model, function, public function (name), implement
        // (model), identifier (text), string (text), name, `this` parameter (text of its conversion)
        1 | 11 | 12 | 13 | 14 | 15 | 16 | 30 | 35 | 40 | 41 => is_text(value),
        // integer (two's complement), float (bits)
        33 | 34 => true,
        // boolean (0, 1)
        36 => value <= 1,
        // prefix (0 Minus, 1 Not, 2 other)
        38 => value <= 2,
        // "Infix values: 0 Assign; .. 19 other"
        39 => value <= 19,
        10 | 17 | 20 | 21 | 22 | 23 | 24 | 25 | 31 | 32 | 37 | 42 | 43 | 44 | 45 | 46 | 47 | 49 => value == 0,
        _ => false,
    }
}

/// 01: "Texts, file names included, are numbers 1 to 1,048,575".
fn is_text(number: u64) -> bool {
    (1..=MAX_TEXT).contains(&number)
}

/// Whether a token of this kind has a text for its value.
fn holds_text(kind: u64) -> bool {
    matches!(kind, 1 | 11 | 12 | 13 | 14 | 15 | 16 | 30 | 35 | 40 | 41)
}

/// "row 3, its index, for the first error whose number, position or token 01 does not know (known tokens: any
/// record's kind and value; error 11 has zeros and a text)".
pub fn is_known([number, position, kind, value]: Error) -> bool {
    if number == RING {
        return position == 0 && kind == 0 && is_text(value);
    }
    let (line, column) = (position >> 32, position & 0xFFFF_FFFF);
    (1..=10).contains(&number) && line <= MOST_PLACE && column <= MOST_PLACE && knows_token(kind, value)
}

/// "The list ends at its first entry of zeros", or with the last whole entry of the area.
pub fn list(errors: &[u64]) -> Vec<Error> {
    let entries = errors.chunks_exact(4).map(|e| [e[0], e[1], e[2], e[3]]);
    entries.take_while(|&entry| entry != [0; 4]).collect()
}

/// "Texts come from a lent table, whose words 2n - 2 and 2n - 1 give start and length of text n in lent bytes." None
/// for "a text number that the table lacks or ends past its bytes".
pub fn text<'a>(n: u64, table: &[u64], bytes: &'a [u8]) -> Option<&'a [u8]> {
    let word = |at: u128| usize::try_from(at).ok().and_then(|at| table.get(at)).copied();
    if n == 0 {
        return None;
    }
    let start = word(2 * n as u128 - 2)?;
    let length = word(2 * n as u128 - 1)?;
    if start as u128 + length as u128 > bytes.len() as u128 {
        return None;
    }
    Some(&bytes[start as usize..][..length as usize])
}

/// "They stand between quotation marks; one of these or a backslash inside gets a backslash before it, and bytes
/// outside 32 to 126 become a backslash and three decimal digits."
fn quoted(text: &[u8]) -> String {
    let mut out = String::from("\"");
    for &byte in text {
        match byte {
            b'"' => out += "\\\"",
            b'\\' => out += "\\\\",
            32..=126 => out.push(byte as char),
            _ => out += &format!("\\{byte:03}"),
        }
    }
    out + "\""
}

/// "A text number that the table lacks or ends past its bytes is written without quotation marks."
fn text_field(n: u64, table: &[u64], bytes: &[u8]) -> String {
    match text(n, table, bytes) {
        Some(text) => quoted(text),
        None => n.to_string(),
    }
}

/// "each error as an English line: message, file (the caller's number, for error 11 its own), line, column, token kind
/// and token value (0 and 0 for error 11), a comma and a blank between, a newline after, numbers plain, those of kind
/// 33 signed."
fn line([number, position, kind, value]: Error, file: u64, table: &[u64], bytes: &[u8]) -> String {
    let message = MESSAGES.iter().find(|(n, _)| *n == number).expect("a known error").1;
    let file = if number == RING { value } else { file };
    let (line, column) = (position >> 32, position & 0xFFFF_FFFF);
    let value = match kind {
        _ if number == RING => "0".to_string(),
        kind::INTEGER => (value as i64).to_string(),
        kind if holds_text(kind) => text_field(value, table, bytes),
        _ => value.to_string(),
    };
    format!("{message}, {}, {line}, {column}, {kind}, {value}\n", text_field(file, table, bytes))
}

/// The errors of an area in words, in a line buffer of so many bytes.
pub fn errors_in_words(errors: &[u64], file: u64, table: &[u64], bytes: &[u8], out_len: usize) -> (Reply, Vec<u8>) {
    // "all zero after either".
    let refused = |number, place| (Reply { number, place, total: 0 }, vec![0; out_len]);
    let errors = list(errors);
    if let Some(index) = errors.iter().position(|&error| !is_known(error)) {
        return refused(BAD_SHAPE, index as u64);
    }
    let mut out: Vec<u8> = errors.iter().flat_map(|&error| line(error, file, table, bytes).into_bytes()).collect();
    if out.len() > out_len {
        return refused(AREA_FULL, LINE_BUFFER);
    }
    let total = out.len() as u64;
    out.resize(out_len, 0);
    (Reply { number: 0, place: 0, total }, out)
}

/// "Over one text table whose texts all differ": no two numbers that are written in quotation marks have equal bytes.
pub fn all_differ(table: &[u64], bytes: &[u8]) -> bool {
    let texts: Vec<&[u8]> = (1..=table.len() as u64 / 2).filter_map(|n| text(n, table, bytes)).collect();
    (0..texts.len()).all(|at| !texts[..at].contains(&texts[at]))
}

// The reader. It does not use what is above but for the table of texts.

/// A field of a line: a number with its sign, or a text.
#[derive(Clone, Debug, PartialEq, Eq)]
enum Field {
    Number(i128),
    Text(Vec<u8>),
}

struct Reader<'a> {
    rest: &'a [u8],
}

impl Reader<'_> {
    fn byte(&mut self) -> Option<u8> {
        let (&first, rest) = self.rest.split_first()?;
        self.rest = rest;
        Some(first)
    }

    fn expect(&mut self, text: &[u8]) -> Option<()> {
        self.rest = self.rest.strip_prefix(text)?;
        Some(())
    }

    /// The bytes ahead of the next of these.
    fn until(&mut self, ends: &[u8]) -> Option<Vec<u8>> {
        let length = self.rest.iter().position(|byte| ends.contains(byte))?;
        let (read, rest) = self.rest.split_at(length);
        self.rest = rest;
        Some(read.to_vec())
    }

    fn field(&mut self) -> Option<Field> {
        if self.rest.first() != Some(&b'"') {
            let digits = String::from_utf8(self.until(b",\n")?).ok()?;
            return digits.parse().ok().map(Field::Number);
        }
        self.byte();
        let mut text = Vec::new();
        loop {
            match self.byte()? {
                b'"' => return Some(Field::Text(text)),
                b'\\' => match self.byte()? {
                    mark @ (b'"' | b'\\') => text.push(mark),
                    first => {
                        let digits = [first, self.byte()?, self.byte()?];
                        text.push(std::str::from_utf8(&digits).ok()?.parse().ok()?);
                    }
                },
                byte => text.push(byte),
            }
        }
    }

    fn number(&mut self) -> Option<i128> {
        match self.field()? {
            Field::Number(number) => Some(number),
            Field::Text(_) => None,
        }
    }
}

/// The word that a field stands for: a text's number, or the number in two's complement.
fn word(field: Field, table: &[u64], bytes: &[u8]) -> Option<u64> {
    match field {
        Field::Number(number) => u64::try_from(number).ok().or_else(|| i64::try_from(number).ok().map(|n| n as u64)),
        Field::Text(found) => (1..=table.len() as u64 / 2).find(|&n| text(n, table, bytes) == Some(&found)),
    }
}

/// The errors that lines were made of, over a table whose texts all differ; none if they are no such lines.
pub fn read_back(lines: &[u8], table: &[u64], bytes: &[u8]) -> Option<Vec<Error>> {
    let mut reader = Reader { rest: lines };
    let mut errors = Vec::new();
    while !reader.rest.is_empty() {
        let message = reader.until(b",")?;
        let number = MESSAGES.iter().find(|(_, text)| text.as_bytes() == message)?.0;
        reader.expect(b", ")?;
        let file = reader.field()?;
        let mut places = [0; 3];
        for place in &mut places {
            reader.expect(b", ")?;
            *place = u64::try_from(reader.number()?).ok()?;
        }
        let [line, column, kind] = places;
        reader.expect(b", ")?;
        let value = reader.field()?;
        reader.expect(b"\n")?;
        errors.push(if number == RING {
            (places == [0; 3] && value == Field::Number(0)).then_some(())?;
            [number, 0, 0, word(file, table, bytes)?]
        } else {
            [number, line << 32 | column, kind, word(value, table, bytes)?]
        });
    }
    Some(errors)
}

// Inputs from a seed.

/// One call.
#[derive(Clone, Debug, PartialEq, Eq)]
pub struct Case {
    pub errors: Vec<u64>,
    pub file: u64,
    pub table: Vec<u64>,
    pub bytes: Vec<u8>,
    pub out_len: usize,
}

impl Case {
    pub fn answer(&self) -> (Reply, Vec<u8>) {
        errors_in_words(&self.errors, self.file, &self.table, &self.bytes, self.out_len)
    }
}

/// The values that a kind may have, at their ends; texts mostly from the table.
fn some_value(random: &mut Random, kind: u64, texts: u64) -> u64 {
    match kind {
        33 => random.pick(&[0, 1, 9, 10, u64::MAX, 1 << 63, (1 << 63) - 1, (1 << 63) + 1, -10i64 as u64]),
        34 => random.pick(&[0, 1, u64::MAX, 1 << 63, 0x3FF5_9999_9999_999A]),
        36 => random.below(2),
        38 => random.below(3),
        39 => random.below(20),
        kind if holds_text(kind) => some_text(random, texts),
        _ => 0,
    }
}

fn some_text(random: &mut Random, texts: u64) -> u64 {
    match random.below(8) {
        0 => random.pick(&[1, MAX_TEXT, MAX_TEXT - 1, texts.max(1), texts + 1]),
        _ => random.between(1, texts + 2),
    }
}

fn some_position(random: &mut Random) -> u64 {
    let mut half = || match random.below(4) {
        0 => random.pick(&[0, 1, 9, 10, 65_535, 65_536, MOST_PLACE - 1, MOST_PLACE]),
        _ => random.below(300),
    };
    half() << 32 | half()
}

/// An error that 01 knows.
pub fn known_error(random: &mut Random, texts: u64) -> Error {
    if random.chance(200) {
        return [RING, 0, 0, some_text(random, texts)];
    }
    let kind = if random.chance(400) { random.pick(&[30, 33, 35, 40]) } else { random.pick(&kind::ALL) };
    [random.between(1, 10), some_position(random), kind, some_value(random, kind, texts)]
}

/// An error that is known but for one word, which is mostly past a limit.
pub fn unknown_error(random: &mut Random, texts: u64) -> Error {
    let mut error = known_error(random, texts);
    let far = MOST_PLACE + 1;
    match random.below(5) {
        0 => error[0] = random.pick(&[0, 12, 257, 1 << 32, u64::MAX]),
        1 => error[1] = random.pick(&[far, far << 32, 1 << 32 | far, u64::MAX, 0xFFFF_FFFF, 1 << 63, 7]),
        2 => error[2] = random.pick(&[0, 2, 9, 18, 19, 26, 29, 48, 50, 286, 1 << 32, u64::MAX, 40, 25]),
        3 => error[3] = random.pick(&[0, 1, 2, 3, 20, MAX_TEXT + 1, 1 << 32, u64::MAX]),
        _ => error = [RING, random.below(2), random.pick(&[0, 40]), random.pick(&[0, MAX_TEXT + 1, 3])],
    }
    error
}

/// Starts and lengths of texts in so many bytes: inside, over each other, past the end, at and past the greatest word.
fn some_table(random: &mut Random, bytes: usize) -> Vec<u64> {
    let bytes = bytes as u64;
    let mut table = Vec::new();
    for _ in 0..random.below(10) {
        let start = match random.below(12) {
            0 => random.pick(&[bytes, bytes + 1, u64::MAX, u64::MAX - 1, 1 << 63, u64::MAX - bytes]),
            _ => random.below(bytes + 1),
        };
        let room = bytes.saturating_sub(start);
        let length = match random.below(12) {
            0 => random.pick(&[0, room + 1, u64::MAX, u64::MAX - start, (u64::MAX - start).wrapping_add(1), 1 << 63]),
            1 => room,
            _ => random.below(room.min(6) + 1),
        };
        table.extend([start, length]);
    }
    if random.chance(150) {
        // Half an entry is none.
        table.push(0);
    }
    table
}

/// Texts one behind the other that all differ, with some that are lacking between.
fn differing_table(random: &mut Random) -> (Vec<u64>, Vec<u8>) {
    let mut texts: Vec<Vec<u8>> = Vec::new();
    let (mut table, mut bytes) = (Vec::new(), Vec::new());
    for _ in 0..random.below(10) {
        let text = some_bytes(random, 5);
        if texts.contains(&text) || random.chance(100) {
            table.extend(random.pick(&[[u64::MAX, 1], [1 << 40, 0], [0, u64::MAX]]));
            continue;
        }
        table.extend([bytes.len() as u64, text.len() as u64]);
        bytes.extend(&text);
        texts.push(text);
    }
    (table, bytes)
}

/// Bytes of which texts are made: any, or those that lines and escapes are made of.
fn some_bytes(random: &mut Random, most: u64) -> Vec<u8> {
    let plain = random.chance(500);
    let count = random.below(most + 1);
    (0..count).map(|_| if plain { random.pick(b"\\\"0179, \n-\x7F\x1F~x") } else { random.below(256) as u8 }).collect()
}

/// Lists with known errors alone, with one that is not, with an end inside, with a tail; tables of any and of differing
/// texts; buffers exactly long enough, one byte short, longer and none.
pub fn case(seed: u64, index: u64) -> Case {
    let mut random = Random::for_case(seed, index);
    let (table, bytes) = if random.chance(500) {
        differing_table(&mut random)
    } else {
        let bytes = some_bytes(&mut random, 40);
        (some_table(&mut random, bytes.len()), bytes)
    };
    let texts = table.len() as u64 / 2;
    let mut errors: Vec<u64> = Vec::new();
    for _ in 0..random.below(7) {
        errors.extend(known_error(&mut random, texts));
    }
    let places = errors.len() as u64 / 4 + 1;
    if random.chance(150) {
        let at = 4 * random.below(places) as usize;
        errors.splice(at..at, unknown_error(&mut random, texts));
    }
    if random.chance(150) {
        let at = 4 * random.below(places) as usize;
        errors.splice(at..at, [0; 4]);
    }
    if random.chance(200) {
        let tail = random.between(1, 3);
        errors.extend((0..tail).map(|_| random.pick(&[0, 1, 40, u64::MAX])).collect::<Vec<_>>());
    }
    let file = match random.below(4) {
        0 => random.pick(&[0, 1, MAX_TEXT, MAX_TEXT + 1, (1 << 63) + 1, u64::MAX, 1 << 32 | 1]),
        _ => random.between(1, texts + 2),
    };
    let (reply, _) = errors_in_words(&errors, file, &table, &bytes, 1 << 16);
    let needed = reply.total as usize;
    let out_len = match random.below(6) {
        0 => needed.saturating_sub(1),
        1 => random.index(needed + 1),
        2 => needed + random.index(40),
        3 => 0,
        _ => needed,
    };
    Case { errors, file, table, bytes, out_len }
}

#[cfg(test)]
mod tests {
    use super::*;
    use crate::areas::{area, UNLIMITED};
    use crate::generate::{case as bundle, Sizes};
    use crate::model::compile;
    use std::collections::{BTreeSet, HashMap};

    fn at(line: u64, column: u64) -> u64 {
        line << 32 | column
    }

    /// A table that gives these texts one behind the other.
    fn texts(list: &[(u64, &[u8])]) -> (Vec<u64>, Vec<u8>) {
        let (mut table, mut bytes) = (Vec::new(), Vec::new());
        for &(n, text) in list {
            while (table.len() as u64) < 2 * n {
                table.extend([u64::MAX, 0]);
            }
            table[2 * n as usize - 2] = bytes.len() as u64;
            table[2 * n as usize - 1] = text.len() as u64;
            bytes.extend(text);
        }
        (table, bytes)
    }

    /// The lines of a delivery.
    fn lines(errors: &[u64], file: u64, (table, bytes): &(Vec<u64>, Vec<u8>)) -> String {
        let (reply, out) = errors_in_words(errors, file, table, bytes, 1000);
        assert_eq!((reply.number, reply.place), (0, 0));
        assert!(out[reply.total as usize..].iter().all(|&byte| byte == 0));
        String::from_utf8(out[..reply.total as usize].to_vec()).expect("lines are ASCII")
    }

    fn refused(errors: &[u64], out_len: usize) -> (u64, u64) {
        let (reply, out) = errors_in_words(errors, 2, &[], &[], out_len);
        if reply.number != 0 {
            assert_eq!((reply.total, out), (0, vec![0; out_len]));
        }
        (reply.number, reply.place)
    }

    #[test]
    fn readings_1_to_3_a_line() {
        let named = texts(&[(2, b"snow.clv"), (7, b"x")]);
        let expected = "variable already exists, \"snow.clv\", 12, 5, 40, \"x\"\n";
        assert_eq!(lines(&[1, at(12, 5), 40, 7], 2, &named), expected);
        for (number, message) in MESSAGES.iter().take(10) {
            let line = lines(&[*number, at(1, 2), 36, 1], 3, &named);
            assert_eq!(line, format!("{message}, 3, 1, 2, 36, 1\n"));
        }
        // Which values are texts.
        for kind in [1, 11, 12, 13, 14, 15, 16, 30, 35, 40, 41] {
            assert_eq!(lines(&[4, 0, kind, 7], 9, &named), format!("{}, 9, 0, 0, {kind}, \"x\"\n", MESSAGES[3].1));
        }
        for (kind, value) in [(34, 7), (33, 7), (39, 7), (38, 2), (25, 0), (49, 0)] {
            assert_eq!(
                lines(&[4, 0, kind, value], 9, &named),
                format!("{}, 9, 0, 0, {kind}, {value}\n", MESSAGES[3].1)
            );
        }
    }

    #[test]
    fn reading_4_error_11() {
        assert_eq!(lines(&[11, 0, 0, 9], 2, &texts(&[(2, b"snow")])), "ring, 9, 0, 0, 0, 0\n");
        assert_eq!(lines(&[11, 0, 0, 2], 9, &texts(&[(2, b"snow")])), "ring, \"snow\", 0, 0, 0, 0\n");
    }

    #[test]
    fn reading_5_the_callers_file() {
        let named = texts(&[(1, b"a"), (2, b"b")]);
        for file in [0, 3, u64::MAX, (1 << 63) + 1, MAX_TEXT + 1] {
            assert_eq!(lines(&[4, 0, 32, 0], file, &named), format!("{}, {file}, 0, 0, 32, 0\n", MESSAGES[3].1));
        }
        assert_eq!(lines(&[4, 0, 32, 0], 1, &named), format!("{}, \"a\", 0, 0, 32, 0\n", MESSAGES[3].1));
    }

    #[test]
    fn reading_6_lacking_texts() {
        let bytes = b"abc";
        assert_eq!(text(0, &[0, 1, 0, 1], bytes), None);
        assert_eq!(text(1, &[0], bytes), None, "half an entry");
        assert_eq!(text(2, &[0, 1, 0], bytes), None, "half an entry");
        assert_eq!(text(1, &[0, 3], bytes), Some(&b"abc"[..]));
        assert_eq!(text(1, &[0, 4], bytes), None);
        assert_eq!(text(1, &[3, 0], bytes), Some(&b""[..]));
        assert_eq!(text(1, &[4, 0], bytes), None);
        assert_eq!(text(1, &[u64::MAX, 1], bytes), None);
        assert_eq!(text(1, &[1, u64::MAX], bytes), None);
        assert_eq!(text((1 << 63) + 1, &[0, 3], bytes), None, "2n - 2 does not wrap");
        let lacking = (vec![u64::MAX, 1], Vec::new());
        assert_eq!(lines(&[11, 0, 0, 1], 0, &lacking), "ring, 1, 0, 0, 0, 0\n");
        assert_eq!(lines(&[11, 0, 0, 1], 0, &(vec![0, 0], Vec::new())), "ring, \"\", 0, 0, 0, 0\n");
    }

    #[test]
    fn reading_7_escapes() {
        for byte in 0..=255u8 {
            let expected = match byte {
                b'"' => "\\\"".to_string(),
                b'\\' => "\\\\".to_string(),
                0..=31 | 127..=255 => format!("\\{}{}{}", byte / 100, byte / 10 % 10, byte % 10),
                _ => (byte as char).to_string(),
            };
            let line = lines(&[11, 0, 0, 1], 0, &(vec![0, 1], vec![byte]));
            assert_eq!(line, format!("ring, \"{expected}\", 0, 0, 0, 0\n"));
        }
        assert_eq!(quoted(b"\n"), "\"\\010\"");
        assert_eq!(quoted(b"\x7F"), "\"\\127\"");
        assert_eq!(quoted(b" ~"), "\" ~\"");
    }

    #[test]
    fn reading_8_numbers() {
        let none = (Vec::new(), Vec::new());
        let value = |kind, value| {
            let line = lines(&[4, at(MOST_PLACE, 0), kind, value], 0, &none);
            line.strip_prefix("rescue can only in the layer of function, 0, 99999999, 0, ").expect("so far").to_string()
        };
        assert_eq!(value(33, u64::MAX), "33, -1\n");
        assert_eq!(value(33, 1 << 63), "33, -9223372036854775808\n");
        assert_eq!(value(33, (1 << 63) - 1), "33, 9223372036854775807\n");
        assert_eq!(value(34, u64::MAX), "34, 18446744073709551615\n");
        assert_eq!(value(34, 1 << 63), "34, 9223372036854775808\n");
        assert_eq!(value(40, 1), "40, 1\n");
    }

    #[test]
    fn reading_9_the_list() {
        let one = [4, 0, 32, 0];
        assert_eq!(list(&[]), Vec::<Error>::new());
        assert_eq!(list(&[4, 0, 32]), Vec::<Error>::new(), "a tail is no entry");
        assert_eq!(list(&[&one[..], &[0; 4], &[99, 99, 99, 99]].concat()), vec![one]);
        assert_eq!(list(&[&one[..], &[0, 0, 0]].concat()), vec![one]);
        assert_eq!(refused(&[0, 0, 0, 1], 10), (3, 0));
        assert_eq!(refused(&[0, 0, 0, 0, 99, 0, 0, 0], 10), (0, 0));
    }

    #[test]
    fn reading_10_known() {
        assert!(is_known([4, 7, 25, 0]), "any record's kind and value, with any position");
        assert!(!is_known([4, 0, 48, 0]));
        assert!(is_known([4, 0, 49, 0]));
        assert!(!is_known([4, 0, 0, 0]), "zeros are error 11's");
        for number in 1..=10 {
            assert!(is_known([number, at(MOST_PLACE, MOST_PLACE), 40, 1]));
            assert!(!is_known([number, at(MOST_PLACE + 1, 0), 40, 1]));
            assert!(!is_known([number, at(0, MOST_PLACE + 1), 40, 1]));
        }
        for number in [0, 12, u64::MAX] {
            assert!(!is_known([number, 0, 40, 1]));
        }
        assert!(is_known([11, 0, 0, 1]) && is_known([11, 0, 0, MAX_TEXT]));
        for error in [[11, 0, 0, 0], [11, 0, 0, MAX_TEXT + 1], [11, 1, 0, 1], [11, 0, 40, 1]] {
            assert!(!is_known(error));
        }
        // The kinds are 01's, and their ranges those of its tree.
        for number in 0..300 {
            assert_eq!(knows_token(number, 0) || knows_token(number, 1), kind::ALL.contains(&number));
            assert_eq!(holds_text(number), kind::holds_text(number) && kind::ALL.contains(&number));
        }
        for (kind, most) in [(36, 1), (38, 2), (39, 19), (47, 0), (40, MAX_TEXT)] {
            assert!(knows_token(kind, most) && !knows_token(kind, most + 1));
        }
    }

    #[test]
    fn readings_11_and_12_order_and_buffer() {
        let (good, bad) = ([4, 0, 32, 0], [4, 0, 48, 0]);
        assert_eq!(refused(&[good, bad].concat(), 0), (3, 1));
        assert_eq!(refused(&good, 0), (9, 13));
        let (reply, _) = errors_in_words(&good, 2, &[], &[], 1000);
        let length = reply.total as usize;
        assert_eq!(length, "rescue can only in the layer of function, 2, 0, 0, 32, 0\n".len());
        assert_eq!(refused(&good, length), (0, 0));
        assert_eq!(refused(&good, length - 1), (9, 13));
        assert_eq!(errors_in_words(&[], 2, &[], &[], 3), (Reply::default(), vec![0; 3]));
    }

    #[test]
    fn reading_13_what_would_meet() {
        // Text 5 has the bytes `7`, text 7 is lacking.
        let named = texts(&[(5, b"7")]);
        assert_ne!(lines(&[11, 0, 0, 5], 0, &named), lines(&[11, 0, 0, 7], 0, &named));
        // Byte 9 then `9`, and byte 99.
        let named = texts(&[(1, b"\x099"), (2, b"c"), (3, b"\\009")]);
        let all: BTreeSet<String> = (1..=3).map(|n| lines(&[11, 0, 0, n], 0, &named)).collect();
        assert_eq!(all.len(), 3);
        // A text that is a line.
        let named = texts(&[(1, b"a\", 0, 0, 0, 0\nring, \"b"), (2, b"a"), (3, b"b")]);
        assert_ne!(lines(&[11, 0, 0, 1], 0, &named), lines(&[11, 0, 0, 2, 11, 0, 0, 3], 0, &named));
    }

    /// Deliveries over differing texts read back by a reader that knows the lines alone.
    #[test]
    fn deliveries_are_read_back() {
        let (mut read, mut rows, mut numbers) = (0, [0u64; 10], BTreeSet::new());
        for index in 0..40_000 {
            let case = case(1, index);
            let (reply, out) = case.answer();
            assert_eq!(out.len(), case.out_len);
            rows[reply.number as usize] += 1;
            let delivered = &out[..reply.total as usize];
            assert!(out[delivered.len()..].iter().all(|&byte| byte == 0));
            assert!(delivered.iter().all(|byte| (32..127).contains(byte) || *byte == b'\n'));
            if reply.number != 0 || !all_differ(&case.table, &case.bytes) {
                continue;
            }
            let errors = list(&case.errors);
            assert_eq!(delivered.iter().filter(|&&byte| byte == b'\n').count(), errors.len());
            assert_eq!(read_back(delivered, &case.table, &case.bytes).as_ref(), Some(&errors), "{case:?}");
            read += errors.len();
            numbers.extend(errors.iter().map(|error| error[0]));
        }
        assert!(read > 20_000 && numbers.len() == 11);
        assert!([0, 3, 9].iter().all(|&row| rows[row] > 500), "{rows:?}");
    }

    /// "equal lines delivered come from equal error lists", whatever the caller's file numbers were.
    #[test]
    fn equal_lines_come_from_equal_lists() {
        let named = texts(&[(1, b"2"), (2, b""), (4, b"\","), (5, b", "), (6, b"\\"), (7, b"\\\""), (8, b"\n")]);
        assert!(all_differ(&named.0, &named.1));
        let mut errors = Vec::new();
        for text in 1..=9u64 {
            errors.push([11, 0, 0, text]);
            for number in [1, 10] {
                errors.extend([30, 35, 40, 41].map(|kind| [number, 0, kind, text]));
                errors.extend([33, 34].map(|kind| [number, 0, kind, text.wrapping_sub(2)]));
                errors.push([number, at(text, 1), 36, 1]);
                errors.push([number, at(1, text), 36, 1]);
            }
        }
        let mut known: HashMap<String, Vec<Error>> = HashMap::new();
        let mut lists: Vec<Vec<Error>> = vec![Vec::new()];
        lists.extend(errors.iter().map(|&error| vec![error]));
        lists.extend(errors.iter().flat_map(|&a| errors.iter().map(move |&b| vec![a, b])));
        for list in lists {
            for file in [0, 1, 3] {
                let made = lines(&list.concat(), file, &named);
                let first = known.entry(made).or_insert_with(|| list.clone());
                assert_eq!(*first, list);
            }
        }
    }

    /// Every list that a bundle leaves is known (where its positions are in 2026-06's range).
    #[test]
    fn lists_of_bundles_are_known() {
        let mut met = BTreeSet::new();
        for index in 0..6000 {
            let run = compile(&bundle(21, index, Sizes::Mixed).words, &UNLIMITED);
            let mut errors = list(&run.areas[area::ERRORS - 1]);
            errors.retain(|error| error[1] & 0xFFFF_FFFF <= MOST_PLACE);
            if errors.is_empty() {
                continue;
            }
            let (reply, out) = errors_in_words(&errors.concat(), 2, &[], &[], 1 << 20);
            assert_eq!(reply.number, 0, "{errors:?}");
            assert_eq!(read_back(&out[..reply.total as usize], &[], &[]), Some(errors.clone()));
            met.extend(errors.iter().map(|error| error[0]));
        }
        assert!(met.len() >= 9, "{met:?}");
    }
}
