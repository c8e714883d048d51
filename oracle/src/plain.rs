//! The shape check and the converters as one writes them in Rust by hand: lent buffers, one pass
//! over the input, nothing allocated where the output has room. The comparison's own test runs on
//! them, and the benchmark holds the library against them.

use crate::columns::{column_to_records, LINE_BYTES, WIDTHS};
use crate::convert::Converters;
use crate::records::{kind, MAX_LEVEL, MAX_PLACE, MAX_RECORDS, MAX_TEXT, RECORD_WORDS};

/// Row and place.
type Refusal = (u64, u64);
type Record = [u64; RECORD_WORDS];

pub struct Plain;

/// Whether a child of this kind may stand after `seen` others; `body`: a statement is among them.
fn admits(parent: u64, seen: usize, body: bool, child: u64) -> bool {
    match parent {
        kind::DOCUMENT => (kind::LOCAL_DEFINITION..=kind::APPLY).contains(&child),
        kind::LOCAL_DEFINITION if seen % 2 == 1 => {
            matches!(child, kind::IDENTIFIER | kind::NULL..=kind::BOOLEAN | kind::OTHER_TOKEN | kind::ABSENT)
        }
        kind::LOCAL if seen % 2 == 1 => kind::is_expression(child) || child == kind::ABSENT,
        kind::LOCAL_DEFINITION | kind::LOCAL | kind::INCLUDE | kind::MODEL | kind::PUBLIC_MODEL => child == kind::NAME,
        kind::FUNCTION | kind::PUBLIC_FUNCTION => {
            kind::is_statement(child) || !body && matches!(child, kind::NAME | kind::THIS_PARAMETER)
        }
        kind::IMPLEMENT => child == kind::FUNCTION,
        kind::APPLY => seen < 2 && child == kind::NAME,
        kind::FOR if seen == 0 => child == kind::NAME,
        kind::FOR if seen > 1 => kind::is_statement(child),
        kind::IF if seen > 0 => seen < 3 && child == kind::BLOCK,
        kind::EXPRESSION | kind::PREFIX => seen < 1 && kind::is_expression(child),
        kind::INFIX | kind::INSTANCE_GET | kind::INDEX_GET => seen < 2 && kind::is_expression(child),
        kind::ARRAY | kind::CALL | kind::FOR | kind::IF => kind::is_expression(child),
        kind::BLOCK => kind::is_statement(child),
        _ => false,
    }
}

fn is_due(parent: u64, count: usize) -> bool {
    match parent {
        kind::LOCAL_DEFINITION | kind::INCLUDE | kind::LOCAL => count % 2 == 1,
        kind::APPLY | kind::FOR | kind::INFIX | kind::INSTANCE_GET | kind::INDEX_GET | kind::IF => count < 2,
        kind::EXPRESSION | kind::PREFIX | kind::CALL => count < 1,
        _ => false,
    }
}

fn in_range([kind, _, position, value]: Record) -> bool {
    let most_place = if kind::has_no_position(kind) { 0 } else { MAX_PLACE };
    position >> 32 <= most_place
        && position & 0xFFFF_FFFF <= most_place
        && match kind {
            kind::INTEGER | kind::FLOAT => true,
            kind::BOOLEAN => value <= 1,
            kind::PREFIX => value <= 2,
            kind::INFIX => value <= 19,
            _ if kind::holds_text(kind) => (1..=MAX_TEXT).contains(&value),
            _ => value == 0,
        }
}

struct Walk<'a> {
    records: &'a [Record],
    /// The number of the 41s, once one is met.
    this: Option<u64>,
}

impl Walk<'_> {
    /// A child is lacking, as far as spans can be followed.
    fn lacks(&self, at: usize, end: usize) -> bool {
        let (mut next, mut count) = (at + 1, 0);
        while next < end {
            let span = self.records[next][1];
            if span == 0 || span > (end - next) as u64 {
                return false;
            }
            next += span as usize;
            count += 1;
        }
        is_due(self.records[at][0], count)
    }

    /// The children of a record, or the documents, from a place to the end.
    fn run(&mut self, parent: u64, level: usize, mut at: usize, end: usize) -> Result<(), Refusal> {
        let (mut seen, mut body) = (0, false);
        while at < end {
            let record = self.records[at];
            let [kind, span, _, value] = record;
            let stands = if parent == 0 { kind == kind::DOCUMENT } else { admits(parent, seen, body, kind) };
            let fits = stands && span != 0 && span <= (end - at) as u64 && in_range(record);
            if !fits || kind == kind::THIS_PARAMETER && *self.this.get_or_insert(value) != value {
                return Err((3, at as u64));
            }
            let next = at + span as usize;
            if self.lacks(at, next) {
                return Err((3, at as u64));
            }
            if level > MAX_LEVEL {
                return Err((4, at as u64));
            }
            self.run(kind, level + 1, at + 1, next)?;
            seen += 1;
            body |= kind::is_statement(kind);
            at = next;
        }
        Ok(())
    }
}

pub fn check(words: &[u64]) -> Result<(), Refusal> {
    let (records, rest) = words.as_chunks::<RECORD_WORDS>();
    if !rest.is_empty() || records.len() > MAX_RECORDS {
        return Err((2, 0));
    }
    if records.is_empty() {
        return Err((3, 0));
    }
    Walk { records, this: None }.run(0, 1, 0, records.len())
}

/// A right-justified number.
pub fn number(field: &[u8], signed: bool) -> Option<u64> {
    let blanks = field.iter().position(|&byte| byte != b' ')?;
    let (negative, digits) = match &field[blanks..] {
        [b'-', digits @ ..] if signed => (true, digits),
        digits => (false, digits),
    };
    if digits.is_empty() || digits[0] == b'0' && (negative || digits.len() > 1) {
        return None;
    }
    let mut number = 0u64;
    for &byte in digits {
        if !byte.is_ascii_digit() {
            return None;
        }
        number = number.checked_mul(10)?.checked_add(u64::from(byte - b'0'))?;
    }
    match (signed, negative) {
        (false, _) => Some(number),
        (true, false) => (number <= i64::MAX as u64).then_some(number),
        (true, true) => (number <= 1 << 63).then_some(number.wrapping_neg()),
    }
}

fn read_line(line: &[u8; LINE_BYTES]) -> Option<Record> {
    let (kind, rest) = line.split_at(WIDTHS[0]);
    let (span, rest) = rest.split_at(WIDTHS[1]);
    let (row, rest) = rest.split_at(WIDTHS[2]);
    let (column, rest) = rest.split_at(WIDTHS[3]);
    let (value, newline) = rest.split_at(WIDTHS[4]);
    let kind = number(kind, false)?;
    let (row, column) = (number(row, false)?, number(column, false)?);
    if newline != b"\n" {
        return None;
    }
    Some([kind, number(span, false)?, row << 32 | column, number(value, kind == kind::INTEGER)?])
}

pub fn write_number(field: &mut [u8], number: u64, negative: bool) {
    let mut rest = number;
    let mut at = field.len();
    loop {
        at -= 1;
        field[at] = b'0' + (rest % 10) as u8;
        rest /= 10;
        if rest == 0 {
            break;
        }
    }
    if negative {
        at -= 1;
        field[at] = b'-';
    }
    field[..at].fill(b' ');
}

fn write_line(line: &mut [u8; LINE_BYTES], [kind, span, position, value]: Record) {
    let (kind_field, rest) = line.split_at_mut(WIDTHS[0]);
    let (span_field, rest) = rest.split_at_mut(WIDTHS[1]);
    let (row, rest) = rest.split_at_mut(WIDTHS[2]);
    let (column, rest) = rest.split_at_mut(WIDTHS[3]);
    let (value_field, newline) = rest.split_at_mut(WIDTHS[4]);
    write_number(kind_field, kind, false);
    write_number(span_field, span, false);
    write_number(row, position >> 32, false);
    write_number(column, position & 0xFFFF_FFFF, false);
    let negative = kind == kind::INTEGER && value >> 63 == 1;
    write_number(value_field, if negative { value.wrapping_neg() } else { value }, negative);
    newline[0] = b'\n';
}

pub fn refused<T: Default + Copy>(out: &mut [T], (row, place): Refusal) -> [u64; 3] {
    out.fill(T::default());
    [row, place, 0]
}

impl Converters for Plain {
    fn check(&mut self, words: &[u64]) -> [u64; 2] {
        check(words).err().map_or([0, 0], |(row, place)| [row, place])
    }

    fn to_records(&mut self, file: &[u8], out: &mut [u64]) -> [u64; 3] {
        let (lines, rest) = file.as_chunks::<LINE_BYTES>();
        if out.len() / RECORD_WORDS < lines.len() {
            let read = column_to_records(file, out.len());
            return refused(out, (read.row, read.place));
        }
        for (i, line) in lines.iter().enumerate() {
            let Some(record) = read_line(line) else {
                return refused(out, (1, i as u64 + 1));
            };
            out[i * RECORD_WORDS..][..RECORD_WORDS].copy_from_slice(&record);
        }
        if !rest.is_empty() {
            return refused(out, (1, lines.len() as u64 + 1));
        }
        let (words, after) = out.split_at_mut(lines.len() * RECORD_WORDS);
        if let Err(refusal) = check(words) {
            return refused(out, refusal);
        }
        after.fill(0);
        [0, 0, lines.len() as u64]
    }

    fn to_columns(&mut self, words: &[u64], out: &mut [u8]) -> [u64; 3] {
        if let Err(refusal) = check(words) {
            return refused(out, refusal);
        }
        let records = words.as_chunks::<RECORD_WORDS>().0;
        if out.len() / LINE_BYTES < records.len() {
            return refused(out, (9, 0));
        }
        let (lines, after) = out.split_at_mut(records.len() * LINE_BYTES);
        for (line, record) in lines.as_chunks_mut::<LINE_BYTES>().0.iter_mut().zip(records) {
            write_line(line, *record);
        }
        after.fill(0);
        [0, 0, records.len() as u64]
    }
}
