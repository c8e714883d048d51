//! Column files: a record a line (docs/FORMAT.md, 'Column files'). The library reads and writes them;
//! here are the widths, and what is wrong with a line that it refuses.

use crate::kind::Kind;
use crate::position::Position;
use crate::records::RECORD_WORDS;
use std::fmt;

/// Bytes of each field: kind, span, line, column, value.
const WIDTHS: [usize; 5] = [4, 8, 9, 9, 21];
const FIELDS: [&str; 5] = ["kind", "span", "line", "column", "value"];

/// Bytes of a line, its newline among them.
pub const LINE_BYTES: usize = WIDTHS[0] + WIDTHS[1] + WIDTHS[2] + WIDTHS[3] + WIDTHS[4] + 1;

/// What is wrong with a line of a column file.
#[derive(Clone, Copy, Debug, PartialEq, Eq)]
#[non_exhaustive]
pub enum LineFault {
    /// The line has another length.
    Length(usize),
    /// A field is not a number, right-justified in blanks and without leading zeros, in its range.
    Field(&'static str),
}

impl LineFault {
    /// What is wrong with a line, numbered from 1.
    pub fn of(file: &[u8], line: u64) -> Option<LineFault> {
        let at = usize::try_from(line).ok()?.checked_sub(1)?;
        let found = lines(file).nth(at)?;
        let cut_off = !file.ends_with(b"\n") && lines(file).nth(at + 1).is_none();
        record(found).err().or(cut_off.then_some(LineFault::Length(found.len())))
    }
}

impl fmt::Display for LineFault {
    fn fmt(&self, out: &mut fmt::Formatter<'_>) -> fmt::Result {
        match self {
            LineFault::Length(bytes) => {
                write!(out, "it has {bytes} bytes before its end, and not {}", LINE_BYTES - 1)
            }
            LineFault::Field(name) => {
                write!(out, "its {name} is not a number in range, right-justified in blanks, without leading zeros")
            }
        }
    }
}

/// The digits of a field that is right-justified in blanks.
fn digits(field: &[u8]) -> Option<&str> {
    let text = std::str::from_utf8(field).ok()?.trim_start_matches(' ');
    let plain = text.strip_prefix('-').unwrap_or(text);
    let fine = !plain.is_empty() && plain.bytes().all(|byte| byte.is_ascii_digit());
    (fine && (plain == "0" || !plain.starts_with('0'))).then_some(text)
}

fn unsigned(field: &[u8]) -> Option<u64> {
    digits(field)?.parse().ok()
}

fn value(field: &[u8], kind: u64) -> Option<u64> {
    if kind != Kind::Integer.number() {
        return unsigned(field);
    }
    digits(field).filter(|&text| text != "-0")?.parse().ok().map(|value: i64| value as u64)
}

/// The record of a line without its newline.
fn record(line: &[u8]) -> Result<[u64; RECORD_WORDS], LineFault> {
    if line.len() != LINE_BYTES - 1 {
        return Err(LineFault::Length(line.len()));
    }
    let mut at = 0;
    let [kind, span, row, column, last] = WIDTHS.map(|width| {
        at += width;
        &line[at - width..at]
    });
    let read = |field: usize, number: Option<u64>| number.ok_or(LineFault::Field(FIELDS[field]));
    // Nine digits fit 32 bits; a line or column beyond the limit is a record at fault, and not a bad line.
    let part = |bytes| unsigned(bytes).and_then(|part| u32::try_from(part).ok());
    let kind = read(0, unsigned(kind))?;
    let span = read(1, unsigned(span))?;
    let row = part(row).ok_or(LineFault::Field(FIELDS[2]))?;
    let column = part(column).ok_or(LineFault::Field(FIELDS[3]))?;
    Ok([kind, span, Position::new(row, column).word(), read(4, value(last, kind))?])
}

/// The lines of a file without their newlines; what follows the last newline is a line too.
fn lines(file: &[u8]) -> impl Iterator<Item = &[u8]> {
    file.strip_suffix(b"\n").unwrap_or(file).split(|&byte| byte == b'\n')
}

/// The words of a file whose lines are on the form; for the reason of a row 3.
#[cfg(any(feature = "link", test))]
pub(crate) fn words(file: &[u8]) -> Option<Vec<u64>> {
    let records: Result<Vec<_>, _> = lines(file).map(record).collect();
    records.ok().map(|records| records.concat())
}

#[cfg(test)]
mod tests {
    use super::*;

    /// A line of five fields as they are given.
    fn line(fields: [&str; 5]) -> String {
        fields.iter().zip(WIDTHS).map(|(field, width)| format!("{field:>width$}")).collect()
    }

    const SMALLEST: [&str; 5] = ["33", "1", "2", "6", "-9223372036854775808"];

    #[test]
    fn a_line_is_read() {
        let line = line(SMALLEST);
        assert_eq!(line.len(), LINE_BYTES - 1);
        let words = [33, 1, Position::new(2, 6).word(), 1 << 63];
        assert_eq!(record(line.as_bytes()), Ok(words));
        assert_eq!(super::words(format!("{line}\n{line}\n").as_bytes()), Some([words, words].concat()));
    }

    #[test]
    fn a_line_or_column_beyond_the_limit_is_read() {
        for (row, column) in [(Position::MOST + 1, 0), (0, Position::MOST + 1), (999_999_999, 999_999_999)] {
            let line = line(["33", "1", &row.to_string(), &column.to_string(), "0"]);
            assert_eq!(record(line.as_bytes()), Ok([33, 1, Position::new(row, column).word(), 0]));
        }
    }

    #[test]
    fn faults_are_named() {
        let fault = |line: &str| record(line.as_bytes()).expect_err("a fault");
        assert_eq!(fault(&line(SMALLEST)[1..]), LineFault::Length(LINE_BYTES - 2));
        let wrong = [(0, "33 "), (0, "x"), (1, "01"), (2, "02"), (3, "-6"), (3, "1 0"), (4, "-0"), (4, "")];
        for (at, field) in wrong {
            let mut fields = SMALLEST;
            fields[at] = field;
            assert_eq!(fault(&line(fields)), LineFault::Field(FIELDS[at]), "{field}");
        }
        let unsigned = line(["34", "1", "2", "6", "-1"]);
        assert_eq!(fault(&unsigned), LineFault::Field("value"));
        let two = format!("{0}\n{0}", line(SMALLEST));
        assert_eq!(LineFault::of(two.as_bytes(), 1), None);
        assert_eq!(LineFault::of(two.as_bytes(), 2), Some(LineFault::Length(LINE_BYTES - 1)));
    }
}
