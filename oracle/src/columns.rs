//! The column file (01, "The tree", last paragraph): a record a line, and back. Both ways check
//! rows 1 to 4; an output too short is then row 9, place 0, all zero.

use crate::random::Random;
use crate::records::{kind, line_and_column, position, records, MAX_RECORDS, RECORD_WORDS};
use crate::shape::{check, Refusal};

/// Kind, span, line, column, value.
pub const WIDTHS: [usize; 5] = [4, 8, 9, 9, 21];
/// With its newline.
pub const LINE_BYTES: usize = 52;

const BAD_LINE: u64 = 1;
const BAD_LENGTH: u64 = 2;
const OUTPUT_SHORT: u64 = 9;

/// The reply and the output in its full length.
#[derive(Clone, Debug, PartialEq, Eq)]
pub struct Converted<T> {
    pub row: u64,
    pub place: u64,
    /// Records.
    pub total: u64,
    pub out: Vec<T>,
}

/// What is to be written, with the number of records, or rows 1 to 4.
pub type Answer<T> = Result<(Vec<T>, u64), Refusal>;

/// An answer in an output of a length: zeros after it, row 9 where it is too short.
pub fn fitted<T: Copy + Default>(answer: &Answer<T>, length: usize) -> Converted<T> {
    let zeros = vec![T::default(); length];
    match answer {
        Err((row, place)) => Converted { row: *row, place: *place, total: 0, out: zeros },
        Ok((made, _)) if made.len() > length => Converted { row: OUTPUT_SHORT, place: 0, total: 0, out: zeros },
        Ok((made, total)) => {
            let mut out = made.clone();
            out.resize(length, T::default());
            Converted { row: 0, place: 0, total: *total, out }
        }
    }
}

/// A field without its padding, if only blanks pad it on the left.
fn trimmed(field: &[u8]) -> Option<&[u8]> {
    let blanks = field.iter().take_while(|&&byte| byte == b' ').count();
    let rest = &field[blanks..];
    (!rest.is_empty()).then_some(rest)
}

/// Digits without leading zeros, within 64 bits.
fn unsigned(digits: &[u8]) -> Option<u64> {
    if digits.is_empty() || digits.len() > 1 && digits[0] == b'0' {
        return None;
    }
    digits.iter().try_fold(0u64, |number, &byte| {
        let digit = byte.is_ascii_digit().then(|| u64::from(byte - b'0'))?;
        number.checked_mul(10)?.checked_add(digit)
    })
}

fn signed(text: &[u8]) -> Option<u64> {
    match text.strip_prefix(b"-") {
        None => unsigned(text).filter(|&value| value <= i64::MAX as u64),
        Some(digits) => {
            let size = unsigned(digits)?;
            (1..=1 << 63).contains(&size).then(|| size.wrapping_neg())
        }
    }
}

/// The words of a line without its newline, if it keeps to the form.
fn line(text: &[u8]) -> Option<[u64; 4]> {
    if text.len() != LINE_BYTES - 1 {
        return None;
    }
    let mut fields = [0; 5];
    let mut start = 0;
    for (i, width) in WIDTHS.iter().enumerate() {
        let field = trimmed(&text[start..start + width])?;
        start += width;
        let is_integer = i == 4 && fields[0] == kind::INTEGER;
        fields[i] = if is_integer { signed(field)? } else { unsigned(field)? };
    }
    let [kind, span, row, column, value] = fields;
    Some([kind, span, position(row, column), value])
}

/// The words of a column file, whatever they say, or row 1.
pub fn read_words(bytes: &[u8]) -> Result<Vec<u64>, Refusal> {
    let mut words = Vec::new();
    for (number, text) in (1..).zip(bytes.split_inclusive(|&byte| byte == b'\n')) {
        words.extend(text.strip_suffix(b"\n").and_then(line).ok_or((BAD_LINE, number))?);
    }
    Ok(words)
}

/// Column file to words.
pub fn read_column(bytes: &[u8]) -> Answer<u64> {
    let words = read_words(bytes)?;
    if words.len() / RECORD_WORDS > MAX_RECORDS {
        return Err((BAD_LENGTH, 0));
    }
    let total = check(&words)?.len() as u64;
    Ok((words, total))
}

/// Column file to words, into an output of `length` words.
pub fn column_to_records(bytes: &[u8], length: usize) -> Converted<u64> {
    fitted(&read_column(bytes), length)
}

/// The lines of records, whatever they say; every number fits its width where the tree rules hold.
pub fn lines(words: &[u64]) -> Vec<u8> {
    let mut out = String::new();
    for r in records(words) {
        let value = if r.kind == kind::INTEGER { (r.value as i64).to_string() } else { r.value.to_string() };
        let (row, column) = line_and_column(r.position);
        out += &format!("{:>4}{:>8}{:>9}{:>9}{:>21}\n", r.kind, r.span, row, column, value);
    }
    out.into_bytes()
}

/// Words to a column file.
pub fn write_column(words: &[u64]) -> Answer<u8> {
    let total = check(words)?.len() as u64;
    Ok((lines(words), total))
}

/// Words to a column file, into an output of `length` bytes.
pub fn records_to_column(words: &[u64], length: usize) -> Converted<u8> {
    fitted(&write_column(words), length)
}

/// A column file broken on purpose, in its lines or as a whole.
pub fn damaged(random: &mut Random, whole: &[u8]) -> Vec<u8> {
    let mut bytes = whole.to_vec();
    if bytes.len() < LINE_BYTES {
        return random.pick(&[&b"\n"[..], b" ", b"1", b"\n\n"]).to_vec();
    }
    let count = bytes.len() / LINE_BYTES;
    let start = random.index(count) * LINE_BYTES;
    let field = random.index(WIDTHS.len());
    let end = start + WIDTHS[..=field].iter().sum::<usize>();
    let width = WIDTHS[field];
    let mut write = |text: &str| {
        let text = format!("{text:>width$}");
        bytes[end - width..end].copy_from_slice(&text.as_bytes()[text.len() - width..]);
    };
    match random.below(17) {
        0 => write("-0"),
        1 => write("007"),
        2 => write(""),
        3 => write("100000000"),
        4 => write("99999999"),
        5 => write("18446744073709551616"),
        6 => write("18446744073709551615"),
        7 => write("-9223372036854775808"),
        8 => write("-9223372036854775809"),
        9 => write("9223372036854775808"),
        14 => write("999999999"),
        15 => write("1000000000"),
        16 => write("65536"),
        10 => {
            let (at, byte) = (random.index(bytes.len()), random.pick(b" \n\r\t0-+x9\0\xFF"));
            bytes[at] = byte;
        }
        11 => {
            let at = random.index(bytes.len());
            let byte = random.pick(b" \n0");
            bytes.insert(at, byte);
        }
        12 => {
            let at = random.index(bytes.len());
            bytes.remove(at);
        }
        _ => bytes.truncate(random.index(bytes.len())),
    }
    bytes
}

#[cfg(test)]
mod tests {
    use super::*;
    use crate::generate::{case, Sizes};

    fn one(value: &str) -> Converted<u64> {
        column_to_records(format!("{:>4}{:>8}{:>9}{:>9}{value:>21}\n", 1, 1, 0, 0).as_bytes(), 4)
    }

    #[test]
    fn a_document_comes_through() {
        assert_eq!(one("2"), Converted { row: 0, place: 0, total: 1, out: vec![1, 1, 0, 2] });
        assert_eq!(one("-2").row, BAD_LINE);
        assert_eq!(one("02").row, BAD_LINE);
        assert_eq!(one("18446744073709551616").row, BAD_LINE);
        assert_eq!(one("18446744073709551615").row, 3);
    }

    #[test]
    fn signed_values() {
        assert_eq!(signed(b"-9223372036854775808"), Some(1 << 63));
        assert_eq!(signed(b"-9223372036854775809"), None);
        assert_eq!(signed(b"9223372036854775807"), Some(i64::MAX as u64));
        assert_eq!(signed(b"9223372036854775808"), None);
        assert_eq!(signed(b"-0"), None);
        assert_eq!(signed(b"-1"), Some(u64::MAX));
        assert_eq!(signed(b"-"), None);
        assert_eq!(signed(b"--1"), None);
    }

    #[test]
    fn empty_and_short() {
        assert_eq!(column_to_records(b"", 4), Converted { row: 3, place: 0, total: 0, out: vec![0; 4] });
        assert_eq!(column_to_records(b"\n", 0).row, BAD_LINE);
        let file = lines(&[1, 1, 0, 2]);
        assert_eq!(column_to_records(&file, 3), Converted { row: 9, place: 0, total: 0, out: vec![0; 3] });
        let short = LINE_BYTES - 1;
        assert_eq!(records_to_column(&[1, 1, 0, 2], short), Converted { row: 9, place: 0, total: 0, out: vec![0; short] });
        let cut = column_to_records(&file[..short], 4);
        assert_eq!((cut.row, cut.place), (BAD_LINE, 1));
    }

    #[test]
    fn there_and_back() {
        for index in 0..2000 {
            let made = case(11, index, Sizes::Mixed);
            let length = made.words.len() / 4 * LINE_BYTES;
            let there = records_to_column(&made.words, length);
            if there.row == 0 {
                let back = column_to_records(&there.out, made.words.len());
                let total = made.words.len() as u64 / 4;
                assert_eq!(back, Converted { row: 0, place: 0, total, out: made.words });
            }
        }
    }

    #[test]
    fn damaged_lines_are_found_or_harmless() {
        let mut random = Random::new(5);
        let mut rows = [0; 10];
        for index in 0..3000 {
            let made = case(12, index, Sizes::Mixed);
            if check(&made.words).is_err() {
                continue;
            }
            let broken = damaged(&mut random, &lines(&made.words));
            let read = column_to_records(&broken, made.words.len());
            rows[read.row as usize] += 1;
            if read.row == 0 {
                let words = read.out[..broken.len() / LINE_BYTES * 4].to_vec();
                assert_eq!(lines(&words), broken, "two files for the same records");
            }
        }
        assert!(rows[0] > 0 && rows[1] > 0 && rows[3] > 0, "{rows:?}");
    }
}
