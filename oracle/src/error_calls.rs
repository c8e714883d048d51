//! Errors in words held against the reading in error_words.rs: the reply, every byte of the line buffer, what stands beside it,
//! and that the inputs are left alone. Each delivery over differing texts is read back from its lines alone. The lists come from a
//! seed, or are those that the compile call leaves in area 11.

use crate::areas::{area, Lengths, Memory, ENTRY_WORDS, UNLIMITED};
use crate::compare::{lengths, Side};
use crate::error_words::{all_differ, case, list, read_back, text, Case, Error};
use crate::generate::{self, Sizes};
use crate::model::compile;
use crate::random::Random;
use crate::records::kind;
use crate::speed::call_side;
use std::collections::BTreeSet;

/// A side: the reply is number, place and total.
pub trait ErrorCalls {
    fn in_words(&mut self, errors: &[u64], file: u64, table: &[u64], bytes: &[u8], out: &mut [u8]) -> [u64; 3];
}

/// Bytes before and after the line buffer that no call may touch.
const BESIDE: usize = 8;
const STALE: u8 = 0x5A;
const STALE_WORD: u64 = 0x5A5A_5A5A_5A5A_5A5A;
/// Longer than any line here: texts have at most 40 bytes.
const LONGEST_LINE: usize = 512;
const RING: u64 = 11;
/// Code that a bundle is let to make.
const MAX_CODE: usize = 4_000_000;

#[derive(Clone, Debug, Default, PartialEq, Eq)]
pub struct Compared {
    /// Lists that were written, with errors in them.
    pub lists: u64,
    pub errors: u64,
    pub calls: u64,
    pub rows: [u64; 10],
    /// Bytes of the lines delivered.
    pub bytes: u64,
    /// Lists over a table with texts over each other, with one that ends past the bytes, with a sum past 64 bits.
    pub overlapping: u64,
    pub ending_past: u64,
    pub sum_past: u64,
    /// Texts and numbers in their place, as delivered in file and value.
    pub texts: u64,
    pub lacking: u64,
    /// Byte values in the texts delivered; numbers and token kinds of the errors delivered.
    pub byte_values: BTreeSet<u8>,
    pub numbers: BTreeSet<u64>,
    pub kinds: BTreeSet<u64>,
    /// Deliveries over differing texts that gave their errors back, and those that did not.
    pub read: u64,
    pub unread: u64,
    /// Lists of the compile call that were refused by row 3.
    pub unknown: u64,
    pub differences: u64,
    pub first: Option<String>,
}

impl Compared {
    fn wrong(&mut self, message: String) {
        self.differences += 1;
        self.first.get_or_insert(message);
    }

    /// One list in a buffer of the case's length, in one exactly long enough and in one a byte short.
    fn list(&mut self, side: &mut dyn ErrorCalls, case: &Case) {
        let errors = list(&case.errors);
        let plenty = Case { out_len: errors.len() * LONGEST_LINE, ..case.clone() };
        let needed = plenty.answer().0.total as usize;
        self.table(case);
        self.lists += u64::from(!errors.is_empty());
        self.errors += errors.len() as u64;
        let differ = all_differ(&case.table, &case.bytes);
        for out_len in [case.out_len, needed, needed.saturating_sub(1)] {
            self.call(side, &Case { out_len, ..case.clone() }, &errors, differ);
        }
    }

    fn call(&mut self, side: &mut dyn ErrorCalls, case: &Case, errors: &[Error], differ: bool) {
        let (wanted, expected) = case.answer();
        let kept = case.clone();
        let mut memory = vec![STALE; case.out_len + 2 * BESIDE];
        let lent = BESIDE..BESIDE + case.out_len;
        let [number, place, total] =
            side.in_words(&case.errors, case.file, &case.table, &case.bytes, &mut memory[lent.clone()]);
        let found = &memory[lent.clone()];
        self.calls += 1;
        self.rows[wanted.number as usize] += 1;
        if [number, place, total] != [wanted.number, wanted.place, wanted.total] {
            self.wrong(format!("reply {:?}, expected {wanted:?}: {case:?}", [number, place, total]));
        } else if let Some(at) = (0..found.len()).find(|&at| found[at] != expected[at]) {
            self.wrong(format!("byte {at} is {}, expected {}: {case:?}", found[at], expected[at]));
        } else if memory[..lent.start].iter().chain(&memory[lent.end..]).any(|&byte| byte != STALE) {
            self.wrong(format!("written beside the line buffer: {case:?}"));
        } else if *case != kept {
            self.wrong(format!("an input was changed: {kept:?}"));
        }
        if number != 0 || total as usize > found.len() {
            return;
        }
        let lines = &memory[lent][..total as usize];
        self.delivered(lines, case, errors);
        if differ {
            if read_back(lines, &case.table, &case.bytes).as_deref() == Some(errors) {
                self.read += 1;
            } else {
                self.unread += 1;
                self.wrong(format!("the lines do not give the errors back: {case:?}"));
            }
        }
    }

    fn delivered(&mut self, lines: &[u8], case: &Case, errors: &[Error]) {
        self.bytes += lines.len() as u64;
        for &[number, _, kind, value] in errors {
            self.numbers.insert(number);
            self.kinds.insert(kind);
            let shown = [
                Some(if number == RING { value } else { case.file }),
                (number != RING && kind::holds_text(kind)).then_some(value),
            ];
            for number in shown.into_iter().flatten() {
                match text(number, &case.table, &case.bytes) {
                    Some(text) => {
                        self.texts += 1;
                        self.byte_values.extend(text);
                    }
                    None => self.lacking += 1,
                }
            }
        }
    }

    /// What kind of table it is.
    fn table(&mut self, case: &Case) {
        let room = case.bytes.len() as u128;
        let places: Vec<(u128, u128)> = case
            .table
            .chunks_exact(2)
            .map(|place| (place[0].into(), u128::from(place[0]) + u128::from(place[1])))
            .collect();
        let inside: Vec<&(u128, u128)> = places.iter().filter(|(start, end)| start < end && *end <= room).collect();
        let over = |i: usize| inside[..i].iter().any(|other| other.0 < inside[i].1 && inside[i].0 < other.1);
        self.overlapping += u64::from((0..inside.len()).any(over));
        self.ending_past += u64::from(places.iter().any(|place| place.1 > room));
        self.sum_past += u64::from(places.iter().any(|place| place.1 > u64::MAX.into()));
    }

    pub fn print(&self) {
        let Compared { lists, errors, calls, rows, bytes, .. } = self;
        println!("lists with errors {lists}, errors {errors}; calls {calls}, bytes of lines {bytes}");
        println!("  calls delivered {}, row 3 {}, row 9 {}", rows[0], rows[3], rows[9]);
        let (over, past, sum) = (self.overlapping, self.ending_past, self.sum_past);
        println!("  tables with texts over each other {over}, with one that ends past the bytes {past}, with a sum past 64 bits {sum}");
        println!("  texts in quotation marks {}, numbers in place of texts {}", self.texts, self.lacking);
        let counts = [self.byte_values.len(), self.numbers.len(), self.kinds.len()];
        println!("  different bytes in texts {}, error numbers {}, token kinds {}", counts[0], counts[1], counts[2]);
        println!("  read back {}, not read back {}", self.read, self.unread);
        println!("  lists of the compile call that are not known {}", self.unknown);
        println!("  differences: {}", self.differences);
    }
}

/// `count` lists of a seed, each in three buffers.
pub fn compare(side: &mut dyn ErrorCalls, seed: u64, count: u64) -> Compared {
    let mut seen = Compared::default();
    (0..count).for_each(|index| seen.list(side, &case(seed, index)));
    seen
}

/// Areas in which a bundle is compiled: with room for all, and three drawn from what it needs.
fn areas_to_lend(words: &[u64], random: &mut Random) -> Vec<Lengths> {
    let mut limited = UNLIMITED;
    limited[0] = MAX_CODE;
    let peaks = compile(words, &limited).peaks();
    let room = std::array::from_fn(|i| (peaks[i] as usize + random.index(4)) * ENTRY_WORDS[i]);
    let mut out = vec![room];
    out.extend((0..3).map(|_| lengths(random, &peaks)));
    out
}

/// What the compile call of a side leaves in area 11 of `count` bundles of a seed, whole as it was lent: it must be known, and
/// its lines those of the reading. File number, table and bytes are those of a case of that seed, or the book's and none.
pub fn compare_bundles<S: Side + ErrorCalls>(side: &mut S, seed: u64, count: u64) -> Compared {
    let mut seen = Compared::default();
    for index in 0..count {
        let words = generate::case(seed, index, Sizes::Mixed).words;
        let mut random = Random::for_case(!seed, index);
        for lengths in areas_to_lend(&words, &mut random) {
            let mut memory = Memory::new(&lengths, STALE_WORD);
            let reply = call_side(side, &words, &mut memory);
            let errors = memory.area(area::ERRORS - 1).to_vec();
            let drawn = case(seed, random.next());
            let own = Case { file: reply.place, table: Vec::new(), bytes: Vec::new(), ..drawn.clone() };
            for case in [drawn, own] {
                let case = Case { errors: errors.clone(), ..case };
                if case.answer().0.number == 3 {
                    seen.unknown += 1;
                    seen.wrong(format!("the compile call leaves {:?} for {words:?}", list(&errors)));
                }
                seen.list(side, &case);
            }
        }
    }
    seen
}

#[cfg(test)]
mod tests {
    use super::*;
    use crate::areas::Lent;
    use crate::compare::Model;
    use crate::error_words::is_known;
    use crate::views::Answered;
    use std::fmt::Write;

    /// What a writer does wrong; the first seven are the edits of `crates/error_lines/must-fail`.
    #[derive(Clone, Copy, Debug, PartialEq, Eq)]
    enum Fault {
        Nothing,
        TwoDigits,
        BackslashUnescaped,
        QuotedNumber,
        RingUnderCallersFile,
        SumWraps,
        ZerosNotTheEnd,
        PackedPosition,
        Byte127AsItIs,
        UnsignedInteger,
        TextNumberWraps,
        ShortBufferFirst,
        StaleBehindTheLines,
        StaleAfterARefusal,
        TotalOfAnotherList,
    }

    const SEEN: [Fault; 14] = [
        Fault::TwoDigits,
        Fault::BackslashUnescaped,
        Fault::QuotedNumber,
        Fault::RingUnderCallersFile,
        Fault::SumWraps,
        Fault::ZerosNotTheEnd,
        Fault::PackedPosition,
        Fault::Byte127AsItIs,
        Fault::UnsignedInteger,
        Fault::TextNumberWraps,
        Fault::ShortBufferFirst,
        Fault::StaleBehindTheLines,
        Fault::StaleAfterARefusal,
        Fault::TotalOfAnotherList,
    ];

    /// A writer by hand, with a fault. The compile call beside it is the model's, or one that spoils the listed errors.
    struct Writer {
        fault: Fault,
        spoils: bool,
    }

    fn writer(fault: Fault) -> Writer {
        Writer { fault, spoils: false }
    }

    const MESSAGES: [&str; 12] = [
        "",
        "variable already exists",
        "can not assign",
        "unknown operation",
        "rescue can only in the layer of function",
        "value in local definition can be constant only",
        "property already exists",
        "parameter already exists",
        "instance function can inside implement block only",
        "is not a model",
        "can not found model",
        "ring",
    ];

    impl Writer {
        fn has(&self, fault: Fault) -> bool {
            self.fault == fault
        }

        fn text<'a>(&self, number: u64, table: &[u64], bytes: &'a [u8]) -> Option<&'a [u8]> {
            let first = match self.has(Fault::TextNumberWraps) {
                true => number.wrapping_mul(2).wrapping_sub(2),
                false => number.checked_sub(1)?.checked_mul(2)?,
            };
            let first = usize::try_from(first).ok().filter(|&first| first < usize::MAX)?;
            let (&start, &length) = (table.get(first)?, table.get(first + 1)?);
            let end = match self.has(Fault::SumWraps) {
                true => start.wrapping_add(length),
                false => start.checked_add(length)?,
            };
            if end > bytes.len() as u64 {
                return None;
            }
            // Where the sum has wrapped, the text is empty.
            Some(bytes.get(start as usize..end as usize).unwrap_or_default())
        }

        fn put_text(&self, line: &mut String, number: u64, table: &[u64], bytes: &[u8]) {
            let Some(text) = self.text(number, table, bytes) else {
                let mark = if self.has(Fault::QuotedNumber) { "\"" } else { "" };
                return write!(line, "{mark}{number}{mark}").expect("a string takes it");
            };
            line.push('"');
            for &byte in text {
                match byte {
                    b'\\' if self.has(Fault::BackslashUnescaped) => line.push('\\'),
                    b'"' | b'\\' => line.extend(['\\', byte as char]),
                    b' '..=b'~' => line.push(byte as char),
                    0x7F if self.has(Fault::Byte127AsItIs) => line.push('\x7F'),
                    _ if self.has(Fault::TwoDigits) => write!(line, "\\{byte:02}").expect("a string takes it"),
                    _ => write!(line, "\\{byte:03}").expect("a string takes it"),
                }
            }
            line.push('"');
        }

        fn put_line(&self, line: &mut String, error: Error, file: u64, table: &[u64], bytes: &[u8]) {
            let [number, position, kind, value] = error;
            let ring = number == RING;
            *line += MESSAGES[number as usize];
            *line += ", ";
            let own = ring && !self.has(Fault::RingUnderCallersFile);
            self.put_text(line, if own { value } else { file }, table, bytes);
            let column = if self.has(Fault::PackedPosition) { position } else { position & 0xFFFF_FFFF };
            write!(line, ", {}, {column}, {kind}, ", position >> 32).expect("a string takes it");
            match kind {
                _ if ring => line.push('0'),
                kind::INTEGER if !self.has(Fault::UnsignedInteger) => *line += &(value as i64).to_string(),
                kind if kind::holds_text(kind) => self.put_text(line, value, table, bytes),
                _ => *line += &value.to_string(),
            }
            line.push('\n');
        }

        fn lines(&self, errors: &[Error], file: u64, table: &[u64], bytes: &[u8]) -> Result<String, [u64; 3]> {
            let mut lines = String::new();
            for (index, &error) in (0..).zip(errors) {
                if !is_known(error) {
                    return Err([3, index, 0]);
                }
                self.put_line(&mut lines, error, file, table, bytes);
            }
            Ok(lines)
        }
    }

    impl ErrorCalls for Writer {
        fn in_words(&mut self, errors: &[u64], file: u64, table: &[u64], bytes: &[u8], out: &mut [u8]) -> [u64; 3] {
            let mut listed: Vec<Error> = errors.as_chunks::<4>().0.to_vec();
            match self.has(Fault::ZerosNotTheEnd) {
                true => listed.retain(|error| *error != [0; 4]),
                false => listed.truncate(listed.iter().position(|error| *error == [0; 4]).unwrap_or(listed.len())),
            }
            let made = match self.lines(&listed, file, table, bytes) {
                Err(_) if out.is_empty() && self.has(Fault::ShortBufferFirst) => Err([9, 13, 0]),
                Ok(lines) if lines.len() > out.len() => Err([9, 13, 0]),
                made => made,
            };
            if !self.has(Fault::StaleBehindTheLines) && !(made.is_err() && self.has(Fault::StaleAfterARefusal)) {
                out.fill(0);
            }
            match made {
                Ok(lines) => {
                    out[..lines.len()].copy_from_slice(lines.as_bytes());
                    let more = u64::from(self.has(Fault::TotalOfAnotherList) && lines.len() < out.len());
                    [0, 0, lines.len() as u64 + more]
                }
                Err(reply) => reply,
            }
        }
    }

    impl Side for Writer {
        fn name(&self) -> &str {
            "the writer"
        }

        fn compile<'a>(&mut self, words: &[u64], lent: Lent<'a>) -> Answered<'a> {
            let mut lent = lent;
            if !self.spoils {
                return Model.compile(words, lent);
            }
            let reply = Model.compile(words, lent.again()).reply;
            let (areas, _) = lent.parts();
            // Position 1 for an error 11, and line 2^31 for another.
            if let Some(number @ 1..) = areas[area::ERRORS - 1].first().copied() {
                areas[area::ERRORS - 1][1] = if number == RING { 1 } else { 1 << 63 };
            }
            Answered { reply, areas: areas.map(|area| &*area) }
        }
    }

    #[test]
    fn the_writer_by_hand_is_alike() {
        let seen = compare(&mut writer(Fault::Nothing), 41, 20_000);
        assert!(seen.first.is_none(), "{:?}", seen.first);
        assert!([0, 3, 9].iter().all(|&row| seen.rows[row] > 1000), "{seen:?}");
        assert!(seen.read > 10_000 && seen.unread == 0);
        assert!([seen.overlapping, seen.ending_past, seen.sum_past].iter().all(|&count| count > 500), "{seen:?}");
        assert_eq!((seen.byte_values.len(), seen.numbers.len(), seen.kinds.len()), (256, 11, kind::ALL.len() + 1));
    }

    #[test]
    fn planted_faults_are_seen() {
        for fault in SEEN {
            let seen = compare(&mut writer(fault), 42, 4000);
            assert!(seen.differences > 0, "{fault:?}");
            let meets = [Fault::TwoDigits, Fault::BackslashUnescaped, Fault::QuotedNumber, Fault::RingUnderCallersFile];
            assert!(seen.unread > 0 || !meets.contains(&fault), "{fault:?}: the lines alone tell it");
        }
    }

    #[test]
    fn lists_of_the_compile_call_are_known() {
        let seen = compare_bundles(&mut writer(Fault::Nothing), 43, 1500);
        assert!(seen.first.is_none(), "{:?}", seen.first);
        assert!(seen.lists > 500 && seen.unknown == 0 && seen.rows[3] == 0, "{seen:?}");
        assert!(seen.numbers.len() >= 10, "{seen:?}");
    }

    #[test]
    fn an_unknown_error_of_the_compile_call_is_seen() {
        let seen = compare_bundles(&mut Writer { fault: Fault::Nothing, spoils: true }, 44, 100);
        assert!(seen.unknown > 0 && seen.differences > 0, "{seen:?}");
    }
}
