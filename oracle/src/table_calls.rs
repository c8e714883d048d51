//! The two ways between constant tables and their documents, held against the reading in tables.rs: the reply, every element
//! that is lent, what stands beside it, and that the input is left alone. Also a plain version, the stored cases of the program
//! `word_cases`, and the benchmark.

use crate::parts::Part;
use crate::plain::{check, number, refused, write_number};
use crate::random::Random;
use crate::records::{kind, MAX_TEXT, RECORD_WORDS};
use crate::tables::{
    backward_case, document, forward_case, records_to_table, some_entry, table, table_to_records, Backward, Entry,
    Forward, LINE_BYTES, MAX_LINES,
};

/// A side: replies are number, place and total, and on the way back the file number.
pub trait TableCalls {
    fn to_records(&mut self, table: &[u8], file: u64, out: &mut [u64]) -> [u64; 3];
    fn to_table(&mut self, words: &[u64], out: &mut [u8]) -> [u64; 4];
}

/// Elements before and after the lent ones that no call may touch.
const BESIDE: usize = 8;

/// What a way saw.
#[derive(Clone, Debug, Default, PartialEq, Eq)]
pub struct Tally {
    pub calls: u64,
    /// Elements of the inputs.
    pub size: u64,
    pub rows: [u64; 11],
    pub differences: u64,
}

impl Tally {
    pub fn print(&self, name: &str, unit: &str) {
        println!("{name}: {} calls, {} {unit}", self.calls, self.size);
        println!("  by row 0 to 10: {:?}", self.rows);
        println!("  differences: {}", self.differences);
    }
}

#[derive(Clone, Debug, Default)]
pub struct Compared {
    pub to_records: Tally,
    pub to_table: Tally,
    pub first: Option<String>,
}

impl Compared {
    fn seen(&mut self, back: bool, size: usize, row: u64, judged: Result<(), String>) {
        let tally = if back { &mut self.to_table } else { &mut self.to_records };
        tally.calls += 1;
        tally.size += size as u64;
        tally.rows[row as usize] += 1;
        if let Err(message) = judged {
            tally.differences += 1;
            self.first.get_or_insert(message);
        }
    }

    pub fn forward(&mut self, side: &mut dyn TableCalls, case: &Forward) {
        let Forward { table, file, out_len } = case;
        let (expected, out) = table_to_records(table, *file, *out_len);
        let wanted = [expected.number, expected.place, expected.total];
        let judged = call(table, &wanted, &out, 0x5A5A_5A5A_5A5A_5A5A, |table, out| side.to_records(table, *file, out));
        let judged = judged.map_err(|message| format!("{message}: {case:?}"));
        self.seen(false, table.len(), expected.number, judged);
    }

    pub fn backward(&mut self, side: &mut dyn TableCalls, case: &Backward) {
        let Backward { words, out_len } = case;
        let (expected, out) = records_to_table(words, *out_len);
        let wanted = [expected.number, expected.place, expected.total, expected.file];
        let judged = call(words, &wanted, &out, 0x5A, |words, out| side.to_table(words, out));
        let judged = judged.map_err(|message| format!("{message}: {case:?}"));
        self.seen(true, words.len(), expected.number, judged);
    }
}

/// One call on an output that holds stale elements, in the midst of others.
fn call<I: Clone + PartialEq, O: Copy + PartialEq + std::fmt::Debug, const N: usize>(
    input: &[I],
    wanted: &[u64; N],
    out: &[O],
    stale: O,
    run: impl FnOnce(&[I], &mut [O]) -> [u64; N],
) -> Result<(), String> {
    let kept = input.to_vec();
    let mut memory = vec![stale; out.len() + 2 * BESIDE];
    let reply = run(input, &mut memory[BESIDE..BESIDE + out.len()]);
    let found = &memory[BESIDE..BESIDE + out.len()];
    if reply != *wanted {
        return Err(format!("reply {reply:?}, expected {wanted:?}"));
    }
    if let Some(at) = (0..out.len()).find(|&at| found[at] != out[at]) {
        return Err(format!("element {at} is {:?}, expected {:?}", found[at], out[at]));
    }
    if memory[..BESIDE].iter().chain(&memory[BESIDE + out.len()..]).any(|&element| element != stale) {
        return Err("written outside the lent elements".to_string());
    }
    if kept != input {
        return Err("the input was changed".to_string());
    }
    Ok(())
}

/// `count` tables and `count` documents of a seed.
pub fn compare(side: &mut dyn TableCalls, seed: u64, count: u64) -> Compared {
    let mut seen = Compared::default();
    for index in 0..count {
        seen.forward(side, &forward_case(seed, index));
        seen.backward(side, &backward_case(!seed, index));
    }
    seen
}

fn entries(count: usize) -> Vec<Entry> {
    let mut random = Random::new(count as u64);
    (0..count).map(|_| some_entry(&mut random)).collect()
}

fn words(entries: &[Entry], file: u64) -> Vec<u64> {
    crate::records::words(&document(file, entries))
}

/// The most lines and one more: good, the last off its form, a file number that is no text, a short output; and back.
pub fn compare_limits(side: &mut dyn TableCalls) -> Compared {
    let mut seen = Compared::default();
    for count in [MAX_LINES, MAX_LINES + 1] {
        let entries = entries(count);
        let good = table(&entries);
        let mut off = good.clone();
        let last = off.len() - 2;
        off[last] = b' ';
        let need = RECORD_WORDS * (3 * count + 1);
        for table in [&good, &off] {
            for file in [1, 0, MAX_TEXT, MAX_TEXT + 1] {
                for out_len in [0, need - 1, need, need + 3] {
                    seen.forward(side, &Forward { table: table.clone(), file, out_len });
                }
            }
        }
        let words = words(&entries, MAX_TEXT);
        for out_len in [0, good.len() - 1, good.len(), good.len() + 3] {
            seen.backward(side, &Backward { words: words.clone(), out_len });
        }
    }
    seen
}

/// The two ways as one writes them in Rust by hand: lent buffers, one pass, nothing allocated.
pub struct Plain;

fn read_line(line: &[u8; LINE_BYTES]) -> Option<[u64; 3]> {
    let text = number(&line[..8], false)?;
    let kind = number(&line[8..12], false)?;
    let value = number(&line[12..33], kind == 2)?;
    let good = (1..=MAX_TEXT).contains(&text) && matches!(kind, 2 | 3) && line[33] == b'\n';
    good.then_some([text, if kind == 2 { kind::INTEGER } else { kind::FLOAT }, value])
}

fn write_line(line: &mut [u8; LINE_BYTES], text: u64, kind: u64, value: u64) {
    let integer = kind == kind::INTEGER;
    let negative = integer && value >> 63 == 1;
    write_number(&mut line[..8], text, false);
    write_number(&mut line[8..12], if integer { 2 } else { 3 }, false);
    write_number(&mut line[12..33], if negative { value.wrapping_neg() } else { value }, negative);
    line[33] = b'\n';
}

/// The first record up to which no table agrees.
fn not_table(records: &[[u64; RECORD_WORDS]]) -> Option<usize> {
    let span = records[0][1] as usize;
    if span % 3 != 1 {
        return Some(0);
    }
    let (definitions, _) = records[1..span].as_chunks::<3>();
    for (i, [definition, name, value]) in definitions.iter().enumerate() {
        if *definition != [kind::LOCAL_DEFINITION, 3, 0, 0] {
            return Some(3 * i + 1);
        }
        if name[..3] != [kind::NAME, 1, 0] {
            return Some(3 * i + 2);
        }
        if !matches!(value[..3], [kind::INTEGER | kind::FLOAT, 1, 0]) {
            return Some(3 * i + 3);
        }
    }
    (span < records.len()).then_some(span)
}

impl TableCalls for Plain {
    fn to_records(&mut self, table: &[u8], file: u64, out: &mut [u64]) -> [u64; 3] {
        let (lines, rest) = table.as_chunks::<LINE_BYTES>();
        let records = 3 * lines.len() + 1;
        let fits = out.len() >= RECORD_WORDS * records;
        for (i, line) in lines.iter().enumerate() {
            let Some([text, kind, value]) = read_line(line) else {
                return refused(out, (1, i as u64 + 1));
            };
            if fits {
                let words = [kind::LOCAL_DEFINITION, 3, 0, 0, kind::NAME, 1, 0, text, kind, 1, 0, value];
                out[RECORD_WORDS * (3 * i + 1)..][..12].copy_from_slice(&words);
            }
        }
        if !rest.is_empty() {
            return refused(out, (1, lines.len() as u64 + 1));
        }
        if lines.len() > MAX_LINES {
            return refused(out, (2, 0));
        }
        if !(1..=MAX_TEXT).contains(&file) {
            return refused(out, (3, 0));
        }
        if !fits {
            return refused(out, (9, 0));
        }
        out[..RECORD_WORDS].copy_from_slice(&[kind::DOCUMENT, records as u64, 0, file]);
        out[RECORD_WORDS * records..].fill(0);
        [0, 0, records as u64]
    }

    fn to_table(&mut self, words: &[u64], out: &mut [u8]) -> [u64; 4] {
        let back = |[row, place, total]: [u64; 3]| [row, place, total, 0];
        if let Err(refusal) = check(words) {
            return back(refused(out, refusal));
        }
        let records = words.as_chunks::<RECORD_WORDS>().0;
        if let Some(place) = not_table(records) {
            return back(refused(out, (10, place as u64)));
        }
        let definitions = records[1..].as_chunks::<3>().0;
        if out.len() / LINE_BYTES < definitions.len() {
            return back(refused(out, (9, 0)));
        }
        let (lines, after) = out.split_at_mut(definitions.len() * LINE_BYTES);
        for (line, [_, name, value]) in lines.as_chunks_mut::<LINE_BYTES>().0.iter_mut().zip(definitions) {
            write_line(line, name[3], value[0], value[3]);
        }
        after.fill(0);
        [0, 0, definitions.len() as u64, records[0][3]]
    }
}

/// Stores a case: its name, its header, its elements, the reply and the output.
type Put<'a> = dyn FnMut(&str, [u64; 3], &[u64], &[u64], &[u64]) + 'a;

/// Bytes of the stored cases that the program reads at most.
const STORED: usize = 60_000;
/// Elements that its arrays hold.
const ELEMENTS: usize = 500;

/// The part `tables` of the stored cases of `word_cases`: the readings' inputs by name, then cases of a seed.
pub fn stored() -> Part {
    let (mut given, mut wanted) = (String::new(), String::new());
    let line = |fields: [&str; 3]| format!("{:>8}{:>4}{:>21}\n", fields[0], fields[1], fields[2]).into_bytes();
    let forward: [(&str, Vec<u8>, u64, usize); 12] = [
        ("an empty table", Vec::new(), 5, 6),
        ("a newline alone", b"\n".to_vec(), 5, 6),
        ("kind 4", line(["1", "4", "0"]), 5, 16),
        ("kind 33", line(["1", "33", "0"]), 5, 16),
        ("a float's minus", line(["1", "3", "-1"]), 5, 16),
        ("minus zero as bits", line(["1", "3", "9223372036854775808"]), 5, 16),
        ("the smallest integer", line(["1048575", "2", "-9223372036854775808"]), 1_048_575, 17),
        ("text 0", line(["0", "2", "0"]), 5, 16),
        ("text 1048576", line(["1048576", "2", "0"]), 5, 16),
        ("file number 0", line(["1", "2", "0"]), 0, 16),
        ("a word short", line(["1", "2", "0"]), 5, 15),
        ("two equal lines", [line(["3", "2", "1"]), line(["3", "2", "1"])].concat(), 3, 28),
    ];
    let mut put = |name: &str, header: [u64; 3], elements: &[u64], reply: &[u64], out: &[u64]| {
        let text = |numbers: &[u64]| numbers.iter().map(|number| format!(" {number}")).collect::<String>();
        let case = format!("{name}:{}{}\n", text(&header), text(elements));
        if elements.len() > ELEMENTS || out.len() > ELEMENTS || given.len() + case.len() > STORED {
            return;
        }
        given += &case;
        wanted += &format!("{name}:{} 7 7{} 7 7\n", text(reply), text(out));
    };
    let wide = |bytes: &[u8]| bytes.iter().map(|&byte| u64::from(byte)).collect::<Vec<_>>();
    let there = |name: &str, Forward { table, file, out_len }: Forward, put: &mut Put| {
        let (reply, out) = table_to_records(&table, file, out_len);
        put(name, [1, file, out_len as u64], &wide(&table), &[reply.number, reply.place, reply.total], &out);
    };
    let back = |name: &str, Backward { words, out_len }: Backward, put: &mut Put| {
        let (reply, out) = records_to_table(&words, out_len);
        put(name, [2, 0, out_len as u64], &words, &[reply.number, reply.place, reply.total, reply.file], &wide(&out));
    };
    for (name, table, file, out_len) in forward {
        there(name, Forward { table, file, out_len }, &mut put);
    }
    let backward: [(&str, &[u64]); 9] = [
        ("no words", &[]),
        ("a document alone", &[1, 1, 0, 5]),
        ("a definition without pairs", &[1, 2, 0, 5, 10, 1, 0, 0]),
        ("a position", &[1, 4, 0, 5, 10, 3, 0, 0, 40, 1, 1, 3, 33, 1, 0, 1]),
        ("a boolean", &[1, 4, 0, 5, 10, 3, 0, 0, 40, 1, 0, 3, 36, 1, 0, 1]),
        ("a model", &[1, 4, 0, 5, 12, 3, 0, 3, 40, 1, 0, 3, 40, 1, 0, 3]),
        ("a second document", &[1, 1, 0, 5, 1, 1, 0, 6]),
        ("two pairs", &[1, 7, 0, 5, 10, 5, 0, 0, 40, 1, 0, 3, 33, 1, 0, 1, 40, 1, 0, 4, 33, 1, 0, 1, 10, 1, 0, 0]),
        ("one line", &[1, 4, 0, 5, 10, 3, 0, 0, 40, 1, 0, 3, 34, 1, 0, 1]),
    ];
    for (name, words) in backward {
        back(name, Backward { words: words.to_vec(), out_len: 36 }, &mut put);
    }
    back("one byte short", Backward { words: backward[8].1.to_vec(), out_len: 33 }, &mut put);
    for index in 0..90 {
        there(&format!("table {index}"), forward_case(1, index), &mut put);
        back(&format!("document {index}"), backward_case(2, index), &mut put);
    }
    Part { given, wanted }
}

/// Both sides on a table of 300,000 lines, turn by turn.
#[cfg(feature = "link")]
pub fn bench(runs: usize) {
    use crate::clock::{median, now};
    use crate::ours::Library;
    const LINES: usize = 300_000;
    let bytes = table(&entries(LINES));
    let words = words(&entries(LINES), 5);
    let (mut read, mut written) = (vec![1; words.len()], vec![1; bytes.len()]);
    println!("{LINES} lines, {} bytes, medians of {runs} runs", bytes.len());
    for back in [false, true] {
        let (mut ours, mut plain) = (Vec::new(), Vec::new());
        for _ in 0..runs {
            for (side, times) in [(&mut Library as &mut dyn TableCalls, &mut ours), (&mut Plain, &mut plain)] {
                let start = now();
                if back {
                    assert_eq!(side.to_table(&words, &mut written), [0, 0, LINES as u64, 5]);
                } else {
                    assert_eq!(side.to_records(&bytes, 5, &mut read), [0, 0, 3 * LINES as u64 + 1]);
                }
                times.push(now() - start);
            }
        }
        let (ours, plain) = (median(ours), median(plain));
        println!(
            "{}: library {:.1} MB/s, plain Rust {:.1} MB/s, time ratio {:.2}",
            if back { "records to table" } else { "table to records" },
            bytes.len() as f64 / ours * 1e-6,
            bytes.len() as f64 / plain * 1e-6,
            ours / plain
        );
    }
    assert!(read == words && written == bytes);
}

#[cfg(test)]
mod tests {
    use super::*;
    use crate::tables::Value;

    #[test]
    fn the_plain_ways_are_alike() {
        let seen = compare(&mut Plain, 31, 20_000);
        assert!(seen.first.is_none(), "{:?}", seen.first);
        for row in [0, 1, 3, 9] {
            assert!(seen.to_records.rows[row] > 0, "{:?}", seen.to_records);
        }
        for row in [0, 2, 3, 9, 10] {
            assert!(seen.to_table.rows[row] > 0, "{:?}", seen.to_table);
        }
    }

    #[test]
    fn the_plain_ways_are_alike_at_the_limits() {
        let seen = compare_limits(&mut Plain);
        assert!(seen.first.is_none(), "{:?}", seen.first);
        assert!(seen.to_records.rows[2] > 0 && seen.to_table.rows[2] > 0 && seen.to_records.rows[0] > 0);
    }

    /// A fault on the way to records, and one on the way back.
    type Faults = (fn(&mut [u64], &mut [u64; 3]), fn(&mut [u8], &mut [u64; 4]));

    /// The plain ones with a fault each way.
    struct Wrong(Faults);

    impl TableCalls for Wrong {
        fn to_records(&mut self, table: &[u8], file: u64, out: &mut [u64]) -> [u64; 3] {
            let mut reply = Plain.to_records(table, file, out);
            (self.0 .0)(out, &mut reply);
            reply
        }

        fn to_table(&mut self, words: &[u64], out: &mut [u8]) -> [u64; 4] {
            let mut reply = Plain.to_table(words, out);
            (self.0 .1)(out, &mut reply);
            reply
        }
    }

    #[test]
    fn planted_faults_are_seen() {
        let faults: [Faults; 5] = [
            (|_, reply| reply[1] += u64::from(reply[0] == 1), |_, reply| reply[1] += u64::from(reply[0] == 10)),
            (|_, reply| reply[2] += u64::from(reply[0] == 0), |_, reply| reply[3] = u64::from(reply[0] != 0)),
            (
                |out, reply| {
                    if let (9, Some(last)) = (reply[0], out.last_mut()) {
                        *last = 7;
                    }
                },
                |out, reply| {
                    if let (9, Some(last)) = (reply[0], out.last_mut()) {
                        *last = 7;
                    }
                },
            ),
            (
                |out, reply| {
                    if reply[0] == 0 && out.len() as u64 > 4 * reply[2] {
                        out[4 * reply[2] as usize] = 1;
                    }
                },
                |out, reply| {
                    if reply[0] == 0 && out.len() > LINE_BYTES * reply[2] as usize {
                        out[LINE_BYTES * reply[2] as usize] = 1;
                    }
                },
            ),
            // A float's record of kind 33; a float's line of kind 2.
            (
                |out, reply| {
                    if reply[0] == 0 {
                        out.chunks_mut(4).filter(|record| record[0] == 34).for_each(|record| record[0] = 33);
                    }
                },
                |out, reply| {
                    if reply[0] == 0 {
                        out.chunks_mut(LINE_BYTES)
                            .filter(|line| line.len() > 11 && line[11] == b'3')
                            .for_each(|line| line[11] = b'2');
                    }
                },
            ),
        ];
        for fault in faults {
            let seen = compare(&mut Wrong(fault), 32, 400);
            assert!(seen.to_records.differences > 0 && seen.to_table.differences > 0, "{seen:?}");
        }
    }

    #[test]
    fn the_stored_cases_are_current() {
        assert!(crate::parts::is_stored("tables", &stored()), "`oracle table-cases` writes them anew");
    }

    #[test]
    fn a_negative_integer_is_an_integer() {
        let minus = Entry { text: 1, value: Value::Integer(-1) };
        let mut out = [7; 16];
        assert_eq!(Plain.to_records(&table(&[minus]), 5, &mut out), [0, 0, 4]);
        assert_eq!(out[15], u64::MAX);
    }
}
