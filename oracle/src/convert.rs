//! Converters between column files and records, held against the reading in columns.rs: the reply,
//! every element that is lent, what stands beside it, and that the input is left alone.

use crate::columns::{damaged, fitted, lines, read_column, write_column, Answer, LINE_BYTES};
use crate::compare::shrink;
use crate::damage::damaged_words;
use crate::generate::{case, Sizes};
use crate::random::Random;
use crate::records::{flatten, kind, Node, MAX_LEVEL, MAX_RECORDS, RECORD_WORDS};
use crate::shape::check;
use std::fmt::Debug;

/// A side: replies are number and place, and for a conversion how many records.
pub trait Converters {
    fn check(&mut self, words: &[u64]) -> [u64; 2];
    fn to_records(&mut self, file: &[u8], out: &mut [u64]) -> [u64; 3];
    fn to_columns(&mut self, words: &[u64], out: &mut [u8]) -> [u64; 3];
}

/// Elements before and after the lent ones that no call may touch.
const BESIDE: usize = 8;

/// What a direction saw.
#[derive(Clone, Debug, Default, PartialEq, Eq)]
pub struct Tally {
    pub inputs: u64,
    /// Of the inputs, in bytes or words.
    pub size: u64,
    pub calls: u64,
    /// Of all calls, one for each output length.
    pub rows: [u64; 10],
    pub differences: u64,
}

/// The first difference, with the input cut down line by line or record by record.
#[derive(Debug)]
pub struct Difference {
    pub name: String,
    pub message: String,
    pub shrunk: String,
}

#[derive(Debug, Default)]
pub struct Compared {
    pub to_records: Tally,
    pub to_columns: Tally,
    /// Word lists put to the shape check.
    pub checks: u64,
    pub first: Option<Difference>,
}

impl Compared {
    pub fn differences(&self) -> u64 {
        self.to_records.differences + self.to_columns.differences
    }
}

/// Lengths of the output: none, just enough, one short, more, and two between.
fn rooms(random: &mut Random, need: usize) -> [usize; 6] {
    let more = random.between(1, 99) as usize;
    let part = random.index(need + 1);
    [0, need, need.saturating_sub(1), need + more, part, need.saturating_sub(4)]
}

/// One call on an output of `room` elements that hold anything, in the midst of others.
fn call<I, O>(
    input: &[I],
    expected: &Answer<O>,
    room: usize,
    stale: O,
    run: impl FnOnce(&[I], &mut [O]) -> [u64; 3],
) -> Result<u64, String>
where
    I: Clone + PartialEq,
    O: Copy + Default + PartialEq + Debug,
{
    let kept = input.to_vec();
    let mut memory = vec![stale; room + 2 * BESIDE];
    let reply = run(input, &mut memory[BESIDE..BESIDE + room]);
    let wanted = fitted(expected, room);
    let out = &memory[BESIDE..BESIDE + room];
    if reply != [wanted.row, wanted.place, wanted.total] {
        return Err(format!("room {room}: {reply:?}, expected {:?}", [wanted.row, wanted.place, wanted.total]));
    }
    if let Some(at) = (0..room).find(|&at| out[at] != wanted.out[at]) {
        return Err(format!("room {room}: element {at} is {:?}, expected {:?}", out[at], wanted.out[at]));
    }
    if memory[..BESIDE].iter().chain(&memory[BESIDE + room..]).any(|&element| element != stale) {
        return Err(format!("room {room}: written outside the lent elements"));
    }
    if kept != input {
        return Err(format!("room {room}: the input was changed"));
    }
    Ok(wanted.row)
}

fn judge_file(side: &mut dyn Converters, random: &mut Random, file: &[u8]) -> Result<Vec<u64>, String> {
    let expected = read_column(file);
    let need = file.len() / LINE_BYTES * RECORD_WORDS;
    let stale = random.next() | 1;
    let mut rows = Vec::new();
    for room in rooms(random, need) {
        rows.push(call(file, &expected, room, stale, |file, out| side.to_records(file, out))?);
    }
    Ok(rows)
}

fn judge_words(side: &mut dyn Converters, random: &mut Random, words: &[u64]) -> Result<Vec<u64>, String> {
    let found = side.check(words);
    let refusal = check(words).err().map_or([0, 0], |(row, place)| [row, place]);
    if found != refusal {
        return Err(format!("shape check {found:?}, expected {refusal:?}"));
    }
    let expected = write_column(words);
    let need = words.len() / RECORD_WORDS * LINE_BYTES;
    let stale = random.next() as u8 | 1;
    let mut rows = Vec::new();
    for room in rooms(random, need) {
        rows.push(call(words, &expected, room, stale, |words, out| side.to_columns(words, out))?);
    }
    Ok(rows)
}

/// A smaller file that still differs: by its tree where it has one, else line by line.
fn shrink_file(file: &[u8], mut differs: impl FnMut(&[u8]) -> bool) -> Vec<u8> {
    if let Ok((words, _)) = read_column(file) {
        return lines(&shrink(&words, |words| differs(&lines(words))));
    }
    let mut kept: Vec<&[u8]> = file.split_inclusive(|&byte| byte == b'\n').collect();
    let mut size = kept.len();
    while size > 0 {
        let mut at = 0;
        while at < kept.len() {
            let mut fewer = kept.clone();
            fewer.drain(at..(at + size).min(kept.len()));
            if differs(&fewer.concat()) {
                kept = fewer;
            } else {
                at += size;
            }
        }
        size /= 2;
    }
    kept.concat()
}

/// A column file off its form or off the tree rules, or by chance still good.
fn some_file(random: &mut Random, words: &[u64]) -> Vec<u8> {
    let mut file = lines(words);
    match random.weighted(&[40, 35, 20, 5]) {
        0 => file,
        1 => {
            for _ in 0..random.between(1, 3) {
                file = damaged(random, &file);
            }
            file
        }
        2 => moved_lines(random, &file),
        _ => {
            let length = random.index(2 * LINE_BYTES + 2);
            (0..length).map(|_| random.pick(b"  \n0123456789-")).collect()
        }
    }
}

/// Whole lines taken out, doubled, exchanged or turned round.
fn moved_lines(random: &mut Random, file: &[u8]) -> Vec<u8> {
    let mut list: Vec<&[u8]> = file.split_inclusive(|&byte| byte == b'\n').collect();
    if list.is_empty() {
        return b"\n".to_vec();
    }
    let (a, b) = (random.index(list.len()), random.index(list.len()));
    match random.below(6) {
        0 => drop(list.remove(a)),
        1 => list.insert(b, list[a]),
        2 => list.swap(a, b),
        3 => list.truncate(a),
        4 => list.insert(a, b"\n"),
        _ => list.reverse(),
    }
    list.concat()
}

fn some_words(random: &mut Random, words: Vec<u64>) -> Vec<u64> {
    if check(&words).is_err() || random.chance(500) {
        return words;
    }
    damaged_words(random, &words)
}

fn spelt(words: &[u64]) -> String {
    words.chunks(RECORD_WORDS).map(|record| format!("{record:?}\n")).collect()
}

impl Compared {
    pub fn file(&mut self, side: &mut dyn Converters, random: &mut Random, name: &str, file: &[u8]) {
        let start = random.clone();
        let judged = judge_file(side, random, file);
        let tally = &mut self.to_records;
        tally.inputs += 1;
        tally.size += file.len() as u64;
        match judged {
            Ok(rows) => tally.count(&rows),
            Err(message) => {
                tally.differences += 1;
                self.first.get_or_insert_with(|| {
                    let least = shrink_file(file, |file| judge_file(side, &mut start.clone(), file).is_err());
                    let message = judge_file(side, &mut start.clone(), &least).err().unwrap_or(message);
                    Difference {
                        name: name.to_string(),
                        message,
                        shrunk: format!("{:?}", String::from_utf8_lossy(&least)),
                    }
                });
            }
        }
    }

    pub fn words(&mut self, side: &mut dyn Converters, random: &mut Random, name: &str, words: &[u64]) {
        let start = random.clone();
        let judged = judge_words(side, random, words);
        self.checks += 1;
        let tally = &mut self.to_columns;
        tally.inputs += 1;
        tally.size += words.len() as u64;
        match judged {
            Ok(rows) => tally.count(&rows),
            Err(message) => {
                tally.differences += 1;
                self.first.get_or_insert_with(|| {
                    let least = shrink(words, |words| judge_words(side, &mut start.clone(), words).is_err());
                    let message = judge_words(side, &mut start.clone(), &least).err().unwrap_or(message);
                    Difference { name: name.to_string(), message, shrunk: spelt(&least) }
                });
            }
        }
    }
}

impl Tally {
    fn count(&mut self, rows: &[u64]) {
        self.calls += rows.len() as u64;
        for &row in rows {
            self.rows[row as usize] += 1;
        }
    }

    pub fn print(&self, name: &str, unit: &str) {
        println!("{name}: {} inputs, {} {unit}, {} calls", self.inputs, self.size, self.calls);
        println!("  by row 0 to 9: {:?}", self.rows);
        println!("  differences: {}", self.differences);
    }
}

/// A file and a word list for each of `count` bundles of a seed, in every output length.
pub fn compare(side: &mut dyn Converters, seed: u64, count: u64, sizes: Sizes) -> Compared {
    let mut seen = Compared::default();
    for index in 0..count {
        let words = case(seed, index, sizes).words;
        let mut random = Random::for_case(!seed, index);
        let name = format!("case {index} of seed {seed}");
        let file = some_file(&mut random, &words);
        seen.file(side, &mut random, &name, &file);
        let list = some_words(&mut random, words);
        seen.words(side, &mut random, &name, &list);
    }
    seen
}

/// A document whose deepest record stands at a level.
fn deep(level: usize) -> Vec<u64> {
    let mut node = Node::leaf(kind::NULL, 0, 0);
    for _ in 4..level {
        node = Node::new(kind::PREFIX, 0, 0, vec![node]);
    }
    let statement = Node::new(kind::EXPRESSION, 0, 0, vec![node]);
    flatten(&[Node::new(kind::DOCUMENT, 0, 2, vec![Node::new(kind::FUNCTION, 0, 3, vec![statement])])])
}

/// As many records as there may be and one more, the deepest level and one more, each both ways.
pub fn compare_limits(side: &mut dyn Converters) -> Compared {
    let mut seen = Compared::default();
    let documents = |count: usize| [1, 1, 0, 2].repeat(count);
    let mut late = documents(MAX_RECORDS);
    late[4 * MAX_RECORDS - 1] = 0;
    let lists = [
        ("the most records", documents(MAX_RECORDS)),
        ("one record more", documents(MAX_RECORDS + 1)),
        ("the last of the most records at fault", late),
        ("the deepest level", deep(MAX_LEVEL)),
        ("one level more", deep(MAX_LEVEL + 1)),
    ];
    for (name, words) in lists {
        let mut random = Random::new(words.len() as u64);
        seen.file(side, &mut random, name, &lines(&words));
        seen.words(side, &mut random, name, &words);
    }
    seen
}

#[cfg(test)]
mod tests {
    use super::*;
    use crate::plain::Plain;

    #[test]
    fn the_plain_converters_are_alike() {
        let seen = compare(&mut Plain, 21, 3000, Sizes::Mixed);
        assert!(seen.first.is_none(), "{:?}", seen.first);
        for row in [0, 1, 3, 4, 9] {
            assert!(seen.to_records.rows[row] > 0, "{:?}", seen.to_records);
        }
        for row in [0, 2, 3, 4, 9] {
            assert!(seen.to_columns.rows[row] > 0, "{:?}", seen.to_columns);
        }
    }

    #[test]
    fn the_plain_converters_are_alike_at_the_limits() {
        let seen = compare_limits(&mut Plain);
        assert!(seen.first.is_none(), "{:?}", seen.first);
        assert!(seen.to_records.rows[2] > 0 && seen.to_columns.rows[4] > 0);
    }

    /// The plain ones with a fault.
    struct Wrong(fn(&mut [u64], &mut [u64; 3]));

    impl Converters for Wrong {
        fn check(&mut self, words: &[u64]) -> [u64; 2] {
            Plain.check(words)
        }

        fn to_records(&mut self, file: &[u8], out: &mut [u64]) -> [u64; 3] {
            let mut reply = Plain.to_records(file, out);
            (self.0)(out, &mut reply);
            reply
        }

        fn to_columns(&mut self, words: &[u64], out: &mut [u8]) -> [u64; 3] {
            Plain.to_columns(words, out)
        }
    }

    #[test]
    fn faults_are_seen() {
        let faults: [fn(&mut [u64], &mut [u64; 3]); 4] = [
            |_, reply| reply[2] += u64::from(reply[0] == 0),
            |_, reply| reply[1] += u64::from(reply[0] == 1),
            |out, reply| {
                if let (9, Some(last)) = (reply[0], out.last_mut()) {
                    *last = 7;
                }
            },
            |out, reply| {
                if reply[0] == 0 && out.len() as u64 > 4 * reply[2] {
                    out[4 * reply[2] as usize] = 1;
                }
            },
        ];
        for fault in faults {
            let seen = compare(&mut Wrong(fault), 22, 200, Sizes::Mixed);
            assert!(seen.to_records.differences > 0 && seen.to_columns.differences == 0);
            let first = seen.first.expect("a difference");
            assert!(first.shrunk.len() < 200, "{first:?}");
        }
    }
}
