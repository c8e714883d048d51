//! Bundles at the limits of 01, to see that a side answers them in bounded time: as many records as
//! there may be, chains of books, doublings. Too much for a comparison over thousands of cases; each
//! call is made on a thread with a small stack.

use crate::areas::{area, Lengths, Lent, Reply, AREAS, ENTRY_WORDS, UNLIMITED};
use crate::clock::now;
use crate::compare::{Side, STALE};
use crate::model::{compile, Run};
use crate::onto_calls::{judge_in, OntoCalls, Replied, Way};
use crate::pieces::{body, deep, document, doubled, doubling_of, if_node, leaf, name_node, statement};
use crate::records::{flatten, kind, Node, MAX_LEVEL, MAX_RECORDS, MAX_TEXT};
use crate::standing::{Answered, Call, Order, Totals};
use crate::standing_calls::Program;
use crate::views::{self, Viewed};
use std::thread;

pub struct Hostile {
    pub name: String,
    pub words: Vec<u64>,
    /// Exactly what is needed, or what stops the work.
    pub lengths: Lengths,
}

fn include(file: u64) -> Node {
    Node::leaf(kind::INCLUDE, 0, file)
}

fn pairs(count: usize, name: impl Fn(u64) -> u64, value: Node) -> Vec<Node> {
    (0..count as u64).flat_map(|i| [name_node(name(i)), value.clone()]).collect()
}

/// Every book includes the one after it.
fn linked(files: &[u64]) -> Vec<u64> {
    let link =
        |(i, &file): (usize, &u64)| document(file, files.get(i + 1).map(|&next| include(next)).into_iter().collect());
    flatten(&files.iter().enumerate().map(link).collect::<Vec<_>>())
}

/// Every book includes the next greater file, so that the order is the reverse of the bundle's.
fn chain(count: u64) -> Vec<u64> {
    linked(&(1..=count).collect::<Vec<_>>())
}

/// File numbers at the ends of a set's words and of the short sets.
pub(crate) const EDGES: [u64; 9] = [1, 63, 64, 65, 4095, 4096, 4097, 8191, MAX_TEXT];

/// Books of these file numbers in a chain, twice, and included but absent.
fn edges() -> Vec<(String, Vec<u64>)> {
    let mut out: Vec<(String, Vec<u64>)> = Vec::new();
    for (i, &file) in EDGES.iter().enumerate() {
        out.push((format!("books up to {file} in a chain"), linked(&EDGES[..=i])));
        out.push((format!("books from {file} on in a chain"), linked(&EDGES[i..])));
        out.push((format!("book {file} twice"), flatten(&[document(file, vec![]), document(file, vec![])])));
        out.push((format!("{file} included, and absent"), flatten(&[document(2, vec![include(file)])])));
    }
    out
}

/// A chain that ends where it began.
fn ring(count: u64) -> Vec<u64> {
    flatten(&(1..=count).map(|file| document(file, vec![include(file % count + 1)])).collect::<Vec<_>>())
}

/// The root includes every other book.
fn star(count: u64) -> Vec<u64> {
    let mut books = vec![document(MAX_TEXT, (1..=count).rev().map(include).collect())];
    books.extend((1..=count).map(|file| document(file, Vec::new())));
    flatten(&books)
}

fn exact(words: &[u64]) -> Lengths {
    let peaks = compile(words, &UNLIMITED).peaks();
    std::array::from_fn(|i| peaks[i] as usize * ENTRY_WORDS[i])
}

/// A body of statements, of as many records as asked, an even number.
fn statements(records: usize) -> Vec<u64> {
    body(&[], vec![statement(leaf(kind::INTEGER, 7)); records / 2 - 1])
}

/// Documents and nothing in them, each of a file of its own but the last.
fn bare(count: u64) -> Vec<u64> {
    flatten(&(0..count).map(|i| document(1 + i % MAX_TEXT, Vec::new())).collect::<Vec<_>>())
}

/// Bundles whose cost grows with the square of their size, as 01's searches and choices of books do.
fn squared(size: u64) -> Vec<(String, Vec<u64>)> {
    let absent = Node::leaf(kind::ABSENT, 0, 0);
    let local = |name: fn(u64) -> u64| {
        body(&[], vec![Node::new(kind::LOCAL, 0, 0, pairs(size as usize, name, absent.clone()))])
    };
    let array = |values: Vec<Node>| body(&[], vec![statement(Node::new(kind::ARRAY, 0, 0, values))]);
    let name = |i: u64| 1 + i % MAX_TEXT;
    let integers = (0..size).map(|i| leaf(kind::INTEGER, i)).collect();
    let floats = (0..size).map(|i| leaf(kind::FLOAT, (i as f64).to_bits())).collect();
    let globals = (0..size).map(|i| leaf(kind::IDENTIFIER, name(i))).collect();
    let properties = (0..size).map(|i| name_node(name(i))).collect();
    let named = |kind| flatten(&[document(2, (0..size).map(|i| Node::leaf(kind, 0, name(i))).collect())]);
    vec![
        (format!("{size} books in a reversed include chain"), chain(size)),
        (format!("{size} books in a ring"), ring(size)),
        (format!("{size} books included by the root"), star(size)),
        (format!("{size} locals"), local(|i| i + 1)),
        (format!("{size} times the same local"), local(|_| 5)),
        (format!("{size} integers"), array(integers)),
        (format!("{size} floats"), array(floats)),
        (format!("{size} globals"), array(globals)),
        (format!("{size} properties"), flatten(&[document(2, vec![Node::new(kind::MODEL, 0, 3, properties)])])),
        (format!("{size} functions"), named(kind::FUNCTION)),
        (format!("{size} public functions"), named(kind::PUBLIC_FUNCTION)),
    ]
}

/// Code area of the doublings, in words.
const LARGE_CODE: usize = 1 << 25;
const PLENTY: usize = 1 << 20;

/// Bundles with what they need exactly, with nothing at all, or with what stops them; `size` is that of
/// those that cost its square.
pub fn bundles(size: u64) -> Vec<Hostile> {
    let same = Node::new(kind::ARRAY, 0, 0, vec![leaf(kind::INTEGER, 7); MAX_RECORDS - 4]);
    let flat = body(&[], vec![statement(same)]);
    let mut listed = vec![
        ("1048576 records, one array".to_string(), flat.clone()),
        ("1048576 records, a statement each two".to_string(), statements(MAX_RECORDS)),
        ("1048576 records, a document each".to_string(), bare(MAX_RECORDS as u64)),
        ("1048577 records".to_string(), bare(MAX_RECORDS as u64 + 1)),
        ("level 64".to_string(), deep(MAX_LEVEL)),
        ("level 65".to_string(), deep(MAX_LEVEL + 1)),
        ("target doubled 16 times".to_string(), doubled(16)),
    ];
    listed.extend(edges());
    listed.extend(squared(size));
    let mut out: Vec<Hostile> =
        listed.into_iter().map(|(name, words)| Hostile { name, lengths: exact(&words), words }).collect();
    for (name, words) in [
        ("every area empty, level 64 with 30 doublings", doubled(30)),
        ("every area empty, 1048576 records", flat),
        ("every area empty, a chain of 100000 books", chain(100_000)),
    ] {
        out.push(Hostile { name: name.to_string(), words, lengths: [0; AREAS] });
    }
    let mut stopped = [PLENTY; AREAS];
    stopped[0] = LARGE_CODE;
    let name = format!("level 64 with 30 doublings, {LARGE_CODE} words of code");
    out.push(Hostile { name, words: doubled(30), lengths: stopped });
    out
}

/// 257 locals without values in a block of an if, the last of them read there, in a target that is doubled so often: with 24 doublings local numbers pass 2^32
/// (2026-03).
pub fn locals_doubled(times: usize) -> Hostile {
    const NAMES: usize = 257;
    let first = 100;
    let made = |times| {
        let names = Node::new(kind::LOCAL, 0, 0, pairs(NAMES, |i| first + i, Node::leaf(kind::ABSENT, 0, 0)));
        let block = vec![names, statement(leaf(kind::IDENTIFIER, first + NAMES as u64 - 1))];
        body(&[], vec![statement(doubling_of(if_node(leaf(kind::NULL, 0), vec![block]), times))])
    };
    // Each doubling doubles the code but for a constant part, and no other area: so two small ones say what a large one needs.
    let (small, next) = (exact(&made(4)), exact(&made(5)));
    let lengths = std::array::from_fn(|i| small[i] + (next[i] - small[i]) * ((1 << times) / 16 - 1));
    Hostile { name: format!("257 locals in a target doubled {times} times"), lengths, words: made(times) }
}

/// A side on a thread with a stack of this many bytes, and the processor seconds of its last call.
pub struct Narrow<'a> {
    pub side: &'a mut (dyn Side + Send),
    pub stack: usize,
    pub seconds: f64,
}

impl Side for Narrow<'_> {
    fn name(&self) -> &str {
        self.side.name()
    }

    fn compile<'a>(&mut self, words: &[u64], lent: Lent<'a>) -> views::Answered<'a> {
        let Narrow { side, stack, .. } = self;
        let work = || {
            let start = now();
            let answered = side.compile(words, lent);
            (answered, now() - start)
        };
        let (answered, seconds) = thread::scope(|scope| {
            let worker = thread::Builder::new().stack_size(*stack).spawn_scoped(scope, work);
            worker.expect("a thread").join().expect("no panic")
        });
        self.seconds = seconds;
        answered
    }

    fn view(&self, answered: &views::Answered) -> Result<Viewed, String> {
        self.side.view(answered)
    }
}

/// The same for a call on a program.
pub struct NarrowOnto<'a> {
    pub side: &'a mut (dyn OntoCalls + Send),
    pub stack: usize,
    pub seconds: f64,
}

impl OntoCalls for NarrowOnto<'_> {
    fn call(&mut self, order: &Order, tree: &[u64], strict: bool, lengths: &Lengths, memory: &mut [u64]) -> Replied {
        let NarrowOnto { side, stack, .. } = self;
        let work = || {
            let start = now();
            let replied = side.call(order, tree, strict, lengths, memory);
            (replied, now() - start)
        };
        let (replied, seconds) = thread::scope(|scope| {
            let worker = thread::Builder::new().stack_size(*stack).spawn_scoped(scope, work);
            worker.expect("a thread").join().expect("no panic")
        });
        self.seconds = seconds;
        replied
    }
}

/// A bundle laid onto the least program: what it must answer is the model's answer to the bundle by itself, or after a refusal
/// the least program and the errors. An area too short for the program is as long as the program.
pub fn judge_onto(side: &mut dyn OntoCalls, bundle: &Hostile) -> Result<(u64, u64), String> {
    let least = Program::least();
    let mut areas = least.lent(&bundle.lengths);
    areas[area::ERRORS - 1].fill(STALE);
    let lengths: Lengths = areas.each_ref().map(Vec::len);
    let run = compile(&bundle.words, &lengths);
    let Run { reply, areas: mut left, .. } = run;
    let mut totals = least.totals;
    if reply.row == 0 {
        let Reply { totals: areas, entry_point, globals, .. } = reply;
        totals = Totals { areas, entry_point, globals, bundles: totals.bundles + 1 };
    } else {
        let errors = std::mem::take(&mut left[area::ERRORS - 1]);
        left = least.entries;
        left[area::ERRORS - 1] = errors;
    }
    left.iter_mut().zip(lengths).for_each(|(area, length)| area.resize(length, 0));
    let wanted = Answered { row: reply.row, place: reply.place, totals, areas: left };
    let call = Call { order: Order::Lay(least.totals), words: bundle.words.clone(), strict: false, areas };
    let slots = vec![STALE; 2 * wanted.totals.of(area::CONSTANTS) as usize + 1];
    judge_in(side, &call, &wanted, &Way { lengths, slots })?;
    Ok((wanted.row, wanted.place))
}

#[cfg(test)]
mod tests {
    use super::*;
    use crate::onto_calls::Standing;

    /// The reading of standing.rs answers the small ones so, and a wrong answer is seen.
    #[test]
    fn onto_the_least_program() {
        struct Wrong;
        impl OntoCalls for Wrong {
            fn call(
                &mut self,
                order: &Order,
                tree: &[u64],
                strict: bool,
                lengths: &Lengths,
                memory: &mut [u64],
            ) -> Replied {
                let replied = Standing.call(order, tree, strict, lengths, memory);
                memory[lengths[0]] ^= 1;
                replied
            }
        }
        let is_small = |bundle: &Hostile| bundle.words.len() < 4000 && bundle.lengths.iter().sum::<usize>() < 2_000_000;
        let small = bundles(20).into_iter().filter(is_small);
        let mut rows = std::collections::BTreeSet::new();
        for bundle in small {
            let mut narrow = NarrowOnto { side: &mut Standing, stack: 1 << 22, seconds: 0.0 };
            let (row, _) = judge_onto(&mut narrow, &bundle).unwrap_or_else(|e| panic!("{}: {e}", bundle.name));
            rows.insert(row);
            assert!(judge_onto(&mut Wrong, &bundle).is_err(), "{}", bundle.name);
        }
        assert!([0, 4, 5, 6, 8, 9].iter().all(|row| rows.contains(row)), "{rows:?}");
    }
}
