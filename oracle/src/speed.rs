//! The compile call beside the original `compile_document` and `to_program`: one process, turn by
//! turn, processor time, trees built beforehand on both sides; without a table of slots and with one.

use crate::areas::{area, Lengths, Memory, Reply, ENTRY_WORDS, UNLIMITED};
use crate::clock::{median, now};
use crate::compare::Side;
use crate::model::compile;
use crate::pieces::{document, for_node, function, get, identifier, if_node, infix, leaf, name_node, statement};
use crate::real::Prepared;
use crate::records::{flatten, kind, records, Node, RECORD_WORDS};
use clover_back_end::slots_for;

/// A shape gives a bundle of about so many records.
pub struct Shape {
    pub name: &'static str,
    make: fn(usize) -> Vec<Node>,
    pub searched: Searched,
}

/// What 01's linear searches make of a shape: what is searched again and again, so that the time grows with the square.
#[derive(Clone, Copy, Debug, PartialEq, Eq)]
pub enum Searched {
    Nothing,
    /// The constants, where no table of slots is lent; at each of these.
    Constants(&'static str),
    Other(&'static str),
}

impl Searched {
    fn grows_squared(self, slots: bool) -> bool {
        match self {
            Searched::Nothing => false,
            Searched::Constants(_) => !slots,
            Searched::Other(_) => true,
        }
    }
}

const FILE: u64 = 2;
/// Texts below are names of parameters and locals; functions and files are numbered from here.
const FIRST: u64 = 1000;
const NAMES: [u64; 4] = [10, 11, 12, 13];
const INFIX: [u64; 10] = [1, 2, 3, 4, 5, 11, 13, 14, 17, 18];
const PLUS: u64 = 1;
const LESS: u64 = 14;
const PLUS_ASSIGN: u64 = 6;

fn size(nodes: &[Node]) -> usize {
    nodes.iter().map(Node::size).sum()
}

/// Parts until they are as many records as asked.
fn filled(count: usize, mut part: impl FnMut(usize) -> Node) -> Vec<Node> {
    let mut out = Vec::new();
    let mut made = 0;
    while made < count {
        let node = part(out.len());
        made += node.size();
        out.push(node);
    }
    out
}

fn assign(name: u64, value: Node) -> Node {
    statement(infix(0, identifier(name), value))
}

fn array(values: Vec<Node>) -> Node {
    statement(Node::new(kind::ARRAY, 0, 0, values))
}

/// A sum of products over the parameters and a few integers.
fn arithmetic(turn: usize, depth: usize) -> Node {
    if depth == 0 {
        return match turn % 3 {
            0 => leaf(kind::INTEGER, turn as u64 % 20),
            _ => identifier(NAMES[turn % 4]),
        };
    }
    infix(INFIX[turn % INFIX.len()], arithmetic(3 * turn + 1, depth - 1), arithmetic(5 * turn + 2, depth - 1))
}

fn arithmetic_function(number: usize) -> Node {
    let body = (0..12).map(|i| assign(NAMES[i % 4], arithmetic(number + 7 * i, 4))).collect();
    function(FIRST + number as u64, &NAMES, body)
}

fn small_function(number: usize) -> Node {
    let value = infix(PLUS, identifier(NAMES[0]), leaf(kind::INTEGER, number as u64 % 10));
    function(FIRST + number as u64, &NAMES[..1], vec![statement(value)])
}

/// Ifs, prefixes, gets and sums inside each other down to level 62.
fn nested(level: usize) -> Node {
    if level >= 62 {
        return identifier(NAMES[0]);
    }
    match level % 5 {
        0 => Node::new(kind::PREFIX, 0, 1, vec![nested(level + 1)]),
        1 => infix(PLUS, identifier(NAMES[1]), nested(level + 1)),
        2 => get(kind::INDEX_GET, identifier(NAMES[2]), nested(level + 1)),
        _ => if_node(identifier(NAMES[0]), vec![vec![statement(nested(level + 3))], vec![]]),
    }
}

fn nested_function(number: usize) -> Node {
    function(FIRST + number as u64, &NAMES, vec![statement(nested(4)); 8])
}

fn break_if(name: u64) -> Node {
    let condition = infix(LESS, identifier(name), leaf(kind::INTEGER, 3));
    statement(if_node(condition, vec![vec![leaf(kind::BREAK, 0)]]))
}

fn loops_function(number: usize) -> Node {
    let add = |name| statement(infix(PLUS_ASSIGN, identifier(NAMES[1]), identifier(name)));
    let inner = |name| for_node(name, identifier(NAMES[0]), vec![break_if(name), add(name)]);
    let outer = for_node(20, identifier(NAMES[0]), vec![inner(21), break_if(20), inner(22)]);
    function(FIRST + number as u64, &NAMES[..2], vec![outer.clone(), outer])
}

/// Leaves in arrays of 100, a function for each ten arrays.
fn leaves(count: usize, value: impl Fn(u64) -> Node) -> Vec<Node> {
    let mut next = 0;
    let mut leaf = || {
        next += 1;
        value(next)
    };
    filled(count, |number| {
        let arrays = (0..10).map(|_| array((0..100).map(|_| leaf()).collect())).collect();
        function(FIRST + number as u64, &[], arrays)
    })
}

/// Records of a book of the tree below.
const BOOK_RECORDS: u64 = 12;

fn text(i: u64) -> u64 {
    30_000 + i % 1_000_000
}

/// Books of a function each, every one including two others: a tree from the root down.
fn many_books(count: usize) -> Vec<Node> {
    book_tree(count as u64 / BOOK_RECORDS, 0)
}

/// The same with functions above the includes of each book (2026-04).
fn late_includes(count: usize) -> Vec<Node> {
    book_tree(count as u64 / (BOOK_RECORDS + LATE_FUNCTIONS * LATE_RECORDS), LATE_FUNCTIONS)
}

/// Functions above the includes, and the records of one.
const LATE_FUNCTIONS: u64 = 12;
const LATE_RECORDS: u64 = 6;

fn book_tree(books: u64, above: u64) -> Vec<Node> {
    let late = |i: u64| {
        let body = vec![name_node(NAMES[0]), statement(infix(PLUS, identifier(NAMES[0]), identifier(NAMES[0])))];
        Node::new(kind::FUNCTION, 0, FIRST + 3 + i, body)
    };
    let book = |number: u64| {
        let include = |other: u64| {
            let names = vec![name_node(FIRST), name_node(FIRST + 1 + other % 2)];
            Node::new(kind::INCLUDE, 0, FIRST + other, names)
        };
        let others = [2 * number + 1, 2 * number + 2].into_iter().filter(|&other| other < books);
        let mut parts: Vec<Node> = (0..above).map(late).chain(others.map(include)).collect();
        let call = Node::new(kind::CALL, 0, 0, vec![identifier(FIRST + 1), identifier(NAMES[0])]);
        let body = vec![name_node(NAMES[0]), statement(infix(PLUS, call, identifier(NAMES[0])))];
        parts.push(Node::new(kind::PUBLIC_FUNCTION, 0, FIRST, body));
        document(FIRST + number, parts)
    };
    (0..books).map(book).collect()
}

/// What a long book has, in turn; a name is read from the book now and then.
fn mixed_function(number: usize) -> Node {
    let made = match number % 4 {
        0 => arithmetic_function(number),
        1 => nested_function(number),
        2 => loops_function(number),
        _ => {
            let floats = (0..40).map(|i| leaf(kind::FLOAT, (number as f64 + f64::from(i)).to_bits()));
            function(FIRST + number as u64, &NAMES[..1], vec![array(floats.collect())])
        }
    };
    assert!(made.size() > 40);
    made
}

/// The first name of the functions below.
const LIVE: u64 = 100;

/// Functions of so many names that are alive, with arrays of one name.
fn live_names(count: usize, alive: u64, name: u64) -> Vec<Node> {
    let names: Vec<u64> = (LIVE..LIVE + alive).collect();
    let arrays = vec![array(vec![identifier(name); 100]); 10];
    one_book(filled(count, |number| function(FIRST + number as u64, &names, arrays.clone())))
}

fn one_book(definitions: Vec<Node>) -> Vec<Node> {
    vec![document(FILE, definitions)]
}

const FUNCTIONS: Searched = Searched::Other("names of the book, searched at each function");
const BOOKS: Searched = Searched::Other("books, looked through for the next ready one");

/// Floats of the catalogue that repeats them.
const PRICES: u64 = 50;

pub const SHAPES: [Shape; 11] = [
    Shape {
        name: "arithmetic bodies",
        make: |n| one_book(filled(n, arithmetic_function)),
        searched: Searched::Nothing,
    },
    Shape { name: "many small functions", make: |n| one_book(filled(n, small_function)), searched: FUNCTIONS },
    Shape { name: "deep nesting", make: |n| one_book(filled(n, nested_function)), searched: Searched::Nothing },
    Shape { name: "loops and breaks", make: |n| one_book(filled(n, loops_function)), searched: Searched::Nothing },
    Shape {
        name: "distinct integers",
        make: |n| one_book(leaves(n, |i| leaf(kind::INTEGER, i))),
        searched: Searched::Constants("integer"),
    },
    Shape {
        name: "distinct texts and globals",
        make: |n| one_book(leaves(n, |i| leaf([kind::STRING, kind::IDENTIFIER][i as usize % 2], text(i)))),
        searched: Searched::Constants("text"),
    },
    Shape {
        name: "catalogue of floats",
        make: |n| one_book(leaves(n, |i| leaf(kind::FLOAT, (i as f64 * 0.5).to_bits()))),
        searched: Searched::Constants("float"),
    },
    Shape {
        name: "catalogue of few floats",
        make: |n| one_book(leaves(n, |i| leaf(kind::FLOAT, (1.35 + (i % PRICES) as f64).to_bits()))),
        searched: Searched::Nothing,
    },
    Shape { name: "many books", make: many_books, searched: BOOKS },
    Shape { name: "late includes", make: late_includes, searched: BOOKS },
    Shape {
        name: "one large book",
        make: |n| one_book(filled(n, mixed_function)),
        searched: Searched::Constants("float"),
    },
];

/// Searches through 30 and 300 live names, which begin at the newest (2026-03); beside the table.
pub const LIVE_SHAPES: [Shape; 6] = [
    Shape { name: "30 live names, the newest", make: |n| live_names(n, 30, LIVE + 29), searched: Searched::Nothing },
    Shape { name: "30 live names, the oldest", make: |n| live_names(n, 30, LIVE), searched: Searched::Nothing },
    Shape { name: "30 live names, none of them", make: |n| live_names(n, 30, LIVE + 30), searched: Searched::Nothing },
    Shape { name: "300 live names, the newest", make: |n| live_names(n, 300, LIVE + 299), searched: Searched::Nothing },
    Shape { name: "300 live names, the oldest", make: |n| live_names(n, 300, LIVE), searched: Searched::Nothing },
    Shape {
        name: "300 live names, none of them",
        make: |n| live_names(n, 300, LIVE + 300),
        searched: Searched::Nothing,
    },
];

impl Shape {
    pub fn named(name: &str) -> Option<&'static Shape> {
        SHAPES.iter().chain(&LIVE_SHAPES).find(|shape| shape.name == name)
    }

    pub fn words(&self, count: usize) -> Vec<u64> {
        let nodes = (self.make)(count);
        assert!(size(&nodes) <= crate::records::MAX_RECORDS, "{}", self.name);
        flatten(&nodes)
    }
}

/// What a bundle needs in each area, in words.
pub fn needs(words: &[u64]) -> Lengths {
    let free = compile(words, &UNLIMITED);
    assert_eq!(free.reply.row, 0, "a delivery");
    let peaks = free.peaks();
    std::array::from_fn(|i| peaks[i] as usize * ENTRY_WORDS[i])
}

/// One call, in a function of its own so that a profile finds it.
#[inline(never)]
pub fn call_side(side: &mut dyn Side, words: &[u64], memory: &mut Memory) -> Reply {
    side.compile(words, memory.lend()).reply.into()
}

/// Memory with a table of slots for the constants that a bundle needs, as `Areas` of the crate has one.
pub fn with_slots(exact: &Lengths) -> Memory {
    let slots = slots_for(exact[area::CONSTANTS - 1] / ENTRY_WORDS[area::CONSTANTS - 1]);
    Memory::with_left_over(exact, &vec![1; slots], 1)
}

/// Medians in seconds.
pub struct Measured {
    pub records: usize,
    /// Without a table of slots, where it was asked for.
    pub plain: Option<Plain>,
    /// With a table, areas exactly as long as needed.
    pub slots: f64,
    pub original: f64,
    pub original_with_solver: f64,
}

#[derive(Clone, Copy)]
pub struct Plain {
    /// Areas exactly as long as needed.
    pub exact: f64,
    /// Areas four times as long.
    pub roomy: f64,
}

fn timed<T>(times: &mut Vec<f64>, work: impl FnOnce() -> T) -> T {
    let start = now();
    let made = work();
    times.push(now() - start);
    made
}

pub fn measure(side: &mut dyn Side, words: &[u64], runs: usize, plain: bool) -> Measured {
    let prepared = Prepared::new(&records(words));
    let exact = needs(words);
    let mut tight = Memory::new(&exact, 1);
    let mut roomy = Memory::new(&exact.map(|length| 4 * length), 1);
    let mut slotted = with_slots(&exact);
    let [mut ours, mut ours_roomy, mut ours_slots, mut original, mut with_solver] = [(); 5].map(|()| Vec::new());
    for _ in 0..runs {
        if plain {
            timed(&mut ours, || call_side(side, words, &mut tight));
            timed(&mut ours_roomy, || call_side(side, words, &mut roomy));
        }
        let reply = timed(&mut ours_slots, || call_side(side, words, &mut slotted));
        let (_, program) = timed(&mut original, || prepared.compile());
        let code: usize = program.functions.iter().map(|function| function.instructions.len()).sum();
        assert_eq!((reply.row, reply.totals[0]), (0, code as u64), "both deliver the same");
        drop(program);
        timed(&mut with_solver, || prepared.compile_with_solver());
    }
    Measured {
        records: words.len() / RECORD_WORDS,
        plain: plain.then(|| Plain { exact: median(ours), roomy: median(ours_roomy) }),
        slots: median(ours_slots),
        original: median(original),
        original_with_solver: median(with_solver),
    }
}

/// Records of the bundles of a table.
pub const SIZES: [usize; 3] = [10_000, 100_000, 1_000_000];
/// Those of a rule book as one writes it.
pub const SMALL: [usize; 2] = [100, 1_000];

/// Records and seconds at the size before.
type Before = Option<(usize, f64)>;

/// Whether a call on so many records is expected to take longer.
fn takes_longer(before: Before, count: usize, squared: bool, longest: f64) -> bool {
    let Some((size, seconds)) = before else { return false };
    let times = (count / size) as f64;
    seconds * if squared { times * times } else { times } > longest
}

/// Nanoseconds a record, and how much more that is than at the size before.
fn each(before: Before, records: usize, seconds: f64) -> String {
    let each = seconds / records as f64 * 1e9;
    let growth = before.map_or(String::new(), |(size, seconds)| format!("{:.2}", each / (seconds / size as f64 * 1e9)));
    format!("{each:.1} | {growth}")
}

/// A table of every shape, or of one, at each size; what would take longer than `longest` seconds a call is left out.
pub fn run(side: &mut dyn Side, only: Option<&Shape>, runs: usize, longest: f64, sizes: &[usize]) {
    println!("Processor time, medians of {runs} runs ({} at 1,000,000 records). Ratios: the library's time by the original's.", least(runs));
    println!();
    println!("| Shape | Records | Without slots, ns a record | Growth | Ratio | Ratio, areas 4 times as long | Ratio, the original with its solver | With slots, ns a record | Growth | Ratio |");
    println!("|---|---|---|---|---|---|---|---|---|---|");
    let mut ratios = Vec::new();
    for shape in only.map_or(&SHAPES[..], std::slice::from_ref) {
        let (mut before, mut before_slots): (Before, Before) = (None, None);
        for &count in sizes {
            if takes_longer(before_slots, count, shape.searched.grows_squared(true), longest) {
                println!("| {} | {count} | not run | | | | | not run | | |", shape.name);
                continue;
            }
            let words = shape.words(count);
            if before_slots.is_some_and(|(size, _)| size == words.len() / RECORD_WORDS) {
                continue;
            }
            let plain = !takes_longer(before, count, shape.searched.grows_squared(false), longest);
            let slow = count == 1_000_000 || before.is_some_and(|(_, s)| s > longest / 100.0);
            let made = measure(side, &words, if slow { least(runs) } else { runs }, plain);
            let without = made.plain.map_or("not run | | | |".to_string(), |plain| {
                format!(
                    "{} | {:.2} | {:.2} | {:.2}",
                    each(before, made.records, plain.exact),
                    plain.exact / made.original,
                    plain.roomy / made.original,
                    plain.exact / made.original_with_solver
                )
            });
            let with = each(before_slots, made.records, made.slots);
            let ratio = made.slots / made.original;
            println!("| {} | {} | {without} | {with} | {ratio:.2} |", shape.name, made.records);
            ratios.push((shape, made.records, made.plain.map(|plain| plain.exact / made.original), ratio));
            before = made.plain.map(|plain| (made.records, plain.exact)).or(before);
            before_slots = Some((made.records, made.slots));
        }
    }
    println!();
    if only.is_none() {
        medians(&ratios);
    }
    println!();
    plot(&ratios);
    println!();
    for shape in &SHAPES {
        match shape.searched {
            Searched::Nothing => {}
            Searched::Constants(at) => {
                println!("Grows with the square without slots: {} (constants, searched at each {at}).", shape.name)
            }
            Searched::Other(why) => println!("Grows with the square: {} ({why}).", shape.name),
        }
    }
}

/// A shape, its records, and the ratios without slots, where they were measured, and with slots.
type Ratio<'a> = (&'a Shape, usize, Option<f64>, f64);

fn medians(ratios: &[Ratio]) {
    let of = |wanted: fn(&Shape) -> bool, ratio: fn(&Ratio) -> Option<f64>| {
        median(ratios.iter().filter(|made| wanted(made.0)).filter_map(ratio).collect())
    };
    let nothing = |shape: &Shape| shape.searched == Searched::Nothing;
    for (name, ratio) in
        [("without slots", (|made| made.2) as fn(&Ratio) -> Option<f64>), ("with slots", |made| Some(made.3))]
    {
        let (all, searching_nothing) = (of(|_| true, ratio), of(nothing, ratio));
        println!(
            "Median of the ratios {name}: {all:.2}; of the shapes where nothing is searched: {searching_nothing:.2}"
        );
    }
}

/// A bar for each ratio, four signs for each doubling.
fn plot(ratios: &[Ratio]) {
    const LEAST: f64 = 1.0 / 32.0;
    println!("With slots. Four signs are a factor of 2; the mark is the original's time.");
    println!();
    for (shape, records, _, ratio) in ratios {
        let name = shape.name;
        let signs = |ratio: f64| (4.0 * (ratio / LEAST).log2()).round().max(1.0) as usize;
        let mut bar: Vec<char> = vec!['#'; signs(*ratio)];
        bar.resize(bar.len().max(signs(1.0) + 1), ' ');
        bar[signs(1.0)] = '|';
        println!("    {name:<27}{records:>9} {ratio:>8.2} {}", bar.into_iter().collect::<String>().trim_end());
    }
}

fn least(runs: usize) -> usize {
    runs.div_ceil(5)
}

#[cfg(test)]
mod tests {
    use super::*;
    use crate::compare::Model;

    /// `words` asks that a shape has no more records than a bundle may have.
    #[test]
    fn every_shape_is_made_at_the_greatest_size() {
        for shape in &SHAPES {
            let most = SIZES.into_iter().max().expect("some sizes");
            assert!(shape.words(most).len() / RECORD_WORDS > most * 9 / 10, "{}", shape.name);
        }
    }

    #[test]
    fn every_shape_is_delivered_by_both() {
        for shape in SHAPES.iter().chain(&LIVE_SHAPES) {
            let words = shape.words(3000);
            let made = measure(&mut Model, &words, 1, true);
            assert!((2500..5000).contains(&made.records), "{}: {}", shape.name, made.records);
        }
    }
}
