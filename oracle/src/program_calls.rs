//! The program check of one memory (02, 2026-01), held against the reading in standing.rs: row and place, and that nothing is
//! written. Also the stored cases of the program `word_cases`, and the times of programs that are long in one way.

use crate::areas::{area, Areas, Lengths, AREAS, ENTRY_WORDS};
use crate::parts::Part;
use crate::random::Random;
use crate::records::MAX_TEXT;
use crate::standing::{program_check, Totals, BAD_SHAPE, MOST_BUNDLES, PROGRAM_PLACE};
use crate::standing_calls::{damaged, each_damage, odd, sample, Program};

/// A side: row and place.
pub trait ProgramCalls {
    fn check_program(&mut self, memory: &[u64], lengths: &Lengths, totals: &Totals) -> [u64; 2];
}

/// The areas of one memory: they follow each other by number, a length that passes the end is cut there, and what is left over
/// is none of them (docs/FORMAT.md, 'One memory').
fn split(memory: &[u64], lengths: &Lengths) -> Areas {
    let mut rest = memory;
    lengths.map(|length| {
        let (area, after) = rest.split_at(length.min(rest.len()));
        rest = after;
        area.to_vec()
    })
}

fn reading(areas: &Areas, totals: &Totals) -> [u64; 2] {
    match program_check(areas, totals) {
        Some(number) => [BAD_SHAPE, PROGRAM_PLACE + number as u64],
        None => [0, 0],
    }
}

/// What a comparison saw: programs by the area that is answered, 0 for those in order.
#[derive(Clone, Debug, Default, PartialEq, Eq)]
pub struct Compared {
    pub by_area: [u64; AREAS + 1],
    pub differences: u64,
    pub first: Option<String>,
}

impl Compared {
    pub fn print(&self) {
        println!("program checks: {}", self.by_area.iter().sum::<u64>());
        println!("  in order, then by area 1 to 12: {:?}", self.by_area);
        println!("  differences: {}", self.differences);
    }

    fn seen(&mut self, side: &mut dyn ProgramCalls, memory: &[u64], lengths: &Lengths, totals: &Totals) {
        let wanted = reading(&split(memory, lengths), totals);
        let kept = memory.to_vec();
        let found = side.check_program(memory, lengths, totals);
        self.by_area[wanted[1].saturating_sub(PROGRAM_PLACE) as usize] += 1;
        if found != wanted || kept != memory {
            self.differences += 1;
            self.first.get_or_insert(format!("{found:?}, expected {wanted:?}: {memory:?}, {lengths:?}, {totals:?}"));
        }
    }

    fn areas(&mut self, side: &mut dyn ProgramCalls, areas: &Areas, totals: &Totals) {
        self.seen(side, &areas.concat(), &areas.each_ref().map(Vec::len), totals);
    }
}

/// Every single damage of programs: the sample's, with zeros behind the entries and without, and of those of a seed.
pub fn compare_each(side: &mut dyn ProgramCalls, seed: u64, count: u64) -> Compared {
    let mut seen = Compared::default();
    let mut random = Random::new(seed);
    let programs = (0..count).map(|_| odd(&mut random)).collect::<Vec<_>>();
    for program in [vec![sample(), Program::least()], programs].concat() {
        for more in [0, 1] {
            let areas: Areas = std::array::from_fn(|i| {
                let mut area = program.entries[i].clone();
                area.resize(area.len() + more * (ENTRY_WORDS[i] + 1), 0);
                area
            });
            for (areas, totals) in each_damage(&areas, &program.totals) {
                seen.areas(side, &areas, &totals);
            }
        }
    }
    seen
}

/// Lengths otherwise, so that areas begin and end elsewhere: one word more or less, none, or past every end.
fn moved(random: &mut Random, lengths: &mut Lengths) {
    let i = random.index(AREAS);
    lengths[i] = match random.below(5) {
        0 => lengths[i] + 1,
        1 => lengths[i].saturating_sub(1),
        2 => 0,
        3 => usize::MAX,
        _ => 1 << 63,
    };
}

/// A program of a seed, six in seven damaged, in one memory; some with words left over, some with other lengths.
fn case(seed: u64, index: u64) -> (Vec<u64>, Lengths, Totals) {
    let mut random = Random::for_case(seed, index);
    let program = if random.chance(20) { sample() } else { odd(&mut random) };
    let (mut areas, mut totals) = (program.entries, program.totals);
    for area in areas.iter_mut() {
        area.resize(area.len() + random.below(6) as usize, 0);
    }
    if index % 7 != 0 {
        for _ in 0..=random.below(2) {
            damaged(&mut random, &mut areas, &mut totals);
        }
    }
    let (mut memory, mut lengths) = (areas.concat(), areas.each_ref().map(Vec::len));
    if random.chance(25) {
        memory.extend((0..random.below(9)).map(|_| random.next()));
    }
    if random.chance(10) {
        moved(&mut random, &mut lengths);
    }
    (memory, lengths, totals)
}

/// `count` programs of a seed.
pub fn compare(side: &mut dyn ProgramCalls, seed: u64, count: u64) -> Compared {
    let mut seen = Compared::default();
    for index in 0..count {
        let (memory, lengths, totals) = case(seed, index);
        seen.seen(side, &memory, &lengths, &totals);
    }
    seen
}

// Stored cases.

/// Bytes of the stored cases that the program reads at most.
const STORED: usize = 60_000;
/// Numbers of a case before the words: the twelve totals, the entry point, the numbers of global dependencies and of bundles,
/// twelve lengths.
const ENTRY_POINT: usize = 12;
const GLOBALS: usize = 13;
const BUNDLES: usize = 14;
const LENGTHS: usize = 15;
const WORDS: usize = 27;

/// Numbers of bundles at their limits.
const COUNTS: [u64; 8] = [0, 1, 2, MOST_BUNDLES - 1, MOST_BUNDLES, MOST_BUNDLES + 1, MOST_BUNDLES + 2, u64::MAX];

/// A stored program: the numbers of its line.
struct Stored {
    numbers: Vec<u64>,
}

impl Stored {
    /// With so many entries' zeros and one word behind the entries of each area, and words left over.
    fn new(program: &Program) -> Stored {
        let areas: Areas = std::array::from_fn(|i| {
            let mut area = program.entries[i].clone();
            area.resize(area.len() + 1 + ENTRY_WORDS[i] * (i % 2), 0);
            area
        });
        let totals = &program.totals;
        let lengths = areas.each_ref().map(|area| area.len() as u64);
        let beside = [totals.entry_point, totals.globals, totals.bundles];
        Stored { numbers: [&totals.areas[..], &beside, &lengths, &areas.concat(), &[9, 9]].concat() }
    }

    fn answer(numbers: &[u64]) -> [u64; 2] {
        let totals = Totals {
            areas: std::array::from_fn(|i| numbers[i]),
            entry_point: numbers[ENTRY_POINT],
            globals: numbers[GLOBALS],
            bundles: numbers[BUNDLES],
        };
        let lengths: Lengths = std::array::from_fn(|i| numbers[LENGTHS + i] as usize);
        reading(&split(&numbers[WORDS..], &lengths), &totals)
    }

    /// Where a word of an area's entry stands.
    fn at(&self, number: usize, entry: usize, word: usize) -> usize {
        let before: u64 = self.numbers[LENGTHS..LENGTHS + number - 1].iter().sum();
        WORDS + before as usize + entry * ENTRY_WORDS[number - 1] + word
    }

    fn with(&self, edits: &[(usize, u64)]) -> Vec<u64> {
        let mut numbers = self.numbers.clone();
        edits.iter().for_each(|&(at, number)| numbers[at] = number);
        numbers
    }
}

/// Writes the two files line by line.
#[derive(Default)]
struct Lines {
    given: String,
    wanted: String,
}

impl Lines {
    fn put(&mut self, label: &str, way: u64, numbers: &[u64], answer: [u64; 2]) {
        let text = |numbers: &[u64]| numbers.iter().map(|number| format!(" {number}")).collect::<String>();
        let line = format!("{label}: {way}{}\n", text(numbers));
        if self.given.len() + line.len() <= STORED {
            self.given += &line;
            self.wanted += &format!("{label}:{}\n", text(&answer));
        }
    }

    fn program(&mut self, label: &str, stored: &Stored) {
        self.put(label, 1, &stored.numbers, Stored::answer(&stored.numbers));
    }

    fn edit(&mut self, label: &str, stored: &Stored, edits: &[(usize, u64)]) {
        let flat: Vec<u64> = edits.iter().flat_map(|&(at, number)| [at as u64, number]).collect();
        self.put(label, 2, &flat, Stored::answer(&stored.with(edits)));
    }
}

fn instruction(opcode: u64, operand: u64) -> u64 {
    opcode << 56 | operand
}

/// What a word of an area may not be, or may just be: totals and texts and marks at their limits.
fn limits(old: u64, totals: &[u64]) -> Vec<u64> {
    let mut out = vec![0, 1, 2, 3, MAX_TEXT, MAX_TEXT + 1, 1 << 32, u64::MAX, old.wrapping_add(1)];
    out.extend(totals.iter().flat_map(|&total| [total.wrapping_sub(1), total]));
    out.sort_unstable();
    out.dedup();
    out.retain(|&word| word != old);
    out
}

/// The totals that bound an area's words.
fn bounds_of(number: usize) -> &'static [usize] {
    match number {
        area::CODE => &[area::CONSTANTS, area::CONTEXT],
        area::CONSTANTS => &[area::FUNCTIONS, area::MODELS],
        area::FUNCTIONS => &[area::CODE, area::BOOKS],
        area::MODELS => &[area::BOOKS],
        area::PROPERTIES => &[area::MODELS],
        area::METHODS => &[area::MODELS, area::FUNCTIONS],
        area::CONTEXT | area::PUBLIC => &[area::BOOKS, area::CONSTANTS],
        _ => &[],
    }
}

const NAMES: [&str; AREAS] = [
    "code",
    "constant",
    "function",
    "model",
    "property",
    "method",
    "context local",
    "public name",
    "scope name",
    "break",
    "error",
    "book",
];

/// A small program with everything in it: functions side by side, over each other's code and past area 1 by nothing, code in no
/// function, constants of all kinds, methods and public names of two models and books in no order.
fn small() -> Program {
    let mut entries = Areas::default();
    let code = [
        (0x01, 5),
        (0x02, 3),
        (0x06, 0),
        (0x07, 0),
        (0x08, 1),
        (0x0C, 1),
        (0x51, 4),
        (0x21, 258),
        (0x11, 4),
        (0x56, 1),
        (0x52, 2),
        (0x41, 7),
    ];
    entries[area::CODE - 1] =
        code.iter().flat_map(|&(opcode, operand)| [instruction(opcode, operand), 1 << 32]).collect();
    entries[area::CONSTANTS - 1] =
        vec![0, 0, 0, 1, 1, 0, 1, 0, 1, 2, u64::MAX, 0, 3, 1 << 63, 0, 4, 9, 1, 5, 1, 0, 6, 2, 0, 4, 9, 0];
    entries[area::FUNCTIONS - 1] =
        vec![0, 2, 0, 0, 0, 5, 0, 3, 1, 2, 4, 1, 5, 4, 1, 4, 0, 2, 0, 0, 2, 5, 1, 4, 9, 0, 0, 0, u64::MAX, 0, 0, 5];
    entries[area::MODELS - 1] = vec![0, 9, 1, 9];
    entries[area::PROPERTIES - 1] = vec![1, 7, 0, 7, 1, 7];
    entries[area::METHODS - 1] = vec![1, 7, 0, 0, 7, 1, 1, 8, 1];
    entries[area::CONTEXT - 1] = vec![0, 9, 1, 6, 1, 9, 0, 0];
    entries[area::PUBLIC - 1] = vec![1, 7, 6, 0, 7, 3, 1, 9, 0];
    entries[area::BOOKS - 1] = vec![8, 5];
    Program::of(entries, 2)
}

/// Each word of the first entries at its limits, and each word behind the entries.
fn each_word(lines: &mut Lines, stored: &Stored) {
    for number in (1..=AREAS).filter(|&number| number != area::ERRORS) {
        let (name, width, total) = (NAMES[number - 1], ENTRY_WORDS[number - 1], stored.numbers[number - 1] as usize);
        let totals: Vec<u64> = bounds_of(number).iter().map(|&number| stored.numbers[number - 1]).collect();
        for (entry, word) in (0..total).flat_map(|entry| (0..width).map(move |word| (entry, word))) {
            let at = stored.at(number, entry, word);
            let old = stored.numbers[at];
            // Of code the operand, at the limits of each kind of operand.
            let is_instruction = number == area::CODE && word == 0;
            let (operand, opcode) = if is_instruction { (old & ((1 << 56) - 1), old >> 56 << 56) } else { (old, 0) };
            let more = if is_instruction { vec![4, 5, 6, 9, 10, 256, 257, 258, 259] } else { Vec::new() };
            let mut words = [limits(operand, &totals), more].concat();
            words.retain(|&word| !is_instruction || word < 1 << 56);
            for word_is in words {
                let new = opcode | word_is;
                if new != old
                    && (entry < 2 || number == area::CODE || number == area::CONSTANTS || number == area::FUNCTIONS)
                {
                    lines.edit(&format!("{name} {entry} word {word} {word_is}"), stored, &[(at, new)]);
                }
            }
        }
        let end = stored.at(number, total, 0);
        let behind = stored.numbers[LENGTHS + number - 1] as usize - total * width;
        for at in 0..behind {
            lines.edit(&format!("{name}: word {at} behind").replace(':', ""), stored, &[(end + at, 1)]);
        }
    }
}

/// The part `programs` of the stored cases of `word_cases`.
pub fn stored() -> Part {
    let mut lines = Lines::default();
    let small = Stored::new(&small());
    lines.program("a small program", &small);
    let numbers = |lines: &mut Lines, label: &str, at: usize| {
        for number in [0, 1, small.numbers[at].wrapping_sub(1), small.numbers[at] + 1, 1 << 56, 1 << 62, u64::MAX] {
            lines.edit(&format!("{label} {number}"), &small, &[(at, number)]);
        }
    };
    for (i, name) in NAMES.iter().enumerate() {
        numbers(&mut lines, &format!("{name} total"), i);
        numbers(&mut lines, &format!("{name} length"), LENGTHS + i);
    }
    numbers(&mut lines, "entry point", ENTRY_POINT);
    numbers(&mut lines, "global dependencies", GLOBALS);
    let edits = |lines: &mut Lines, label: &str, edits: &[(usize, u64)]| lines.edit(label, &small, edits);
    for count in COUNTS {
        edits(&mut lines, &format!("bundles {count}"), &[(BUNDLES, count)]);
    }
    for opcode in (0..=0x58).chain([0xFF]) {
        // In no function, with operand 0.
        let at = small.at(area::CODE, 10, 0);
        edits(&mut lines, &format!("opcode {opcode}"), &[(at, instruction(opcode, 0))]);
    }
    let word = |number, entry, word| small.at(number, entry, word);
    edits(&mut lines, "no functions and entry point 0", &[(area::FUNCTIONS - 1, 0), (ENTRY_POINT, 0)]);
    edits(&mut lines, "two keys of books", &[(word(area::BOOKS, 1, 0), 8)]);
    edits(&mut lines, "two keys of methods apart", &[(word(area::METHODS, 2, 1), 7)]);
    edits(&mut lines, "two keys of public names apart", &[(word(area::PUBLIC, 2, 1), 7)]);
    edits(&mut lines, "area 1 before area 12", &[(word(area::BOOKS, 1, 0), 8), (word(area::CODE, 0, 0), 0)]);
    edits(&mut lines, "area 1 before the bundles", &[(BUNDLES, 0), (word(area::CODE, 0, 0), 0)]);
    edits(&mut lines, "area 10 before the bundles", &[(BUNDLES, MOST_BUNDLES + 1), (area::BREAKS - 1, 1)]);
    edits(&mut lines, "a book and the bundles", &[(BUNDLES, u64::MAX), (word(area::BOOKS, 1, 0), 8)]);
    edits(&mut lines, "area 11 and the most bundles", &[(BUNDLES, MOST_BUNDLES), (area::ERRORS - 1, u64::MAX)]);
    edits(&mut lines, "area 6 before area 8", &[(word(area::METHODS, 2, 1), 7), (word(area::PUBLIC, 2, 1), 7)]);
    edits(
        &mut lines,
        "a sum past the words",
        &[(word(area::FUNCTIONS, 0, 4), u64::MAX), (word(area::FUNCTIONS, 0, 5), 2)],
    );
    edits(&mut lines, "an error that area 11 has not", &[(area::ERRORS - 1, 3), (word(area::ERRORS, 0, 0), 77)]);
    each_word(&mut lines, &small);
    lines.program("the least program", &Stored::new(&Program::least()));
    lines.program("nothing at all", &Stored::new(&Program::of(Areas::default(), 0)));
    Part { given: lines.given, wanted: lines.wanted }
}

// Times.

/// A program of so many instructions and functions from one word to another, three constants and one book.
fn base(code: u64, functions: impl Iterator<Item = (u64, u64)>) -> Program {
    let mut entries = Program::least().entries;
    entries[area::CODE - 1] = (0..code).flat_map(|_| [instruction(0x01, 0), 0]).collect();
    entries[area::FUNCTIONS - 1] = functions.flat_map(|(start, length)| [0, 0, 0, 0, start, length, 0, 3]).collect();
    entries[area::BOOKS - 1] = vec![2];
    Program::of(entries, 0)
}

/// Keys in an area, in order and shuffled.
fn keyed(number: usize, keys: Vec<(u64, u64)>) -> [Program; 2] {
    [false, true].map(|shuffled| {
        let mut keys = keys.clone();
        if shuffled {
            Random::new(7).shuffle(&mut keys);
        }
        let groups = keys.iter().map(|key| key.0).max().unwrap_or(0) + 1;
        let mut entries = base(1, std::iter::once((0, 1))).entries;
        let owners = if number == area::METHODS { area::MODELS } else { area::BOOKS };
        entries[area::BOOKS - 1] = (1..=if owners == area::BOOKS { groups } else { 1 }).collect();
        entries[area::MODELS - 1] = (0..if owners == area::MODELS { groups } else { 0 }).flat_map(|_| [0, 3]).collect();
        entries[number - 1] = keys.iter().flat_map(|&(group, name)| [group, name, 0]).collect();
        Program::of(entries, 0)
    })
}

/// The times of programs that are long in one way.
pub fn bench(side: &mut dyn ProgramCalls) {
    let mut time = |what: &str, program: &Program| {
        let (memory, lengths) = (program.entries.concat(), program.entries.each_ref().map(Vec::len));
        let start = crate::clock::now();
        let answer = side.check_program(&memory, &lengths, &program.totals);
        println!("{what}: answer {answer:?}, {:.4} s", crate::clock::now() - start);
    };
    let side_by_side = base(1_000_000, (0..100_000).map(|i| (i * 10, 10)));
    time("1,000,000 instructions, 100,000 functions one after the other", &side_by_side);
    for n in [10_000, 30_000] {
        time(&format!("{n} instructions in each of {n} functions"), &base(n, (0..n).map(|_| (0, n))));
        time(&format!("{n} instructions, {n} functions from each to the end"), &base(n, (0..n).map(|i| (i, n - i))));
    }
    const N: u64 = 100_000;
    let mut random = Random::new(11);
    let any: Vec<(u64, u64)> = (0..N).map(|i| (random.below(1000), i + 1)).collect();
    let kinds: [(&str, usize, Vec<(u64, u64)>); 5] = [
        ("100,000 public names of one book", area::PUBLIC, (0..N).map(|i| (0, i + 1)).collect()),
        ("100,000 books with one name each", area::PUBLIC, (0..N).map(|i| (i, 3)).collect()),
        ("1,000 books with 100 names each", area::PUBLIC, (0..N).map(|i| (i / 100, i % 100 + 1)).collect()),
        ("100,000 names of 1,000 books by chance", area::PUBLIC, any),
        ("methods of 100,000 models, a name each", area::METHODS, (0..N).map(|i| (i, i + 1)).collect()),
    ];
    for (what, number, keys) in kinds {
        let [ordered, shuffled] = keyed(number, keys);
        time(what, &ordered);
        time(&format!("{what}, shuffled"), &shuffled);
    }
    let [million, _] = keyed(area::PUBLIC, (0..1_000_000).map(|i| (0, i + 1)).collect());
    time("1,000,000 public names of one book", &million);
    let mut books = base(1, std::iter::once((0, 1))).entries;
    books[area::BOOKS - 1] = (1..=1_000_000).rev().collect();
    time("1,000,000 books, descending", &Program::of(books, 0));
}

#[cfg(test)]
mod tests {
    use super::*;

    /// A fault: what it does to a program before the reading, and to the answer.
    type Fault = fn(&mut Areas, &mut Totals, &mut [u64; 2]);

    struct Wrong(Fault);

    impl ProgramCalls for Wrong {
        fn check_program(&mut self, memory: &[u64], lengths: &Lengths, totals: &Totals) -> [u64; 2] {
            let (mut areas, mut totals) = (split(memory, lengths), *totals);
            self.0(&mut areas, &mut totals, &mut [0, 0]);
            let mut answer = reading(&areas, &totals);
            self.0(&mut areas, &mut totals, &mut answer);
            answer
        }
    }

    #[test]
    fn the_reading_is_alike() {
        let seen = compare(&mut Wrong(|_, _, _| ()), 41, 20_000);
        assert!(seen.first.is_none(), "{:?}", seen.first);
        for (number, &count) in seen.by_area.iter().enumerate() {
            assert!((count > 0) == (number != area::ERRORS), "area {number}: {seen:?}");
        }
    }

    #[test]
    fn planted_faults_are_seen() {
        let faults: [Fault; 13] = [
            // The area beside.
            |_, _, answer| answer[1] += u64::from(answer[1] == PROGRAM_PLACE + 7),
            |_, _, answer| answer[0] = 0,
            // Area 11 looked at.
            |_, totals, answer| {
                if answer[0] == 0 && totals.areas[area::ERRORS - 1] > 1 << 40 {
                    *answer = [BAD_SHAPE, PROGRAM_PLACE + area::ERRORS as u64];
                }
            },
            // Words behind not looked at.
            |areas, totals, _| {
                for i in 0..AREAS {
                    let end = (totals.areas[i] as usize).saturating_mul(ENTRY_WORDS[i]);
                    areas[i].iter_mut().skip(end).for_each(|word| *word = 0);
                }
            },
            // The number of marks not looked at.
            |areas, totals, _| {
                totals.globals = areas[area::CONSTANTS - 1].chunks_exact(3).filter(|entry| entry[2] == 1).count() as u64
            },
            |_, totals, _| totals.entry_point = 0,
            // A key that repeats.
            |areas, _, _| {
                let keys = &mut areas[area::BOOKS - 1];
                if keys.len() > 1 && keys[0] == keys[1] {
                    keys[1] = 77;
                }
            },
            // Start and length with a sum that wraps.
            |areas, _, _| {
                for entry in areas[area::FUNCTIONS - 1].chunks_exact_mut(8) {
                    if entry[4].checked_add(entry[5]).is_none() {
                        (entry[4], entry[5]) = (0, entry[2]);
                    }
                }
            },
            // LocalGet 0 without a local.
            |areas, _, answer| {
                let reads = areas[area::CODE - 1].iter().step_by(2).any(|&word| word == 0x07 << 56);
                if answer[0] == 0 && reads {
                    *answer = [BAD_SHAPE, PROGRAM_PLACE + 1];
                }
            },
            // The number of bundles not looked at, one too many let through, one too few, and looked at ahead of the areas.
            |_, totals, _| totals.bundles = 1,
            |_, totals, _| totals.bundles -= u64::from(totals.bundles == MOST_BUNDLES + 1),
            |_, totals, _| totals.bundles += u64::from(totals.bundles == MOST_BUNDLES),
            |_, totals, answer| {
                if !(1..=MOST_BUNDLES).contains(&totals.bundles) {
                    *answer = [BAD_SHAPE, PROGRAM_PLACE + area::BOOKS as u64];
                }
            },
        ];
        for (at, fault) in faults.into_iter().enumerate() {
            let mut side = Wrong(fault);
            let seen = compare(&mut side, 42, 20_000).differences + compare_each(&mut side, 42, 1).differences;
            assert!(seen > 0, "fault {at}");
        }
    }

    #[test]
    fn small_programs_stand_and_each_area_has_cases() {
        assert_eq!(Stored::answer(&Stored::new(&small()).numbers), [0, 0]);
        let wanted = stored().wanted;
        for number in (1..=AREAS as u64).filter(|&number| number != 11) {
            let answer = format!(" 3 {}\n", PROGRAM_PLACE + number);
            assert!(wanted.contains(&answer), "area {number}");
        }
    }

    #[test]
    fn the_stored_cases_are_current() {
        assert!(crate::parts::is_stored("programs", &stored()), "`oracle program-cases` writes them anew");
    }
}
