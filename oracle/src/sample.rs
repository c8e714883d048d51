//! A fixed sample of answers as files, for a program that replays them with no Rust at hand. The
//! form is said in sample/README.md. Every answer that the Rust can give was compared with it.

use crate::areas::{answer, Lengths, AREAS, ENTRY_WORDS};
use crate::columns::{column_to_records, damaged, lines, records_to_column, LINE_BYTES};
use crate::generate::{case, Sizes};
use crate::model::{compile, compile_by, Rules, Run};
use crate::onto_sample;
use crate::pieces::{self, document, function, include, named};
use crate::random::Random;
use crate::real::{run, Outcome};
use crate::records::{flatten, kind, records, Node};
use crate::stored;
use std::collections::{BTreeMap, BTreeSet};

/// No file of numbers is longer, so that a small buffer holds any of them.
const FILE_BYTES: usize = 60_000;
const SEED: u64 = 2026;
/// What the program `book_cases` reads of one case, in bytes.
const CASE_BYTES: usize = 8_000;
const GENERATED_RECORDS: usize = 80;
/// For the generated cases; the pieces are always taken.
const GENERATED_BYTES: usize = 110_000;
const COLUMN_RECORDS: usize = 12;

/// File name to content, in order of name.
pub type Files = BTreeMap<String, Vec<u8>>;

pub(crate) fn numbers(list: impl IntoIterator<Item = u64>) -> String {
    list.into_iter().map(|number| number.to_string()).collect::<Vec<_>>().join(" ")
}

/// Count, then the list up to its last number that is not 0.
pub(crate) fn prefix(list: &[u64]) -> String {
    let length = list.iter().rposition(|&word| word != 0).map_or(0, |last| last + 1);
    numbers(std::iter::once(length as u64).chain(list[..length].iter().copied()))
}

/// One bundle with lengths: input, lengths, reply, and the twelve areas.
fn compile_case(words: &[u64], lengths: &Lengths) -> String {
    written(words, lengths, &compile(words, lengths))
}

fn written(words: &[u64], lengths: &Lengths, run: &Run) -> String {
    let mut out = numbers(std::iter::once(words.len() as u64).chain(words.iter().copied())) + "\n";
    out += &(numbers(lengths.iter().map(|&length| length as u64)) + "\n");
    out += &(numbers(run.reply.words()) + "\n");
    for area in &run.areas {
        out += &(prefix(area) + "\n");
    }
    out
}

/// The Rust is asked too; a sample that it does not share would be worth nothing.
fn assert_shared(name: &str, words: &[u64]) {
    let model = compile(words, &crate::areas::UNLIMITED);
    if matches!(model.reply.row, 2..=5) {
        return;
    }
    match run(&records(words)) {
        Outcome::Answer(theirs) => assert_eq!(theirs, answer(&model.reply, &model.areas), "{name}"),
        Outcome::Panicked => assert!(model.panics, "{name}"),
        Outcome::Inexpressible => {}
        Outcome::Unforeseen(message) => panic!("{name}: {message}"),
    }
}

/// What the bundle needs in each area, in words.
fn needed(words: &[u64]) -> Lengths {
    let peaks = compile(words, &crate::areas::UNLIMITED).peaks();
    std::array::from_fn(|i| peaks[i] as usize * ENTRY_WORDS[i])
}

struct Collected {
    cases: Vec<String>,
    names: Vec<String>,
    features: BTreeSet<String>,
}

/// What a case shows: its row, kinds under kinds, operators, opcodes, errors, the full area.
fn features(words: &[u64], lengths: &Lengths) -> BTreeSet<String> {
    let run = compile(words, lengths);
    let reply = run.reply;
    let mut found = BTreeSet::from([format!("row {}", reply.row)]);
    if reply.row == 9 {
        found.insert(format!("full {}", reply.place));
        return found;
    }
    if reply.row == 7 {
        found.extend(run.areas[10].chunks(4).map(|error| format!("error {} at {}", error[0], error[2])));
    }
    if matches!(reply.row, 3 | 4) {
        let broken = records(words).get(reply.place as usize).map_or(0, |r| r.kind);
        found.insert(format!("row {} at {broken}", reply.row));
    }
    if reply.row == 0 {
        found.extend(run.areas[0].chunks(2).map(|entry| format!("opcode {}", entry[0] >> 56)));
        found.extend(run.areas[1].chunks(3).map(|entry| format!("constant {} {}", entry[0], entry[2])));
        found.extend(pairs(words));
    }
    found
}

/// Kinds under kinds, and the values of operators.
fn pairs(words: &[u64]) -> BTreeSet<String> {
    let mut found = BTreeSet::new();
    let mut open: Vec<(u64, usize)> = Vec::new();
    for (at, r) in records(words).iter().enumerate() {
        open.retain(|&(_, end)| end > at);
        let parent = open.last().map_or(0, |&(kind, _)| kind);
        found.insert(format!("kind {parent} {}", r.kind));
        if matches!(r.kind, kind::INFIX | kind::PREFIX) {
            found.insert(format!("operator {} {}", r.kind, r.value));
        }
        open.push((r.kind, at + r.span as usize));
    }
    found
}

impl Collected {
    fn add(&mut self, name: &str, words: &[u64], lengths: &Lengths) -> usize {
        let text = compile_case(words, lengths);
        let reply = compile(words, lengths).reply;
        self.features.extend(features(words, lengths));
        self.names.push(format!("{name}: row {}, place {}", reply.row, reply.place));
        let size = text.len();
        self.cases.push(text);
        size
    }
}

/// Each piece with exactly what it needs and a tail; some also one entry short in each area.
fn add_pieces(collected: &mut Collected) {
    for (name, words) in [pieces::bench(), pieces::more(), pieces::requests()].concat() {
        assert_shared(name, &words);
        let exact = needed(&words);
        let tailed: Lengths = std::array::from_fn(|i| exact[i] + ENTRY_WORDS[i] - 1);
        collected.add(&format!("{name}, exactly"), &words, &tailed);
        let is_wide = matches!(name, "l the example" | "models and methods through aliases" | "h for with break")
            || name.starts_with("error 6")
            || name.starts_with("ring");
        for i in (0..AREAS).filter(|&i| is_wide && exact[i] > 0) {
            let mut short = tailed;
            short[i] = exact[i] - 1;
            collected.add(&format!("{name}, area {} one short", i + 1), &words, &short);
        }
    }
    collected.add("all areas empty, book missing first", &piece("books missing"), &[0; AREAS]);
    collected.add("all areas empty", &pieces::example(), &[0; AREAS]);
}

fn piece(name: &str) -> Vec<u64> {
    pieces::more().into_iter().find(|(known, _)| *known == name).expect("a piece of that name").1
}

/// Generated cases that show something new, as long as there is room.
fn add_generated(collected: &mut Collected) {
    let mut room = GENERATED_BYTES as i64;
    for index in 0..20_000 {
        let made = case(SEED, index, Sizes::Mixed);
        if made.words.len() / 4 > GENERATED_RECORDS || room <= 0 {
            continue;
        }
        let exact = needed(&made.words);
        let mut lengths: Lengths = std::array::from_fn(|i| exact[i] + (index as usize + i) % (2 * ENTRY_WORDS[i]));
        let short = index as usize % 40;
        if short < AREAS && exact[short] > 0 {
            lengths[short] = exact[short] - 1;
        }
        let fits = compile_case(&made.words, &lengths).len() <= CASE_BYTES;
        if fits && !features(&made.words, &lengths).is_subset(&collected.features) {
            assert_shared(&format!("case {index}"), &made.words);
            room -= collected.add(&format!("seed {SEED} case {index}"), &made.words, &lengths) as i64;
        }
    }
}

/// Strict mode (02, 2026-07) on bundles whose root, book 2, includes book 5: names and texts of the cases, in the form of the others. Each
/// has exactly what it needs; one entry less of area 7 is row 9 where an earlier definition takes it.
fn strict_cases() -> (Vec<String>, Vec<String>) {
    let public = |name| named(kind::PUBLIC_FUNCTION, name, Vec::new());
    let model = |name| named(kind::MODEL, name, Vec::new());
    let library = || document(5, vec![public(3), function(4, &[], Vec::new()), named(kind::PUBLIC_MODEL, 8, Vec::new())]);
    let pieces: [(&str, Vec<Node>); 9] = [
        ("all names public, one listed twice", vec![include(5, &[(3, 6), (8, 7), (3, 6), (3, 9)])]),
        ("no names", vec![include(5, &[])]),
        ("the last name misspelt", vec![include(5, &[(3, 6), (8, 7), (9, 10)])]),
        ("a name misspelt twice", vec![include(5, &[(9, 6), (9, 6)])]),
        ("a private name", vec![include(5, &[(4, 7)])]),
        ("the alias is there already", vec![model(4), include(5, &[(9, 4)])]),
        ("an error ahead", vec![named(kind::IMPLEMENT, 77, Vec::new()), include(5, &[(9, 7)])]),
        ("an error below", vec![include(5, &[(9, 7)]), named(kind::IMPLEMENT, 77, Vec::new())]),
        ("a name of another book", vec![named(kind::PUBLIC_MODEL, 9, Vec::new()), include(5, &[(9, 7)])]),
    ];
    let (mut names, mut cases) = (Vec::new(), Vec::new());
    let mut add = |name: &str, words: &[u64], lengths: &Lengths| {
        let run = compile_by(Rules { strict: true }, words, lengths);
        names.push(format!("strict: {name}: row {}, place {}", run.reply.row, run.reply.place));
        cases.push(written(words, lengths, &run));
    };
    for (name, definitions) in pieces {
        let words = flatten(&[document(2, definitions), library()]);
        let peaks = compile_by(Rules { strict: true }, &words, &crate::areas::UNLIMITED).peaks();
        let exact: Lengths = std::array::from_fn(|i| peaks[i] as usize * ENTRY_WORDS[i]);
        add(&format!("{name}, exactly"), &words, &exact);
        let mut short = exact;
        short[6] -= 1;
        add(&format!("{name}, area 7 one short"), &words, &short);
    }
    (names, cases)
}

/// Cases split over files, each opened by its number of cases. Answers the file of each case.
fn split(files: &mut Files, stem: &str, cases: &[String]) -> Vec<String> {
    let mut groups: Vec<Vec<&str>> = vec![Vec::new()];
    let mut places = Vec::new();
    let mut size = 0;
    for text in cases {
        if size + text.len() + 8 > FILE_BYTES {
            groups.push(Vec::new());
            size = 0;
        }
        size += text.len();
        let number = groups.len();
        let group = groups.last_mut().expect("never empty");
        group.push(text);
        places.push(format!("{stem}-{number}.txt case {}", group.len()));
    }
    for (number, group) in (1..).zip(groups) {
        let text = format!("{}\n{}", group.len(), group.concat());
        files.insert(format!("{stem}-{number}.txt"), text.into_bytes());
    }
    places
}

fn bytes(list: &[u8]) -> String {
    numbers(std::iter::once(list.len() as u64).chain(list.iter().map(|&byte| u64::from(byte))))
}

/// Column file to records: bytes, output length in words, row, place, output.
fn column_cases() -> Vec<String> {
    let mut random = Random::new(SEED);
    let mut cases = Vec::new();
    let mut add = |file: &[u8], length: usize| {
        let made = column_to_records(file, length);
        cases.push(format!("{}\n{length} {} {}\n{}\n", bytes(file), made.row, made.place, prefix(&made.out)));
    };
    let whole = lines(&pieces::example());
    let length = whole.len() / LINE_BYTES * 4;
    add(b"", 0);
    add(&whole, length);
    add(&whole, length - 1);
    add(&whole, length + 3);
    add(&lines(&pieces::deep(65)[..40]), 40);
    for index in 0..400 {
        let made = case(SEED, index, Sizes::Mixed);
        let count = made.words.len() / 4;
        if count == 0 || count > COLUMN_RECORDS {
            continue;
        }
        let file = lines(&made.words);
        if file.len() == count * LINE_BYTES {
            add(&damaged(&mut random, &file), made.words.len());
        }
    }
    cases
}

/// Records to column file: words, output length in bytes, row, place, output.
fn line_cases() -> Vec<String> {
    let mut cases = Vec::new();
    let mut add = |words: &[u64], length: usize| {
        let made = records_to_column(words, length);
        let used = made.out.iter().rposition(|&byte| byte != 0).map_or(0, |last| last + 1);
        let input = numbers(std::iter::once(words.len() as u64).chain(words.iter().copied()));
        cases.push(format!("{input}\n{length} {} {}\n{}\n", made.row, made.place, bytes(&made.out[..used])));
    };
    for name in ["no records", "odd length", "level 65", "all leaves", "two numbers of this"] {
        let words = piece(name);
        add(&words, words.len() / 4 * LINE_BYTES);
    }
    let example = pieces::example();
    let length = example.len() / 4 * LINE_BYTES;
    add(&example, length);
    add(&example, length - 1);
    add(&example, length + 5);
    cases
}

/// Cases named for an item in the index; the others that show it are counted.
const NAMED: usize = 4;

/// Column files with what `listing` prints for them, and their index: each item that must be shown
/// with cases that show it, then each case.
fn add_listings(files: &mut Files) {
    let cases = stored::cases();
    let shown: Vec<BTreeSet<String>> = cases.iter().map(stored::Case::shows).collect();
    let name = |number: usize| format!("listing-{:03}", number + 1);
    let mut index = String::new();
    for item in stored::items() {
        let having: Vec<String> = (0..cases.len()).filter(|&i| shown[i].contains(&item)).map(name).collect();
        assert!(!having.is_empty(), "no listing shows {item}");
        let named = having[..NAMED.min(having.len())].join(" ");
        index += &match having.len() - NAMED.min(having.len()) {
            0 => format!("item {item}: {named}\n"),
            others => format!("item {item}: {named} and {others} more\n"),
        };
    }
    for (number, case) in cases.iter().enumerate() {
        if let Some(words) = case.words() {
            assert_shared(&case.name, &words);
        }
        index += &format!("{}: {}\n", name(number), case.line());
        files.insert(format!("{}.out", name(number)), case.out());
        files.insert(format!("{}.col", name(number)), case.file.clone());
    }
    files.insert("listings.txt".to_string(), index.into_bytes());
}

/// Features that the sample must show, whatever it was drawn from.
fn demanded() -> Vec<String> {
    let opcodes = [
        0x01, 0x02, 0x05, 0x06, 0x07, 0x08, 0x0C, 0x0D, 0x11, 0x12, 0x13, 0x14, 0x15, 0x16, 0x21, 0x22, 0x23, 0x32,
        0x36, 0x51, 0x52, 0x56, 0x57,
    ];
    let mut out: Vec<String> = opcodes.iter().map(|code| format!("opcode {code}")).collect();
    out.extend([0, 2, 3, 4, 5, 6, 7, 8, 9].map(|row| format!("row {row}")));
    out.extend((1..=AREAS).map(|area| format!("full {area}")));
    out.extend((0..19).map(|value| format!("operator {} {value}", kind::INFIX)));
    out.extend((0..2).map(|value| format!("operator {} {value}", kind::PREFIX)));
    out
}

/// The whole sample.
pub fn files() -> Files {
    let mut collected = Collected { cases: Vec::new(), names: Vec::new(), features: BTreeSet::new() };
    add_pieces(&mut collected);
    add_generated(&mut collected);
    for feature in demanded() {
        assert!(collected.features.contains(&feature), "the sample lacks {feature}");
    }
    for error in 1..=10 {
        let start = format!("error {error} ");
        assert!(collected.features.iter().any(|f| f.starts_with(&start)), "the sample lacks error {error}");
    }
    for child in kind::ALL.iter().filter(|&&kind| kind != kind::OTHER_TOKEN) {
        let end = format!(" {child}");
        assert!(collected.features.iter().any(|f| f.starts_with("kind ") && f.ends_with(&end)), "no kind {child}");
    }
    let mut files = Files::new();
    let places = split(&mut files, "compile", &collected.cases);
    let (strict, cases) = strict_cases();
    split(&mut files, "strict", &cases);
    files.insert("strict.txt".to_string(), (strict.join("\n") + "\n").into_bytes());
    for stored in onto_sample::cases() {
        split(&mut files, stored.stem, &stored.cases);
        files.insert(format!("{}.txt", stored.stem), (stored.names.join("\n") + "\n").into_bytes());
    }
    split(&mut files, "to-records", &column_cases());
    split(&mut files, "to-column", &line_cases());
    add_listings(&mut files);
    let index: Vec<String> = places.iter().zip(&collected.names).map(|(at, name)| format!("{at}: {name}\n")).collect();
    files.insert("index.txt".to_string(), index.concat().into_bytes());
    files
}
