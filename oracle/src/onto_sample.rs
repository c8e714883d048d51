//! Stored cases of laying on (02, 2026-01) for a program that replays them with no Rust at hand; sample/README.md says their form.
//! Both readings agree on each, and where a program is made by bundles the Rust was asked too. Those of trial and commit are in
//! onto_trial_sample.rs.

use crate::areas::{area, Areas, Counts, Lengths, AREAS, ENTRY_WORDS};
use crate::onto::{Lent, Reading};
use crate::onto_calls::{answered, judge, Standing};
use crate::onto_grown::{Look, Sequence};
use crate::onto_seen::Seen;
use crate::onto_trial_sample::{add_commits, add_trials};
use crate::pieces::{absent, apply, document, function, identifier, include, leaf, locals, named, statement};
use crate::random::Random;
use crate::records::{flatten, kind, Node, MAIN, MAX_TEXT};
use crate::sample::{numbers, prefix};
use crate::standing::{entries_of, Answered, Call, Order, Totals, MOST_BUNDLES, PROGRAM_PLACE};
use crate::standing_calls::{calls, Program, ROOMY};
use std::collections::BTreeSet;

const SEED: u64 = 2026;
/// What a replaying program reads of one case, in bytes and in numbers, and the words that it can lend.
const CASE_BYTES: usize = 8_000;
const CASE_NUMBERS: usize = 1_000;
const CASE_MEMORY: usize = 6_000;
/// For the generated cases of laying on, of trial and of commit; the pieces are always taken.
const GENERATED_BYTES: [usize; 3] = [50_000, 8_000, 8_000];
/// The number of the 41s in every piece.
const THIS: u64 = 7;

// Books.

fn model(name: u64) -> Node {
    named(kind::PUBLIC_MODEL, name, vec![Node::leaf(kind::NAME, 0, 30)])
}

fn public(name: u64) -> Node {
    named(kind::PUBLIC_FUNCTION, name, Vec::new())
}

fn reads(name: u64, text: u64) -> Node {
    function(name, &[], vec![statement(identifier(text))])
}

fn says(name: u64, text: u64) -> Node {
    function(name, &[], vec![statement(leaf(kind::STRING, text))])
}

fn implement(model: u64, methods: &[u64]) -> Node {
    let this = || Node::leaf(kind::THIS_PARAMETER, 0, THIS);
    named(kind::IMPLEMENT, model, methods.iter().map(|&method| named(kind::FUNCTION, method, vec![this()])).collect())
}

/// Error 10.
fn fault() -> Node {
    named(kind::IMPLEMENT, 900, Vec::new())
}

/// Book 2: a public model 4 with method 5, a public function 6, `main`, which says 9, and a name with a value.
fn library() -> Node {
    let value = locals(kind::LOCAL_DEFINITION, vec![(8, leaf(kind::INTEGER, 7))]);
    document(2, vec![model(4), implement(4, &[5]), public(6), says(MAIN, 9), value])
}

/// Sets a mark, gives the method another function and the model one more, and moves the entry point.
fn touching() -> Vec<Node> {
    vec![include(2, &[(4, 12)]), implement(12, &[5, 13]), reads(MAIN, 9)]
}

/// A bundle, and the bundles that make the program that it is laid onto.
pub(crate) struct Piece {
    pub(crate) name: &'static str,
    pub(crate) stands: Vec<Vec<Node>>,
    pub(crate) bundle: Vec<Node>,
    pub(crate) strict: bool,
}

/// Pieces onto the library, in the present mode.
fn onto_library() -> Vec<(&'static str, Vec<Node>)> {
    let root = |definitions: Vec<Node>| vec![document(3, definitions)];
    let with = |more: Vec<Node>| [touching(), more].concat();
    let copy = || document(2, vec![model(44), include(99, &[]), fault()]);
    let valued = |value| locals(kind::LOCAL_DEFINITION, vec![(20, value)]);
    let deep = (4..=65).fold(leaf(kind::NULL, 0), |inner, _| Node::new(kind::PREFIX, 0, 1, vec![inner]));
    vec![
        ("a mark, methods and the entry point", root(touching())),
        ("an empty book", root(vec![])),
        ("no main, so that the entry point stays", root(vec![public(10)])),
        ("a copy of a standing book", vec![document(3, touching()), copy()]),
        ("a root that stands", vec![copy(), document(3, vec![fault()])]),
        (
            "two books that include each other, one stands",
            [root(vec![include(2, &[])]), vec![document(2, vec![include(3, &[])])]].concat(),
        ),
        ("a late include that stands", root(vec![model(10), include(2, &[(6, 11)])])),
        ("standing names are not seen", root(vec![reads(10, 8), reads(11, 4)])),
        ("a private name has no value", root(vec![include(2, &[(8, 10), (6, 11)])])),
        ("shared constants", root(vec![valued(leaf(kind::INTEGER, 7)), says(10, 9), says(11, 10)])),
        ("apply from a standing model", root(vec![include(2, &[(4, 12)]), model(14), apply(12, 14)])),
        (
            "apply to a standing model",
            root(vec![include(2, &[(4, 12)]), model(14), implement(14, &[13, 5]), apply(14, 12)]),
        ),
        ("the same public names in another book", root(vec![model(4), public(6), public(6)])),
        ("a record of a copy breaks the rules", [root(vec![]), vec![document(2, vec![model(MAX_TEXT + 1)])]].concat()),
        (
            "a record of a copy is too deep",
            [root(vec![]), vec![document(2, vec![function(5, &[], vec![statement(deep)])])]].concat(),
        ),
        ("a copy twice", [root(vec![]), vec![copy(), copy()]].concat()),
        ("book missing, all taken back", root(with(vec![include(8, &[]), include(5, &[])]))),
        ("book faulty, all taken back", root(with(vec![fault()]))),
        ("book faulty by two errors", root(vec![valued(leaf(kind::STRING, 9)), fault()])),
        ("a public function is no model", root(vec![include(2, &[(6, 11)]), named(kind::IMPLEMENT, 11, Vec::new())])),
        ("a faulty book behind a good one", vec![document(5, vec![include(3, &[]), fault()]), document(3, touching())]),
        ("ring of two", [root(vec![include(5, &[])]), vec![document(5, vec![include(3, &[])])]].concat()),
        (
            "ring of itself behind a good book",
            vec![document(5, vec![include(5, &[]), include(3, &[])]), document(3, touching())],
        ),
    ]
}

/// Pieces onto the library, in strict mode.
fn strictly() -> Vec<(&'static str, Vec<Node>)> {
    let root = |definitions: Vec<Node>| vec![document(3, definitions)];
    vec![
        ("strict: public names of a standing book", root(vec![include(2, &[(4, 12), (6, 11)]), include(2, &[])])),
        ("strict: a private name of a standing book", root(vec![include(2, &[(6, 11), (8, 10)])])),
        (
            "strict: a name of a copy alone",
            vec![document(3, vec![include(2, &[(44, 10)])]), document(2, vec![model(44)])],
        ),
        (
            "strict: an error ahead of a private name, all taken back",
            root([touching(), vec![fault(), include(2, &[(8, 10)])]].concat()),
        ),
        ("strict: a root that stands with a private name", vec![document(2, vec![include(2, &[(8, 10)])])]),
    ]
}

pub(crate) fn pieces() -> Vec<Piece> {
    let piece = |strict| move |(name, bundle)| Piece { name, stands: vec![vec![library()]], bundle, strict };
    let mut out: Vec<Piece> = onto_library().into_iter().map(piece(false)).collect();
    out.extend(strictly().into_iter().map(piece(true)));
    let both = vec![document(3, touching()), library()];
    let third = document(5, vec![include(3, &[(14, 10)]), include(2, &[(4, 12)]), implement(12, &[5]), reads(MAIN, 9)]);
    let second = vec![document(3, [touching(), vec![public(14)]].concat())];
    out.push(Piece { name: "onto the least program", stands: vec![], bundle: both, strict: false });
    out.push(Piece {
        name: "a third bundle",
        stands: vec![vec![library()], second],
        bundle: vec![third],
        strict: true,
    });
    out
}

// Programs.

/// What the bundles make, one after the other.
pub(crate) fn grown(stands: &[Vec<Node>]) -> Program {
    stands.iter().fold(Program::least(), |program, bundle| {
        let lengths = std::array::from_fn(|i| program.entries[i].len() + 60 * ENTRY_WORDS[i]);
        let (areas, totals) = (program.lent(&lengths), program.totals);
        let call = Call { order: Order::Lay(totals), words: flatten(bundle), strict: false, areas };
        let answered = answered(&Reading::default(), &call);
        assert_eq!(answered.row, 0, "a standing program is delivered");
        Program { entries: entries_of(&answered.areas, &answered.totals), totals: answered.totals }
    })
}

/// Areas with room for so many entries and a tail shorter than one; area 11 holds old errors.
pub(crate) fn lent(program: &Program, entries: &Counts) -> (Areas, Totals) {
    let lengths: Lengths = std::array::from_fn(|i| entries[i] as usize * ENTRY_WORDS[i] + ENTRY_WORDS[i] - 1);
    let mut areas = program.lent(&lengths);
    areas[area::ERRORS - 1].fill(5);
    let mut totals = program.totals;
    totals.areas[area::ERRORS - 1] = 5;
    (areas, totals)
}

/// The most entries that the work uses in each area.
pub(crate) fn peaks(program: &Program, words: &[u64], strict: bool) -> Counts {
    let areas = program.lent(&[0; AREAS]);
    let lent = Lent { areas: &areas, totals: &program.totals };
    let (peaks, _) = Reading::default().needs(words, strict, lent, ROOMY);
    std::array::from_fn(|i| if i == area::ERRORS - 1 { peaks[i] } else { peaks[i].max(program.totals.areas[i]) })
}

/// One word of a program, or one of its totals, otherwise.
type Damage = (&'static str, fn(&mut Areas, &mut Totals));

const DAMAGES: [Damage; 24] = [
    ("an unknown opcode", |areas, _| areas[0][0] = 0xFF << 56),
    ("a constant past the pool", |areas, totals| areas[0][0] = 0x02 << 56 | totals.of(area::CONSTANTS)),
    ("null is a boolean", |areas, _| areas[1][0] = 1),
    ("a mark that is not counted", |areas, _| areas[1][2] = 1),
    ("two constants alone", |areas, totals| {
        areas[1][6..].fill(0);
        totals.areas[1] = 2;
    }),
    ("the entry point past the functions", |_, totals| totals.entry_point = totals.of(area::FUNCTIONS)),
    ("a function past 2^64", |areas, _| (areas[2][4], areas[2][5]) = (u64::MAX, 2)),
    ("a word behind the functions", |areas, _| areas[2].last_mut().into_iter().for_each(|word| *word = 1)),
    ("a model of no file", |areas, totals| areas[3][0] = totals.of(area::BOOKS)),
    ("models past their area", |areas, totals| totals.areas[3] = areas[3].len() as u64),
    ("a property of no model", |areas, totals| areas[4][0] = totals.of(area::MODELS)),
    ("a method's key twice", |areas, _| areas[5][4] = areas[5][1]),
    ("a value without its mark", |areas, _| areas[6][2] = 0),
    ("a public name of no constant", |areas, totals| areas[7][2] = totals.of(area::CONSTANTS)),
    ("a scope name", |_, totals| totals.areas[8] = 1),
    ("a break", |_, totals| totals.areas[9] = 1),
    ("a file twice", |areas, _| areas[11][1] = areas[11][0]),
    ("a file that is no text", |areas, _| areas[11][0] = MAX_TEXT + 1),
    ("no bundle", |_, totals| totals.bundles = 0),
    ("the most bundles", |_, totals| totals.bundles = MOST_BUNDLES),
    ("a bundle too many", |_, totals| totals.bundles = MOST_BUNDLES + 1),
    ("bundles past 32 bits", |_, totals| totals.bundles = u64::MAX),
    ("a scope name before the bundles", |_, totals| (totals.areas[8], totals.bundles) = (1, 0)),
    ("any words as area 11", |areas, totals| {
        areas[10].fill(u64::MAX);
        totals.areas[10] = u64::MAX;
    }),
];

/// A program that no bundle makes: repeated constants, code in no function and in two, a function that starts nowhere.
pub(crate) fn odd() -> Program {
    let mut entries = Areas::default();
    entries[area::CODE - 1] = vec![0x07 << 56, 0, 0x01 << 56 | 5, 0, 0x06 << 56 | 1 << 40, 0];
    entries[area::CONSTANTS - 1] =
        vec![0, 0, 1, 1, 1, 0, 1, 0, 0, 2, 7, 0, 2, 7, 0, 4, 9, 0, 4, 9, 1, 5, 0, 0, 1, 1, 0];
    entries[area::FUNCTIONS - 1] = vec![0, 0, 1, 1, 0, 2, 0, 3, 9, 1, 0, 0, u64::MAX, 0, 0, 3, 0, 0, 0, 0, 1, 1, 0, 3];
    entries[area::MODELS - 1] = vec![0, 4];
    entries[area::METHODS - 1] = vec![0, 6, 2, 0, 5, 1];
    entries[area::CONTEXT - 1] = vec![0, 9, 0, 0, 0, 9, 1, 7];
    entries[area::PUBLIC - 1] = vec![0, 9, 0, 0, 4, 7, 0, 6, 3];
    entries[area::BOOKS - 1] = vec![2];
    Program::of(entries, 2)
}

// Cases.

fn totals_of(call: &Call) -> Totals {
    match call.order {
        Order::Lay(totals) | Order::Trial(totals) | Order::Commit(totals, _) => totals,
        Order::Fresh => unreachable!("a stored case is on a program"),
    }
}

fn words_of(totals: &Totals) -> impl Iterator<Item = u64> {
    totals.areas.into_iter().chain([totals.entry_point, totals.globals, totals.bundles])
}

/// Bundle, mode, lengths, the totals that are lent, of a commit those of its trial, the areas that are lent; reply, and the areas
/// that are left.
fn written(call: &Call, answered: &Answered) -> String {
    let list = |words: &[u64]| numbers(std::iter::once(words.len() as u64).chain(words.iter().copied()));
    let mut lines = vec![list(&call.words), u64::from(call.strict).to_string()];
    lines.push(numbers(call.areas.iter().map(|area| area.len() as u64)));
    lines.push(numbers(words_of(&totals_of(call))));
    if let Order::Commit(_, trial) = &call.order {
        lines.push(numbers(words_of(trial)));
    }
    lines.extend(call.areas.iter().map(|area| prefix(area)));
    lines.push(numbers([answered.row, answered.place].into_iter().chain(words_of(&answered.totals))));
    lines.extend(answered.areas.iter().map(|area| prefix(area)));
    lines.join("\n") + "\n"
}

/// The stored cases of one call.
pub struct Cases {
    /// How the files of these cases begin, and the names of the cases.
    pub stem: &'static str,
    call: &'static str,
    pub names: Vec<String>,
    pub cases: Vec<String>,
    features: BTreeSet<String>,
}

impl Cases {
    fn of(stem: &'static str, call: &'static str) -> Cases {
        Cases { stem, call, names: Vec::new(), cases: Vec::new(), features: BTreeSet::new() }
    }
}

/// Those of laying on, of trial and of commit.
pub(crate) struct Collected([Cases; 3]);

/// What a case shows.
fn features(call: &Call, answered: &Answered) -> BTreeSet<String> {
    let (row, place, totals) = (answered.row, answered.place, totals_of(call));
    let mode = if call.strict { "strict, " } else { "" };
    let mut found = BTreeSet::new();
    match row {
        3 if place > PROGRAM_PLACE => found.insert(format!("unfit {}", place - PROGRAM_PLACE)),
        9 => found.insert(format!("full {place}")),
        _ => found.insert(format!("{mode}row {row}")),
    };
    if row == 7 {
        let errors = answered.areas[area::ERRORS - 1].chunks_exact(4);
        found.extend(errors.map(|error| format!("error {}", error[0])));
    }
    if row == 0 {
        let changed = |number: usize| {
            let end = totals.of(number) as usize * ENTRY_WORDS[number - 1];
            call.areas[number - 1][..end] != answered.areas[number - 1][..end]
        };
        let moved = answered.totals.entry_point != totals.entry_point;
        let said = [("marked", changed(area::CONSTANTS)), ("replaced", changed(area::METHODS)), ("moved", moved)];
        found.extend(said.iter().filter(|said| said.1).map(|said| said.0.to_string()));
        found.insert(format!("books {}", answered.totals.of(area::BOOKS) - totals.of(area::BOOKS)));
    }
    found
}

fn index_of(order: &Order) -> usize {
    match order {
        Order::Lay(_) => 0,
        Order::Trial(_) => 1,
        Order::Commit(..) => 2,
        Order::Fresh => unreachable!("a stored case is on a program"),
    }
}

impl Collected {
    /// Both readings must answer alike.
    pub(crate) fn add(&mut self, name: &str, call: &Call) {
        let answered = judge(&mut Standing, call).unwrap_or_else(|message| panic!("{name}: {message}")).answered;
        let cases = &mut self.0[index_of(&call.order)];
        cases.features.extend(features(call, &answered));
        cases.names.push(format!("{}: {name}: row {}, place {}", cases.call, answered.row, answered.place));
        let text = written(call, &answered);
        assert!(fits(call, &text), "{name}");
        cases.cases.push(text);
    }
}

fn fits(call: &Call, text: &str) -> bool {
    let memory: usize = call.areas.iter().map(Vec::len).sum();
    text.len() <= CASE_BYTES && text.split_ascii_whitespace().count() <= CASE_NUMBERS && memory <= CASE_MEMORY
}

/// The bundles of a piece put to the Rust, one after the other.
fn assert_shared(piece: &Piece) {
    let mut seen = Seen::default();
    let mut sequence = Sequence::new(Random::new(SEED), Reading::default(), Look::AllLeft, &mut seen, THIS);
    let bundles = piece.stands.iter().map(|bundle| (bundle, false)).chain([(&piece.bundle, piece.strict)]);
    for (bundle, strict) in bundles {
        sequence.bundle(&flatten(bundle), strict).unwrap_or_else(|message| panic!("{}: {message}", piece.name));
    }
}

/// Each piece with exactly what it needs; the first also one entry short in each area that it takes entries of.
fn add_pieces(collected: &mut Collected) {
    for piece in pieces() {
        assert_shared(&piece);
        let (program, words) = (grown(&piece.stands), flatten(&piece.bundle));
        let exact = peaks(&program, &words, piece.strict);
        let call = |entries: &Counts| {
            let (areas, totals) = lent(&program, entries);
            Call { order: Order::Lay(totals), words: words.clone(), strict: piece.strict, areas }
        };
        collected.add(&format!("{}, exactly", piece.name), &call(&exact));
        let is_wide = piece.name == "a mark, methods and the entry point" || piece.name == "book faulty by two errors";
        let stood = |i: usize| if i == area::ERRORS - 1 { 0 } else { program.totals.areas[i] };
        for i in (0..AREAS).filter(|&i| is_wide && exact[i] > stood(i)) {
            let mut short = exact;
            short[i] -= 1;
            collected.add(&format!("{}, area {} one short", piece.name, i + 1), &call(&short));
        }
    }
}

/// The program check: one thing wrong in a program of two books, and a bundle that would be delivered or refused.
fn add_damages(collected: &mut Collected) {
    let program = grown(&[vec![library()], vec![document(3, touching())]]);
    let room = program.totals.areas.map(|total| total + 8);
    for (name, damage) in DAMAGES {
        let (mut areas, mut totals) = lent(&program, &room);
        damage(&mut areas, &mut totals);
        let words = flatten(&[document(5, vec![include(2, &[(4, 12)]), implement(12, &[5])])]);
        collected.add(&format!("check: {name}"), &Call { order: Order::Lay(totals), words, strict: false, areas });
    }
    let (areas, mut totals) = lent(&program, &room);
    totals.entry_point = 99;
    let wrong = Call { order: Order::Lay(totals), words: vec![1], strict: true, areas: areas.clone() };
    collected.add("check: before row 2", &wrong);
    totals.entry_point = program.totals.entry_point;
    collected.add("bad length", &Call { order: Order::Lay(totals), ..wrong });
    let nothing = Call {
        order: Order::Lay(Totals { bundles: 1, ..Totals::default() }),
        words: vec![1],
        strict: false,
        areas: Areas::default(),
    };
    collected.add("check: nothing at all", &nothing);
}

/// Onto a program that no bundle makes.
fn add_odd(collected: &mut Collected) {
    let program = odd();
    let value = |kind, value| statement(leaf(kind, value));
    let values = vec![value(kind::INTEGER, 7), value(kind::STRING, 9), value(kind::BOOLEAN, 1), value(kind::NULL, 0)];
    let bundles = [
        ("the first of equal constants", vec![function(10, &[], values), reads(11, 9)]),
        (
            "public names of any kind",
            vec![include(2, &[(9, 10), (6, 11)]), locals(kind::LOCAL_DEFINITION, vec![(12, absent())])],
        ),
        ("an integer is no model", vec![include(2, &[(6, 11)]), apply(11, 11)]),
        ("methods in any order", vec![include(2, &[(4, 12)]), implement(12, &[5, 7, 6])]),
    ];
    for (name, definitions) in bundles {
        let words = flatten(&[document(3, definitions)]);
        let (areas, totals) = lent(&program, &peaks(&program, &words, false));
        collected
            .add(&format!("an odd program: {name}"), &Call { order: Order::Lay(totals), words, strict: false, areas });
    }
}

/// The call itself, and a trial or commit as laying on too.
fn as_laid(call: Call) -> Vec<Call> {
    match call.order {
        Order::Fresh => Vec::new(),
        Order::Lay(_) => vec![call],
        Order::Trial(totals) | Order::Commit(totals, _) => {
            vec![Call { order: Order::Lay(totals), ..call.clone() }, call]
        }
    }
}

/// Generated cases that show something new, as long as there is room.
fn add_generated(collected: &mut Collected) {
    let mut room = GENERATED_BYTES;
    for index in 0..3000 {
        let numbered = calls(SEED, index).into_iter().enumerate();
        for (at, call) in numbered.flat_map(|(at, call)| as_laid(call).into_iter().map(move |call| (at, call))) {
            let answered = answered(&Reading::default(), &call);
            let (text, which) = (written(&call, &answered), index_of(&call.order));
            let is_new = !features(&call, &answered).is_subset(&collected.0[which].features);
            if is_new && fits(&call, &text) && text.len() <= room[which] {
                room[which] -= text.len();
                collected.add(&format!("seed {SEED} sequence {index} call {at}"), &call);
            }
        }
    }
}

/// What the cases of trial and of commit must show.
fn demanded_on_trial(rows: &[u64]) -> Vec<String> {
    let mut out: Vec<String> = rows.iter().map(|row| format!("row {row}")).collect();
    out.extend(["strict, row 0", "strict, row 11", "books 0", "moved"].map(String::from));
    out.extend([area::CODE, area::METHODS, area::BOOKS].map(|area| format!("full {area}")));
    out.extend([area::FUNCTIONS, area::BOOKS].map(|area| format!("unfit {area}")));
    out
}

/// What those of laying on must show, whatever they were drawn from.
fn demanded() -> Vec<String> {
    let mut out: Vec<String> = [0, 2, 3, 4, 5, 6, 7, 8].map(|row| format!("row {row}")).to_vec();
    out.extend(["strict, row 0", "strict, row 11", "marked", "replaced", "moved", "books 0"].map(String::from));
    out.extend((1..=AREAS).map(|area| format!("full {area}")));
    out.extend((1..=AREAS).filter(|&area| area != area::ERRORS).map(|area| format!("unfit {area}")));
    out
}

/// The cases of laying on, of trial and of commit.
pub fn cases() -> [Cases; 3] {
    let of = |(stem, call)| Cases::of(stem, call);
    let mut collected = Collected([("onto", "laying on"), ("trial", "trial"), ("commit", "commit")].map(of));
    add_pieces(&mut collected);
    add_damages(&mut collected);
    add_odd(&mut collected);
    add_trials(&mut collected);
    add_commits(&mut collected);
    add_generated(&mut collected);
    let rows = [0, 2, 3, 4, 5, 6, 7, 8, 12, 13];
    let demanded = [demanded(), demanded_on_trial(&rows[..8]), demanded_on_trial(&rows)];
    for (cases, demanded) in collected.0.iter().zip(demanded) {
        for feature in demanded {
            assert!(cases.features.contains(&feature), "no case of {} shows {feature}", cases.call);
        }
    }
    collected.0
}

#[cfg(test)]
mod tests {
    use super::*;
    use crate::areas::capacities;
    use crate::standing::program_check;

    #[test]
    fn odd_and_grown_programs_stand() {
        for program in [odd(), grown(&[vec![library()]]), grown(&[])] {
            assert_eq!(program_check(&program.lent(&[0; AREAS]), &program.totals), None);
        }
    }

    /// Each piece is delivered or refused in exactly the room that it needs, and never by row 9.
    #[test]
    fn what_is_needed_suffices() {
        for piece in pieces() {
            let (program, words) = (grown(&piece.stands), flatten(&piece.bundle));
            let exact = peaks(&program, &words, piece.strict);
            let (areas, totals) = lent(&program, &exact);
            assert_eq!(capacities(&areas.each_ref().map(Vec::len)), exact, "{}", piece.name);
            let call = Call { order: Order::Lay(totals), words, strict: piece.strict, areas };
            assert_ne!(answered(&Reading::default(), &call).row, 9, "{}", piece.name);
        }
    }
}
