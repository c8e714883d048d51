//! Calls on a standing program (02, 2026-01 and 2026-08), as an independent reading of those requests: the
//! program check field by field, and laying on, trial and commit over the model of the compiler, with the
//! reply and every word of every area. All includes count (2026-04), equal floats share (2026-05), positions
//! are line × 2^32 + column (2026-06), and strict mode is a parameter (2026-07). Above each rule stands the
//! sentence that it comes from; without another name it is 02's.

use crate::areas::{area, capacities, Areas, Counts, Lengths, AREAS, ENTRY_WORDS, MAX_ENTRIES};
use crate::books::{children, Book, Books};
use crate::model::{compile_books, Rules, Run};
use crate::records::{kind, Record, MAX_TEXT};
use crate::shape::{check, Refusal};
use std::collections::{BTreeMap, BTreeSet};

pub const BAD_SHAPE: u64 = 3;
const BOOK_TWICE: u64 = 5;
const BOOK_MISSING: u64 = 6;
pub const STALE_TRIAL: u64 = 12;
pub const TOTALS_DIFFER: u64 = 13;

/// "row 3 with place 1,048,576 plus the area number".
pub const PROGRAM_PLACE: u64 = 1_048_576;
/// "A lent count outside 1 to 4,294,967,294".
pub const MOST_BUNDLES: u64 = 4_294_967_294;
/// 2026-06: "line × 2^32 + column, each at most 99,999,999".
const MOST_PLACE: u64 = 99_999_999;

/// "the totals (every area has one ..)", the entry point, "the total of global dependencies", and "the number of bundles
/// delivered into it".
#[derive(Clone, Copy, Debug, Default, PartialEq, Eq)]
pub struct Totals {
    pub areas: Counts,
    pub entry_point: u64,
    pub globals: u64,
    pub bundles: u64,
}

impl Totals {
    pub fn of(&self, number: usize) -> u64 {
        self.areas[number - 1]
    }

    /// 01, the listing: "1 totals: functions, constants, models, context locals, entry point, files, global dependencies."
    pub fn line_1(&self) -> [u64; 7] {
        [
            self.of(area::FUNCTIONS),
            self.of(area::CONSTANTS),
            self.of(area::MODELS),
            self.of(area::CONTEXT),
            self.entry_point,
            self.of(area::BOOKS),
            self.globals,
        ]
    }
}

/// What a call answers, with every word that was lent as it is left.
#[derive(Clone, Debug, PartialEq, Eq)]
pub struct Answered {
    pub row: u64,
    pub place: u64,
    pub totals: Totals,
    pub areas: Areas,
}

impl Answered {
    /// Whether the program check refused: "All memory and totals then stay as lent".
    pub fn is_unfit(&self) -> bool {
        self.row == BAD_SHAPE && self.place > PROGRAM_PLACE
    }
}

// The program check.

/// A program as it is lent: whole areas, and totals.
struct Lent<'a> {
    areas: &'a Areas,
    totals: &'a Totals,
}

impl Lent<'_> {
    fn total(&self, number: usize) -> u64 {
        self.totals.of(number)
    }

    /// Entries that an area has room for. 01: "an area longer than 2^56 - 1 entries counts as that long".
    fn room(&self, number: usize) -> u64 {
        MAX_ENTRIES.min((self.areas[number - 1].len() / ENTRY_WORDS[number - 1]) as u64)
    }

    /// The entries up to the total that lie whole in the area.
    fn entries(&self, number: usize) -> Vec<&[u64]> {
        let count = self.total(number).min(self.room(number)) as usize;
        self.areas[number - 1].chunks_exact(ENTRY_WORDS[number - 1]).take(count).collect()
    }

    /// "whose entries up to the totals .. exceed it, .. or whose words beyond are not zero".
    fn is_past_or_dirty(&self, number: usize) -> bool {
        let from = self.total(number) as u128 * ENTRY_WORDS[number - 1] as u128;
        let mut words = (0u128..).zip(&self.areas[number - 1]);
        self.total(number) > self.room(number) || words.any(|(at, &word)| at >= from && word != 0)
    }
}

/// 01: "Texts, file names included, are numbers 1 to 1,048,575".
fn is_text(number: u64) -> bool {
    (1..=MAX_TEXT).contains(&number)
}

/// The opcodes that `Instruction::opcode` of opcode.rs names; its `Unknown` is for a word that has none of them.
const OPCODES: [u64; 25] = [
    0x01, 0x02, 0x05, 0x06, 0x07, 0x08, 0x0C, 0x0D, 0x11, 0x12, 0x13, 0x14, 0x15, 0x16, 0x21, 0x22, 0x23, 0x31, 0x32,
    0x36, 0x41, 0x51, 0x52, 0x56, 0x57,
];

/// The operations of opcode.rs: add to less or equal, and, or.
const OPERATIONS: [u64; 12] = [0, 1, 2, 3, 4, 5, 6, 7, 8, 9, 257, 258];

/// "hold a kind, value, opcode, operation, text, mark or position unknown to 01 or break demand 3's bounds (.., any
/// LocalGet 0 taken for a `this` read ..)"; "an instruction in several standing functions keeps the bounds of each, and an
/// instruction in none keeps only the bounds by totals".
fn code_fails(lent: &Lent) -> bool {
    // Functions whose entry lies whole in area 3.
    let functions = lent.entries(area::FUNCTIONS);
    (0u128..).zip(lent.entries(area::CODE)).any(|(at, entry)| {
        let (word, position) = (entry[0], entry[1]);
        let (opcode, operand) = (word >> 56, word & ((1 << 56) - 1));
        let by_totals = match opcode {
            0x02 | 0x11 | 0x12 => operand >= lent.total(area::CONSTANTS),
            0x0C | 0x0D => operand >= lent.total(area::CONTEXT),
            0x21 => !OPERATIONS.contains(&operand),
            _ => !OPCODES.contains(&opcode),
        };
        let by_position = position >> 32 > MOST_PLACE || position & 0xFFFF_FFFF > MOST_PLACE;
        let by_function = functions.iter().any(|f| {
            let (locals, start, length) = (f[1], f[4], f[5]);
            let has = start as u128 <= at && at < start as u128 + length as u128;
            has && match opcode {
                // Jump, JumpIf: a jump position.
                0x51 | 0x52 => operand > length,
                // LocalSet, LocalInit, ForNext, Iterate: a local.
                0x06 | 0x08 | 0x56 | 0x57 => operand >= locals,
                // LocalGet.
                0x07 => operand != 0 && operand >= locals,
                _ => false,
            }
        });
        by_totals || by_position || by_function
    })
}

/// 01: "A constant is null, a boolean, an integer, a float, a text, a model or a function". "Area 2 fails too where its
/// total is below 3 or its entries 0, 1 and 2 are not null, true and false"; "the total of global dependencies, which is the
/// number of marked constants, [counts] with area 2".
fn constants_fail(lent: &Lent) -> bool {
    let entries = lent.entries(area::CONSTANTS);
    let known = |entry: &&[u64]| {
        let (kind, value, mark) = (entry[0], entry[1], entry[2]);
        let fits = match kind {
            0 => value == 0,
            1 => value <= 1,
            2 | 3 => true,
            4 => is_text(value),
            5 => value < lent.total(area::MODELS),
            6 => value < lent.total(area::FUNCTIONS),
            _ => false,
        };
        fits && mark <= 1
    };
    let first: Vec<(u64, u64)> = entries.iter().take(3).map(|entry| (entry[0], entry[1])).collect();
    let marked = entries.iter().filter(|entry| entry[2] == 1).count() as u64;
    lent.total(area::CONSTANTS) < 3
        || !entries.iter().all(known)
        || first != [(0, 0), (1, 1), (1, 0)]
        || marked != lent.totals.globals
}

/// "area 3 where a function's instructions do not all lie in area 1's entries up to its total"; "the entry point counts with
/// area 3"; "name a file that does not stand".
fn functions_fail(lent: &Lent) -> bool {
    let fits = |entry: &&[u64]| {
        let (rescue, instance, start, length, file, name) =
            (entry[2], entry[3], entry[4], entry[5], entry[6], entry[7]);
        let inside = length == 0 || start as u128 + length as u128 <= lent.total(area::CODE) as u128;
        rescue <= length && instance <= 1 && inside && file < lent.total(area::BOOKS) && is_text(name)
    };
    let total = lent.total(area::FUNCTIONS);
    let no_entry = lent.totals.entry_point >= total && (lent.totals.entry_point, total) != (0, 0);
    !lent.entries(area::FUNCTIONS).iter().all(fits) || no_entry
}

/// File and name of each model.
fn models_fail(lent: &Lent) -> bool {
    lent.entries(area::MODELS).iter().any(|entry| entry[0] >= lent.total(area::BOOKS) || !is_text(entry[1]))
}

/// Model and name of each property.
fn properties_fail(lent: &Lent) -> bool {
    lent.entries(area::PROPERTIES).iter().any(|entry| entry[0] >= lent.total(area::MODELS) || !is_text(entry[1]))
}

/// "A repeated key fails areas 6, 8 and 12": whether two entries begin with the same words.
fn repeats(entries: &[&[u64]], words: usize) -> bool {
    let keys: BTreeSet<&[u64]> = entries.iter().map(|entry| &entry[..words]).collect();
    keys.len() < entries.len()
}

/// Model, name and function of each method; one per model and name.
fn methods_fail(lent: &Lent) -> bool {
    let entries = lent.entries(area::METHODS);
    let off = |entry: &&[u64]| {
        entry[0] >= lent.total(area::MODELS) || !is_text(entry[1]) || entry[2] >= lent.total(area::FUNCTIONS)
    };
    entries.iter().any(off) || repeats(&entries, 2)
}

/// File, name, mark and constant of each context local; without a value the constant is 0.
fn context_fails(lent: &Lent) -> bool {
    lent.entries(area::CONTEXT).iter().any(|entry| {
        let valued = match entry[2] {
            0 => entry[3] == 0,
            1 => entry[3] < lent.total(area::CONSTANTS),
            _ => false,
        };
        entry[0] >= lent.total(area::BOOKS) || !is_text(entry[1]) || !valued
    })
}

/// File, name and constant of each public name; one per file and name.
fn public_fails(lent: &Lent) -> bool {
    let entries = lent.entries(area::PUBLIC);
    let off = |entry: &&[u64]| {
        entry[0] >= lent.total(area::BOOKS) || !is_text(entry[1]) || entry[2] >= lent.total(area::CONSTANTS)
    };
    entries.iter().any(off) || repeats(&entries, 2)
}

/// The file numbers. 2026-08: "A lent count outside 1 to 4,294,967,294 fails the program check at area 12."
fn books_fail(lent: &Lent) -> bool {
    let entries = lent.entries(area::BOOKS);
    let count = lent.totals.bundles;
    entries.iter().any(|entry| !is_text(entry[0])) || repeats(&entries, 1) || !(1..=MOST_BUNDLES).contains(&count)
}

/// "First of all, in this and every later call on a program, row 3 .. answers the first area, 11 excepted, whose entries up
/// to the totals ..": the area, none for a program that stands.
pub fn program_check(areas: &Areas, totals: &Totals) -> Option<usize> {
    let lent = Lent { areas, totals };
    let fails = |number: usize| match number {
        area::ERRORS => false,
        _ if lent.is_past_or_dirty(number) => true,
        area::CODE => code_fails(&lent),
        area::CONSTANTS => constants_fail(&lent),
        area::FUNCTIONS => functions_fail(&lent),
        area::MODELS => models_fail(&lent),
        area::PROPERTIES => properties_fail(&lent),
        area::METHODS => methods_fail(&lent),
        area::CONTEXT => context_fails(&lent),
        area::PUBLIC => public_fails(&lent),
        // "9 and 10 fail above 0".
        area::NAMES | area::BREAKS => lent.total(number) > 0,
        _ => books_fail(&lent),
    };
    (1..=AREAS).find(|&number| fails(number))
}

// The books of a bundle.

/// 2026-04: "all includes of a book are dependencies, wherever they are written".
fn includes(records: &[Record], at: usize) -> BTreeSet<u64> {
    let definitions = children(records, at).into_iter().map(|d| records[d]);
    definitions.filter(|d| d.kind == kind::INCLUDE).map(|d| d.value).collect()
}

/// "rows 2 to 5 read the whole bundle, 6 to 9 the books that do not stand": row 5 among the bundle's own documents; then
/// the books reached from the root through includes, where "books already standing are skipped, their includes too, and need
/// no copy in the bundle"; then row 6.
pub fn needed(records: &[Record], standing: &BTreeSet<u64>) -> Result<Books, Refusal> {
    let mut documents: BTreeMap<u64, usize> = BTreeMap::new();
    let mut at = 0;
    while at < records.len() {
        if documents.insert(records[at].value, at).is_some() {
            return Err((BOOK_TWICE, at as u64));
        }
        at += records[at].span as usize;
    }
    let added = |files: BTreeSet<u64>| -> BTreeSet<u64> { files.difference(standing).copied().collect() };
    let needs = |file: u64| documents.get(&file).map(|&at| added(includes(records, at))).unwrap_or_default();
    let mut reached = added(BTreeSet::from([records[0].value]));
    loop {
        let next: BTreeSet<u64> = reached.iter().flat_map(|&file| needs(file)).collect();
        if next.is_subset(&reached) {
            break;
        }
        reached.extend(next);
    }
    if let Some(&file) = reached.iter().find(|file| !documents.contains_key(file)) {
        return Err((BOOK_MISSING, file));
    }
    Ok(reached.into_iter().map(|file| (file, Book { at: documents[&file], needs: needs(file) })).collect())
}

/// The entries of a program's areas up to their totals; areas 9 to 11 have none.
pub fn entries_of(areas: &Areas, totals: &Totals) -> Areas {
    std::array::from_fn(|i| match i + 1 {
        area::NAMES | area::BREAKS | area::ERRORS => Vec::new(),
        number => areas[i][..totals.of(number) as usize * ENTRY_WORDS[i]].to_vec(),
    })
}

/// File numbers of the books that stand.
pub fn standing_files(areas: &Areas, totals: &Totals) -> BTreeSet<u64> {
    entries_of(areas, totals)[area::BOOKS - 1].iter().copied().collect()
}

/// Rows 2 to 9 and 11: the model's run of the books that do not stand, fresh where there is no program. The program has
/// passed the check.
pub fn run(
    words: &[u64],
    strict: bool,
    program: Option<(&Areas, &Totals)>,
    capacities: Counts,
) -> Result<Run, Refusal> {
    let records = check(words)?;
    let rules = Rules { strict };
    let Some((areas, totals)) = program else {
        let books = needed(&records, &BTreeSet::new())?;
        return Ok(compile_books(rules, &records, &books, capacities, None));
    };
    let books = needed(&records, &standing_files(areas, totals))?;
    let standing = entries_of(areas, totals);
    Ok(compile_books(rules, &records, &books, capacities, Some((&standing, totals.entry_point))))
}

/// Words and then zeros.
fn padded(areas: &Areas, lengths: &Lengths) -> Areas {
    std::array::from_fn(|i| {
        let mut area = areas[i].clone();
        area.resize(lengths[i], 0);
        area
    })
}

fn lengths(areas: &Areas) -> Lengths {
    areas.each_ref().map(|area| area.len())
}

/// The totals of a delivery.
fn totals_of(run: &Run, bundles: u64) -> Totals {
    Totals { areas: run.reply.totals, entry_point: run.reply.entry_point, globals: run.reply.globals, bundles }
}

// The calls.

/// 01's call under the later rules, with areas of these lengths. "A program's totals carry the number of bundles delivered
/// into it, 1 when fresh".
pub fn fresh(words: &[u64], strict: bool, lengths: &Lengths) -> Answered {
    let nothing =
        |row, place| Answered { row, place, totals: Totals::default(), areas: padded(&Areas::default(), lengths) };
    match run(words, strict, None, capacities(lengths)) {
        Err((row, place)) => nothing(row, place),
        // 01: "After 7 or 8 only the errors area is non-zero; after any other refusal every area is zero."
        Ok(run) if run.reply.row != 0 => {
            Answered { areas: padded(&run.areas, lengths), ..nothing(run.reply.row, run.reply.place) }
        }
        Ok(run) => Answered { row: 0, place: 0, totals: totals_of(&run, 1), areas: padded(&run.areas, lengths) },
    }
}

/// "All memory and totals then stay as lent."
fn unfit(number: usize, areas: &Areas, totals: &Totals) -> Answered {
    Answered { row: BAD_SHAPE, place: PROGRAM_PLACE + number as u64, totals: *totals, areas: areas.clone() }
}

/// "If the bundle is refused, the standing program keeps every entry, global marks, entry point and the functions of its
/// methods, and its totals as lent are returned; beyond it all is zero but for listed errors."
fn refused(row: u64, place: u64, errors: &[u64], areas: &Areas, totals: &Totals) -> Answered {
    let mut areas = areas.clone();
    let list = &mut areas[area::ERRORS - 1];
    list.fill(0);
    list[..errors.len()].copy_from_slice(errors);
    Answered { row, place, totals: *totals, areas }
}

/// "a bundle is compiled onto a standing program".
pub fn lay_on(words: &[u64], strict: bool, areas: &Areas, totals: &Totals) -> Answered {
    if let Some(number) = program_check(areas, totals) {
        return unfit(number, areas, totals);
    }
    let lengths = lengths(areas);
    match run(words, strict, Some((areas, totals)), capacities(&lengths)) {
        Err((row, place)) => refused(row, place, &[], areas, totals),
        Ok(run) if run.reply.row != 0 => {
            refused(run.reply.row, run.reply.place, &run.areas[area::ERRORS - 1], areas, totals)
        }
        // 2026-08: "a delivery's count is one more".
        Ok(run) => Answered {
            row: 0,
            place: 0,
            totals: totals_of(&run, totals.bundles + 1),
            areas: padded(&run.areas, &lengths),
        },
    }
}

/// "A trial reports what laying the bundle on would answer, with line 1's totals; the standing program is unchanged and all
/// beyond it zero but for listed errors. .. a trial hands that count on."
pub fn trial(words: &[u64], strict: bool, areas: &Areas, totals: &Totals) -> Answered {
    let laid = lay_on(words, strict, areas, totals);
    let mut left = areas.clone();
    left[area::ERRORS - 1] = laid.areas[area::ERRORS - 1].clone();
    Answered { totals: Totals { bundles: totals.bundles, ..laid.totals }, areas: left, ..laid }
}

/// "A commit takes the trial's totals and count .. Checks: 12 "stale trial", place the standing bundle count, right after
/// the program check if the count differs; 13 "totals differ", place 0, after the work, with the program as it stood."
pub fn commit(words: &[u64], strict: bool, areas: &Areas, totals: &Totals, trial: &Totals) -> Answered {
    if let Some(number) = program_check(areas, totals) {
        return unfit(number, areas, totals);
    }
    if trial.bundles != totals.bundles {
        return refused(STALE_TRIAL, totals.bundles, &[], areas, totals);
    }
    let laid = lay_on(words, strict, areas, totals);
    if laid.row == 0 && laid.totals.line_1() != trial.line_1() {
        return refused(TOTALS_DIFFER, 0, &[], areas, totals);
    }
    laid
}

/// Which call, with the totals that it is lent.
#[derive(Clone, Copy, Debug, PartialEq, Eq)]
pub enum Order {
    /// What is lent does not matter but for its length.
    Fresh,
    Lay(Totals),
    Trial(Totals),
    /// The program's, and those that its trial answered.
    Commit(Totals, Totals),
}

/// One call with all that is lent.
#[derive(Clone, Debug, PartialEq, Eq)]
pub struct Call {
    pub order: Order,
    pub words: Vec<u64>,
    pub strict: bool,
    pub areas: Areas,
}

impl Call {
    pub fn answer(&self) -> Answered {
        let Call { order, words, strict, areas } = self;
        match order {
            Order::Fresh => fresh(words, *strict, &lengths(areas)),
            Order::Lay(totals) => lay_on(words, *strict, areas, totals),
            Order::Trial(totals) => trial(words, *strict, areas, totals),
            Order::Commit(totals, trial) => commit(words, *strict, areas, totals, trial),
        }
    }
}

#[cfg(test)]
mod tests {
    use super::*;
    use crate::areas::UNLIMITED;
    use crate::model::{compile, instruction};
    use crate::pieces::{apply, document, function, identifier, include, leaf, locals, named, statement};
    use crate::records::{flatten, Node};

    const FAR: u64 = MOST_PLACE + 1;

    /// A program as lent, to be changed word by word.
    #[derive(Clone)]
    struct Program {
        areas: Areas,
        totals: Totals,
    }

    impl Program {
        /// These entries, with as many entries more of room in each area.
        fn of(entries: Areas, room: usize) -> Program {
            let totals = std::array::from_fn(|i| (entries[i].len() / ENTRY_WORDS[i]) as u64);
            let globals = entries[area::CONSTANTS - 1].chunks(3).filter(|entry| entry[2] == 1).count() as u64;
            let lengths = std::array::from_fn(|i| entries[i].len() + room * ENTRY_WORDS[i]);
            let totals = Totals { areas: totals, entry_point: 0, globals, bundles: 1 };
            Program { areas: padded(&entries, &lengths), totals }
        }

        /// Three constants, and these areas.
        fn with(areas: &[(usize, &[u64])]) -> Program {
            let mut entries = Areas::default();
            entries[area::CONSTANTS - 1] = vec![0, 0, 0, 1, 1, 0, 1, 0, 0];
            for (number, words) in areas {
                entries[number - 1].extend(*words);
            }
            Program::of(entries, 30)
        }

        fn least(room: usize) -> Program {
            let mut entries = Areas::default();
            entries[area::CONSTANTS - 1] = vec![0, 0, 0, 1, 1, 0, 1, 0, 0];
            Program::of(entries, room)
        }

        /// What a fresh call delivers, with room for more.
        fn made(documents: &[Node]) -> Program {
            let run = run(&flatten(documents), false, None, capacities(&UNLIMITED)).expect("rows 2 to 6");
            assert_eq!(run.reply.row, 0, "a delivery");
            let mut program = Program::of(run.areas.clone(), 40);
            program.totals.entry_point = run.reply.entry_point;
            assert_eq!(program.totals, totals_of(&run, 1));
            assert_eq!(program.check(), None);
            program
        }

        fn check(&self) -> Option<usize> {
            program_check(&self.areas, &self.totals)
        }

        fn lay(&self, documents: &[Node]) -> Answered {
            lay_on(&flatten(documents), false, &self.areas, &self.totals)
        }

        fn strict(&self, documents: &[Node]) -> Answered {
            lay_on(&flatten(documents), true, &self.areas, &self.totals)
        }

        /// Row and place of laying on; after a refusal everything must be as lent, and area 11 as it is given.
        fn refuses(&self, documents: &[Node], errors: &[u64]) -> (u64, u64) {
            let answered = self.lay(documents);
            assert_ne!(answered.row, 0);
            self.is_kept(&answered, errors);
            (answered.row, answered.place)
        }

        fn is_kept(&self, answered: &Answered, errors: &[u64]) {
            let mut areas = self.areas.clone();
            areas[area::ERRORS - 1].fill(0);
            areas[area::ERRORS - 1][..errors.len()].copy_from_slice(errors);
            assert_eq!((answered.totals, &answered.areas), (self.totals, &areas));
        }

        /// The program after a delivery.
        fn after(&self, documents: &[Node]) -> Program {
            let Answered { row, place, areas, totals } = self.lay(documents);
            assert_eq!((row, place), (0, 0));
            let program = Program { areas, totals };
            assert_eq!(program.check(), None, "1.14: a delivery passes the next check");
            assert_eq!(totals.bundles, self.totals.bundles + 1);
            program
        }

        fn entry(&self, number: usize, at: usize) -> &[u64] {
            let width = ENTRY_WORDS[number - 1];
            &self.areas[number - 1][at * width..(at + 1) * width]
        }

        fn word(&mut self, number: usize, at: usize, field: usize) -> &mut u64 {
            &mut self.areas[number - 1][at * ENTRY_WORDS[number - 1] + field]
        }

        fn total(&mut self, number: usize) -> &mut u64 {
            &mut self.totals.areas[number - 1]
        }
    }

    fn public(name: u64) -> Node {
        named(kind::PUBLIC_FUNCTION, name, Vec::new())
    }

    fn model(name: u64) -> Node {
        named(kind::PUBLIC_MODEL, name, Vec::new())
    }

    fn implement(name: u64, methods: &[u64]) -> Node {
        named(kind::IMPLEMENT, name, methods.iter().map(|&method| function(method, &[], vec![])).collect())
    }

    fn reads(name: u64) -> Node {
        statement(identifier(name))
    }

    // Section 0.

    #[test]
    fn reading_0_3_first_of_all() {
        let mut program = Program::least(4);
        program.totals.entry_point = 1;
        program.areas[area::ERRORS - 1].fill(7);
        *program.total(area::ERRORS) = 99;
        let answered = lay_on(&[1], false, &program.areas, &program.totals);
        // 0.4: all memory and totals as lent, area 11 too.
        let expected = Answered { row: 3, place: 1_048_579, totals: program.totals, areas: program.areas.clone() };
        assert_eq!(answered, expected);
        assert_eq!(trial(&[1], false, &program.areas, &program.totals), expected);
        assert_eq!(commit(&[1], false, &program.areas, &program.totals, &Totals::default()), expected);
        program.totals.entry_point = 0;
        let answered = lay_on(&[1], false, &program.areas, &program.totals);
        assert_eq!((answered.row, answered.place), (2, 0));
    }

    #[test]
    fn reading_0_5_the_smallest_area() {
        let whole = rich();
        // Each area but 11 by a word beyond, then all of those from it on.
        for number in (1..=AREAS).filter(|&number| number != area::ERRORS) {
            let mut program = whole.clone();
            for later in number..=AREAS {
                *program.areas[later - 1].last_mut().expect("there is room") = 1;
            }
            assert_eq!(program.check(), Some(number));
        }
        let mut program = whole.clone();
        *program.areas[area::ERRORS - 1].last_mut().expect("there is room") = 1;
        assert_eq!(program.check(), None);
    }

    // Section 1.

    /// A program with an entry or two in every area, within all bounds.
    fn rich() -> Program {
        let code = [
            [instruction(0x02, 7), 1 << 32 | 5],
            [instruction(0x06, 2), 0],
            [instruction(0x51, 4), 0],
            [instruction(0x05, 0), MOST_PLACE << 32 | MOST_PLACE],
            [instruction(0x07, 0), 0],
            [instruction(0x0D, 1), 0],
            // In no function.
            [instruction(0x06, 1 << 40), 0],
        ];
        let mut program = Program::with(&[
            (area::CODE, &code.concat()),
            (area::CONSTANTS, &[2, 7, 0, 3, 1 << 63, 0, 4, 5, 1, 5, 1, 0, 6, 1, 0]),
            (area::FUNCTIONS, &[1, 3, 2, 0, 0, 4, 0, 3, 0, 0, 0, 1, 4, 2, 1, 4]),
            (area::MODELS, &[0, 20, 1, 21]),
            (area::PROPERTIES, &[0, 30, 1, 30]),
            (area::METHODS, &[0, 40, 0, 1, 40, 1]),
            (area::CONTEXT, &[0, 20, 1, 6, 1, 5, 0, 0]),
            (area::PUBLIC, &[0, 20, 6, 1, 20, 7]),
            (area::BOOKS, &[2, 9]),
        ]);
        program.totals.entry_point = 1;
        assert_eq!(program.check(), None);
        program
    }

    /// Area, entry, field, values that stand and values that fail that area, as section 1's table has them for `rich`.
    type Limits = (usize, usize, usize, &'static [u64], &'static [u64]);

    const LIMITS: [Limits; 34] = [
        (area::CODE, 0, 1, &[0, MOST_PLACE, MOST_PLACE << 32], &[FAR, FAR << 32, 0xFFFF_FFFF, 1 << 63, u64::MAX]),
        (area::CODE, 6, 1, &[0, MOST_PLACE, MOST_PLACE << 32], &[FAR, FAR << 32]),
        (area::CONSTANTS, 0, 0, &[], &[1, 2, 7]),
        (area::CONSTANTS, 0, 1, &[], &[1, u64::MAX]),
        (area::CONSTANTS, 1, 0, &[], &[0, 2, 7]),
        (area::CONSTANTS, 1, 1, &[], &[0, 2]),
        (area::CONSTANTS, 2, 1, &[], &[1, 2]),
        (area::CONSTANTS, 3, 0, &[3, 4], &[0, 5, 6, 7, 1, u64::MAX, 1 << 32 | 2]),
        (area::CONSTANTS, 3, 1, &[0, u64::MAX], &[]),
        (area::CONSTANTS, 4, 1, &[0, u64::MAX], &[]),
        (area::CONSTANTS, 5, 1, &[1, MAX_TEXT], &[0, MAX_TEXT + 1, u64::MAX, 1 << 32 | 5]),
        (area::CONSTANTS, 5, 2, &[1], &[0, 2, u64::MAX]),
        (area::CONSTANTS, 6, 1, &[0, 1], &[2, u64::MAX]),
        (area::CONSTANTS, 7, 1, &[0, 1], &[2, u64::MAX]),
        (area::FUNCTIONS, 0, 0, &[0, 9, u64::MAX], &[]),
        (area::FUNCTIONS, 0, 1, &[3, 9, u64::MAX], &[]),
        (area::FUNCTIONS, 0, 2, &[0, 4], &[5, u64::MAX]),
        (area::FUNCTIONS, 0, 3, &[0, 1], &[2, u64::MAX]),
        (area::FUNCTIONS, 0, 6, &[0, 1], &[2, u64::MAX]),
        (area::FUNCTIONS, 0, 7, &[1, MAX_TEXT], &[0, MAX_TEXT + 1]),
        (area::MODELS, 1, 0, &[0, 1], &[2, u64::MAX]),
        (area::MODELS, 1, 1, &[1, MAX_TEXT, 20], &[0, MAX_TEXT + 1]),
        (area::PROPERTIES, 1, 0, &[0, 1], &[2, u64::MAX]),
        (area::PROPERTIES, 1, 1, &[1, MAX_TEXT], &[0, MAX_TEXT + 1]),
        (area::METHODS, 1, 0, &[1], &[0, 2, u64::MAX]),
        (area::METHODS, 1, 1, &[1, MAX_TEXT], &[0, MAX_TEXT + 1]),
        (area::METHODS, 1, 2, &[0, 1], &[2, u64::MAX]),
        (area::CONTEXT, 0, 0, &[0, 1], &[2, u64::MAX]),
        (area::CONTEXT, 0, 1, &[1, 5, MAX_TEXT], &[0, MAX_TEXT + 1]),
        (area::CONTEXT, 0, 2, &[1], &[0, 2, u64::MAX]),
        (area::CONTEXT, 0, 3, &[0, 7], &[8, u64::MAX]),
        (area::PUBLIC, 1, 0, &[1], &[0, 2, u64::MAX]),
        (area::PUBLIC, 1, 2, &[0, 7], &[8, u64::MAX]),
        (area::BOOKS, 1, 0, &[1, MAX_TEXT], &[0, 2, MAX_TEXT + 1, u64::MAX]),
    ];

    #[test]
    fn section_1_field_by_field() {
        for (number, at, field, stand, fail) in LIMITS {
            let expected =
                stand.iter().map(|value| (value, None)).chain(fail.iter().map(|value| (value, Some(number))));
            for (&value, failing) in expected {
                let mut program = rich();
                *program.word(number, at, field) = value;
                assert_eq!(program.check(), failing, "area {number}, entry {at}, field {field}, {value}");
            }
        }
    }

    #[test]
    fn section_1_totals_and_lengths() {
        for number in (1..=AREAS).filter(|&number| number != area::ERRORS) {
            let i = number - 1;
            // The area one word too short for its total: the area fails, whatever else does not.
            if rich().totals.of(number) > 0 {
                let mut program = rich();
                program.areas[i].truncate(program.totals.areas[i] as usize * ENTRY_WORDS[i] - 1);
                assert_eq!(program.check(), Some(number));
            }
            // Exactly long enough, and with a tail that is zero or not.
            let mut program = rich();
            program.areas[i].truncate(program.totals.areas[i] as usize * ENTRY_WORDS[i]);
            assert_eq!(program.check(), None);
            if ENTRY_WORDS[i] > 1 {
                program.areas[i].push(0);
                assert_eq!(program.check(), None);
                *program.areas[i].last_mut().expect("just pushed") = 1;
                assert_eq!(program.check(), Some(number));
            }
            // One entry fewer up to the total leaves words beyond.
            let mut program = rich();
            if program.totals.of(number) > 0 && ![area::CODE, area::CONSTANTS].contains(&number) {
                *program.total(number) -= 1;
                assert!(program.check().is_some_and(|failing| failing <= number));
            }
            // No multiplication wraps.
            for total in [1 << 61, 1 << 62, 1 << 63, u64::MAX] {
                let mut program = rich();
                *program.total(number) = total;
                assert_eq!(program.check(), Some(number));
            }
        }
        // Areas 9 and 10 fail above 0, though there is room.
        for number in [area::NAMES, area::BREAKS] {
            let mut program = rich();
            *program.total(number) = 1;
            assert_eq!(program.check(), Some(number));
        }
    }

    #[test]
    fn reading_1_1_by_totals_as_lent() {
        // Function 0 with file 30, 41 books, area 12 of 40 entries.
        let books: Vec<u64> = (2..42).collect();
        let mut program = Program::with(&[(area::FUNCTIONS, &[0, 0, 0, 0, 0, 0, 30, 3]), (area::BOOKS, &books)]);
        program.areas[area::BOOKS - 1].truncate(40);
        *program.total(area::BOOKS) = 41;
        assert_eq!(program.check(), Some(area::BOOKS));
        *program.word(area::FUNCTIONS, 0, 6) = 41;
        assert_eq!(program.check(), Some(area::FUNCTIONS));
    }

    #[test]
    fn reading_1_2_functions_that_lie_whole_in_area_3() {
        let function = [0, 0, 0, 0, 0, 1, 0, 3];
        let code = [instruction(0x06, 0), 0];
        let base = || Program::with(&[(area::CODE, &code), (area::FUNCTIONS, &function), (area::BOOKS, &[2])]);
        assert_eq!(base().check(), Some(area::CODE), "LocalSet 0 without locals");
        let mut program = base();
        *program.total(area::FUNCTIONS) = 99;
        assert_eq!(program.check(), Some(area::CODE), "a total past its area is found in its turn");
        // Start and length are there, but the entry is not whole.
        let mut program = base();
        program.areas[area::FUNCTIONS - 1].truncate(7);
        assert_eq!(program.check(), Some(area::FUNCTIONS));
    }

    #[test]
    fn readings_1_3_to_1_5_instructions() {
        let check = |word: u64| Program::with(&[(area::CODE, &[word, 0])]).check();
        let known = [
            0x01, 0x02, 0x05, 0x06, 0x07, 0x08, 0x11, 0x12, 0x13, 0x14, 0x15, 0x16, 0x21, 0x22, 0x23, 0x31, 0x32, 0x36,
            0x41, 0x51, 0x52, 0x56, 0x57,
        ];
        for opcode in 0..=255 {
            // Without context locals there is no operand for ContextSet and ContextGet.
            let expected = if known.contains(&opcode) { None } else { Some(area::CODE) };
            assert_eq!(check(instruction(opcode, 0)), expected, "opcode {opcode:#X}");
        }
        for operand in 0..300 {
            let known = operand <= 9 || operand == 257 || operand == 258;
            assert_eq!(check(instruction(0x21, operand)).is_none(), known);
        }
        // Operands that mean nothing, and counts.
        for opcode in [0x01, 0x05, 0x13, 0x14, 0x15, 0x16, 0x22, 0x23, 0x31, 0x41, 0x32, 0x36] {
            assert_eq!(check(instruction(opcode, 5)), None);
            assert_eq!(check(instruction(opcode, (1 << 56) - 1)), None);
        }
        // Constants by the total; a GlobalGet need not name a marked text.
        for opcode in [0x02, 0x11, 0x12] {
            assert_eq!(check(instruction(opcode, 2)), None);
            assert_eq!(check(instruction(opcode, 3)), Some(area::CODE));
        }
        for opcode in [0x0C, 0x0D] {
            let context = |operand| {
                let code = [instruction(opcode, operand), 0];
                Program::with(&[(area::CODE, &code), (area::CONTEXT, &[0, 3, 0, 0]), (area::BOOKS, &[2])]).check()
            };
            assert_eq!(context(0), None);
            assert_eq!(context(1), Some(area::CODE));
        }
        // A mark on null stands, and counts.
        let mut program = Program::least(1);
        *program.word(area::CONSTANTS, 0, 2) = 1;
        assert_eq!(program.check(), Some(area::CONSTANTS));
        program.totals.globals = 1;
        assert_eq!(program.check(), None);
    }

    #[test]
    fn readings_1_6_to_1_8_functions_over_code() {
        // One function of five locals over one instruction.
        let over = |word: u64, start: u64, length: u64| {
            let function = [0, 5, 0, 0, start, length, 0, 3];
            Program::with(&[(area::CODE, &[word, 0]), (area::FUNCTIONS, &function), (area::BOOKS, &[2])]).check()
        };
        assert_eq!(over(instruction(0x06, 5), 0, 1 << 40), Some(area::CODE));
        assert_eq!(over(instruction(0x06, 4), 0, 1 << 40), Some(area::FUNCTIONS));
        assert_eq!(over(instruction(0x06, 4), 0, 1), None);
        assert_eq!(over(instruction(0x06, 5), 1, 0), None, "in no function");
        assert_eq!(over(instruction(0x06, 4), u64::MAX, 1), Some(area::FUNCTIONS), "start + length does not wrap");
        assert_eq!(over(instruction(0x06, 5), u64::MAX, 2), Some(area::FUNCTIONS));
        for opcode in [0x06, 0x07, 0x08, 0x56, 0x57] {
            assert_eq!(over(instruction(opcode, 4), 0, 1), None);
            assert_eq!(over(instruction(opcode, 5), 0, 1), Some(area::CODE));
        }
        for opcode in [0x51, 0x52] {
            assert_eq!(over(instruction(opcode, 1), 0, 1), None, "to just after the last");
            assert_eq!(over(instruction(opcode, 2), 0, 1), Some(area::CODE));
            assert_eq!(over(instruction(opcode, 2), 1, 0), None, "in no function");
        }
        // Two functions over the same code, the second narrower.
        let functions = [0, 5, 0, 0, 0, 2, 0, 3, 0, 2, 0, 0, 1, 1, 0, 4];
        let both = |words: [u64; 2]| {
            let code = [words[0], 0, words[1], 0];
            Program::with(&[(area::CODE, &code), (area::FUNCTIONS, &functions), (area::BOOKS, &[2])]).check()
        };
        assert_eq!(both([instruction(0x06, 4), instruction(0x06, 1)]), None);
        assert_eq!(both([instruction(0x06, 4), instruction(0x06, 2)]), Some(area::CODE));
        assert_eq!(both([instruction(0x51, 2), instruction(0x51, 1)]), None);
        assert_eq!(both([instruction(0x51, 2), instruction(0x51, 2)]), Some(area::CODE));
        // Without instructions: anywhere, rescue 0.
        let empty = |start, rescue| {
            Program::with(&[(area::FUNCTIONS, &[0, 0, rescue, 0, start, 0, 0, 3]), (area::BOOKS, &[2])]).check()
        };
        assert_eq!(empty(u64::MAX, 0), None);
        assert_eq!(empty(0, 1), Some(area::FUNCTIONS));
        // LocalGet 0 stands without locals, LocalGet 1 with one local does not.
        let get = |locals, operand| {
            let function = [0, locals, 0, 0, 0, 1, 0, 3];
            let code = [instruction(0x07, operand), 0];
            Program::with(&[(area::CODE, &code), (area::FUNCTIONS, &function), (area::BOOKS, &[2])]).check()
        };
        assert_eq!(get(0, 0), None);
        assert_eq!(get(1, 1), Some(area::CODE));
        assert_eq!(get(2, 1), None);
    }

    #[test]
    fn readings_1_9_to_1_12() {
        // Parameters above locals, an instance mark with no parameter.
        let mut program = rich();
        *program.word(area::FUNCTIONS, 1, 0) = u64::MAX;
        assert_eq!(program.check(), None);
        // A context local without value and a constant.
        let mut program = rich();
        *program.word(area::CONTEXT, 1, 3) = 3;
        assert_eq!(program.check(), Some(area::CONTEXT));
        *program.word(area::CONTEXT, 1, 2) = 1;
        assert_eq!(program.check(), None);
        // Repeats: equal constants, functions, models, properties and context locals stand.
        let twice: [(usize, &[u64]); 5] = [
            (area::CONSTANTS, &[2, 7, 0, 2, 7, 0, 0, 0, 0, 3, 1, 0, 3, 1, 0]),
            (area::FUNCTIONS, &[0, 0, 0, 0, 0, 0, 0, 3, 0, 0, 0, 0, 0, 0, 0, 3]),
            (area::MODELS, &[0, 20, 0, 20]),
            (area::PROPERTIES, &[0, 30, 0, 30]),
            (area::CONTEXT, &[0, 20, 0, 0, 0, 20, 0, 0]),
        ];
        let with =
            |more: &[(usize, &[u64])]| Program::with(&[&twice[..], &[(area::BOOKS, &[2])], more].concat()).check();
        assert_eq!(with(&[]), None);
        // Keys do not repeat.
        assert_eq!(with(&[(area::METHODS, &[0, 40, 0, 0, 40, 1])]), Some(area::METHODS));
        assert_eq!(with(&[(area::METHODS, &[0, 40, 0, 1, 40, 0])]), None);
        assert_eq!(with(&[(area::METHODS, &[1, 40, 0, 0, 41, 0, 0, 40, 0])]), None, "in any order");
        assert_eq!(with(&[(area::PUBLIC, &[0, 20, 0, 0, 20, 1])]), Some(area::PUBLIC));
        assert_eq!(with(&[(area::PUBLIC, &[0, 20, 0, 0, 21, 0])]), None);
        assert_eq!(with(&[(area::BOOKS, &[2])]), Some(area::BOOKS));
        assert_eq!(with(&[(area::BOOKS, &[1])]), None);
        // Area 11: neither its words nor its total.
        let mut program = rich();
        program.areas[area::ERRORS - 1].fill(u64::MAX);
        *program.total(area::ERRORS) = u64::MAX;
        assert_eq!(program.check(), None);
    }

    #[test]
    fn reading_1_13_the_least_program() {
        let program = Program::least(0);
        assert_eq!(program.check(), None);
        for bundles in [0, MOST_BUNDLES + 1, u64::MAX] {
            let totals = Totals { bundles, ..program.totals };
            assert_eq!(program_check(&program.areas, &totals), Some(area::BOOKS));
        }
        for bundles in [1, MOST_BUNDLES] {
            assert_eq!(program_check(&program.areas, &Totals { bundles, ..program.totals }), None);
        }
        let nothing = Totals { bundles: 1, ..Totals::default() };
        assert_eq!(program_check(&Areas::default(), &nothing), Some(area::CONSTANTS));
        assert_eq!(program_check(&padded(&Areas::default(), &[40; AREAS]), &nothing), Some(area::CONSTANTS));
        // An entry point without functions.
        let mut program = Program::least(0);
        program.totals.entry_point = 1;
        assert_eq!(program.check(), Some(area::FUNCTIONS));
        let mut program = rich();
        program.totals.entry_point = 2;
        assert_eq!(program.check(), Some(area::FUNCTIONS));
        // Global dependencies are the number of marks.
        let mut program = rich();
        program.totals.globals = 0;
        assert_eq!(program.check(), Some(area::CONSTANTS));
    }

    // Section 2.

    /// Book 2 with a public model 20, a method 40 of it, a public function 21 and a public function `main`.
    fn library() -> Program {
        Program::made(&[document(2, vec![model(20), implement(20, &[40]), public(21), public(1)])])
    }

    #[test]
    fn reading_2_1_books_that_stand() {
        let program = library();
        let new = || document(3, vec![include(2, &[(21, 5)]), function(6, &[], vec![reads(5)])]);
        let without = program.after(&[new()]);
        // A copy that says something else, needs what is absent and is at fault.
        let copy = document(2, vec![include(77, &[]), implement(99, &[])]);
        let with = program.after(&[new(), copy]);
        assert_eq!((without.totals, &without.areas), (with.totals, &with.areas));
        assert_eq!(without.totals.of(area::BOOKS), 2);
        assert_eq!(without.areas[area::BOOKS - 1][..2], [2, 3]);
        let value = without.entry(area::CONTEXT, program.totals.of(area::CONTEXT) as usize);
        assert_eq!((value[0], value[1], value[2]), (1, 5, 1), "the include gave a value");
        assert_eq!(without.entry(area::CONSTANTS, value[3] as usize)[0], 6);
    }

    #[test]
    fn reading_2_2_a_root_that_stands() {
        let program = library();
        let after =
            program.after(&[document(2, vec![include(77, &[]), implement(99, &[])]), document(3, vec![model(5)])]);
        assert_eq!(after.areas, program.areas);
        assert_eq!(after.totals, Totals { bundles: 2, ..program.totals });
    }

    #[test]
    fn reading_2_3_rows_2_to_5() {
        let program = library();
        let (new, copy) = (|| document(3, vec![]), || document(2, vec![]));
        assert_eq!(program.refuses(&[new(), copy(), copy()], &[]), (5, 2));
        program.after(&[new(), copy()]);
        // Row 3 in a copy.
        assert_eq!(program.refuses(&[new(), document(2, vec![document(4, vec![])])], &[]), (3, 2));
        let deep = |bottom: usize| {
            let inner = (4..bottom).fold(leaf(kind::NULL, 0), |node, _| Node::new(kind::PREFIX, 0, 1, vec![node]));
            document(2, vec![function(3, &[], vec![statement(inner)])])
        };
        program.after(&[new(), deep(64)]);
        assert_eq!(program.refuses(&[new(), deep(65)], &[]), (4, 65));
    }

    #[test]
    fn reading_2_4_rows_6_to_9() {
        let program = library();
        // Row 6: what neither stands nor is in the bundle, the smallest.
        let lacking = document(5, vec![include(2, &[]), include(9, &[]), include(8, &[])]);
        assert_eq!(program.refuses(&[lacking], &[]), (6, 8));
        // Row 8: no ring goes through a standing book.
        program.after(&[document(3, vec![include(2, &[])]), document(2, vec![include(3, &[])])]);
        let ring = [document(3, vec![include(4, &[])]), document(4, vec![include(3, &[])])];
        assert_eq!(program.refuses(&ring, &[11, 0, 0, 3, 11, 0, 0, 4]), (8, 2));
        // Row 7 of an added book.
        let faulty = [document(3, vec![implement(99, &[])])];
        let at = Node::leaf(kind::IMPLEMENT, faulty[0].children[0].position, 99);
        assert_eq!(program.refuses(&faulty, &[10, at.position, 16, 99]), (7, 3));
    }

    #[test]
    fn reading_2_5_row_9() {
        // Exactly what is needed, and an entry less in each area in turn.
        let program = library();
        let bundle = [document(
            3,
            vec![
                include(2, &[(20, 5)]),
                implement(5, &[41]),
                named(kind::PUBLIC_MODEL, 6, vec![Node::leaf(kind::NAME, 0, 30)]),
                function(7, &[8], vec![reads(8), reads(99)]),
            ],
        )];
        let words = flatten(&bundle);
        let free =
            run(&words, false, Some((&program.areas, &program.totals)), capacities(&UNLIMITED)).expect("rows 2 to 6");
        let peaks = free.peaks();
        let exact: Areas = std::array::from_fn(|i| {
            let mut area = program.areas[i].clone();
            area.resize(peaks[i] as usize * ENTRY_WORDS[i], 0);
            area
        });
        assert_eq!(lay_on(&words, false, &exact, &program.totals).row, 0);
        let needs_more = |number: usize| peaks[number - 1] > program.totals.of(number);
        for number in (1..=AREAS).filter(|&number| needs_more(number)) {
            let mut short = exact.clone();
            short[number - 1].pop();
            let answered = lay_on(&words, false, &short, &program.totals);
            assert_eq!((answered.row, answered.place), (9, number as u64));
            assert_eq!((answered.totals, answered.areas), (program.totals, short));
        }
        assert_eq!((1..=AREAS).filter(|&number| needs_more(number)).count(), 10);
        // The first step is area 12's; a bundle that needs nothing meets no row 9.
        let full: Areas = std::array::from_fn(|i| entries_of(&program.areas, &program.totals)[i].clone());
        let answered = lay_on(&words, false, &full, &program.totals);
        assert_eq!((answered.row, answered.place), (9, 12));
        assert_eq!(lay_on(&flatten(&[document(2, vec![])]), false, &full, &program.totals).row, 0);
        // The first three constants take no entry again.
        let least = Program::least(0);
        let mut areas = least.areas.clone();
        areas[area::BOOKS - 1].resize(1, 0);
        assert_eq!(lay_on(&flatten(&[document(3, vec![])]), false, &areas, &least.totals).row, 0);
    }

    #[test]
    fn reading_2_6_what_a_delivery_changes() {
        // Text 9 stands unmarked.
        let text = function(30, &[], vec![statement(leaf(kind::STRING, 9))]);
        let program = Program::made(&[document(2, vec![model(20), implement(20, &[40]), public(1), text])]);
        let text = program.areas[area::CONSTANTS - 1].chunks(3).position(|c| (c[0], c[1]) == (4, 9)).expect("text 9");
        assert_eq!((program.entry(area::CONSTANTS, text)[2], program.totals.globals), (0, 0));
        let after = program.after(&[document(
            3,
            vec![
                include(2, &[(20, 20)]),
                implement(20, &[40, 41]),
                function(5, &[], vec![reads(9)]),
                function(1, &[], vec![]),
            ],
        )]);
        let functions = program.totals.of(area::FUNCTIONS);
        for number in 1..=AREAS {
            let i = number - 1;
            let mut kept = program.areas[i][..program.totals.areas[i] as usize * ENTRY_WORDS[i]].to_vec();
            match number {
                area::CONSTANTS => kept[3 * text + 2] = 1,
                area::METHODS => kept[2] = functions,
                _ => {}
            }
            assert_eq!(after.areas[i][..kept.len()], kept, "area {number}");
        }
        assert_eq!(after.totals.globals, 1);
        assert_eq!(after.totals.entry_point, functions + 3, "the last `main` added");
        // Without a new `main` the entry point stays.
        assert_eq!(program.after(&[document(3, vec![public(7)])]).totals.entry_point, program.totals.entry_point);
        assert_ne!(program.totals.entry_point, 0);
    }

    #[test]
    fn reading_2_7_what_a_refusal_leaves() {
        let text = function(30, &[], vec![statement(leaf(kind::STRING, 9))]);
        let mut program = Program::made(&[document(2, vec![model(20), implement(20, &[40]), public(1), text])]);
        program.areas[area::ERRORS - 1].fill(5);
        *program.total(area::ERRORS) = 5;
        // A mark, a method's function and an entry point set, then a row 7.
        let faulty = document(
            3,
            vec![
                include(2, &[(20, 20)]),
                implement(20, &[40]),
                function(1, &[], vec![reads(9)]),
                Node::new(kind::IMPLEMENT, 0, 99, vec![]),
            ],
        );
        assert_eq!(program.refuses(&[faulty], &[10, 0, 16, 99]), (7, 3));
        // Any other row leaves area 11 zero, and its total as lent.
        assert_eq!(program.refuses(&[document(3, vec![include(8, &[])])], &[]), (6, 8));
        let after = program.after(&[document(3, vec![])]);
        assert_eq!((after.totals.of(area::ERRORS), after.areas[area::ERRORS - 1].iter().max()), (0, Some(&0)));
    }

    #[test]
    fn reading_2_8_and_3_2_sharing() {
        // Integers, texts and floats repeated: the first is taken; null, true and false too.
        let half = 0.5f64.to_bits();
        let pool = [2, 7, 0, 3, half, 0, 4, 9, 0, 2, 7, 0, 3, half, 0, 4, 9, 1, 0, 0, 0, 1, 1, 0, 3, 0, 0, 2, half, 0];
        let program = Program::with(&[(area::CONSTANTS, &pool), (area::BOOKS, &[2])]);
        let values = [
            leaf(kind::INTEGER, 7),
            leaf(kind::FLOAT, half),
            leaf(kind::STRING, 9),
            leaf(kind::NULL, 0),
            leaf(kind::BOOLEAN, 1),
            leaf(kind::FLOAT, 0),
            leaf(kind::INTEGER, half),
            leaf(kind::FLOAT, 1 << 63),
            leaf(kind::FLOAT, 1 << 63),
        ];
        let after = program.after(&[document(3, vec![function(4, &[], values.into_iter().map(statement).collect())])]);
        let operands: Vec<u64> = after.areas[area::CODE - 1].chunks(2).map(|entry| entry[0]).collect();
        let pushed: Vec<u64> = operands.iter().filter(|word| *word >> 56 == 2).map(|word| word & 0xFFFF).collect();
        assert_eq!(pushed, [3, 4, 5, 0, 1, 11, 12, 13, 13]);
        assert_eq!(after.totals.of(area::CONSTANTS), 15, "minus zero and the function");
        // A global marks the first text of its number.
        let after = program.after(&[document(3, vec![function(4, &[], vec![reads(9)])])]);
        assert_eq!(after.areas[area::CODE - 1][0], instruction(0x12, 5));
        assert_eq!((after.entry(area::CONSTANTS, 5)[2], after.totals.globals), (1, 2));
    }

    #[test]
    fn reading_2_9_what_is_visible() {
        let program = Program::made(&[document(
            2,
            vec![locals(kind::LOCAL_DEFINITION, vec![(5, leaf(kind::INTEGER, 7))]), public(21), model(20)],
        )]);
        // A standing context local is no name of an added book: it is a global there.
        let after = program.after(&[document(3, vec![include(2, &[]), function(4, &[], vec![reads(5)])])]);
        let first = program.totals.of(area::CODE) as usize;
        assert_eq!(after.entry(area::CODE, first)[0] >> 56, 0x12);
        // Implement on a public function: error 9.
        let bundle = document(3, vec![include(2, &[(21, 21)]), Node::new(kind::IMPLEMENT, 0, 21, vec![])]);
        assert_eq!(program.refuses(&[bundle], &[9, 0, 16, 21]), (7, 3));
        // A public constant of any kind: null, an integer.
        let odd =
            Program::with(&[(area::CONSTANTS, &[2, 7, 0]), (area::BOOKS, &[2]), (area::PUBLIC, &[0, 8, 0, 0, 9, 3])]);
        let after = odd.after(&[document(3, vec![include(2, &[(8, 5), (9, 6)])])]);
        assert_eq!(after.areas[area::CONTEXT - 1][..8], [1, 5, 1, 0, 1, 6, 1, 3]);
        let bundle = document(3, vec![include(2, &[(9, 6)]), apply(6, 6)]);
        let token = bundle.children[1].children[0].position;
        let errors = [9, token, 40, 6, 9, token, 40, 6];
        assert_eq!(odd.refuses(&[bundle], &errors), (7, 3));
    }

    #[test]
    fn reading_2_10_another_number_of_this() {
        let this = |text: u64| {
            let method = Node::new(kind::FUNCTION, 0, 40, vec![Node::leaf(kind::THIS_PARAMETER, 0, text)]);
            named(kind::IMPLEMENT, 20, vec![method])
        };
        let program = Program::made(&[document(2, vec![model(20), this(7)])]);
        let after = program.after(&[document(3, vec![include(2, &[(20, 20)]), this(8)])]);
        assert_eq!(after.totals.of(area::METHODS), 1);
    }

    #[test]
    fn reading_2_12_no_half_book() {
        let program = library();
        let book = document(3, vec![public(5), Node::new(kind::IMPLEMENT, 0, 99, vec![])]);
        assert_eq!(program.refuses(&[book], &[10, 0, 16, 99]), (7, 3));
    }

    /// Applied from a standing model onto an added one, and the other way: functions of standing methods are read too.
    #[test]
    fn apply_across() {
        let program = library();
        let bundle = document(3, vec![include(2, &[(20, 20)]), model(5), apply(20, 5)]);
        let after = program.after(&[bundle]);
        assert_eq!(after.areas[area::METHODS - 1][..6], [0, 40, 0, 1, 40, 0]);
        let functions = program.totals.of(area::FUNCTIONS);
        let bundle = document(3, vec![include(2, &[(20, 20)]), model(5), implement(5, &[40, 41]), apply(5, 20)]);
        let after = program.after(&[bundle]);
        let expected = [0, 40, functions, 1, 40, functions, 1, 41, functions + 1, 0, 41, functions + 1];
        assert_eq!(after.areas[area::METHODS - 1][..12], expected);
    }

    // Section 3.

    #[test]
    fn reading_3_1_all_includes_count() {
        let program = library();
        let late = document(5, vec![model(7), include(2, &[]), include(9, &[])]);
        assert_eq!(program.refuses(std::slice::from_ref(&late), &[]), (6, 9));
        let after = program.after(&[late, document(9, vec![])]);
        assert_eq!(after.areas[area::BOOKS - 1][..3], [2, 9, 5]);
        let late_ring = document(5, vec![model(7), include(5, &[])]);
        assert_eq!(program.refuses(&[late_ring], &[11, 0, 0, 5]), (8, 1));
    }

    #[test]
    fn reading_3_4_strict_mode() {
        let program = library();
        let names = |names: &[(u64, u64)]| document(3, vec![include(2, names)]);
        assert_eq!(program.strict(&[names(&[(20, 5), (21, 6)])]).row, 0);
        let answered = program.strict(&[names(&[(20, 5), (22, 6)])]);
        assert_eq!((answered.row, answered.place), (11, 1));
        program.is_kept(&answered, &[]);
        // Before row 7 of the same book.
        let value = locals(kind::LOCAL_DEFINITION, vec![(7, leaf(kind::STRING, 8))]);
        let book = document(3, vec![value, include(2, &[(22, 6)])]);
        let answered = program.strict(&[book]);
        assert_eq!((answered.row, answered.place), (11, 4));
        program.is_kept(&answered, &[]);
        // Before its aliases take entries, after an earlier row 9.
        let mut tight = program.clone();
        let used = program.totals.of(area::CONTEXT) as usize * ENTRY_WORDS[area::CONTEXT - 1];
        tight.areas[area::CONTEXT - 1].truncate(used);
        assert_eq!(tight.strict(&[names(&[(22, 5)])]).row, 11);
        assert_eq!(tight.strict(&[document(3, vec![model(8), include(2, &[(22, 5)])])]).row, 9);
        // The aliases of a root that stands are not looked at.
        assert_eq!(program.strict(&[document(2, vec![include(2, &[(99, 5)])])]).row, 0);
        // A copy of the book that publishes the name does not count.
        assert_eq!(program.strict(&[names(&[(22, 5)]), document(2, vec![public(22)])]).row, 11);
    }

    // Section 4.

    #[test]
    fn readings_4_1_and_4_2_counts_and_trials() {
        let words = flatten(&[document(2, vec![public(1)])]);
        let fresh_reply = fresh(&words, false, &[400; AREAS]);
        assert_eq!((fresh_reply.row, fresh_reply.totals.bundles), (0, 1));
        let refused_reply = fresh(&[1], false, &[4; AREAS]);
        assert_eq!((refused_reply.row, refused_reply.totals), (2, Totals::default()));
        let mut program = library();
        program.areas[area::ERRORS - 1].fill(3);
        for documents in [
            vec![document(3, vec![public(5)])],
            vec![document(2, vec![])],
            vec![document(3, vec![include(8, &[])])],
            vec![document(3, vec![implement(99, &[])])],
            vec![document(3, vec![include(3, &[])])],
        ] {
            let words = flatten(&documents);
            let laid = lay_on(&words, false, &program.areas, &program.totals);
            let tried = trial(&words, false, &program.areas, &program.totals);
            assert_eq!((tried.row, tried.place), (laid.row, laid.place));
            assert_eq!(tried.totals, Totals { bundles: 1, ..laid.totals });
            for i in (0..AREAS).filter(|&i| i != area::ERRORS - 1) {
                assert_eq!(tried.areas[i], program.areas[i]);
            }
            assert_eq!(tried.areas[area::ERRORS - 1], laid.areas[area::ERRORS - 1]);
            // 4.8: a commit of the trial's totals is laying on.
            assert_eq!(commit(&words, false, &program.areas, &program.totals, &tried.totals), laid);
        }
    }

    #[test]
    fn readings_4_3_to_4_5_commits() {
        let program = library();
        let words = flatten(&[document(3, vec![public(5)])]);
        let with = |words: &[u64], totals: &Totals| {
            let answered = commit(words, false, &program.areas, &program.totals, totals);
            if answered.row != 0 {
                program.is_kept(&answered, &[]);
            }
            (answered.row, answered.place)
        };
        let tried = trial(&words, false, &program.areas, &program.totals).totals;
        assert_eq!(with(&words, &tried), (0, 0));
        // Line 1's seven.
        for number in [area::FUNCTIONS, area::CONSTANTS, area::MODELS, area::CONTEXT, area::BOOKS] {
            let mut other = tried;
            other.areas[number - 1] += 1;
            assert_eq!(with(&words, &other), (13, 0), "area {number}");
        }
        assert_eq!(with(&words, &Totals { entry_point: tried.entry_point + 1, ..tried }), (13, 0));
        assert_eq!(with(&words, &Totals { globals: tried.globals + 1, ..tried }), (13, 0));
        // The others are not compared: another bundle that differs in the length of a body is delivered.
        for number in [area::CODE, area::PROPERTIES, area::METHODS, area::PUBLIC, 9, 10, 11] {
            let mut other = tried;
            other.areas[number - 1] += 1;
            assert_eq!(with(&words, &other), (0, 0), "area {number}");
        }
        let longer = flatten(&[document(3, vec![named(kind::PUBLIC_FUNCTION, 5, vec![leaf(kind::RESCUE, 0)])])]);
        assert_eq!(with(&longer, &tried), (0, 0));
        // 12 before all but the program check, for a smaller count too; a refusal by the work before 13.
        for bundles in [0, 2, u64::MAX] {
            assert_eq!(with(&[1], &Totals { bundles, ..tried }), (12, 1));
        }
        assert_eq!(with(&[1], &tried), (2, 0));
        assert_eq!(with(&flatten(&[document(3, vec![include(8, &[])])]), &tried), (6, 8));
        let mut full = program.clone();
        full.areas[area::FUNCTIONS - 1].truncate(program.totals.of(area::FUNCTIONS) as usize * 8);
        let answered = commit(&words, false, &full.areas, &full.totals, &Totals { bundles: 1, ..Totals::default() });
        assert_eq!((answered.row, answered.place), (9, 3), "9 before 13");
    }

    #[test]
    fn readings_4_6_and_4_7_the_greatest_count_and_the_mode() {
        let mut program = library();
        program.totals.bundles = MOST_BUNDLES;
        let bundle = document(3, vec![include(2, &[(99, 5)])]);
        let words = flatten(&[bundle]);
        let laid = lay_on(&words, false, &program.areas, &program.totals);
        assert_eq!((laid.row, laid.totals.bundles), (0, 4_294_967_295));
        assert_eq!(program_check(&laid.areas, &laid.totals), Some(area::BOOKS));
        // A commit in the other mode is answered by that mode.
        let tried = trial(&words, false, &program.areas, &program.totals).totals;
        assert_eq!(commit(&words, true, &program.areas, &program.totals, &tried).row, 11);
        let answered = commit(&words, false, &program.areas, &program.totals, &tried);
        assert_eq!((answered.row, answered.totals.bundles), (0, 4_294_967_295));
    }

    /// Section 6: laying onto the least program gives the words of the fresh call, and a count one higher.
    #[test]
    fn onto_the_least_program() {
        let books = [
            document(3, vec![include(2, &[(20, 20)]), implement(20, &[5]), function(1, &[], vec![reads(9)])]),
            document(2, vec![model(20), public(21)]),
        ];
        let least = Program::least(30);
        let laid = least.lay(&books);
        let fresh_reply = fresh(&flatten(&books), false, &lengths(&least.areas));
        assert_eq!(laid, Answered { totals: Totals { bundles: 2, ..fresh_reply.totals }, ..fresh_reply.clone() });
        // And the fresh call is the model's, where its rules are the same.
        let run = compile(&flatten(&books), &lengths(&least.areas));
        assert_eq!(fresh_reply.totals, totals_of(&run, 1));
        assert_eq!(fresh_reply.areas, padded(&run.areas, &lengths(&least.areas)));
    }
}
