//! Laying a bundle onto a standing program, its trial and its commit (02, 2026-01 and 2026-08): a reading apart from that of
//! standing.rs, of which it takes the program check alone. The answer is row, place, totals and every word of the areas.
//! The rules are the numbered readings of the requests; the sentences they rest on stand above each.

use crate::areas::{area, capacities, Areas, Counts, AREAS, ENTRY_WORDS};
use crate::onto_work::{Tables, Work};
use crate::records::{kind, Record};
use crate::shape::{check, Refusal};
use crate::standing::{program_check, Answered, Totals, PROGRAM_PLACE};
use std::collections::{BTreeMap, BTreeSet};

const BAD_SHAPE: u64 = 3;
const BOOK_TWICE: u64 = 5;
const BOOK_MISSING: u64 = 6;
const BOOK_FAULTY: u64 = 7;
const RING: u64 = 8;
const AREA_FULL: u64 = 9;
const NAME_NOT_PUBLIC: u64 = 11;
const STALE_TRIAL: u64 = 12;
const TOTALS_DIFFER: u64 = 13;

/// Wrong answers that a comparison must see: planted here, never in a comparison that is reported.
#[derive(Clone, Copy, Debug, PartialEq, Eq)]
pub enum Fault {
    /// After a refusal a mark that the work set stays.
    MarkLeft,
    /// After a refusal a method keeps the function that the work gave it.
    MethodLeft,
    /// After a refusal the entry point is the work's.
    EntryPointLeft,
    /// After a refusal the totals are 0.
    TotalsZero,
    /// After a refusal area 11 is as lent where no error is listed.
    ErrorsKept,
    /// After row 7 what was added stays, as in the Rust.
    HalfBook,
    /// A copy of a standing book is compiled.
    CopyCompiled,
    /// The includes of a standing book's copy are followed.
    CopyIncludesFollowed,
    /// A standing book needs a copy.
    CopyNeeded,
    /// A root that stands is refused.
    RootRefused,
    /// The program is checked after rows 2 to 4.
    CheckAfterShape,
    /// Without a `main` the entry point is 0.
    EntryPointReset,
    /// Row 9 does not count what stands.
    StandingNotCounted,
    /// Constants that stand are not shared.
    SharingStartsAnew,
    /// Of equal constants the last is shared.
    LastShared,
    /// A standing text that becomes a global gets no mark.
    StandingUnmarked,
    /// A standing method keeps its function where its key comes again.
    MethodNotReplaced,
    /// Added books are numbered from 0.
    FilesFromZero,
    /// Public names of standing books are not found.
    StandingNamesHidden,
    /// Context locals of standing books are found.
    StandingLocalsVisible,
    /// A delivery does not count its bundle.
    BundleNotCounted,
    /// A trial counts its bundle.
    TrialCounted,
    /// A trial writes the program.
    TrialWritten,
    /// A trial leaves the marks that the work set.
    TrialMarked,
    /// A commit that delivers does not count its bundle.
    CommitNotCounted,
    /// A commit compares every total.
    EveryTotalCompared,
    /// A commit does not compare the number of global dependencies.
    GlobalsNotCompared,
    /// After row 13 the areas are the work's.
    DifferingKept,
    /// A commit compares totals where the work refuses.
    TotalsBeforeRefusal,
    /// A commit is stale only where its count is smaller.
    StaleWhereSmaller,
    /// A commit asks for its count after the work.
    StaleAfterWork,
    /// After a call the slots are as lent.
    SlotsLeft,
    /// The slots are zero after the program check too.
    SlotsCleared,
}

impl Fault {
    pub const ALL: [Fault; 33] = [
        Fault::MarkLeft,
        Fault::MethodLeft,
        Fault::EntryPointLeft,
        Fault::TotalsZero,
        Fault::ErrorsKept,
        Fault::HalfBook,
        Fault::CopyCompiled,
        Fault::CopyIncludesFollowed,
        Fault::CopyNeeded,
        Fault::RootRefused,
        Fault::CheckAfterShape,
        Fault::EntryPointReset,
        Fault::StandingNotCounted,
        Fault::SharingStartsAnew,
        Fault::LastShared,
        Fault::StandingUnmarked,
        Fault::MethodNotReplaced,
        Fault::FilesFromZero,
        Fault::StandingNamesHidden,
        Fault::StandingLocalsVisible,
        Fault::BundleNotCounted,
        Fault::TrialCounted,
        Fault::TrialWritten,
        Fault::TrialMarked,
        Fault::CommitNotCounted,
        Fault::EveryTotalCompared,
        Fault::GlobalsNotCompared,
        Fault::DifferingKept,
        Fault::TotalsBeforeRefusal,
        Fault::StaleWhereSmaller,
        Fault::StaleAfterWork,
        Fault::SlotsLeft,
        Fault::SlotsCleared,
    ];

    pub fn named(name: &str) -> Option<Fault> {
        Fault::ALL.into_iter().find(|fault| format!("{fault:?}") == name)
    }
}

/// A program and what else a call is lent: areas as they are before it, and the program's totals.
#[derive(Clone, Copy)]
pub struct Lent<'a> {
    pub areas: &'a Areas,
    pub totals: &'a Totals,
}

/// Where the work of a bundle ends.
struct Ended {
    refusal: Option<Refusal>,
    /// The program with what the work added; after a refusal nobody may see it.
    tables: Tables,
    peaks: Counts,
}

/// A bundle that rows 2 to 6 have nothing against: its records, and the books to compile with their records' places.
struct Bundle {
    records: Vec<Record>,
    needed: BTreeMap<u64, usize>,
}

/// The reading, right or with a fault planted.
#[derive(Clone, Copy, Default)]
pub struct Reading {
    pub fault: Option<Fault>,
}

/// The documents of a bundle with their files, in order.
fn documents(records: &[Record]) -> Vec<(u64, usize)> {
    let starts = std::iter::successors(Some(0), |&at: &usize| records.get(at).map(|r| at + r.span as usize));
    starts.take_while(|&at| at < records.len()).map(|at| (records[at].value, at)).collect()
}

/// Files of a document's includes. 2026-04: "all includes of a book are dependencies, wherever they are written".
fn includes(records: &[Record], at: usize) -> BTreeSet<u64> {
    let end = at + records[at].span as usize;
    let mut files = BTreeSet::new();
    let mut next = at + 1;
    while next < end {
        if records[next].kind == kind::INCLUDE {
            files.insert(records[next].value);
        }
        next += records[next].span as usize;
    }
    files
}

impl Reading {
    fn is(&self, fault: Fault) -> bool {
        self.fault == Some(fault)
    }

    /// Rows 2 to 6. "Checks: rows 2 to 5 read the whole bundle, 6 to 9 the books that do not stand."
    fn bundle(&self, words: &[u64], standing: &BTreeSet<u64>) -> Result<Bundle, Refusal> {
        let records = check(words)?;
        let mut places = BTreeMap::new();
        for (file, at) in documents(&records) {
            if places.insert(file, at).is_some() {
                return Err((BOOK_TWICE, at as u64));
            }
        }
        let root = records[0].value;
        if standing.contains(&root) && self.is(Fault::RootRefused) {
            return Err((BOOK_TWICE, 0));
        }
        // "books already standing are skipped, their includes too, and need no copy in the bundle"
        let is_skipped =
            |file: &u64| standing.contains(file) && !(self.is(Fault::CopyCompiled) && places.contains_key(file));
        let mut reached = BTreeSet::from([root]);
        loop {
            let follows = |file: &&u64| !is_skipped(file) || self.is(Fault::CopyIncludesFollowed);
            let of = |file: &u64| places.get(file).map(|&at| includes(&records, at)).unwrap_or_default();
            let grown: BTreeSet<u64> = reached.iter().filter(follows).flat_map(of).chain(reached.clone()).collect();
            if grown == reached {
                break;
            }
            reached = grown;
        }
        let mut needed = BTreeMap::new();
        for file in reached.into_iter().filter(|file| !is_skipped(file) || self.is(Fault::CopyNeeded)) {
            let Some(&at) = places.get(&file) else { return Err((BOOK_MISSING, file)) };
            if !is_skipped(&file) {
                needed.insert(file, at);
            }
        }
        Ok(Bundle { records, needed })
    }

    /// Rows 7 to 9 and 11. 01: "A ready book is one whose needed includes are compiled; the smallest file number goes
    /// first"; "8 when no book is ready".
    fn books(&self, work: &mut Work, bundle: &Bundle) -> Option<Refusal> {
        let needs = |at: usize| includes(&bundle.records, at);
        let mut left = bundle.needed.clone();
        work.take_books(left.len());
        while let Some((&file, &at)) =
            left.iter().find(|(_, &at)| needs(at).iter().all(|include| !left.contains_key(include)))
        {
            work.book(at);
            if work.is_stopped() {
                break;
            }
            if !work.errors().is_empty() {
                return Some((BOOK_FAULTY, file));
            }
            left.remove(&file);
        }
        if !work.is_stopped() {
            left.keys().for_each(|&file| work.ring_error(file));
        }
        match (work.full, work.not_public) {
            (Some(number), _) => Some((AREA_FULL, number as u64)),
            (_, Some(at)) => Some((NAME_NOT_PUBLIC, at as u64)),
            _ if left.is_empty() => None,
            _ => Some((RING, left.len() as u64)),
        }
    }

    /// Rows 2 to 9 and 11, on a program that passed the check.
    fn work(&self, words: &[u64], strict: bool, lent: Lent, room: Counts) -> Ended {
        let tables = Tables::of(lent.areas, lent.totals);
        let standing = tables.of_area(area::BOOKS).iter().map(|entry| entry[0]).collect();
        let bundle = match self.bundle(words, &standing) {
            Ok(bundle) => bundle,
            Err(refusal) => return Ended { refusal: Some(refusal), peaks: tables.counts(), tables },
        };
        let mut work = Work::new(&bundle.records, strict, room, tables, self.fault);
        let refusal = self.books(&mut work, &bundle);
        Ended { refusal, peaks: work.peaks, tables: work.tables }
    }

    /// The most entries in use at any step of the work, in this much room, and what it ends in.
    pub fn needs(&self, words: &[u64], strict: bool, lent: Lent, room: Counts) -> (Counts, Option<Refusal>) {
        let ended = self.work(words, strict, lent, room);
        (ended.peaks, ended.refusal)
    }

    /// "If the bundle is refused, the standing program keeps every entry, global marks, entry point and the functions of its
    /// methods, and its totals as lent are returned; beyond it all is zero but for listed errors."
    fn refused(&self, (row, place): Refusal, lent: Lent, tables: Option<&Tables>) -> Answered {
        let mut areas = lent.areas.clone();
        let mut totals = *lent.totals;
        let lists = matches!(row, BOOK_FAULTY | RING);
        let errors = tables.filter(|_| lists).map_or(Vec::new(), |tables| tables.of_area(area::ERRORS).concat());
        if lists || !self.is(Fault::ErrorsKept) {
            areas[area::ERRORS - 1].fill(0);
            areas[area::ERRORS - 1][..errors.len()].copy_from_slice(&errors);
        }
        if let Some(tables) = tables {
            self.leave_behind(row, tables, &mut areas, &mut totals);
        }
        if self.is(Fault::TotalsZero) {
            totals = Totals::default();
        }
        Answered { row, place, totals, areas }
    }

    /// What a planted fault leaves of the work after a refusal.
    fn leave_behind(&self, row: u64, tables: &Tables, areas: &mut Areas, totals: &mut Totals) {
        let stood = *totals;
        let mut third_words = |number: usize| {
            let entries = tables.of_area(number).iter().take(stood.of(number) as usize);
            entries.zip(areas[number - 1].chunks_exact_mut(3)).for_each(|(entry, words)| words[2] = entry[2]);
        };
        match self.fault {
            Some(Fault::MarkLeft) => third_words(area::CONSTANTS),
            Some(Fault::MethodLeft) => third_words(area::METHODS),
            Some(Fault::EntryPointLeft) => totals.entry_point = tables.entry_point,
            Some(Fault::HalfBook) if row == BOOK_FAULTY => {
                *totals = self.totals(tables, stood.bundles);
                for number in (1..=AREAS).filter(|&number| number != area::ERRORS) {
                    let words = tables.of_area(number).concat();
                    areas[number - 1][..words.len()].copy_from_slice(&words);
                }
            }
            _ => {}
        }
    }

    fn totals(&self, tables: &Tables, bundles: u64) -> Totals {
        let mut areas = tables.counts();
        areas[area::ERRORS - 1] = 0;
        Totals { areas, entry_point: tables.entry_point, globals: tables.marked(), bundles }
    }

    /// What stood with its marks and methods' functions as the work has them, what is added, and then zeros.
    fn delivered(&self, lent: Lent, tables: &Tables) -> Answered {
        let written = |i: usize| {
            let mut words = tables.areas_words(i + 1);
            words.resize(lent.areas[i].len(), 0);
            words
        };
        let bundles = lent.totals.bundles + u64::from(!self.is(Fault::BundleNotCounted));
        let mut totals = self.totals(tables, bundles);
        let unmoved = totals.entry_point == lent.totals.entry_point;
        if self.is(Fault::EntryPointReset) && unmoved {
            totals.entry_point = 0;
        }
        Answered { row: 0, place: 0, totals, areas: std::array::from_fn(written) }
    }

    /// "First of all, in this and every later call on a program, row 3 with place 1,048,576 plus the area number .. All
    /// memory and totals then stay as lent."
    fn checked(&self, words: &[u64], lent: Lent) -> Option<Answered> {
        if self.is(Fault::CheckAfterShape) {
            if let Err((row, place)) = check(words) {
                return Some(Answered { row, place, totals: *lent.totals, areas: lent.areas.clone() });
            }
        }
        let place = PROGRAM_PLACE + program_check(lent.areas, lent.totals)? as u64;
        Some(Answered { row: BAD_SHAPE, place, totals: *lent.totals, areas: lent.areas.clone() })
    }

    fn laid(&self, words: &[u64], strict: bool, lent: Lent) -> Answered {
        let lengths = std::array::from_fn(|i| lent.areas[i].len());
        let ended = self.work(words, strict, lent, capacities(&lengths));
        match ended.refusal {
            Some(refusal) => self.refused(refusal, lent, Some(&ended.tables)),
            None => self.delivered(lent, &ended.tables),
        }
    }

    pub fn lay_on(&self, words: &[u64], strict: bool, lent: Lent) -> Answered {
        self.checked(words, lent).unwrap_or_else(|| self.laid(words, strict, lent))
    }

    /// 2026-08: "A trial reports what laying the bundle on would answer, with line 1's totals; the standing program is
    /// unchanged and all beyond it zero but for listed errors. .. a trial hands that count on."
    pub fn trial(&self, words: &[u64], strict: bool, lent: Lent) -> Answered {
        self.on_trial(self.lay_on(words, strict, lent), lent)
    }

    /// The trial of a bundle, from what laying it on answers.
    pub fn on_trial(&self, laid: Answered, lent: Lent) -> Answered {
        if laid.row != 0 {
            return laid;
        }
        let Answered { row, place, mut totals, areas: work } = laid;
        if !self.is(Fault::TrialCounted) {
            totals.bundles = lent.totals.bundles;
        }
        let mut areas = if self.is(Fault::TrialWritten) { work.clone() } else { lent.areas.clone() };
        if self.is(Fault::TrialMarked) {
            let stood = lent.totals.of(area::CONSTANTS) as usize * ENTRY_WORDS[area::CONSTANTS - 1];
            areas[area::CONSTANTS - 1][..stood].copy_from_slice(&work[area::CONSTANTS - 1][..stood]);
        }
        areas[area::ERRORS - 1].fill(0);
        Answered { row, place, totals, areas }
    }

    /// "A commit takes the trial's totals and count; .. it answers as the trial did, but a delivery's count is one more.
    /// Checks: 12 .. right after the program check if the count differs; 13 .., place 0, after the work, with the program as
    /// it stood."
    pub fn commit(&self, words: &[u64], strict: bool, lent: Lent, trial: &Totals) -> Answered {
        self.committed(self.lay_on(words, strict, lent), lent, trial)
    }

    /// The commit of a bundle, from what laying it on answers.
    pub fn committed(&self, laid: Answered, lent: Lent, trial: &Totals) -> Answered {
        if laid.is_unfit() {
            return laid;
        }
        let stands = lent.totals.bundles;
        let is_stale = trial.bundles != stands && !(self.is(Fault::StaleWhereSmaller) && trial.bundles > stands);
        if is_stale && (laid.row == 0 || !self.is(Fault::StaleAfterWork)) {
            return self.refused((STALE_TRIAL, stands), lent, None);
        }
        if self.differs(trial, &laid.totals) && (laid.row == 0 || self.is(Fault::TotalsBeforeRefusal)) {
            let refused = self.refused((TOTALS_DIFFER, 0), lent, None);
            return if self.is(Fault::DifferingKept) { Answered { areas: laid.areas, ..refused } } else { refused };
        }
        let counted = u64::from(laid.row == 0 && self.is(Fault::CommitNotCounted));
        Answered { totals: Totals { bundles: laid.totals.bundles - counted, ..laid.totals }, ..laid }
    }

    fn differs(&self, trial: &Totals, laid: &Totals) -> bool {
        let globals = if self.is(Fault::GlobalsNotCompared) { laid.globals } else { trial.globals };
        compared(&Totals { globals, ..*trial }) != compared(laid)
            || self.is(Fault::EveryTotalCompared) && trial.areas != laid.areas
    }
}

/// 01, the listing: "1 totals: functions, constants, models, context locals, entry point, files, global dependencies."
fn compared(totals: &Totals) -> [u64; 7] {
    let numbers = [area::FUNCTIONS, area::CONSTANTS, area::MODELS, area::CONTEXT, area::BOOKS];
    let [functions, constants, models, locals, files] = numbers.map(|number| totals.of(number));
    [functions, constants, models, locals, totals.entry_point, files, totals.globals]
}

impl Tables {
    /// The words of an area after a delivery, without the zeros behind; area 11 has none.
    fn areas_words(&self, number: usize) -> Vec<u64> {
        let words = if number == area::ERRORS { Vec::new() } else { self.of_area(number).concat() };
        debug_assert_eq!(words.len() % ENTRY_WORDS[number - 1], 0);
        words
    }
}
