//! Programs grown by several bundles, with refusals in between: the reading of onto.rs held against the Rust with a context
//! that is compiled on (`onto --self`, `onto --small`). After a refusal the next bundle must fit as if nothing had been. With
//! `--ours` the library makes the same calls, and a program that the crate over it keeps grows by the same bundles.

use crate::areas::{answer, area, Answer, Areas, Counts, Delivery, Lengths, Reply, AREAS, ENTRY_WORDS};
use crate::onto::{Lent, Reading};
use crate::onto_calls::{answered, judge, OntoCalls};
use crate::onto_real::{Grown, Kept, Laid};
use crate::onto_seen::Seen;
use crate::random::Random;
use crate::real::Outcome;
use crate::records::{kind, records, words, Record, MAX_TEXT};
use crate::shape::check;
use crate::standing::{entries_of, program_check, Answered, Call, Order, Totals, PROGRAM_PLACE, TOTALS_DIFFER};
use crate::standing_calls::{bundle, damaged, shelf, Program, ROOMY};

const BOOK_TWICE: u64 = 5;
const BOOK_FAULTY: u64 = 7;
const AREA_FULL: u64 = 9;
const NAME_NOT_PUBLIC: u64 = 11;

/// The bundle with another number for `this`: two texts change places.
fn with_this(tree: Vec<u64>, this: u64) -> Vec<u64> {
    let mut list = records(&tree);
    let Some(old) = list.iter().find(|r| r.kind == kind::THIS_PARAMETER).map(|r| r.value) else { return tree };
    for record in list.iter_mut().filter(|r| kind::holds_text(r.kind)) {
        record.value = match record.value {
            value if value == old => this,
            value if value == this => old,
            value => value,
        };
    }
    [words(&list), tree[list.len() * 4..].to_vec()].concat()
}

/// What is looked at after a refusal: all that it leaves, or its row alone, so that the next bundle must show the rest.
#[derive(Clone, Copy, Debug, PartialEq, Eq)]
pub enum Look {
    AllLeft,
    NextBundle,
}

/// A program that a side keeps from bundle to bundle, in as much room as it takes.
pub trait KeptProgram {
    /// The least program, in place of the one that was kept.
    fn start(&mut self);

    /// What a bundle by itself compiles to, in its place: row and place.
    fn compile(&mut self, tree: &[u64], strict: bool) -> (u64, u64);

    /// Lays a bundle on: row and place.
    fn lay_on(&mut self, tree: &[u64], strict: bool) -> (u64, u64);

    /// Tries a bundle: the totals that the program would have, or row and place. The trial is kept for the commit.
    fn trial(&mut self, tree: &[u64], strict: bool) -> Result<Totals, (u64, u64)>;

    /// Lays a bundle on as the last trial said: row and place.
    fn commit(&mut self, tree: &[u64], strict: bool) -> (u64, u64);

    /// The program as words: the twelve totals, entry point, numbers of global dependencies and of bundles, and each area's
    /// entries.
    fn saved(&self) -> Vec<u64>;

    /// Goes on with a program of these words.
    fn load(&mut self, words: &[u64]) -> Result<(), String>;
}

/// A library's side of a comparison with the Rust.
pub struct Ours<'a> {
    pub calls: &'a mut (dyn OntoCalls + 'static),
    pub kept: &'a mut (dyn KeptProgram + 'static),
}

impl Ours<'_> {
    /// The same for another sequence.
    pub(crate) fn again(&mut self) -> Ours<'_> {
        self.kept.start();
        Ours { calls: self.calls, kept: self.kept }
    }
}

/// The words that a side must save of a program.
fn saved(program: &Program) -> Vec<u64> {
    let Totals { areas, entry_point, globals, bundles } = program.totals;
    [&areas[..], &[entry_point, globals, bundles], &program.entries.concat()].concat()
}

/// A bundle tried and then committed on a program that is kept: row and place. The trial must leave the program, and answer the
/// totals of the one that comes of it.
fn tried_and_committed(
    kept: &mut dyn KeptProgram,
    tree: &[u64],
    strict: bool,
    after: &Totals,
) -> Result<(u64, u64), String> {
    let before = kept.saved();
    let tried = kept.trial(tree, strict);
    if kept.saved() != before {
        return Err("the program that is kept is another after a trial".to_string());
    }
    match tried {
        Err(refusal) => Ok(refusal),
        Ok(totals) if totals != (Totals { bundles: after.bundles - 1, ..*after }) => {
            Err(format!("a trial on the program that is kept answers {totals:?}, before {after:?}"))
        }
        Ok(_) => Ok(kept.commit(tree, strict)),
    }
}

/// A trial of nothing, and a commit of a book in its place, on a program that is kept: refused by row 13 with the program as it
/// stood.
fn commits_another(kept: &mut dyn KeptProgram, program: &Program) -> Result<(), String> {
    let books = &program.entries[area::BOOKS - 1];
    let Some(&stands) = books.first() else { return Ok(()) };
    let added = (1..=MAX_TEXT).find(|file| !books.contains(file)).expect("there are not so many books");
    let alone = |file| [kind::DOCUMENT, 1, 0, file];
    let before = kept.saved();
    let tried = kept.trial(&alone(stands), false);
    if tried != Ok(program.totals) {
        return Err(format!("a trial of a book that stands answers {tried:?} on the program that is kept"));
    }
    let replied = kept.commit(&alone(added), false);
    if replied != (TOTALS_DIFFER, 0) || kept.saved() != before {
        return Err(format!("a commit of another bundle answers {replied:?}, or changes the program that is kept"));
    }
    Ok(())
}

/// A sequence of bundles laid on one program, held against the Rust.
pub(crate) struct Sequence<'a> {
    random: Random,
    reading: Reading,
    seen: &'a mut Seen,
    program: Program,
    grown: Grown,
    look: Look,
    /// The Rust's program as it stands.
    stands: Option<Delivery>,
    /// Bundles delivered.
    bundles: u64,
    /// Rows of the refusals since the last delivery.
    since: Vec<u64>,
    ours: Option<Ours<'a>>,
}

fn lent(program: &Program, lengths: &Lengths) -> Areas {
    program.lent(lengths)
}

/// The lengths in words of so many entries, with a tail shorter than an entry.
fn lengths_for(random: &mut Random, entries: &Counts) -> Lengths {
    std::array::from_fn(|i| entries[i] as usize * ENTRY_WORDS[i] + random.index(ENTRY_WORDS[i]))
}

impl<'a> Sequence<'a> {
    pub(crate) fn new(random: Random, reading: Reading, look: Look, seen: &'a mut Seen, this: u64) -> Sequence<'a> {
        Sequence {
            random,
            reading,
            look,
            seen,
            program: Program::least(),
            grown: Grown::new(this),
            stands: None,
            bundles: 0,
            since: Vec::new(),
            ours: None,
        }
    }

    pub(crate) fn with(self, ours: Option<Ours<'a>>) -> Sequence<'a> {
        Sequence { ours, ..self }
    }

    /// The reading's answer to a call; the library's must be the right reading's.
    fn answers(&mut self, call: &Call) -> Result<Answered, String> {
        if let Some(ours) = &mut self.ours {
            let judged = judge(ours.calls, call).map_err(|message| format!("the library {message}"))?;
            self.seen.asked += judged.asked;
        }
        Ok(answered(&self.reading, call))
    }

    /// The bundle onto the program that the library's side keeps, or as a fresh one: row and place as the Rust has them, and then
    /// the words of the reading's program.
    fn keeps(&mut self, tree: &[u64], strict: bool, is_fresh: bool, wanted: (u64, u64)) -> Result<(), String> {
        let Some(ours) = &mut self.ours else { return Ok(()) };
        let replied = match is_fresh {
            true => ours.kept.compile(tree, strict),
            false if self.random.chance(500) => ours.kept.lay_on(tree, strict),
            false => tried_and_committed(ours.kept, tree, strict, &self.program.totals)?,
        };
        if replied != wanted {
            return Err(format!("the program that is kept answers {replied:?}, not {wanted:?}"));
        }
        let words = saved(&self.program);
        if ours.kept.saved() != words {
            return Err(format!("the program that is kept is another after {wanted:?}"));
        }
        self.seen.kept += 1;
        // Now and then as somebody else who loads it.
        if self.random.chance(300) {
            ours.kept.load(&words)?;
        }
        if self.random.chance(200) {
            commits_another(ours.kept, &self.program)?;
        }
        Ok(())
    }

    /// The program passes the check of the next call.
    fn stands(&self) -> Result<(), String> {
        match program_check(&lent(&self.program, &[0; AREAS]), &self.program.totals) {
            Some(number) => Err(format!("area {number} of the program that a call left fails the check")),
            None => Ok(()),
        }
    }

    /// The one context of the Rust holds in the end what was compared one by one.
    pub(crate) fn ends(self) -> Result<(), String> {
        self.stands()?;
        *self.seen.ended.entry(self.bundles).or_default() += 1;
        match self.stands {
            Some(stands) if self.grown.read() != stands => {
                Err("the Rust's one context holds another program".to_string())
            }
            _ => Ok(()),
        }
    }

    /// Every word as lent but for area 11, and the totals.
    fn is_kept(&self, call: &Call, totals: &Totals, answered: &Answered) -> Result<(), String> {
        let row = answered.row;
        let kept = |i: &usize| *i == area::ERRORS - 1 || answered.areas[*i] == call.areas[*i];
        if let Some(i) = (0..AREAS).find(|i| !kept(i)) {
            return Err(format!("row {row} changes area {}", i + 1));
        }
        if answered.totals != *totals && !(row == 0 && matches!(call.order, Order::Trial(_))) {
            return Err(format!("row {row} answers totals {:?}, not {totals:?}", answered.totals));
        }
        Ok(())
    }

    /// What area 11 must be: these errors, then zeros.
    fn lists(&self, answered: &Answered, errors: &[[u64; 4]]) -> Result<(), String> {
        let area = &answered.areas[area::ERRORS - 1];
        let listed = errors.concat();
        if !area.starts_with(&listed) || area[listed.len()..].iter().any(|&word| word != 0) {
            return Err(format!("row {}: area 11 is not the {} errors and zeros", answered.row, errors.len()));
        }
        Ok(())
    }

    /// A refusal of this row and place, with these errors, that leaves all else as lent.
    fn refuses(
        &mut self,
        call: &Call,
        totals: &Totals,
        answered: &Answered,
        (row, place): (u64, u64),
        errors: &[[u64; 4]],
    ) -> Result<(), String> {
        if (answered.row, answered.place) != (row, place) {
            return Err(format!("row {}, place {}, not {row}, {place}", answered.row, answered.place));
        }
        if self.look == Look::AllLeft {
            self.is_kept(call, totals, answered)?;
            self.lists(answered, errors)?;
        }
        *self.seen.refused.entry(row).or_default() += 1;
        if row == AREA_FULL {
            *self.seen.full.entry(place).or_default() += 1;
        }
        self.since.push(row);
        self.goes_on(answered);
        Ok(())
    }

    /// The next call is lent what this one left.
    fn goes_on(&mut self, answered: &Answered) {
        let mut totals = answered.totals;
        totals.areas[area::ERRORS - 1] = 0;
        self.program = Program { entries: entries_of(&answered.areas, &totals), totals };
    }

    /// The program check: a damaged program is refused with all as lent, and the right one stands after it.
    fn damage(&mut self, tree: &[u64]) -> Result<(), String> {
        let mut areas = self.program.lent(&[0; AREAS]);
        let mut totals = self.program.totals;
        damaged(&mut self.random, &mut areas, &mut totals);
        let Some(number) = program_check(&areas, &totals) else { return Ok(()) };
        let call = Call { order: Order::Lay(totals), words: tree.to_vec(), strict: false, areas };
        let answered = self.answers(&call)?;
        let wanted = (3, PROGRAM_PLACE + number as u64);
        if (answered.row, answered.place) != wanted || answered.areas != call.areas || answered.totals != totals {
            return Err(format!("the check of area {number} answers row {}, {}", answered.row, answered.place));
        }
        *self.seen.refused.entry(3).or_default() += 1;
        self.since.push(3);
        Ok(())
    }

    /// What a call of the reading must leave that the Rust delivers.
    fn delivers(&mut self, call: &Call, totals: &Totals, answered: &Answered, theirs: &Delivery) -> Result<(), String> {
        if answered.row != 0 {
            return Err(format!("row {}, place {} where the Rust delivers", answered.row, answered.place));
        }
        let reply = Reply {
            row: 0,
            place: 0,
            totals: answered.totals.areas,
            entry_point: answered.totals.entry_point,
            globals: answered.totals.globals,
            bundles: answered.totals.bundles,
        };
        let Answer::Delivered(ours) = answer(&reply, &answered.areas) else { unreachable!("row 0 delivers") };
        if ours != *theirs {
            return Err(format!("the program is another than the Rust's: {}", differing(&ours, theirs)));
        }
        if ours.globals.len() as u64 != reply.globals {
            return Err("the total of global dependencies is not that of the marks".to_string());
        }
        if answered.totals.bundles != totals.bundles + 1 || answered.totals.areas[8..11] != [0; 3] {
            return Err(format!("a delivery answers totals {:?}", answered.totals));
        }
        self.changes_little(call, totals, answered)
    }

    /// Of what stood only marks and methods' functions change, and beyond the totals all is zero.
    fn changes_little(&mut self, call: &Call, totals: &Totals, answered: &Answered) -> Result<(), String> {
        for i in (0..AREAS).filter(|&i| i != area::ERRORS - 1) {
            let width = ENTRY_WORDS[i];
            let stood = totals.areas[i] as usize * width;
            let mut changed = (0..stood).filter(|&at| call.areas[i][at] != answered.areas[i][at]);
            let may = |at: usize| matches!(i + 1, area::CONSTANTS | area::METHODS) && at % width == 2;
            if let Some(at) = changed.clone().find(|&at| !may(at)) {
                return Err(format!("area {}, word {at} of what stood is another", i + 1));
            }
            let moved = changed.next().is_some();
            self.seen.marked += u64::from(moved && i + 1 == area::CONSTANTS);
            self.seen.replaced += u64::from(moved && i + 1 == area::METHODS);
            let end = answered.totals.areas[i] as usize * width;
            if answered.areas[i][end..].iter().any(|&word| word != 0) || answered.areas[i].len() != call.areas[i].len()
            {
                return Err(format!("area {} is not zero behind its total", i + 1));
            }
        }
        match answered.areas[area::ERRORS - 1].iter().all(|&word| word == 0) {
            true => Ok(()),
            false => Err("a delivery leaves errors".to_string()),
        }
    }

    /// The trial of a call, and commits that are stale or have other totals; answers the commit to make.
    fn tried(&mut self, call: &Call, totals: &Totals, rust: &Answer) -> Result<Call, String> {
        let trial = Call { order: Order::Trial(*totals), ..call.clone() };
        let reported = self.answers(&trial)?;
        let laid = self.answers(call)?;
        self.seen.trials += 1;
        self.is_kept(&trial, totals, &reported)?;
        let counted = Totals { bundles: totals.bundles, ..laid.totals };
        if (reported.row, reported.place, reported.totals) != (laid.row, laid.place, counted) {
            return Err(format!("a trial answers row {}, {:?}", reported.row, reported.totals));
        }
        if reported.areas[area::ERRORS - 1] != laid.areas[area::ERRORS - 1] {
            return Err("a trial leaves other errors".to_string());
        }
        if self.random.chance(300) {
            let stale = [0, totals.bundles - 1, totals.bundles + 1, u64::MAX];
            let bundles = self.random.pick(&stale);
            let other = Call { order: Order::Commit(*totals, Totals { bundles, ..reported.totals }), ..call.clone() };
            let refused = self.answers(&other)?;
            self.refuses(&other, totals, &refused, (12, totals.bundles), &[])?;
        }
        if self.random.chance(300) {
            let mut other = reported.totals;
            match self.random.below(4) {
                0 => other.entry_point += 1,
                1 => other.globals += 1,
                _ => other.areas[self.random.pick(&[1, 2, 3, 6, 11])] += 1,
            }
            let other = Call { order: Order::Commit(*totals, other), ..call.clone() };
            let refused = self.answers(&other)?;
            match rust {
                Answer::Delivered(_) => self.refuses(&other, totals, &refused, (13, 0), &[])?,
                Answer::Refused { row, place, errors } => {
                    self.refuses(&other, totals, &refused, (*row, *place), errors)?
                }
            }
        }
        self.seen.commits += 1;
        let mut trial = reported.totals;
        if self.random.chance(300) {
            // One that line 1 does not show.
            trial.areas[self.random.pick(&[0, 4, 5, 7, 8, 9, 10])] = self.random.next();
        }
        Ok(Call { order: Order::Commit(*totals, trial), ..call.clone() })
    }

    /// With one area an entry shorter than the work needs.
    fn one_short(&mut self, call: &Call, totals: &Totals, peaks: &Counts) -> Result<(), String> {
        // Area 11 is counted from 0, whatever its lent total is.
        let stood = |i: usize| if i == area::ERRORS - 1 { 0 } else { totals.areas[i] };
        let shorter: Vec<usize> = (0..AREAS).filter(|&i| peaks[i] > stood(i)).collect();
        if shorter.is_empty() {
            return Ok(());
        }
        let short = self.random.pick(&shorter);
        let entries = std::array::from_fn(|i| peaks[i].max(stood(i)) - u64::from(i == short));
        let mut areas = lent(&self.program, &lengths_for(&mut self.random, &entries));
        areas[area::ERRORS - 1].fill(9);
        let call = Call { areas, ..call.clone() };
        let answered = self.answers(&call)?;
        self.refuses(&call, totals, &answered, (AREA_FULL, short as u64 + 1), &[])
    }

    /// A bundle that rows 2 to 5 have nothing against: the Rust's answer, and the reading's in several lengths.
    fn laid(&mut self, tree: &[u64], strict: bool) -> Result<(), String> {
        let room = lent(&self.program, &[0; AREAS]);
        let standing = Lent { areas: &room, totals: &self.program.totals };
        let (peaks, ended) = Reading::default().needs(tree, strict, standing, ROOMY);
        if ended == Some((AREA_FULL, area::CODE as u64)) {
            return Ok(());
        }
        let laid = self.grown.lay(tree, strict);
        let rust = match &laid.outcome {
            Outcome::Answer(answer) => answer.clone(),
            Outcome::Inexpressible => {
                self.seen.inexpressible += 1;
                return Ok(());
            }
            Outcome::Panicked => {
                self.seen.panicked += 1;
                let known = matches!(ended, Some((BOOK_FAULTY | NAME_NOT_PUBLIC, _)));
                return if known { Ok(()) } else { Err(format!("the Rust panics, and the work ends in {ended:?}")) };
            }
            Outcome::Unforeseen(message) => return Err(format!("the Rust: {message}")),
        };
        let mut totals = self.program.totals;
        let slack = self.random.pick(&[0, 0, 1, 5]);
        let entries = std::array::from_fn(|i| peaks[i] + slack);
        let mut areas = lent(&self.program, &lengths_for(&mut self.random, &entries));
        if self.random.chance(500) {
            areas[area::ERRORS - 1].fill(0xA5A5);
            totals.areas[area::ERRORS - 1] = self.random.pick(&[0, 5, u64::MAX]);
        }
        let call = Call { order: Order::Lay(totals), words: tree.to_vec(), strict, areas };
        if self.random.chance(250) {
            self.one_short(&call, &totals, &peaks)?;
        }
        let call = if self.random.chance(400) { self.tried(&call, &totals, &rust)? } else { call };
        let answered = self.answers(&call)?;
        match &rust {
            Answer::Refused { row, place, errors } => {
                self.refuses(&call, &totals, &answered, (*row, *place), errors)?;
                let kept = laid.kept.unwrap_or_default();
                let file_alone = Kept { files: kept.files, ..Kept::default() };
                self.seen.half_books += u64::from(kept != file_alone);
                self.seen.half_changed += u64::from(kept.methods_changed || kept.entry_point_changed);
                self.keeps(tree, strict, false, (*row, *place))
            }
            Answer::Delivered(theirs) => {
                self.delivers(&call, &totals, &answered, theirs)?;
                let needs = [1, 2, 3, 4, 5, 6, 7, 11];
                if needs.iter().any(|&i| peaks[i] != answered.totals.areas[i]) {
                    return Err(format!("the work uses {peaks:?} entries, not {:?}", answered.totals.areas));
                }
                self.grows(laid, &answered, theirs.clone())?;
                self.keeps(tree, strict, false, (0, 0))
            }
        }
    }

    /// The next call's program is what this one left.
    fn grows(&mut self, laid: Laid, answered: &Answered, theirs: Delivery) -> Result<(), String> {
        let books = self.program.totals.of(area::BOOKS);
        self.seen.nothing_added += u64::from(answered.totals.of(area::BOOKS) == books);
        self.bundles += 1;
        *self.seen.grown.entry(self.bundles).or_default() += 1;
        self.since.sort_unstable();
        self.since.dedup();
        for row in self.since.drain(..) {
            *self.seen.refitted.entry(row).or_default() += 1;
        }
        self.goes_on(answered);
        self.grown.grow(laid);
        self.stands = Some(theirs);
        Ok(())
    }

    /// A fresh call in place of the first: the oracle's reading of it, held against the Rust too.
    fn starts_fresh(&mut self, tree: &[u64]) -> Result<(), String> {
        let room = lent(&self.program, &[0; AREAS]);
        let standing = Lent { areas: &room, totals: &self.program.totals };
        let (peaks, ended) = Reading::default().needs(tree, false, standing, ROOMY);
        if ended.is_some() {
            return Ok(());
        }
        let laid = self.grown.lay(tree, false);
        let Outcome::Answer(Answer::Delivered(theirs)) = &laid.outcome else { return Ok(()) };
        let theirs = theirs.clone();
        let areas = lengths_for(&mut self.random, &peaks).map(|length| vec![0xA5A5; length]);
        let call = Call { order: Order::Fresh, words: tree.to_vec(), strict: false, areas };
        let first = self.answers(&call)?;
        self.delivers(&call, &Totals::default(), &first, &theirs)?;
        self.grows(laid, &first, theirs)?;
        self.keeps(tree, false, true, (0, 0))
    }

    /// Rows 2 to 5 are not the Rust's.
    fn broken(&mut self, tree: &[u64], row: (u64, u64)) -> Result<(), String> {
        let areas = lent(&self.program, &[40; AREAS]);
        let totals = self.program.totals;
        let call = Call { order: Order::Lay(totals), words: tree.to_vec(), strict: false, areas };
        let answered = self.answers(&call)?;
        self.refuses(&call, &totals, &answered, row, &[])?;
        self.keeps(tree, false, false, row)
    }

    pub(crate) fn bundle(&mut self, tree: &[u64], strict: bool) -> Result<(), String> {
        self.stands()?;
        if self.random.chance(100) {
            self.damage(tree)?;
        }
        let refusal = match check(tree) {
            Err(refusal) => Some(refusal),
            Ok(records) => twice(&records),
        };
        match refusal {
            Some(refusal) => self.broken(tree, refusal),
            None => self.laid(tree, strict),
        }
    }
}

/// Row 5 of a bundle.
fn twice(records: &[Record]) -> Option<(u64, u64)> {
    let mut files = Vec::new();
    let mut at = 0;
    while at < records.len() {
        if files.contains(&records[at].value) {
            return Some((BOOK_TWICE, at as u64));
        }
        files.push(records[at].value);
        at += records[at].span as usize;
    }
    None
}

/// The parts in which two programs differ.
fn differing(ours: &Delivery, theirs: &Delivery) -> String {
    let parts = [
        ("functions", ours.functions != theirs.functions),
        ("constants", ours.constants != theirs.constants),
        ("globals", ours.globals != theirs.globals),
        ("models", ours.models != theirs.models),
        ("context locals", ours.context != theirs.context),
        ("public names", ours.public != theirs.public),
        ("entry point", ours.entry_point != theirs.entry_point),
        ("books", ours.books != theirs.books),
    ];
    let named: Vec<&str> = parts.iter().filter(|part| part.1).map(|part| part.0).collect();
    named.join(", ")
}

/// One sequence: a program of up to four bundles, with refusals in between.
fn sequence(
    reading: Reading,
    look: Look,
    (seed, index): (u64, u64),
    seen: &mut Seen,
    ours: Option<Ours>,
) -> Result<(), String> {
    let mut random = Random::for_case(seed, index);
    let this = random.pick(&[7, 8, 3, 500, MAX_TEXT]);
    let books = shelf(&mut random);
    let wanted = random.between(1, 4);
    let strict = random.pick(&[0, 0, 200, 1000]);
    let mut sequence = Sequence::new(random, reading, look, seen, this).with(ours);
    if sequence.random.chance(500) {
        let tree = with_this(bundle(&mut sequence.random, &sequence.program, &books), this);
        if check(&tree).is_ok_and(|records| twice(&records).is_none()) {
            sequence.starts_fresh(&tree)?;
        }
    }
    for _ in 0..14 {
        if sequence.bundles >= wanted {
            break;
        }
        let random = &mut sequence.random;
        let tree = bundle(random, &sequence.program, &books);
        let tree = if random.chance(950) { with_this(tree, this) } else { tree };
        let strict = random.chance(strict);
        sequence.bundle(&tree, strict)?;
    }
    sequence.ends()
}

/// The reading over so many sequences.
pub fn compare_self(reading: Reading, look: Look, seed: u64, count: u64, stop: bool) -> Seen {
    compare_grown(reading, look, seed, count, stop, None)
}

/// The same with a library beside it.
pub fn compare_grown(reading: Reading, look: Look, seed: u64, count: u64, stop: bool, mut ours: Option<Ours>) -> Seen {
    let mut seen = Seen::default();
    for index in 0..count {
        seen.sequences += 1;
        let again = ours.as_mut().map(Ours::again);
        if let Err(message) = sequence(reading, look, (seed, index), &mut seen, again) {
            seen.differences += 1;
            seen.first.get_or_insert(format!("sequence {index}: {message}"));
            if stop {
                break;
            }
        }
    }
    seen
}
