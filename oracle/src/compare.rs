//! The real Rust against the independent reading, bundle by bundle.

use crate::alive::alive;
use crate::areas::{
    answer, area, capacities, cut, Answer, Areas, Counts, Delivery, Lengths, Lent, Memory, Reply, AREAS, ENTRY_WORDS,
    UNLIMITED,
};
use crate::books::has_late_include;
use crate::generate::{case, Case, Sizes};
use crate::model::constant::{FLOAT, INTEGER};
use crate::model::{compile, first_beyond, Run};
use crate::random::Random;
use crate::real::{run_counting, Outcome};
use crate::records::{flatten, records, trees, words, Node, Record};
use crate::slot_calls::{judge_tables, Tables};
use crate::views::{view, Answered, Viewed};
use std::fmt::Debug;

/// Code that the Rust, which has no areas, is still let to make.
const MAX_CODE: usize = 4_000_000;

const AREA_FULL: u64 = 9;

/// A side that answers a bundle in lent memory. The model is one; the static library of this
/// repository is another (src/ours.rs).
pub trait Side {
    fn name(&self) -> &str;
    fn compile<'a>(&mut self, words: &[u64], lent: Lent<'a>) -> Answered<'a>;

    /// What the typed views say of an answer.
    fn view(&self, answered: &Answered) -> Result<Viewed, String> {
        view(answered)
    }
}

pub struct Model;

impl Side for Model {
    fn name(&self) -> &str {
        "model"
    }

    fn compile<'a>(&mut self, words: &[u64], lent: Lent<'a>) -> Answered<'a> {
        let run = compile(words, &lent.cut());
        Answered { reply: run.reply.into(), areas: lent.write(&run.areas) }
    }
}

/// What lent memory holds before a call.
pub const STALE: u64 = 0xA5A5_A5A5_A5A5_A5A5;

#[derive(Clone, Debug, Default, PartialEq, Eq)]
pub struct Tally {
    pub cases: u64,
    pub records: u64,
    /// Cases that the Rust answered (delivered, or rows 6 to 8).
    pub compared: u64,
    pub rows: [u64; 10],
    /// Bundles past row 5 with an include below another definition.
    pub late: u64,
    pub panics: u64,
    /// `this` numbered as `main`.
    pub inexpressible: u64,
    /// Too much code for the Rust to be let loose on.
    pub oversized: u64,
    pub errors: [u64; 12],
    pub floats: Floats,
    /// Lengths tried on the model, and row 9 by area.
    pub lengths: u64,
    pub full: [u64; AREAS],
    /// Calls of the third side, by row, and row 9 by area.
    pub calls: [u64; 10],
    pub calls_full: [u64; AREAS],
    /// Those among them with a table of slots.
    pub tables: Tables,
    pub differences: u64,
}

/// Deliveries that were compared with the Rust, by what stands in their pools (2026-05).
#[derive(Clone, Copy, Debug, Default, PartialEq, Eq)]
pub struct Floats {
    /// The Rust added some float again, and entries that it added so.
    pub repeated: u64,
    pub merged: u64,
    /// Both zeros; two NaNs or more; a float and an integer of the same bits.
    pub zeros: u64,
    pub nans: u64,
    pub integers: u64,
}

impl Floats {
    /// Of one answer, from which the merging took this many entries.
    fn of(answer: &Answer, merged: u64) -> Floats {
        let Answer::Delivered(Delivery { constants, .. }) = answer else { return Floats::default() };
        let has = |constant: (u64, u64)| constants.contains(&constant);
        let floats = || constants.iter().filter(|constant| constant.0 == FLOAT).map(|constant| constant.1);
        Floats {
            repeated: u64::from(merged > 0),
            merged,
            zeros: u64::from(has((FLOAT, 0)) && has((FLOAT, 1 << 63))),
            nans: u64::from(floats().filter(|&bits| f64::from_bits(bits).is_nan()).count() > 1),
            integers: u64::from(floats().any(|bits| has((INTEGER, bits)))),
        }
    }

    fn join(&mut self, other: &Floats) {
        self.repeated += other.repeated;
        self.merged += other.merged;
        self.zeros += other.zeros;
        self.nans += other.nans;
        self.integers += other.integers;
    }
}

/// What one case showed.
struct Verdict {
    row: u64,
    late: bool,
    outcome: Seen,
    errors: Vec<u64>,
    floats: Floats,
}

enum Seen {
    Compared,
    Panicked,
    Inexpressible,
    Oversized,
    NotForTheRust,
}

fn limited() -> Lengths {
    let mut lengths = UNLIMITED;
    lengths[0] = MAX_CODE;
    lengths
}

/// Compares the model's answer without limits to the Rust's.
fn judge(case: &Case) -> Result<(Verdict, Run), String> {
    let model = compile(&case.words, &limited());
    let row = model.reply.row;
    if let Some(expected) = case.expected {
        if expected != (row, model.reply.place) {
            return Err(format!("broken to answer {expected:?}, the model answers {:?}", model.reply));
        }
    }
    let mut verdict = Verdict { row, late: false, outcome: Seen::NotForTheRust, errors: Vec::new(), floats: Floats::default() };
    if row == AREA_FULL {
        verdict.outcome = Seen::Oversized;
        return Ok((verdict, model));
    }
    if (1..=5).contains(&row) {
        return Ok((verdict, model));
    }
    keeps_count(&case.words, &model)?;
    verdict.late = late_include(&records(&case.words));
    let ours = answer(&model.reply, &model.areas);
    if let Answer::Refused { errors, .. } = &ours {
        verdict.errors = errors.iter().map(|error| error[0]).collect();
    }
    let (theirs, merged) = run_counting(&records(&case.words));
    verdict.outcome = match theirs {
        Outcome::Inexpressible => Seen::Inexpressible,
        Outcome::Unforeseen(message) => return Err(format!("unforeseen: {message}")),
        Outcome::Panicked if model.panics => Seen::Panicked,
        Outcome::Panicked => return Err("the Rust panics, the model does not expect it".to_string()),
        Outcome::Answer(_) if model.panics => return Err("the model expects a panic of the Rust".to_string()),
        Outcome::Answer(theirs) if theirs == ours => {
            verdict.floats = Floats::of(&theirs, merged);
            Seen::Compared
        }
        Outcome::Answer(theirs) => return Err(difference(("the Rust", &theirs), ("the model", &ours))),
    };
    Ok((verdict, model))
}

fn late_include(records: &[Record]) -> bool {
    let mut at = 0;
    while at < records.len() {
        if has_late_include(records, at) {
            return true;
        }
        at += records[at].span as usize;
    }
    false
}

/// What a delivery must hold by itself: totals that say how much is there, and the greatest numbers
/// of names and breaks alive, which the Rust does not tell, as counted over the tree.
fn keeps_count(words: &[u64], model: &Run) -> Result<(), String> {
    if model.reply.row != 0 {
        return Ok(());
    }
    for i in 0..AREAS {
        if model.areas[i].len() as u64 != model.reply.totals[i] * ENTRY_WORDS[i] as u64 {
            return Err(format!("area {} holds other than its total", i + 1));
        }
    }
    let peaks = model.peaks();
    let (names, breaks) = alive(words);
    if (peaks[area::NAMES - 1], peaks[area::BREAKS - 1]) != (names, breaks) {
        return Err(format!("names and breaks alive: {:?}, over the tree {:?}", &peaks[8..10], (names, breaks)));
    }
    Ok(())
}

/// The first lines in which two answers differ, with who gives them.
fn difference<T: Debug>(here: (&str, &T), there: (&str, &T)) -> String {
    let (left, right) = (format!("{:#?}", here.1), format!("{:#?}", there.1));
    let unequal = left.lines().zip(right.lines()).enumerate().find(|(_, (a, b))| a != b);
    match unequal {
        Some((line, (a, b))) => format!("line {line} of the answer: {} {a:?}, {} {b:?}", here.0, there.0),
        None => format!("answers of {} and {} lines", left.lines().count(), right.lines().count()),
    }
}

/// Lengths in words worth trying: exactly what is needed, one entry short, small, and plenty.
pub fn lengths(random: &mut Random, peaks: &Counts) -> Lengths {
    let style = random.below(4);
    let short = random.index(AREAS);
    std::array::from_fn(|i| {
        let peak = peaks[i] as usize;
        let entries = match style {
            0 => peak,
            1 if i == short => peak.saturating_sub(1),
            1 => peak + random.index(3),
            2 => random.index(peak + 2),
            _ => peak + random.index(40),
        };
        // A tail shorter than an entry counts for nothing.
        entries * ENTRY_WORDS[i] + random.index(ENTRY_WORDS[i])
    })
}

/// Row 9 met and row 9 foretold from the run without limits must agree; anything else must be the
/// same answer as without limits.
fn judge_lengths(case: &Case, free: &Run, lengths: &Lengths) -> Result<u64, String> {
    let foretold = first_beyond(free, &capacities(lengths));
    let tight = compile(&case.words, lengths);
    let expected = match foretold {
        Some(place) if free.reply.row == 0 || free.reply.row >= 7 => Reply::refusal(AREA_FULL, place),
        _ => free.reply,
    };
    if tight.reply != expected {
        return Err(format!("lengths {lengths:?}: foretold {expected:?}, met {:?}", tight.reply));
    }
    let areas = if tight.reply.row == AREA_FULL { Areas::default() } else { free.areas.clone() };
    if tight.areas != areas {
        return Err(format!("lengths {lengths:?}: other words than without limits"));
    }
    Ok(if expected.row == AREA_FULL { expected.place } else { 0 })
}

/// Words left over behind the last area, in one way of lending.
const LEFT_OVER: usize = 9;

/// The ways of lending areas of these lengths, as lengths and words of memory: with words left over; with lengths that pass the
/// memory's end, from the last area on that has a word; and exactly.
pub fn ways(lengths: &Lengths) -> [(Lengths, usize); 3] {
    let size = lengths.iter().sum();
    let last = lengths.iter().rposition(|&length| length > 0).unwrap_or(0);
    let passing = std::array::from_fn(|i| if i < last { lengths[i] } else { usize::MAX });
    [(*lengths, size + LEFT_OVER), (passing, size), (*lengths, size)]
}

/// Calls of a third side with areas of these lengths, in each way of lending them.
fn judge_call(
    side: &mut dyn Side,
    words: &[u64],
    lengths: &Lengths,
    reply: &Reply,
    areas: &Areas,
) -> Result<(), String> {
    ways(lengths).iter().try_for_each(|(lengths, size)| judge_lent(side, words, lengths, *size, reply, areas))
}

/// One call of a third side in stale memory of this many words.
fn judge_lent(
    side: &mut dyn Side,
    words: &[u64],
    lengths: &Lengths,
    size: usize,
    reply: &Reply,
    areas: &Areas,
) -> Result<(), String> {
    judge_in(side, words, Memory::of(lengths, size, STALE), reply, areas)
}

/// One call of a third side: the reply, every word of every area, what the typed views say, the words left
/// over and those beside the memory, and the input left alone. `areas` are the words expected up to the last
/// entry.
pub fn judge_in(
    side: &mut dyn Side,
    words: &[u64],
    mut memory: Memory,
    reply: &Reply,
    areas: &Areas,
) -> Result<(), String> {
    let kept = words.to_vec();
    let lengths = *memory.lengths();
    let places: [_; AREAS] = std::array::from_fn(|i| memory.area(i).as_ptr_range());
    let answered = side.compile(words, memory.lend());
    let met: Reply = answered.reply.into();
    if met != *reply {
        return Err(format!("lengths {lengths:?}: the model {reply:?}, {} {met:?}", side.name()));
    }
    if answered.areas.map(|area| area.as_ptr_range()) != places {
        return Err(format!("lengths {lengths:?}: {} answers other areas than it was lent", side.name()));
    }
    for i in 0..AREAS {
        let (area, used) = (answered.areas[i], areas[i].len());
        if area[..used] == areas[i] && area[used..].iter().all(|&word| word == 0) {
            continue;
        }
        let expected = |at: usize| areas[i].get(at).copied().unwrap_or(0);
        let at = (0..area.len()).find(|&at| area[at] != expected(at)).expect("some word is another");
        let (here, there) = (expected(at), area[at]);
        return Err(format!(
            "lengths {lengths:?}: area {} word {at}: the model {here}, {} {there}",
            i + 1,
            side.name()
        ));
    }
    let viewed = side.view(&answered).map_err(|message| format!("lengths {lengths:?}: {message}"))?;
    let expected = Viewed { reply: *reply, answer: answer(reply, areas) };
    if viewed != expected {
        let message = difference(("the views", &viewed), ("the model", &expected));
        return Err(format!("lengths {lengths:?}: {message}"));
    }
    if let Some(at) = memory.left_over().iter().position(|&word| word != 0) {
        let (slots, left) = (memory.left_over().len(), memory.left_over()[at]);
        return Err(format!("lengths {lengths:?}: {} leaves {left} in slot {at} of {slots}", side.name()));
    }
    if !memory.is_kept_beside() {
        return Err(format!("lengths {lengths:?}: {} writes beside the memory", side.name()));
    }
    if kept != words {
        return Err(format!("lengths {lengths:?}: {} changes the input", side.name()));
    }
    Ok(())
}

/// Compares a third side with the model for these lengths; answers the model's reply.
pub fn judge_side(side: &mut dyn Side, words: &[u64], lengths: &Lengths) -> Result<Reply, String> {
    let run = compile(words, lengths);
    judge_call(side, words, lengths, &run.reply, &run.areas)?;
    Ok(run.reply)
}

/// The same in a memory of this many words, which may be fewer than the lengths have: they are cut at its end.
fn judge_cut(side: &mut dyn Side, words: &[u64], lengths: &Lengths, size: usize) -> Result<Reply, String> {
    let run = compile(words, &cut(lengths, size));
    judge_lent(side, words, lengths, size, &run.reply, &run.areas)?;
    Ok(run.reply)
}

/// Row and place of each call of a third side.
pub type Calls = Vec<(u64, u64)>;

/// What must be answered with these lengths, foretold from the run without limits.
pub fn foretold(free: &Run, lengths: &Lengths) -> (Reply, Areas) {
    match first_beyond(free, &capacities(lengths)) {
        Some(place) => (Reply::refusal(AREA_FULL, place), Areas::default()),
        None => (free.reply, free.areas.clone()),
    }
}

/// Each area exactly full; each one entry short in turn; all empty.
fn judge_edges(side: &mut dyn Side, case: &Case, free: &Run) -> Result<Calls, String> {
    let peaks = free.peaks();
    let exact: Lengths = std::array::from_fn(|i| peaks[i] as usize * ENTRY_WORDS[i]);
    let mut tried = vec![exact, [0; AREAS]];
    tried.extend((0..AREAS).filter(|&i| exact[i] > 0).map(|i| {
        let mut short = exact;
        short[i] -= 1;
        short
    }));
    let mut calls = Vec::new();
    for lengths in tried {
        let (reply, areas) = foretold(free, &lengths);
        judge_call(side, &case.words, &lengths, &reply, &areas)?;
        calls.push((reply.row, reply.place));
    }
    Ok(calls)
}

/// More code than the Rust is let to make: a third side must stop where the model does.
fn judge_oversized(side: &mut dyn Side, case: &Case, stopped: &Run) -> Result<Calls, String> {
    let peaks = stopped.peaks();
    let mut lengths: Lengths = std::array::from_fn(|i| peaks[i] as usize * ENTRY_WORDS[i]);
    lengths[0] = MAX_CODE;
    judge_call(side, &case.words, &lengths, &stopped.reply, &stopped.areas)?;
    Ok(vec![(stopped.reply.row, stopped.reply.place)])
}

/// What is counted of one case.
struct Judged {
    verdict: Verdict,
    full: Vec<u64>,
    calls: Calls,
    tables: Tables,
}

/// Everything about one case; lengths come from the case's own stream, so that shrinking keeps them alike.
fn judge_all(case: &Case, stream: u64, side: &mut Option<&mut dyn Side>) -> Result<Judged, String> {
    let (verdict, free) = judge(case)?;
    let mut judged = Judged { verdict, full: Vec::new(), calls: Vec::new(), tables: Tables::default() };
    if matches!(judged.verdict.outcome, Seen::Oversized) {
        if let Some(side) = side {
            judged.calls = judge_oversized(*side, case, &free)?;
        }
        return Ok(judged);
    }
    let (mut random, mut sizes) = (Random::new(stream), Random::new(!stream));
    let peaks = free.peaks();
    for _ in 0..3 {
        let lengths = lengths(&mut random, &peaks);
        judged.full.push(judge_lengths(case, &free, &lengths)?);
        if let Some(side) = side {
            let reply = judge_side(*side, &case.words, &lengths)?;
            judged.calls.push((reply.row, reply.place));
            let size = sizes.index(lengths.iter().sum::<usize>() + 1);
            let reply = judge_cut(*side, &case.words, &lengths, size)?;
            judged.calls.push((reply.row, reply.place));
        }
    }
    if let Some(side) = side {
        judged.calls.extend(judge_edges(*side, case, &free)?);
        let (calls, tables) = judge_tables(*side, &case.words, &free, &mut sizes)?;
        judged.calls.extend(calls);
        judged.tables = tables;
    }
    Ok(judged)
}

pub struct Difference {
    pub index: u64,
    pub message: String,
    pub shrunk: Vec<u64>,
}

/// Which cases to compare.
#[derive(Clone, Copy, Debug)]
pub struct Plan {
    pub seed: u64,
    pub count: u64,
    pub sizes: Sizes,
    /// Whether the first difference ends it, not shrunk.
    pub stop: bool,
    /// Whether bundles with an include below another definition are left out.
    pub head_includes: bool,
}

/// Compares cases `0..count` of a seed; answers the counts and the first difference, shrunk.
pub fn compare(plan: Plan, mut side: Option<&mut dyn Side>) -> (Tally, Option<Difference>) {
    let Plan { seed, count, sizes, stop, head_includes } = plan;
    let mut tally = Tally::default();
    let mut first = None;
    for index in 0..count {
        let made = case(seed, index, sizes);
        if head_includes && trees(&made.words).is_some() && late_include(&records(&made.words)) {
            continue;
        }
        let stream = seed ^ index.rotate_left(32);
        tally.cases += 1;
        tally.records += made.words.len() as u64 / 4;
        match judge_all(&made, stream, &mut side) {
            Ok(judged) => tally.add(&judged),
            Err(message) => {
                tally.differences += 1;
                if stop {
                    return (tally, Some(Difference { index, message, shrunk: made.words }));
                }
                if first.is_none() {
                    let shrunk = shrink(&made.words, |words| {
                        let smaller = Case { words: words.to_vec(), expected: None };
                        judge_all(&smaller, stream, &mut side).is_err()
                    });
                    first = Some(Difference { index, message, shrunk });
                }
            }
        }
    }
    (tally, first)
}

impl Tally {
    fn add(&mut self, Judged { verdict, full, calls, tables }: &Judged) {
        self.tables.join(tables);
        for &(row, place) in calls {
            self.calls[row as usize] += 1;
            if row == AREA_FULL {
                self.calls_full[place as usize - 1] += 1;
            }
        }
        match verdict.outcome {
            Seen::Compared => self.compared += 1,
            Seen::Panicked => self.panics += 1,
            Seen::Inexpressible => self.inexpressible += 1,
            Seen::Oversized => {
                self.oversized += 1;
                return;
            }
            Seen::NotForTheRust => {}
        }
        self.rows[verdict.row as usize] += 1;
        self.floats.join(&verdict.floats);
        self.late += u64::from(verdict.late);
        for &error in &verdict.errors {
            self.errors[error as usize] += 1;
        }
        self.lengths += full.len() as u64;
        for &area in full.iter().filter(|&&area| area != 0) {
            self.full[area as usize - 1] += 1;
        }
    }

    /// The counts of another run beside these.
    pub fn join(&mut self, other: &Tally) {
        fn each(here: &mut [u64], there: &[u64]) {
            here.iter_mut().zip(there).for_each(|(here, there)| *here += there);
        }
        self.cases += other.cases;
        self.records += other.records;
        self.compared += other.compared;
        each(&mut self.rows, &other.rows);
        self.late += other.late;
        self.panics += other.panics;
        self.inexpressible += other.inexpressible;
        self.oversized += other.oversized;
        each(&mut self.errors, &other.errors);
        self.floats.join(&other.floats);
        self.lengths += other.lengths;
        each(&mut self.full, &other.full);
        each(&mut self.calls, &other.calls);
        each(&mut self.calls_full, &other.calls_full);
        self.tables.join(&other.tables);
        self.differences += other.differences;
    }

    pub fn print(&self) {
        println!("cases {}, records {}", self.cases, self.records);
        println!("compared with the Rust {}", self.compared);
        println!("delivered {}", self.rows[0]);
        for row in 2..=8 {
            println!("refused by row {row}: {}", self.rows[row]);
        }
        println!("with an include below another definition {}", self.late);
        let errors: Vec<String> = (1..12).map(|n| format!("{n}: {}", self.errors[n])).collect();
        println!("errors listed, by number: {}", errors.join(", "));
        let Floats { repeated, merged, zeros, nans, integers } = self.floats;
        println!("pools with a float that the Rust adds again {repeated}, entries merged {merged}");
        println!(
            "pools with both zeros {zeros}, with two NaNs {nans}, with a float and an integer of its bits {integers}"
        );
        println!("panics of emit_return {}", self.panics);
        println!("`this` numbered as `main`, not for the Rust {}", self.inexpressible);
        println!("more than {} code entries, not for the Rust {}", MAX_CODE / ENTRY_WORDS[0], self.oversized);
        let full: Vec<String> = self.full.iter().enumerate().map(|(i, n)| format!("{}: {n}", i + 1)).collect();
        println!("lengths tried {}, row 9 by area: {}", self.lengths, full.join(", "));
        let calls: u64 = self.calls.iter().sum();
        if calls > 0 {
            println!("calls of the library {calls}, by row 0 to 9: {:?}", self.calls);
            println!("  row 9 by area 1 to 12: {:?}", self.calls_full);
            let Tables { lent, to_the_end, slots } = self.tables;
            println!("  with a table of slots {lent}, delivered with more slots than constants {to_the_end}, slots compared {slots}");
        }
        println!("differences {}", self.differences);
    }
}

/// Tries of one shrinking; the smallest found by then is good enough.
const SHRINK_TRIES: usize = 4000;

/// Makes words smaller for as long as they still differ.
pub fn shrink(start: &[u64], mut differs: impl FnMut(&[u64]) -> bool) -> Vec<u64> {
    let mut best = start.to_vec();
    let mut tries = 0;
    let mut differs = |words: &[u64]| {
        tries += 1;
        tries <= SHRINK_TRIES && differs(words)
    };
    loop {
        let before = best.len();
        best = match trees(&best) {
            Some(nodes) => shrink_trees(nodes, &mut differs),
            None => shrink_records(best, &mut differs),
        };
        if best.len() >= before {
            return best;
        }
    }
}

/// From the documents down: takes children out in runs, then puts children in their parents' places.
fn shrink_trees(mut nodes: Vec<Node>, differs: &mut impl FnMut(&[u64]) -> bool) -> Vec<u64> {
    let mut depth = 0;
    loop {
        let parents = paths(&nodes, depth);
        if parents.is_empty() {
            return flatten(&nodes);
        }
        // Backwards, so that the paths still to come stay right.
        for path in parents.iter().rev() {
            take_out_runs(&mut nodes, path, differs);
            put_up_children(&mut nodes, path, differs);
        }
        depth += 1;
    }
}

/// Paths of this length to nodes that have children; the empty path is the bundle itself.
fn paths(nodes: &[Node], length: usize) -> Vec<Vec<usize>> {
    if length == 0 {
        return if nodes.is_empty() { Vec::new() } else { vec![Vec::new()] };
    }
    let below = |(place, node): (usize, &Node)| {
        let rest = paths(&node.children, length - 1).into_iter();
        rest.map(move |path| [vec![place], path].concat()).collect::<Vec<_>>()
    };
    nodes.iter().enumerate().flat_map(below).collect()
}

fn children_at<'a>(nodes: &'a mut Vec<Node>, path: &[usize]) -> &'a mut Vec<Node> {
    path.iter().fold(nodes, |list, &child| &mut list[child].children)
}

fn take_out_runs(nodes: &mut Vec<Node>, path: &[usize], differs: &mut impl FnMut(&[u64]) -> bool) {
    let mut length = children_at(nodes, path).len();
    while length > 0 {
        let mut at = 0;
        while at + length <= children_at(nodes, path).len() {
            let mut smaller = nodes.clone();
            children_at(&mut smaller, path).drain(at..at + length);
            if differs(&flatten(&smaller)) {
                *nodes = smaller;
            } else {
                at += length;
            }
        }
        length /= 2;
    }
}

fn put_up_children(nodes: &mut Vec<Node>, path: &[usize], differs: &mut impl FnMut(&[u64]) -> bool) {
    for place in 0..children_at(nodes, path).len() {
        let heirs = children_at(nodes, path)[place].children.clone();
        for heir in heirs {
            let mut smaller = nodes.clone();
            children_at(&mut smaller, path)[place] = heir;
            if differs(&flatten(&smaller)) {
                *nodes = smaller;
                break;
            }
        }
    }
}

/// For words whose spans do not nest: takes out runs of records, from long to short.
fn shrink_records(best: Vec<u64>, differs: &mut impl FnMut(&[u64]) -> bool) -> Vec<u64> {
    let rest: Vec<u64> = best[best.len() / 4 * 4..].to_vec();
    let mut list = records(&best);
    let mut length = list.len();
    while length > 0 {
        let mut at = 0;
        while at + length <= list.len() {
            let mut smaller = list.clone();
            smaller.drain(at..at + length);
            if differs(&[words(&smaller), rest.clone()].concat()) {
                list = smaller;
            } else {
                at += length;
            }
        }
        length /= 2;
    }
    [words(&list), rest].concat()
}
