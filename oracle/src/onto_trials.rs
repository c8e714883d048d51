//! Trials and their commits (02, 2026-08): a bundle is tried on a grown program and committed as it was tried; and from the same
//! state it is committed with another bundle, in the other mode, with other counts, in other lengths and with each of the trial's
//! totals otherwise (`onto --trials`). A side's answers are held against the reading of onto.rs, reply and every word lent.

use crate::areas::{area, Areas, Counts, Lengths, AREAS, ENTRY_WORDS};
use crate::onto::{Lent, Reading};
use crate::onto_calls::{drawn_way, judge_in, OntoCalls};
use crate::random::Random;
use crate::records::{flatten, kind, trees, Node};
use crate::standing::{program_check, run, Answered, Call, Order, Totals, MOST_BUNDLES};
use crate::standing_calls::{bundle, damaged, odd, sample, shelf, Program, ROOMY};
use std::collections::BTreeMap;

const AREA_FULL: u64 = 9;
/// Bundles that a sequence draws before it gives up: some make more code than is laid on here.
const DRAWS: usize = 8;

/// What is asked: the first three in their order, and then commits that differ from the trial in one thing.
#[derive(Clone, Copy, Debug, PartialEq, Eq, PartialOrd, Ord)]
pub enum Asked {
    /// Laying on, so that what a trial must answer is known from the same side.
    Lay,
    Trial,
    /// A commit with the totals that the side's trial answered.
    Commit,
    /// Once more, on the program that the commit delivered.
    Again,
    OtherBundle,
    /// The same bundle but for a `return` more in a body, which no total of line 1 tells.
    LongerBody,
    OtherMode,
    OtherCount,
    /// With a bundle that breaks off.
    OtherCountBroken,
    /// On a damaged program.
    Unfit,
    LongerAreas,
    ShortArea,
    OtherTotal,
}

/// What a comparison saw.
#[derive(Clone, Debug, Default)]
pub struct Trials {
    pub sequences: u64,
    /// Sequences by the row that the trial answered.
    pub tried: BTreeMap<u64, u64>,
    /// Calls by what was asked and the row of the answer; row 3 of the program check with its place.
    pub rows: BTreeMap<(Asked, u64), u64>,
    pub differences: u64,
    pub first: Option<String>,
}

impl Trials {
    pub fn calls(&self) -> u64 {
        self.rows.values().sum()
    }

    /// How often an answer came.
    pub fn of(&self, asked: Asked, row: u64) -> u64 {
        self.rows.get(&(asked, row)).copied().unwrap_or(0)
    }

    pub fn print(&self) {
        println!("sequences {}, trials by row {:?}", self.sequences, self.tried);
        let mut by_asked: BTreeMap<Asked, Vec<String>> = BTreeMap::new();
        for ((asked, row), count) in &self.rows {
            by_asked.entry(*asked).or_default().push(format!("{row}: {count}"));
        }
        for (asked, rows) in by_asked {
            println!("  {asked:?} by row: {}", rows.join(", "));
        }
        println!("calls {}, differences {}", self.calls(), self.differences);
    }
}

/// A program, grown by up to two bundles on one of several beginnings, with a count of its own.
fn program(random: &mut Random, books: &[Node]) -> Program {
    let mut program = match random.below(8) {
        0 => Program::least(),
        1 | 2 => odd(random),
        3 => sample(),
        _ => grown(random, &Program::least(), books),
    };
    for _ in 0..random.below(3) {
        program = grown(random, &program, books);
    }
    program.totals.bundles = random.pick(&[1, 1, 2, 3, 1000, MOST_BUNDLES - 1, MOST_BUNDLES]);
    program
}

/// The program with a bundle, where one is delivered.
fn grown(random: &mut Random, program: &Program, books: &[Node]) -> Program {
    let words = bundle(random, program, books);
    match run(&words, false, Some((&program.entries, &program.totals)), ROOMY) {
        Ok(run) if run.reply.row == 0 => Program::of(run.areas, run.reply.entry_point),
        _ => program.clone(),
    }
}

/// The entries that a bundle needs in each area; none where it makes too much code.
fn peaks(program: &Program, words: &[u64], strict: bool) -> Option<Counts> {
    let lent = Lent { areas: &program.entries, totals: &program.totals };
    let (peaks, ended) = Reading::default().needs(words, strict, lent, ROOMY);
    let stood = |i: usize| if i == area::ERRORS - 1 { 0 } else { program.totals.areas[i] };
    let needed = std::array::from_fn(|i| peaks[i].max(stood(i)));
    (ended != Some((AREA_FULL, area::CODE as u64))).then_some(needed)
}

/// Lengths in words of so many entries, with a tail shorter than one.
fn lengths(random: &mut Random, entries: &Counts) -> Lengths {
    std::array::from_fn(|i| entries[i] as usize * ENTRY_WORDS[i] + random.index(ENTRY_WORDS[i]))
}

/// A bundle with one `return` more at the end of its first function; none where it has none.
fn with_return(words: &[u64]) -> Option<Vec<u64>> {
    let mut books = trees(words)?;
    let is_function = |node: &Node| matches!(node.kind, kind::FUNCTION | kind::PUBLIC_FUNCTION);
    let mut definitions = books.iter_mut().flat_map(|book| &mut book.children);
    definitions.find(|definition| is_function(definition))?.children.push(Node::leaf(kind::RETURN, 0, 0));
    Some(flatten(&books))
}

/// The trial's totals with one of the fifteen one more or one less.
fn other_total(random: &mut Random, trial: &Totals, at: usize) -> Totals {
    let mut other = *trial;
    let total = match at {
        AREAS => &mut other.entry_point,
        13 => &mut other.globals,
        14 => &mut other.bundles,
        _ => &mut other.areas[at],
    };
    *total = total.wrapping_add(random.pick(&[1, u64::MAX]));
    other
}

/// What a bundle meets: the program as it is lent, and the bundle with its mode.
#[derive(Clone)]
struct Met {
    areas: Areas,
    totals: Totals,
    words: Vec<u64>,
    strict: bool,
}

impl Met {
    fn lent(&self) -> Lent<'_> {
        Lent { areas: &self.areas, totals: &self.totals }
    }

    /// What laying on answers, by the reading.
    fn laid(&self) -> Answered {
        Reading::default().lay_on(&self.words, self.strict, self.lent())
    }

    fn call(&self, order: Order) -> Call {
        Call { order, words: self.words.clone(), strict: self.strict, areas: self.areas.clone() }
    }
}

struct Sequence<'a> {
    random: Random,
    side: &'a mut dyn OntoCalls,
    seen: &'a mut Trials,
}

impl Sequence<'_> {
    /// One call of the side, in a way of lending that is drawn.
    fn asks(&mut self, asked: Asked, call: &Call, wanted: &Answered) -> Result<(), String> {
        let way = drawn_way(call, wanted, &mut self.random);
        judge_in(self.side, call, wanted, &way).map_err(|message| format!("{asked:?}: {message}"))?;
        let row = if wanted.is_unfit() { wanted.place } else { wanted.row };
        *self.seen.rows.entry((asked, row)).or_default() += 1;
        Ok(())
    }

    /// A commit with these totals of a trial, where laying on answers this.
    fn commits(&mut self, asked: Asked, met: &Met, laid: &Answered, trial: &Totals) -> Result<(), String> {
        let wanted = Reading::default().committed(laid.clone(), met.lent(), trial);
        self.asks(asked, &met.call(Order::Commit(met.totals, *trial)), &wanted)
    }

    /// A commit whose bundle, mode or lengths are others than the trial's.
    fn commits_otherwise(&mut self, asked: Asked, met: &Met, trial: &Totals) -> Result<(), String> {
        let laid = met.laid();
        self.commits(asked, met, &laid, trial)
    }

    /// The bundle laid on, tried and committed: three answers that belong together. The totals that a commit takes.
    fn tries(&mut self, met: &Met, laid: &Answered) -> Result<Totals, String> {
        let tried = Reading::default().on_trial(laid.clone(), met.lent());
        let kept = |i: usize| i == area::ERRORS - 1 || tried.areas[i] == met.areas[i];
        let counted = Totals { bundles: met.totals.bundles, ..laid.totals };
        if (tried.row, tried.place, tried.totals) != (laid.row, laid.place, counted) || !(0..AREAS).all(kept) {
            return Err(format!("the reading's trial answers {tried:?}"));
        }
        let committed = Reading::default().committed(laid.clone(), met.lent(), &tried.totals);
        if committed != *laid {
            return Err(format!("the reading's commit answers {committed:?}"));
        }
        self.asks(Asked::Lay, &met.call(Order::Lay(met.totals)), laid)?;
        self.asks(Asked::Trial, &met.call(Order::Trial(met.totals)), &tried)?;
        self.asks(Asked::Commit, &met.call(Order::Commit(met.totals, tried.totals)), laid)?;
        *self.seen.tried.entry(tried.row).or_default() += 1;
        Ok(tried.totals)
    }

    /// The same trial once more, on the program that the commit left.
    fn commits_again(&mut self, met: &Met, laid: &Answered, trial: &Totals) -> Result<(), String> {
        let after = Met { areas: laid.areas.clone(), totals: laid.totals, ..met.clone() };
        self.commits_otherwise(Asked::Again, &after, trial)
    }

    fn counts_otherwise(&mut self, met: &Met, laid: &Answered, trial: &Totals) -> Result<(), String> {
        let count = trial.bundles;
        let others = [count.wrapping_add(1), count.wrapping_sub(1), 0, MOST_BUNDLES + 1, u64::MAX];
        for bundles in others {
            self.commits(Asked::OtherCount, met, laid, &Totals { bundles, ..*trial })?;
        }
        let broken = Met { words: met.words[..met.words.len().saturating_sub(1)].to_vec(), ..met.clone() };
        let bundles = self.random.pick(&others);
        self.commits_otherwise(Asked::OtherCountBroken, &broken, &Totals { bundles, ..*trial })?;
        let mut unfit = broken;
        damaged(&mut self.random, &mut unfit.areas, &mut unfit.totals);
        if program_check(&unfit.areas, &unfit.totals).is_some() {
            self.commits_otherwise(Asked::Unfit, &unfit, &Totals { bundles, ..*trial })?;
        }
        Ok(())
    }

    fn lengths_otherwise(
        &mut self,
        program: &Program,
        met: &Met,
        trial: &Totals,
        peaks: &Counts,
    ) -> Result<(), String> {
        let mut longer = *peaks;
        longer.iter_mut().for_each(|entries| *entries += self.random.between(1, 9));
        let areas = program.lent(&lengths(&mut self.random, &longer));
        self.commits_otherwise(Asked::LongerAreas, &Met { areas, ..met.clone() }, trial)?;
        let stood = |i: usize| if i == area::ERRORS - 1 { 0 } else { program.totals.areas[i] };
        let taken: Vec<usize> = (0..AREAS).filter(|&i| peaks[i] > stood(i)).collect();
        if taken.is_empty() {
            return Ok(());
        }
        let mut short = *peaks;
        short[self.random.pick(&taken)] -= 1;
        let areas = program.lent(&lengths(&mut self.random, &short));
        self.commits_otherwise(Asked::ShortArea, &Met { areas, ..met.clone() }, trial)
    }

    /// A grown program, a bundle for it, and all that is asked.
    fn runs(&mut self) -> Result<(), String> {
        let random = &mut self.random;
        let books = if random.chance(300) { shelf(random) } else { Vec::new() };
        let program = program(random, &books);
        let strict = random.chance(350);
        let drawn = (0..DRAWS).find_map(|_| {
            let words = bundle(random, &program, &books);
            peaks(&program, &words, strict).map(|peaks| (words, peaks))
        });
        let Some((words, peaks)) = drawn else { return Ok(()) };
        let slack = random.pick(&[0, 0, 3, 20]);
        let mut areas = program.lent(&lengths(random, &peaks.map(|entries| entries + slack)));
        let mut totals = program.totals;
        // Area 11 is lent with any words and any total.
        areas[area::ERRORS - 1].fill(random.pick(&[0, 5, 0xA5A5, u64::MAX]));
        totals.areas[area::ERRORS - 1] = random.pick(&[0, 1, 5, u64::MAX]);
        let met = Met { areas, totals, words, strict };
        let laid = met.laid();
        let trial = self.tries(&met, &laid)?;
        self.commits_again(&met, &laid, &trial)?;
        let other = bundle(&mut self.random, &program, &books);
        self.commits_otherwise(Asked::OtherBundle, &Met { words: other, ..met.clone() }, &trial)?;
        if let Some(words) = with_return(&met.words) {
            self.commits_otherwise(Asked::LongerBody, &Met { words, ..met.clone() }, &trial)?;
        }
        self.commits_otherwise(Asked::OtherMode, &Met { strict: !strict, ..met.clone() }, &trial)?;
        self.counts_otherwise(&met, &laid, &trial)?;
        self.lengths_otherwise(&program, &met, &trial, &peaks)?;
        (0..AREAS + 3).try_for_each(|at| {
            let other = other_total(&mut self.random, &trial, at);
            self.commits(Asked::OtherTotal, &met, &laid, &other)
        })
    }
}

/// A side over `count` sequences of a seed.
pub fn compare_trials(side: &mut dyn OntoCalls, seed: u64, count: u64) -> Trials {
    let mut seen = Trials::default();
    for index in 0..count {
        seen.sequences += 1;
        let mut sequence = Sequence { random: Random::for_case(seed, index), side, seen: &mut seen };
        if let Err(message) = sequence.runs() {
            seen.differences += 1;
            seen.first.get_or_insert(format!("sequence {index}: {message}"));
        }
    }
    seen
}

#[cfg(test)]
mod tests {
    use super::*;
    use crate::onto::Fault;
    use crate::onto_calls::{Replied, Standing};

    #[test]
    fn both_readings_are_alike_and_every_answer_comes() {
        let seen = compare_trials(&mut Standing, 21, 1500);
        assert_eq!(seen.first, None);
        assert!([0, 2, 3, 4, 5, 6, 7, 8, 11].iter().all(|row| seen.tried[row] > 0), "{seen:?}");
        // Line 1 has seven of the fourteen totals beside the count.
        assert_eq!(seen.of(Asked::OtherTotal, 0), 7 * seen.of(Asked::Trial, 0));
        assert_eq!(seen.of(Asked::OtherTotal, 13), 7 * seen.of(Asked::Trial, 0));
        assert_eq!(seen.of(Asked::OtherTotal, 12), seen.sequences);
        assert_eq!(seen.of(Asked::OtherCount, 12), 5 * seen.sequences);
        assert_eq!(seen.of(Asked::OtherCountBroken, 12), seen.sequences);
        assert!(seen.of(Asked::Again, 12) > 500 && seen.of(Asked::OtherBundle, 13) > 200, "{seen:?}");
        assert!(seen.of(Asked::LongerBody, 0) > 200 && seen.of(Asked::OtherMode, 11) > 100, "{seen:?}");
        assert!(seen.of(Asked::ShortArea, 9) > 500 && seen.of(Asked::LongerAreas, 0) > 500, "{seen:?}");
    }

    #[test]
    fn planted_faults_are_seen() {
        for fault in Fault::ALL {
            let seen = compare_trials(&mut Reading { fault: Some(fault) }, 1, 400);
            assert!(seen.differences > 0, "{fault:?}");
        }
    }

    /// A side that takes one of the trial's totals as it should be.
    struct NotCompared(fn(&mut Totals, &Totals));

    impl OntoCalls for NotCompared {
        fn call(
            &mut self,
            order: &Order,
            tree: &[u64],
            strict: bool,
            lengths: &Lengths,
            memory: &mut [u64],
        ) -> Replied {
            let Order::Commit(totals, mut trial) = *order else {
                return Standing.call(order, tree, strict, lengths, memory);
            };
            let right = Standing.call(&Order::Trial(totals), tree, strict, lengths, &mut memory.to_vec()).totals;
            self.0(&mut trial, &right);
            Standing.call(&Order::Commit(totals, trial), tree, strict, lengths, memory)
        }
    }

    #[test]
    fn each_total_that_is_not_compared_is_seen() {
        let faults: [fn(&mut Totals, &Totals); 8] = [
            |trial, right| trial.areas[area::FUNCTIONS - 1] = right.of(area::FUNCTIONS),
            |trial, right| trial.areas[area::CONSTANTS - 1] = right.of(area::CONSTANTS),
            |trial, right| trial.areas[area::MODELS - 1] = right.of(area::MODELS),
            |trial, right| trial.areas[area::CONTEXT - 1] = right.of(area::CONTEXT),
            |trial, right| trial.areas[area::BOOKS - 1] = right.of(area::BOOKS),
            |trial, right| trial.entry_point = right.entry_point,
            |trial, right| trial.globals = right.globals,
            |trial, right| trial.bundles = right.bundles,
        ];
        for (at, fault) in faults.into_iter().enumerate() {
            assert!(compare_trials(&mut NotCompared(fault), 22, 60).differences > 0, "total {at}");
        }
    }
}
