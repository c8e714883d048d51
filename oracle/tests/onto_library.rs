//! Laying on, trial and commit by a library (02, 2026-01 and 2026-08), on a side of this test that asks a reading: what goes into
//! its calls arrives, what comes back is compared to the last word, the program that is kept over it is the Rust's, and what is
//! wrong in one place is seen.

use oracle::areas::{area, cut, Lengths, AREAS, ENTRY_WORDS, REPLY_WORDS};
use oracle::onto::{Fault, Reading};
use oracle::onto_calls::{compare_calls, compare_damages, OntoCalls, Replied, Standing};
use oracle::onto_grown::{compare_grown, KeptProgram, Look, Ours};
use oracle::onto_sample::{cases, Cases};
use oracle::onto_seen::Seen;
use oracle::standing::{entries_of, Answered, Call, Order, Totals};
use oracle::standing_calls::Program;

type Spoil = fn(&mut Replied, &Lengths, &mut [u64]);

/// The call of standing.rs with a fault; it is lent every way, as the library is.
#[derive(Clone, Copy)]
struct StandIn(Spoil);

impl OntoCalls for StandIn {
    fn call(&mut self, order: &Order, tree: &[u64], strict: bool, lengths: &Lengths, memory: &mut [u64]) -> Replied {
        let mut replied = Standing.call(order, tree, strict, lengths, memory);
        self.0(&mut replied, &cut(lengths, memory.len()), memory);
        replied
    }

    fn is_lent_every_way(&self) -> bool {
        true
    }
}

/// Whether the program check refused.
fn is_unfit(replied: &Replied) -> bool {
    replied.row == 3 && replied.place > 1_048_576
}

const RIGHT_CALL: StandIn = StandIn(|_, _, _| {});

#[test]
fn a_right_call_is_alike() {
    let seen = compare_calls(&mut RIGHT_CALL.clone(), 13, 300);
    assert_eq!(seen.first, None);
    assert!(seen.calls > 1200 && seen.delivered > 400 && seen.asked == 7 * seen.calls, "{seen:?}");
    for row in [2, 3, 4, 5, 6, 7, 8, 9, 11, 12, 13] {
        assert!(seen.refused.keys().any(|key| key.0 == row), "row {row}: {seen:?}");
    }
    // The program check by area.
    let unfit = |number: u64| seen.refused.contains_key(&(3, number));
    assert!((1..=AREAS as u64).filter(|&number| number != 11).all(unfit), "{seen:?}");
}

/// Each area fails the check by some damage, and other damages stand and are laid onto.
#[test]
fn every_damage_is_answered_alike() {
    for side in [&mut Standing as &mut dyn OntoCalls, &mut RIGHT_CALL.clone()] {
        let seen = compare_damages(side, 14, 1);
        assert_eq!(seen.first, None);
        assert!(seen.delivered > 300, "{seen:?}");
        let unfit = |number: u64| seen.refused.get(&(3, number)).is_some_and(|&count| count > 50);
        assert!((1..=AREAS as u64).filter(|&number| number != 11).all(unfit), "{seen:?}");
    }
}

/// Where an area begins.
fn start(lengths: &Lengths, number: usize) -> usize {
    lengths[..number - 1].iter().sum()
}

fn slots<'a>(lengths: &Lengths, memory: &'a mut [u64]) -> &'a mut [u64] {
    &mut memory[lengths.iter().sum()..]
}

const WRONG_CALLS: [Spoil; 18] = [
    // A slot left after a delivery and after row 7, the first or the last; the slots cleared after the check.
    |replied, lengths, memory| {
        if replied.row == 0 {
            slots(lengths, memory).iter_mut().take(1).for_each(|slot| *slot = 1);
        }
    },
    |replied, lengths, memory| {
        if replied.row == 7 {
            slots(lengths, memory).iter_mut().next_back().into_iter().for_each(|slot| *slot = 3);
        }
    },
    |replied, lengths, memory| {
        if is_unfit(replied) {
            slots(lengths, memory).fill(0);
        }
    },
    // Area 11 cleared after the check, and a word of it left after row 6.
    |replied, lengths, memory| {
        if is_unfit(replied) {
            memory[start(lengths, area::ERRORS)..][..lengths[area::ERRORS - 1]].fill(0);
        }
    },
    |replied, lengths, memory| {
        if replied.row == 6 && lengths[area::ERRORS - 1] > 0 {
            memory[start(lengths, area::BOOKS) - 1] = 5;
        }
    },
    // A tail shorter than an entry.
    |replied, lengths, memory| {
        if replied.row == 0 && lengths[area::FUNCTIONS - 1] % ENTRY_WORDS[area::FUNCTIONS - 1] > 0 {
            memory[start(lengths, area::MODELS) - 1] = 1;
        }
    },
    // The words before and behind what is lent; the comparison has some there.
    |_, _, memory| unsafe { *memory.as_mut_ptr().sub(1) = 0 },
    |_, _, memory| unsafe { *memory.as_mut_ptr().add(memory.len()) = 0 },
    // Totals of a delivery, of a refusal, of the check; area 11's as lent; the place.
    |replied, _, _| replied.totals.globals += u64::from(replied.row == 0 && replied.totals.globals > 0),
    |replied, _, _| replied.totals.areas[area::ERRORS - 1] *= u64::from(replied.row != 7),
    |replied, _, _| replied.totals.entry_point ^= u64::from(is_unfit(replied)),
    |replied, _, _| replied.totals.areas[area::BOOKS - 1] += u64::from(replied.row == 9),
    |replied, _, _| replied.place ^= u64::from(replied.row == 0),
    // The number of bundles of a delivery or a trial, of a refusal, of the check, and after row 13.
    |replied, _, _| replied.totals.bundles += u64::from(replied.row == 0),
    |replied, _, _| replied.totals.bundles += u64::from(replied.row == 7),
    |replied, _, _| replied.totals.bundles ^= u64::from(is_unfit(replied)),
    |replied, _, _| replied.totals.bundles += u64::from(replied.row == 13),
    // The last word of a memory that ends with area 12.
    |replied, lengths, memory| {
        if replied.row == 0 && lengths.iter().sum::<usize>() == memory.len() && lengths[area::BOOKS - 1] > 3 {
            memory.last_mut().into_iter().for_each(|word| *word = 1);
        }
    },
];

#[test]
fn wrong_calls_are_seen() {
    for (at, spoil) in WRONG_CALLS.into_iter().enumerate() {
        let seen = compare_calls(&mut StandIn(spoil), 15, 150);
        assert!(seen.differences > 0, "fault {at}");
    }
}

/// What was done to a program that is kept.
#[derive(Clone, Copy, PartialEq, Eq)]
enum Did {
    Compile,
    Lay,
    Trial,
    Commit,
}

type SpoilKept = fn(&mut StandInProgram, Did, u64);

/// A program kept by the reading of standing.rs, with a fault after each call, which has done something and answered a row.
struct StandInProgram {
    program: Program,
    trial: Totals,
    words_cut: usize,
    spoil: SpoilKept,
}

impl StandInProgram {
    fn new(words_cut: usize, spoil: SpoilKept) -> StandInProgram {
        StandInProgram { program: Program::least(), trial: Totals::default(), words_cut, spoil }
    }

    /// The answer to a call on the program, in more room than the calls of these comparisons take.
    fn answered(&self, order: Order, tree: &[u64], strict: bool) -> Answered {
        let more = |i: usize| ENTRY_WORDS[i] * if i == area::CODE - 1 { 20_000 } else { 2_000 };
        let lengths = std::array::from_fn(|i| self.program.entries[i].len() + more(i));
        Call { order, words: tree.to_vec(), strict, areas: self.program.lent(&lengths) }.answer()
    }

    /// The next call is lent what this one left.
    fn goes_on(&mut self, did: Did, answered: &Answered) -> (u64, u64) {
        if answered.row == 0 {
            let entries = entries_of(&answered.areas, &answered.totals);
            self.program = Program { entries, totals: answered.totals };
        }
        (self.spoil)(self, did, answered.row);
        (answered.row, answered.place)
    }
}

impl KeptProgram for StandInProgram {
    fn start(&mut self) {
        *self = StandInProgram::new(self.words_cut, self.spoil);
    }

    fn compile(&mut self, tree: &[u64], strict: bool) -> (u64, u64) {
        let answered = self.answered(Order::Fresh, tree, strict);
        self.goes_on(Did::Compile, &answered)
    }

    fn lay_on(&mut self, tree: &[u64], strict: bool) -> (u64, u64) {
        let answered = self.answered(Order::Lay(self.program.totals), tree, strict);
        self.goes_on(Did::Lay, &answered)
    }

    fn trial(&mut self, tree: &[u64], strict: bool) -> Result<Totals, (u64, u64)> {
        let answered = self.answered(Order::Trial(self.program.totals), tree, strict);
        self.trial = answered.totals;
        (self.spoil)(self, Did::Trial, answered.row);
        if answered.row == 0 {
            Ok(self.trial)
        } else {
            Err((answered.row, answered.place))
        }
    }

    fn commit(&mut self, tree: &[u64], strict: bool) -> (u64, u64) {
        let answered = self.answered(Order::Commit(self.program.totals, self.trial), tree, strict);
        self.goes_on(Did::Commit, &answered)
    }

    fn saved(&self) -> Vec<u64> {
        let Totals { areas, entry_point, globals, bundles } = self.program.totals;
        let mut words = [&areas[..], &[entry_point, globals, bundles], &self.program.entries.concat()].concat();
        words.truncate(words.len() - self.words_cut);
        words
    }

    fn load(&mut self, words: &[u64]) -> Result<(), String> {
        if words == self.saved() {
            return Ok(());
        }
        Err("another program".to_string())
    }
}

fn grown_with(call: StandIn, words_cut: usize, spoil: SpoilKept) -> Seen {
    let (mut calls, mut kept) = (call, StandInProgram::new(words_cut, spoil));
    let ours = Ours { calls: &mut calls, kept: &mut kept };
    compare_grown(Reading::default(), Look::AllLeft, 16, 120, true, Some(ours))
}

#[test]
fn a_library_grows_the_rusts_programs() {
    let seen = grown_with(RIGHT_CALL, 0, |_, _, _| {});
    assert_eq!(seen.first, None);
    assert!(seen.asked > 1000 && seen.kept > 300, "{seen:?}");
}

#[test]
fn wrong_programs_that_are_kept_are_seen() {
    let faults: [SpoilKept; 11] = [
        // A mark, a method's function or the entry point left after a refusal; a word more.
        |kept, _, row| {
            if row == 7 {
                kept.program.entries[area::CONSTANTS - 1][2] ^= 1;
            }
        },
        |kept, _, row| {
            if row != 0 {
                kept.program.entries[area::METHODS - 1].iter_mut().skip(2).step_by(3).for_each(|word| *word += 1);
            }
        },
        |kept, _, row| kept.program.totals.entry_point += u64::from(row == 8),
        |kept, _, row| {
            if row == 0 {
                kept.program.entries[area::BOOKS - 1].push(9);
            }
        },
        // A bundle that is not counted: fresh, laid on, committed; one on trial that is.
        |kept, did, _| kept.program.totals.bundles += u64::from(did == Did::Compile),
        |kept, did, row| kept.program.totals.bundles -= u64::from(did == Did::Lay && row == 0),
        |kept, did, row| kept.program.totals.bundles -= u64::from(did == Did::Commit && row == 0),
        |kept, did, row| kept.program.totals.bundles += u64::from(did == Did::Trial && row == 0),
        // A trial that answers other totals, and one that leaves a mark.
        |kept, did, _| kept.trial.areas[area::CODE - 1] += u64::from(did == Did::Trial),
        |kept, did, row| {
            if did == Did::Trial && row == 0 {
                kept.program.entries[area::CONSTANTS - 1][2] ^= 1;
            }
        },
        // Another bundle committed in place of the one that was tried, and its book kept after row 13.
        |kept, did, row| {
            if did == Did::Commit && row == 13 {
                kept.program.entries[area::BOOKS - 1].push(9);
            }
        },
    ];
    for (at, spoil) in faults.into_iter().enumerate() {
        assert_eq!(grown_with(RIGHT_CALL, 0, spoil).differences, 1, "fault {at}");
    }
    assert_eq!(grown_with(RIGHT_CALL, 1, |_, _, _| {}).differences, 1);
    assert_eq!(grown_with(StandIn(WRONG_CALLS[0]), 0, |_, _, _| {}).differences, 1);
}

// The stored cases, read as a replaying program reads them.

/// A case: what is asked with which totals, bundle, mode, what is lent, the reply and the words that are left.
#[derive(Clone)]
struct Stored {
    order: Order,
    tree: Vec<u64>,
    strict: bool,
    lengths: Lengths,
    before: Vec<u64>,
    reply: Vec<u64>,
    after: Vec<u64>,
}

fn totals(next: &mut dyn FnMut() -> u64) -> Totals {
    let areas = std::array::from_fn(|_| next());
    Totals { areas, entry_point: next(), globals: next(), bundles: next() }
}

impl Stored {
    fn read(stem: &str, text: &str) -> Stored {
        let mut numbers = text.split_ascii_whitespace().map(|digits| digits.parse::<u64>().expect("a number"));
        let mut next = || numbers.next().expect("a case goes on");
        let tree = (0..next()).map(|_| next()).collect();
        let strict = next() == 1;
        let lengths: Lengths = std::array::from_fn(|_| next() as usize);
        let standing = totals(&mut next);
        let order = match stem {
            "onto" => Order::Lay(standing),
            "trial" => Order::Trial(standing),
            _ => Order::Commit(standing, totals(&mut next)),
        };
        let areas = |next: &mut dyn FnMut() -> u64| -> Vec<u64> {
            let area = |length: &usize| {
                let mut words: Vec<u64> = (0..next()).map(|_| next()).collect();
                words.resize(*length, 0);
                words
            };
            lengths.iter().flat_map(area).collect()
        };
        let before = areas(&mut next);
        let reply = (0..REPLY_WORDS).map(|_| next()).collect();
        let after = areas(&mut next);
        assert_eq!(numbers.next(), None, "a case ends");
        Stored { order, tree, strict, lengths, before, reply, after }
    }

    /// Whether a side answers so, with stale slots behind the areas.
    fn is_answered_by(&self, side: &mut dyn OntoCalls) -> bool {
        let stale = [7_777_777; 9];
        let mut memory = [&self.before[..], &stale].concat();
        let replied = side.call(&self.order, &self.tree, self.strict, &self.lengths, &mut memory);
        let Totals { areas, entry_point, globals, bundles } = replied.totals;
        let reply = [&[replied.row, replied.place], &areas[..], &[entry_point, globals, bundles]].concat();
        let slots = if is_unfit(&replied) { stale } else { [0; 9] };
        reply == self.reply && memory == [&self.after[..], &slots].concat()
    }
}

/// Faults of trials and commits, which laying on does not have.
const ON_TRIAL: [Fault; 10] = [
    Fault::TrialCounted,
    Fault::TrialWritten,
    Fault::TrialMarked,
    Fault::CommitNotCounted,
    Fault::EveryTotalCompared,
    Fault::GlobalsNotCompared,
    Fault::DifferingKept,
    Fault::TotalsBeforeRefusal,
    Fault::StaleWhereSmaller,
    Fault::StaleAfterWork,
];

#[test]
fn the_stored_cases_replay_and_see_every_fault() {
    let [laid, tried, committed] = cases();
    let read =
        |stored: &Cases| -> Vec<Stored> { stored.cases.iter().map(|text| Stored::read(stored.stem, text)).collect() };
    let (laid, on_trial) = (read(&laid), [read(&tried), read(&committed)].concat());
    assert!(laid.len() > 80 && on_trial.len() > 60);
    for side in [&mut Standing as &mut dyn OntoCalls, &mut Reading::default()] {
        assert!(laid.iter().chain(&on_trial).all(|case| case.is_answered_by(side)));
    }
    for fault in Fault::ALL {
        let mut wrong = Reading { fault: Some(fault) };
        let stored = if ON_TRIAL.contains(&fault) { &on_trial } else { &laid };
        assert!(!stored.iter().all(|case| case.is_answered_by(&mut wrong)), "{fault:?}");
    }
}
