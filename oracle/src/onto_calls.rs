//! Calls on a program from a seed, lay, trial and commit: the reading of onto.rs held against that of standing.rs (`onto
//! --calls`) or a library's calls (with `--ours`), reply and every word lent; the same on every single damage of programs
//! (`onto --damages`) and on file numbers at the ends of sets (`onto --edges`).

use crate::areas::{area, cut, Areas, Lengths, AREAS, ENTRY_WORDS};
use crate::hostile::EDGES;
use crate::onto::{Fault, Lent, Reading};
use crate::random::Random;
use crate::records::{flatten, kind, Node};
use crate::slot_calls::{lengths_of_tables, stale};
use crate::standing::{fresh, Answered, Call, Order, Totals, BAD_SHAPE, PROGRAM_PLACE};
use crate::standing_calls::{calls, each_damage, linked, odd, sample, Program};
use std::collections::BTreeMap;

const AREA_FULL: u64 = 9;

/// What a call on a program replies.
#[derive(Clone, Copy, Debug, PartialEq, Eq)]
pub struct Replied {
    pub row: u64,
    pub place: u64,
    pub totals: Totals,
}

/// The calls on a program: one function, so that a side is one function to write.
pub trait OntoCalls {
    /// `memory` holds the areas one after the other, each of its length in words, and then the table of slots; a length that
    /// passes the end is cut there (docs/FORMAT.md, 'The twelve areas'). `order` has the program's totals.
    fn call(&mut self, order: &Order, tree: &[u64], strict: bool, lengths: &Lengths, memory: &mut [u64]) -> Replied;

    /// Whether a call is lent with every table of slots, and with lengths that pass the end; else in one of these ways, drawn.
    fn is_lent_every_way(&self) -> bool {
        false
    }
}

/// Splits one memory into its areas.
fn split(memory: &[u64], lengths: &Lengths) -> Areas {
    let mut rest = memory;
    cut(lengths, memory.len()).map(|length| {
        let (area, behind) = rest.split_at(length);
        rest = behind;
        area.to_vec()
    })
}

pub(crate) fn lengths_of(areas: &Areas) -> Lengths {
    std::array::from_fn(|i| areas[i].len())
}

/// The answer of this reading to a call on a program.
pub fn answered(reading: &Reading, call: &Call) -> Answered {
    let Call { order, words, strict, areas } = call;
    match order {
        Order::Fresh => fresh(words, *strict, &lengths_of(areas)),
        Order::Lay(totals) => reading.lay_on(words, *strict, Lent { areas, totals }),
        Order::Trial(totals) => reading.trial(words, *strict, Lent { areas, totals }),
        Order::Commit(totals, trial) => reading.commit(words, *strict, Lent { areas, totals }, trial),
    }
}

/// Writes an answer where a side would; 2026-12: after the call all slots "are zero (as lent where the program check refuses)".
fn write(answered: Answered, keeps_slots: bool, memory: &mut [u64]) -> Replied {
    let words = answered.areas.concat();
    let (areas, slots) = memory.split_at_mut(words.len());
    areas.copy_from_slice(&words);
    if !keeps_slots {
        slots.fill(0);
    }
    Replied { row: answered.row, place: answered.place, totals: answered.totals }
}

fn lent_call(order: &Order, tree: &[u64], strict: bool, lengths: &Lengths, memory: &[u64]) -> Call {
    Call { order: *order, words: tree.to_vec(), strict, areas: split(memory, lengths) }
}

/// This reading as a side, for planted faults.
impl OntoCalls for Reading {
    fn call(&mut self, order: &Order, tree: &[u64], strict: bool, lengths: &Lengths, memory: &mut [u64]) -> Replied {
        let answered = answered(self, &lent_call(order, tree, strict, lengths, memory));
        let keeps_slots = match self.fault {
            Some(Fault::SlotsLeft) => true,
            Some(Fault::SlotsCleared) => false,
            _ => answered.is_unfit(),
        };
        write(answered, keeps_slots, memory)
    }
}

/// The reading of standing.rs as a side.
pub struct Standing;

impl OntoCalls for Standing {
    fn call(&mut self, order: &Order, tree: &[u64], strict: bool, lengths: &Lengths, memory: &mut [u64]) -> Replied {
        let answered = lent_call(order, tree, strict, lengths, memory).answer();
        let keeps_slots = answered.is_unfit();
        write(answered, keeps_slots, memory)
    }
}

/// How the areas of a call are lent: the lengths that it names, and the table of slots behind them.
#[derive(Clone, Debug)]
pub(crate) struct Way {
    pub(crate) lengths: Lengths,
    pub(crate) slots: Vec<u64>,
}

/// How many ways there are: tables of several lengths, and lengths that pass the end.
const WAYS: usize = 7;

/// A table of a length worth trying, with stale words in it; the last way is no table but lengths that pass the end.
fn way(call: &Call, wanted: &Answered, at: usize, random: &mut Random) -> Way {
    let exact = lengths_of(&call.areas);
    let room = (exact[area::CONSTANTS - 1] / ENTRY_WORDS[area::CONSTANTS - 1]) as u64;
    let constants = wanted.totals.of(area::CONSTANTS).min(room) as usize;
    match lengths_of_tables(constants, random).get(at) {
        Some(&slots) => Way { lengths: exact, slots: stale(slots, constants, random) },
        None => {
            // The last area that has a word ends where the memory does, whatever is said of it and of those behind it.
            let last = (0..AREAS).rev().find(|&i| exact[i] > 0).unwrap_or(0);
            let past = std::array::from_fn(|i| if i < last { exact[i] } else { usize::MAX });
            Way { lengths: past, slots: Vec::new() }
        }
    }
}

/// Each of them.
fn ways(call: &Call, wanted: &Answered, random: &mut Random) -> Vec<Way> {
    (0..WAYS).map(|at| way(call, wanted, at, random)).collect()
}

/// One that is drawn.
pub(crate) fn drawn_way(call: &Call, wanted: &Answered, random: &mut Random) -> Way {
    let at = random.index(WAYS);
    way(call, wanted, at, random)
}

/// Words before and after what is lent that no call may touch.
const BESIDE: [u64; 8] = [0x5A5A_0000_0000_5A5A; 8];

/// Which word of the areas, or of the slots behind them, differs.
fn differing(left: &[u64], areas: &Areas, slots: &[u64]) -> Option<String> {
    let mut start = 0;
    for (i, wanted) in areas.iter().map(Vec::as_slice).chain([slots]).enumerate() {
        let part = &left[start..start + wanted.len()];
        if let Some(at) = (0..wanted.len()).find(|&at| part[at] != wanted[at]) {
            let name = if i < AREAS { format!("area {}", i + 1) } else { "the slots".to_string() };
            return Some(format!("{name}, word {at} is {}, not {}", part[at], wanted[at]));
        }
        start += wanted.len();
    }
    None
}

/// One call of a side: reply, every word of every area and of the slots, the words beside them and the bundle.
pub(crate) fn judge_in(side: &mut dyn OntoCalls, call: &Call, wanted: &Answered, way: &Way) -> Result<(), String> {
    let mut memory = BESIDE.to_vec();
    call.areas.iter().chain([&way.slots]).for_each(|words| memory.extend(words));
    let end = memory.len();
    memory.extend(BESIDE);
    let tree = call.words.clone();
    let replied = side.call(&call.order, &tree, call.strict, &way.lengths, &mut memory[BESIDE.len()..end]);
    let expected = Replied { row: wanted.row, place: wanted.place, totals: wanted.totals };
    if replied != expected {
        return Err(format!("replied {replied:?}, not {expected:?}"));
    }
    if !memory.starts_with(&BESIDE) || !memory.ends_with(&BESIDE) || tree != call.words {
        return Err("words beside the memory, or the bundle, were written".to_string());
    }
    let slots = if wanted.is_unfit() { way.slots.clone() } else { vec![0; way.slots.len()] };
    match differing(&memory[BESIDE.len()..end], &wanted.areas, &slots) {
        None => Ok(()),
        Some(message) => Err(format!("row {}: {message}", expected.row)),
    }
}

/// What a call was judged by.
#[derive(Clone, Debug)]
pub struct Judged {
    pub answered: Answered,
    /// Calls of the side, and the slots of their tables.
    pub asked: u64,
    pub slots: u64,
}

/// A call of a side in each way, or in one that is drawn by the bundle's words.
pub fn judge(side: &mut dyn OntoCalls, call: &Call) -> Result<Judged, String> {
    let answered = answered(&Reading::default(), call);
    let drawn = call.words.iter().fold(call.words.len() as u64, |sum, &word| sum.rotate_left(7) ^ word);
    let mut random = Random::for_case(drawn, call.areas.concat().len() as u64);
    let ways = match side.is_lent_every_way() {
        true => ways(call, &answered, &mut random),
        false => vec![drawn_way(call, &answered, &mut random)],
    };
    for way in &ways {
        let table = format!("{} slots, lengths {:?}", way.slots.len(), way.lengths);
        judge_in(side, call, &answered, way).map_err(|message| format!("{message} ({table})"))?;
    }
    let slots = ways.iter().map(|way| way.slots.len() as u64).sum();
    Ok(Judged { answered, asked: ways.len() as u64, slots })
}

#[derive(Clone, Debug, Default)]
pub struct Compared {
    pub calls: u64,
    pub delivered: u64,
    /// By row; row 3 of the program check by its place.
    pub refused: BTreeMap<(u64, u64), u64>,
    /// Calls of the side, each of those above in one way or in all, and slots of their tables.
    pub asked: u64,
    pub slots: u64,
    pub differences: u64,
    pub first: Option<String>,
}

/// The rows whose places say an area.
fn area_of(row: u64, place: u64) -> u64 {
    match row {
        BAD_SHAPE => place.saturating_sub(PROGRAM_PLACE),
        AREA_FULL => place,
        _ => 0,
    }
}

impl Compared {
    pub fn print(&self) {
        println!("calls on a program {}, delivered {}, differences {}", self.calls, self.delivered, self.differences);
        let rows: Vec<String> = self.refused.iter().map(|((row, place), n)| format!("{row}/{place}: {n}")).collect();
        println!("refused, row/area: {}", rows.join(", "));
        println!("asked {} times, {} slots lent", self.asked, self.slots);
    }

    fn seen(&mut self, side: &mut dyn OntoCalls, call: &Call, name: impl Fn() -> String) {
        if call.order == Order::Fresh {
            return;
        }
        self.calls += 1;
        let judged = match judge(side, call) {
            Ok(judged) => judged,
            Err(message) => {
                self.differences += 1;
                let order = format!("{:?}", call.order);
                let order = order.split('(').next().expect("split gives one").to_string();
                self.first.get_or_insert(format!("{}, {order}: {message}", name()));
                return;
            }
        };
        self.asked += judged.asked;
        self.slots += judged.slots;
        match judged.answered {
            Answered { row: 0, .. } => self.delivered += 1,
            Answered { row, place, .. } => *self.refused.entry((row, area_of(row, place))).or_default() += 1,
        }
    }
}

/// The call in a memory that ends early: areas are cut there, and those behind are empty.
fn cut_short(random: &mut Random, call: &Call) -> Call {
    let memory = call.areas.concat();
    let size = random.index(memory.len() + 1);
    Call { areas: split(&memory[..size], &lengths_of(&call.areas)), ..call.clone() }
}

/// How many calls there are for each that is made once more in a memory that ends early.
const CUT_SHORT: u64 = 10;

/// A side over the calls of `count` sequences: lay, trial and commit, on grown, odd and damaged programs.
pub fn compare_calls(side: &mut dyn OntoCalls, seed: u64, count: u64) -> Compared {
    let mut seen = Compared::default();
    for index in 0..count {
        let mut random = Random::for_case(!seed, index);
        for call in &calls(seed, index) {
            seen.seen(side, call, || format!("sequence {index}"));
            if random.below(CUT_SHORT) == 0 {
                let short = cut_short(&mut random, call);
                seen.seen(side, &short, || format!("sequence {index}, cut short"));
            }
        }
    }
    seen
}

/// Every single damage of the sample, of the least program and of `count` programs of a seed, with zeros behind the entries and
/// with more room, each with a bundle laid on that fits the program.
pub fn compare_damages(side: &mut dyn OntoCalls, seed: u64, count: u64) -> Compared {
    let mut seen = Compared::default();
    let mut random = Random::new(seed);
    let programs: Vec<Program> = (0..count).map(|_| odd(&mut random)).collect();
    for (index, program) in [vec![sample(), Program::least()], programs].concat().iter().enumerate() {
        let words = flatten(&linked(&mut random, program));
        for more in [1, 40] {
            let lengths = std::array::from_fn(|i| program.entries[i].len() + more * ENTRY_WORDS[i] + 1);
            let mut areas = program.lent(&lengths);
            areas[area::ERRORS - 1].fill(random.next());
            let strict = random.chance(300);
            for (areas, totals) in each_damage(&areas, &program.totals) {
                let call = Call { order: Order::Lay(totals), words: words.clone(), strict, areas };
                seen.seen(side, &call, || format!("program {index}, {more} entries more"));
            }
        }
    }
    seen
}

/// Bundles of a book with a file number onto a program with another: delivered with a copy and without, the other book in a
/// ring with it, a book missing, a document twice, and the standing book as the root.
fn at_edge(stands: u64, added: u64, third: u64) -> Vec<Vec<Node>> {
    let include = |file| Node::leaf(kind::INCLUDE, 0, file);
    let book =
        |file, files: &[u64]| Node::new(kind::DOCUMENT, 0, file, files.iter().map(|&file| include(file)).collect());
    vec![
        vec![book(added, &[stands])],
        vec![book(added, &[stands]), book(stands, &[added, third])],
        vec![book(added, &[stands, third]), book(third, &[stands])],
        vec![book(added, &[third]), book(third, &[added])],
        vec![book(added, &[third])],
        vec![book(added, &[]), book(stands, &[]), book(stands, &[])],
        vec![book(stands, &[third])],
    ]
}

/// A side on every three file numbers at the ends of a set's words and of the short sets: one stands, and the others come.
pub fn compare_edges(side: &mut dyn OntoCalls) -> Compared {
    let mut seen = Compared::default();
    for stands in EDGES {
        let mut entries = Program::least().entries;
        entries[area::BOOKS - 1] = vec![stands];
        let program = Program::of(entries, 0);
        let others = || EDGES.into_iter().filter(move |&file| file != stands);
        for (added, third) in others().flat_map(|added| others().map(move |third| (added, third))) {
            if added == third {
                continue;
            }
            let areas = program.lent(&[40; AREAS]);
            for bundle in at_edge(stands, added, third) {
                let words = flatten(&bundle);
                let call = Call { order: Order::Lay(program.totals), words, strict: false, areas: areas.clone() };
                seen.seen(side, &call, || format!("{stands} stands, {added} and {third} come"));
            }
        }
    }
    seen
}

#[cfg(test)]
mod tests {
    use super::*;

    #[test]
    fn the_word_that_differs_is_named() {
        let mut areas = Areas::default();
        (areas[0], areas[2]) = (vec![1, 2], vec![3, 4, 5]);
        let wanted = [1, 2, 3, 4, 5, 6];
        assert_eq!(differing(&wanted, &areas, &[6]), None);
        let named = |at: usize| {
            let mut left = wanted;
            left[at] = 9;
            differing(&left, &areas, &[6]).expect("a word differs")
        };
        assert_eq!(named(1), "area 1, word 1 is 9, not 2");
        assert_eq!(named(2), "area 3, word 0 is 9, not 3");
        assert_eq!(named(5), "the slots, word 0 is 9, not 6");
    }

    #[test]
    fn lengths_past_the_end_are_cut_to_the_areas() {
        for index in 0..50 {
            for call in calls(3, index) {
                let answered = answered(&Reading::default(), &call);
                let ways = ways(&call, &answered, &mut Random::new(index));
                let size = call.areas.concat().len();
                assert!(ways.iter().all(|way| cut(&way.lengths, size + way.slots.len()) == lengths_of(&call.areas)));
            }
        }
    }
}
