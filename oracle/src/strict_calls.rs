//! Both modes (02, 2026-07) on every bundle: the model, what row 11 must be by `strict.rs`, and the library, with every area
//! exactly full, one entry short and empty. Names of includes are misspelt, private, repeated and missing on purpose.

use crate::areas::{capacities, Areas, Lengths, Lent, Memory, Reply, AREAS, ENTRY_WORDS, UNLIMITED};
use crate::books::{needed, order};
use crate::compare::ways;
use crate::generate::{case, Sizes};
use crate::model::{compile, compile_by, Rules, Run};
use crate::random::Random;
use crate::records::{flatten, kind, trees, Node};
use crate::shape::check;
use crate::strict::{cut, foretold, full_before, not_public, Names};
use crate::views::Answered;

const NAME_NOT_PUBLIC: u64 = 11;
const AREA_FULL: u64 = 9;
const STALE: u64 = 0x5A5A_5A5A_5A5A_5A5A;
/// Code that a bundle may need at most; doubled targets need more.
const MOST_CODE: usize = 200_000;

/// A side that compiles in a mode.
pub trait Modes {
    fn compile_in<'a>(&mut self, strict: bool, words: &[u64], lent: Lent<'a>) -> Answered<'a>;
}

/// What was seen.
#[derive(Clone, Debug, Default)]
pub struct Seen {
    pub bundles: u64,
    /// Bundles that need more code than is tried.
    pub left_out: u64,
    /// Lengths that were tried, and calls of the library: both modes with each.
    pub lengths: u64,
    pub calls: u64,
    /// Strict answers by row.
    pub rows: [u64; 12],
    /// Row 9 ahead of an include that row 11 would refuse.
    pub full_before: u64,
    /// Bundles with an include whose name was misspelt, made private, repeated, taken from its file.
    pub changed: [u64; 4],
    pub first: Option<String>,
}

impl Seen {
    pub fn print(&self) {
        println!(
            "bundles {} ({} left out), lengths {}, calls of the library {}",
            self.bundles, self.left_out, self.lengths, self.calls
        );
        let rows = self.rows.iter().enumerate().filter(|row| *row.1 > 0);
        println!(
            "strict answers by row: {}",
            rows.map(|(row, n)| format!("{row}: {n}")).collect::<Vec<_>>().join(", ")
        );
        println!("row 9 ahead of such an include {}", self.full_before);
        let [misspelt, private, repeated, missing] = self.changed;
        println!("includes misspelt {misspelt}, private {private}, repeated {repeated}, missing {missing}");
        println!("differences {}", u64::from(self.first.is_some()));
    }
}

fn is_public(definition: &Node) -> bool {
    matches!(definition.kind, kind::PUBLIC_MODEL | kind::PUBLIC_FUNCTION)
}

/// Names of a book's definitions, the public ones or the others that have one.
fn names(documents: &[Node], file: u64, public: bool) -> Vec<u64> {
    let named = |d: &&Node| is_public(d) == public && (is_public(d) || matches!(d.kind, kind::MODEL | kind::FUNCTION));
    let book = documents.iter().find(|document| document.value == file);
    book.map_or_else(Vec::new, |book| book.children.iter().filter(named).map(|d| d.value).collect())
}

/// The bundle with other names in its includes: mostly all are made public ones first, and then some are spoilt.
fn spoilt(words: &[u64], random: &mut Random, changed: &mut [u64; 4]) -> Vec<u64> {
    let Some(mut documents) = trees(words) else { return words.to_vec() };
    let mend = random.below(4) > 0;
    let as_they_are = documents.clone();
    for document in &mut documents {
        for include in document.children.iter_mut().filter(|d| d.kind == kind::INCLUDE) {
            let public = names(&as_they_are, include.value, true);
            if mend && public.is_empty() {
                include.children.clear();
            }
            if mend {
                include.children.iter_mut().step_by(2).for_each(|name| name.value = random.pick(&public));
            }
            // A damaged include may have half a pair.
            if include.children.len() < 2 || random.below(6) > 0 {
                continue;
            }
            let at = 2 * random.index(include.children.len() / 2);
            let private = names(&as_they_are, include.value, false);
            let way = match random.index(4) {
                1 if private.is_empty() => 0,
                way => way,
            };
            changed[way] += 1;
            match way {
                1 => include.children[at].value = random.pick(&private),
                2 => {
                    let pair = [include.children[at].clone(), include.children[at + 1].clone()];
                    include.children.extend(pair);
                }
                3 => include.children[at].value = document.value,
                _ => include.children[at].value = random.between(1, 400),
            }
        }
    }
    flatten(&documents)
}

/// Row and place that strict mode must answer with these lengths.
fn must(words: &[u64], free: &Run, tight: &Run, lengths: &Lengths) -> (u64, u64) {
    let row = |run: &Run| (run.reply.row, run.reply.place);
    if (2..=6).contains(&free.reply.row) {
        return row(free);
    }
    let records = check(words).expect("rows 2 to 4");
    let books = needed(&records).expect("rows 5 and 6");
    let (order, _) = order(&books);
    let found = not_public(words, &order, &Names::new());
    let full = found.and_then(|found| {
        let cut = compile(&cut(words, &books, &order, found), &UNLIMITED);
        full_before(&cut, &capacities(lengths))
    });
    foretold(row(free), row(tight), &order, found, full)
}

/// Calls of the side in a mode, in stale memory, in each way of lending: reply and every word.
fn judge(side: &mut dyn Modes, strict: bool, words: &[u64], lengths: &Lengths, run: &Run) -> Result<(), String> {
    ways(lengths).iter().try_for_each(|(lengths, size)| judge_lent(side, strict, words, lengths, *size, run))
}

fn judge_lent(side: &mut dyn Modes, strict: bool, words: &[u64], lengths: &Lengths, size: usize, run: &Run) -> Result<(), String> {
    let mut memory = Memory::of(lengths, size, STALE);
    let answered = side.compile_in(strict, words, memory.lend());
    let met: Reply = answered.reply.into();
    if met != run.reply {
        return Err(format!("strict {strict}, lengths {lengths:?}: the model {:?}, the library {met:?}", run.reply));
    }
    for i in 0..AREAS {
        let (area, made) = (answered.areas[i], &run.areas[i]);
        if area[..made.len()] != made[..] || area[made.len()..].iter().any(|&word| word != 0) {
            return Err(format!("strict {strict}, lengths {lengths:?}: area {} differs", i + 1));
        }
    }
    if memory.left_over().iter().any(|&word| word != 0) {
        return Err(format!("strict {strict}, lengths {lengths:?}: words are left behind the areas"));
    }
    if !memory.is_kept_beside() {
        return Err(format!("strict {strict}, lengths {lengths:?}: words beside the memory are written"));
    }
    Ok(())
}

/// The lengths to try: plenty, exactly what is needed in either mode, each area of these one entry short and empty, and all empty.
fn tried(present: &Run, strict: &Run) -> Vec<Lengths> {
    let mut all = vec![UNLIMITED.map(|_| 0)];
    for run in [present, strict] {
        let peaks = run.peaks();
        let exact: Lengths = std::array::from_fn(|i| peaks[i] as usize * ENTRY_WORDS[i]);
        all.push(exact.map(|words| words + 50));
        all.push(exact);
        for i in (0..AREAS).filter(|&i| peaks[i] > 0) {
            for entries in [peaks[i] as usize - 1, 0] {
                let mut short = exact;
                short[i] = entries * ENTRY_WORDS[i];
                all.push(short);
            }
        }
    }
    all.sort_unstable();
    all.dedup();
    all
}

fn one(words: &[u64], side: &mut Option<&mut dyn Modes>, seen: &mut Seen) -> Result<(), String> {
    const STRICT: Rules = Rules { strict: true };
    let mut most = UNLIMITED;
    most[0] = MOST_CODE;
    let (present, strict) = (compile(words, &most), compile_by(STRICT, words, &most));
    if present.reply.row == AREA_FULL {
        seen.left_out += 1;
        return Ok(());
    }
    seen.bundles += 1;
    let free_row = must(words, &present, &present, &UNLIMITED);
    for lengths in tried(&present, &strict) {
        let (tight, run) = (compile(words, &lengths), compile_by(STRICT, words, &lengths));
        seen.lengths += 1;
        if tight.reply.row == NAME_NOT_PUBLIC {
            return Err(format!("lengths {lengths:?}: the present mode answers row 11"));
        }
        let expected = must(words, &present, &tight, &lengths);
        let met = (run.reply.row, run.reply.place);
        if met != expected {
            return Err(format!("lengths {lengths:?}: strict must be {expected:?}, the model {met:?}"));
        }
        seen.rows[met.0 as usize] += 1;
        seen.full_before += u64::from(met.0 == AREA_FULL && free_row.0 == NAME_NOT_PUBLIC);
        if met.0 == NAME_NOT_PUBLIC {
            if run.areas != Areas::default() || run.reply != Reply::refusal(met.0, met.1) {
                return Err(format!("lengths {lengths:?}: row 11 leaves words or totals"));
            }
        } else if (run.reply, &run.areas) != (tight.reply, &tight.areas) {
            return Err(format!("lengths {lengths:?}: strict is not the present answer"));
        }
        if let Some(side) = side {
            judge(*side, false, words, &lengths, &tight)?;
            judge(*side, true, words, &lengths, &run)?;
            seen.calls += 2;
        }
    }
    Ok(())
}

pub fn compare_modes(mut side: Option<&mut dyn Modes>, seed: u64, count: u64) -> Seen {
    let mut seen = Seen::default();
    for index in 0..count {
        let mut random = Random::for_case(seed ^ 0x2026_0007, index);
        let words = spoilt(&case(seed, index, Sizes::Mixed).words, &mut random, &mut seen.changed);
        if let Err(message) = one(&words, &mut side, &mut seen) {
            seen.first = Some(format!("bundle {index}: {message}: {words:?}"));
            break;
        }
    }
    seen
}

#[cfg(test)]
mod tests {
    use super::*;

    /// A way in which a side is wrong.
    #[derive(Clone, Copy, Debug)]
    enum Fault {
        ModeUnread,
        AlwaysStrict,
        PlaceOfTheBook,
        RowSevenFirst,
        StaleAfterRow11,
    }

    /// The model with a fault, or without.
    struct Wrong(Option<Fault>);

    impl Modes for Wrong {
        fn compile_in<'a>(&mut self, strict: bool, words: &[u64], lent: Lent<'a>) -> Answered<'a> {
            let lengths = lent.cut();
            let strict = match self.0 {
                Some(Fault::ModeUnread) => false,
                Some(Fault::AlwaysStrict) => true,
                _ => strict,
            };
            let mut run = compile_by(Rules { strict }, words, &lengths);
            let mut stale = false;
            if run.reply.row == NAME_NOT_PUBLIC {
                match self.0 {
                    Some(Fault::PlaceOfTheBook) => run.reply.place -= 1,
                    Some(Fault::RowSevenFirst) => {
                        let present = compile(words, &lengths);
                        run = if present.reply.row == 7 { present } else { run };
                    }
                    Some(Fault::StaleAfterRow11) => stale = true,
                    _ => {}
                }
            }
            let (mut areas, rest) = lent.parts();
            rest.fill(0);
            for (i, (area, made)) in areas.iter_mut().zip(&run.areas).enumerate() {
                area[..made.len()].copy_from_slice(made);
                let kept = usize::from(stale && i == 6 && !area.is_empty());
                area[made.len() + kept..].fill(0);
            }
            Answered { reply: run.reply.into(), areas: areas.map(|area| &*area) }
        }
    }

    #[test]
    fn planted_faults_are_seen() {
        use Fault::*;
        assert_eq!(compare_modes(Some(&mut Wrong(None)), 5, 300).first, None);
        for fault in [ModeUnread, AlwaysStrict, PlaceOfTheBook, RowSevenFirst, StaleAfterRow11] {
            assert!(compare_modes(Some(&mut Wrong(Some(fault))), 5, 300).first.is_some(), "{fault:?}");
        }
    }

    #[test]
    fn both_modes_of_the_model() {
        let seen = compare_modes(None, 5, 400);
        assert_eq!(seen.first, None);
        assert!(seen.rows[0] > 100 && seen.rows[11] > 100 && seen.full_before > 10, "{seen:?}");
        assert!(seen.changed.iter().all(|&n| n > 5), "{seen:?}");
    }
}
