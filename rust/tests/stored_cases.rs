//! Laying on, trial and commit, on the stored cases of `oracle/sample` (`onto-N.txt`, `trial-N.txt`, `commit-N.txt`; the form is in
//! its README): the reply and every word of the memory, in one that ends with the areas, in one with stale words left over, and
//! with lengths that pass its end.
#![cfg(feature = "link")]

use clover_back_end::{calls, Mode, Reply, Totals, TrialTotals, AREAS};
use std::path::{Path, PathBuf};

/// What row 3 of the program check adds to an area's number.
const PROGRAM_PLACE: u64 = 1_048_576;
/// Words left over, which are the slots.
const STALE: [u64; 9] = [7_777_777; 9];

fn folder() -> PathBuf {
    Path::new(env!("CARGO_MANIFEST_DIR")).join("../oracle/sample")
}

/// The numbers of a file, one after the other.
struct Numbers(std::vec::IntoIter<u64>);

impl Numbers {
    fn read(path: &Path) -> Numbers {
        let text = std::fs::read_to_string(path).unwrap_or_else(|e| panic!("{}: {e}", path.display()));
        let numbers: Vec<u64> = text.split_ascii_whitespace().map(|digits| digits.parse().expect("a number")).collect();
        Numbers(numbers.into_iter())
    }

    fn next(&mut self) -> u64 {
        self.0.next().expect("the file goes on")
    }

    fn some<const N: usize>(&mut self) -> [u64; N] {
        std::array::from_fn(|_| self.next())
    }

    fn list(&mut self) -> Vec<u64> {
        (0..self.next()).map(|_| self.next()).collect()
    }

    /// Areas of these lengths, one after the other: each a list, and then zeros.
    fn areas(&mut self, lengths: [usize; AREAS]) -> Vec<u64> {
        let area = |length: usize| {
            let mut words = self.list();
            assert!(words.len() <= length);
            words.resize(length, 0);
            words
        };
        lengths.map(area).concat()
    }
}

/// Which call, as the files are named; a commit with its trial's totals.
#[derive(Clone, Copy)]
enum Asked {
    LayOn,
    Trial,
    Commit(TrialTotals),
}

impl Asked {
    fn read(stem: &str, numbers: &mut Numbers) -> Asked {
        match stem {
            "onto" => Asked::LayOn,
            "trial" => Asked::Trial,
            _ => Asked::Commit(TrialTotals(Totals::from_words(numbers.some()))),
        }
    }
}

struct Case {
    tree: Vec<u64>,
    mode: Mode,
    lengths: [usize; AREAS],
    standing: Totals,
    asked: Asked,
    before: Vec<u64>,
    reply: Reply,
    after: Vec<u64>,
}

impl Case {
    fn read(stem: &str, numbers: &mut Numbers) -> Case {
        let tree = numbers.list();
        let mode = if numbers.next() == 0 { Mode::Present } else { Mode::Strict };
        let lengths = numbers.some().map(|length| length as usize);
        let standing = Totals::from_words(numbers.some());
        let asked = Asked::read(stem, numbers);
        let before = numbers.areas(lengths);
        let [number, place] = numbers.some();
        let reply = Reply { number, place, totals: Totals::from_words(numbers.some()) };
        let after = numbers.areas(lengths);
        Case { tree, mode, lengths, standing, asked, before, reply, after }
    }

    /// The call in a memory with these words left over.
    fn judge(&self, lengths: [usize; AREAS], slots: &[u64], name: &str) {
        let mut memory = [&self.before[..], slots].concat();
        let Case { mode, tree, standing, .. } = self;
        let reply = match self.asked {
            Asked::LayOn => calls::lay_on(*mode, tree, *standing, lengths, &mut memory).reply,
            Asked::Trial => calls::trial(*mode, tree, *standing, lengths, &mut memory).reply,
            Asked::Commit(trial) => calls::commit(*mode, tree, *standing, trial, lengths, &mut memory).reply,
        };
        assert_eq!(reply, self.reply, "{name}");
        let is_unfit = reply.number == 3 && reply.place > PROGRAM_PLACE;
        let left = if is_unfit { slots.to_vec() } else { vec![0; slots.len()] };
        let wanted = [&self.after[..], &left].concat();
        let differs = (0..wanted.len()).find(|&at| memory[at] != wanted[at]);
        assert_eq!(differs.map(|at| (at, memory[at], wanted[at])), None, "{name}: word, is, stored");
    }

    /// The last area that has a word ends with the memory, whatever its length and those behind it are.
    fn past_the_end(&self) -> [usize; AREAS] {
        let last = (0..AREAS).rev().find(|&at| self.lengths[at] > 0).unwrap_or(0);
        std::array::from_fn(|at| if at < last { self.lengths[at] } else { usize::MAX })
    }
}

/// The cases of the files that begin so.
fn replay(stem: &str) {
    let names = std::fs::read_to_string(folder().join(format!("{stem}.txt"))).expect("the names");
    let mut names = names.lines();
    for number in 1.. {
        let path = folder().join(format!("{stem}-{number}.txt"));
        if !path.exists() {
            break;
        }
        let mut numbers = Numbers::read(&path);
        for _ in 0..numbers.next() {
            let case = Case::read(stem, &mut numbers);
            let name = names.next().expect("a name for each case");
            case.judge(case.lengths, &[], name);
            case.judge(case.lengths, &STALE, name);
            case.judge(case.past_the_end(), &[], name);
        }
        assert_eq!(numbers.0.next(), None, "{}", path.display());
    }
    assert_eq!(names.next(), None, "a case for each name");
}

#[test]
fn stored_cases_of_laying_on() {
    replay("onto");
}

#[test]
fn stored_cases_of_trials() {
    replay("trial");
}

#[test]
fn stored_cases_of_commits() {
    replay("commit");
}
