//! The library of this repository through the crate `rust/`, behind the feature `link`. The crate's
//! build script links it.

use crate::areas::{Lengths, Lent, AREAS};
use crate::compare::Side;
use crate::convert::Converters;
use crate::error_calls::ErrorCalls;
use crate::onto_calls::{OntoCalls, Replied};
use crate::onto_grown::KeptProgram;
use crate::program_calls::ProgramCalls;
use crate::standing::{Order, Totals as Standing};
use crate::strict_calls::Modes;
use crate::table_calls::TableCalls;
use crate::views::Answered;
use clover_back_end::{calls, Converted, Mode, Refusal, StandingProgram, Totals, Trial, TrialTotals};

pub struct Library;

impl Side for Library {
    fn name(&self) -> &str {
        "the library"
    }

    fn compile<'a>(&mut self, words: &[u64], lent: Lent<'a>) -> Answered<'a> {
        calls::compile(words, lent.lengths, lent.memory)
    }
}

impl Modes for Library {
    fn compile_in<'a>(&mut self, strict: bool, words: &[u64], lent: Lent<'a>) -> Answered<'a> {
        calls::compile_in(mode(strict), words, lent.lengths, lent.memory)
    }
}

fn plain(converted: Converted) -> [u64; 3] {
    [converted.number, converted.place as u64, converted.total as u64]
}

impl Converters for Library {
    fn check(&mut self, words: &[u64]) -> [u64; 2] {
        let found = calls::check(words);
        [found.number, found.place as u64]
    }

    fn to_records(&mut self, file: &[u8], out: &mut [u64]) -> [u64; 3] {
        plain(calls::columns_to_records(file, out))
    }

    fn to_columns(&mut self, words: &[u64], out: &mut [u8]) -> [u64; 3] {
        plain(calls::records_to_columns(words, out))
    }
}

impl ErrorCalls for Library {
    fn in_words(&mut self, errors: &[u64], file: u64, table: &[u64], bytes: &[u8], out: &mut [u8]) -> [u64; 3] {
        plain(calls::errors_in_words(errors, file, table, bytes, out))
    }
}

impl TableCalls for Library {
    fn to_records(&mut self, table: &[u8], file: u64, out: &mut [u64]) -> [u64; 3] {
        plain(calls::table_to_records(table, file, out))
    }

    fn to_table(&mut self, words: &[u64], out: &mut [u8]) -> [u64; 4] {
        let tabled = calls::records_to_table(words, out);
        [tabled.number, tabled.place as u64, tabled.total as u64, tabled.file]
    }
}

fn crates(totals: &Standing) -> Totals {
    let mut words = [0; Totals::WORDS];
    words[..AREAS].copy_from_slice(&totals.areas);
    words[AREAS..].copy_from_slice(&[totals.entry_point, totals.globals, totals.bundles]);
    Totals::from_words(words)
}

fn standing(totals: Totals) -> Standing {
    let words = totals.words();
    let areas = std::array::from_fn(|i| words[i]);
    let Totals { entry_point, global_dependencies: globals, bundles, .. } = totals;
    Standing { areas, entry_point, globals, bundles }
}

fn mode(strict: bool) -> Mode {
    if strict {
        Mode::Strict
    } else {
        Mode::Present
    }
}

impl ProgramCalls for Library {
    fn check_program(&mut self, memory: &[u64], lengths: &Lengths, totals: &Standing) -> [u64; 2] {
        let checked = calls::check_program(memory, *lengths, crates(totals));
        [checked.number, checked.place as u64]
    }
}

/// `clover_lay_on`, `clover_trial` and `clover_commit`, and for a fresh program `clover_compile`.
impl OntoCalls for Library {
    fn call(&mut self, order: &Order, tree: &[u64], strict: bool, lengths: &Lengths, memory: &mut [u64]) -> Replied {
        let mode = mode(strict);
        let reply = match order {
            Order::Fresh => calls::compile_in(mode, tree, *lengths, memory).reply,
            Order::Lay(totals) => calls::lay_on(mode, tree, crates(totals), *lengths, memory).reply,
            Order::Trial(totals) => calls::trial(mode, tree, crates(totals), *lengths, memory).reply,
            Order::Commit(totals, trial) => {
                let trial = TrialTotals(crates(trial));
                calls::commit(mode, tree, crates(totals), trial, *lengths, memory).reply
            }
        };
        Replied { row: reply.number, place: reply.place, totals: standing(reply.totals) }
    }

    fn is_lent_every_way(&self) -> bool {
        true
    }
}

/// A program that the crate keeps, and its last trial.
pub struct LibraryProgram {
    program: StandingProgram,
    trial: Option<Trial>,
}

impl Default for LibraryProgram {
    fn default() -> LibraryProgram {
        LibraryProgram { program: StandingProgram::least(), trial: None }
    }
}

fn replied(result: Result<(), Refusal>) -> (u64, u64) {
    result.map_or_else(|refusal| (refusal.row(), refusal.place()), |()| (0, 0))
}

impl KeptProgram for LibraryProgram {
    fn start(&mut self) {
        *self = LibraryProgram::default();
    }

    fn compile(&mut self, tree: &[u64], strict: bool) -> (u64, u64) {
        replied(StandingProgram::compiled(tree, mode(strict)).map(|program| self.program = program))
    }

    fn lay_on(&mut self, tree: &[u64], strict: bool) -> (u64, u64) {
        replied(self.program.lay_on(tree, mode(strict)))
    }

    fn trial(&mut self, tree: &[u64], strict: bool) -> Result<Standing, (u64, u64)> {
        let trial = self.program.trial(tree, mode(strict)).map_err(|refusal| replied(Err(refusal)))?;
        Ok(standing(self.trial.insert(trial).totals()))
    }

    fn commit(&mut self, tree: &[u64], strict: bool) -> (u64, u64) {
        let trial = self.trial.take().expect("a trial that was not committed");
        replied(self.program.commit(tree, mode(strict), trial))
    }

    /// Without the layout.
    fn saved(&self) -> Vec<u64> {
        self.program.to_words().split_off(1)
    }

    fn load(&mut self, words: &[u64]) -> Result<(), String> {
        let words = [&[calls::LAYOUT][..], words].concat();
        self.program = StandingProgram::from_words(&words).map_err(|error| error.to_string())?;
        Ok(())
    }
}
