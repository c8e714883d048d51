//! A bundle tried on a program that stands, and committed (docs/FORMAT.md, 'Trial and commit').

use crate::calls;
use crate::mode::Mode;
use crate::program::Totals;
use crate::refusal::Refusal;
use crate::reply::TrialTotals;
use crate::standing::StandingProgram;

/// What a program would be with a bundle, as [`StandingProgram::trial`] found it: the totals for somebody to look at, and the
/// value that [`StandingProgram::commit`] takes. Nothing else makes one, and a commit takes it away.
///
/// ```
/// use clover_back_end::{Mode, Refusal, StandingProgram};
///
/// // File 2 is empty. File 3 includes it.
/// let mut program = StandingProgram::compiled(&[1, 1, 0, 2], Mode::Present)?;
/// let bundle = [1, 2, 0, 3, 11, 1, 0, 2];
///
/// let trial = program.trial(&bundle, Mode::Present)?;
/// assert_eq!((trial.totals().books, trial.bundles()), (2, 1));
/// assert_eq!(program.totals().books, 1);
///
/// // The totals are as wanted.
/// program.commit(&bundle, Mode::Present, trial)?;
/// assert_eq!((program.totals().books, program.totals().bundles), (2, 2));
///
/// // They are not: the trial is dropped, and nothing has changed.
/// let trial = program.trial(&[1, 1, 0, 4], Mode::Present)?;
/// drop(trial);
///
/// // Another bundle comes in between.
/// let trial = program.trial(&[1, 1, 0, 4], Mode::Present)?;
/// program.lay_on(&[1, 1, 0, 5], Mode::Present)?;
/// let refusal = program.commit(&[1, 1, 0, 4], Mode::Present, trial).expect_err("the trial is of two bundles");
/// assert_eq!(refusal, Refusal::StaleTrial { bundles: 3 });
/// # Ok::<(), Refusal>(())
/// ```
///
/// # What does not compile
///
/// Each of these is the first commit above with another value in the trial's place. Totals, be they the program's own or read
/// off a trial, are no trial:
///
/// ```compile_fail,E0308
/// # use clover_back_end::{Mode, StandingProgram};
/// # let mut program = StandingProgram::compiled(&[1, 1, 0, 2], Mode::Present)?;
/// # let bundle = [1, 2, 0, 3, 11, 1, 0, 2];
/// let trial = program.trial(&bundle, Mode::Present)?;
/// program.commit(&bundle, Mode::Present, trial.totals())?;
/// # Ok::<(), clover_back_end::Refusal>(())
/// ```
///
/// Nor is what laying on answers, or a trial that may be refused:
///
/// ```compile_fail,E0308
/// # use clover_back_end::{Mode, StandingProgram};
/// # let mut program = StandingProgram::compiled(&[1, 1, 0, 2], Mode::Present)?;
/// # let bundle = [1, 2, 0, 3, 11, 1, 0, 2];
/// let laid = program.lay_on(&bundle, Mode::Present)?;
/// program.commit(&bundle, Mode::Present, laid)?;
/// # Ok::<(), clover_back_end::Refusal>(())
/// ```
///
/// ```compile_fail,E0308
/// # use clover_back_end::{Mode, StandingProgram};
/// # let mut program = StandingProgram::compiled(&[1, 1, 0, 2], Mode::Present)?;
/// # let bundle = [1, 2, 0, 3, 11, 1, 0, 2];
/// let trial = program.trial(&bundle, Mode::Present);
/// program.commit(&bundle, Mode::Present, trial)?;
/// # Ok::<(), clover_back_end::Refusal>(())
/// ```
///
/// A trial is committed once, and made by a trial alone:
///
/// ```compile_fail,E0382
/// # use clover_back_end::{Mode, StandingProgram};
/// # let mut program = StandingProgram::compiled(&[1, 1, 0, 2], Mode::Present)?;
/// # let bundle = [1, 2, 0, 3, 11, 1, 0, 2];
/// let trial = program.trial(&bundle, Mode::Present)?;
/// program.commit(&bundle, Mode::Present, trial)?;
/// program.commit(&bundle, Mode::Present, trial)?;
/// # Ok::<(), clover_back_end::Refusal>(())
/// ```
///
/// ```compile_fail,E0423
/// # use clover_back_end::{Mode, StandingProgram, Trial, TrialTotals};
/// # let mut program = StandingProgram::compiled(&[1, 1, 0, 2], Mode::Present)?;
/// # let bundle = [1, 2, 0, 3, 11, 1, 0, 2];
/// let trial = Trial(TrialTotals(program.totals()));
/// program.commit(&bundle, Mode::Present, trial)?;
/// # Ok::<(), clover_back_end::Refusal>(())
/// ```
///
/// # What is refused
///
/// A trial does not hold the program, which is free to be read, saved and grown until the commit. So a trial that something else
/// was delivered after, or of another program, is found out when it is committed: by the number of bundles (row 12), or by the
/// totals (row 13), which are also what tells another bundle or mode. Two programs of as many bundles, or two bundles, that lead
/// to the same totals are not told apart; nor is a clone of the program, which is the same.
#[derive(Debug, PartialEq, Eq)]
#[must_use = "a trial changes nothing: commit it, or drop it"]
pub struct Trial(TrialTotals);

impl Trial {
    /// The totals that the program would have; the number of bundles is the one that it has.
    pub fn totals(&self) -> Totals {
        self.0 .0
    }

    /// Bundles in the program that was tried; with this one there is one more.
    pub fn bundles(&self) -> u64 {
        self.totals().bundles
    }
}

impl StandingProgram {
    /// What [`lay_on`](StandingProgram::lay_on) would do: the totals that the program would have, or why the bundle would be
    /// refused. The program is as it stood, and its memory grows where laying on would make it grow. After rows 7 and 8
    /// [`words`](StandingProgram::words) has the errors.
    pub fn trial(&mut self, tree: &[u64], mode: Mode) -> Result<Trial, Refusal> {
        self.trial_within(tree, mode, StandingProgram::MOST_WORDS)
    }

    /// The same in a memory of at most so many words, or of as many as it has.
    pub fn trial_within(&mut self, tree: &[u64], mode: Mode, most: usize) -> Result<Trial, Refusal> {
        self.growing(tree, most, |program| {
            let lengths = program.areas.lengths();
            let tried = calls::trial(mode, tree, program.totals, lengths, program.areas.lend()).totals();
            tried.map(Trial).map_err(|refusal| program.refused(tree, refusal))
        })
    }

    /// Lays the bundle on that was tried. Row 12 where the program has had another bundle since the trial, row 13 where its totals
    /// would be others than the trial answered (another bundle or mode was given than at the trial); the program is then as it
    /// stood.
    pub fn commit(&mut self, tree: &[u64], mode: Mode, trial: Trial) -> Result<(), Refusal> {
        self.commit_within(tree, mode, trial, StandingProgram::MOST_WORDS)
    }

    /// The same in a memory of at most so many words, or of as many as it has.
    pub fn commit_within(&mut self, tree: &[u64], mode: Mode, trial: Trial, most: usize) -> Result<(), Refusal> {
        let Trial(totals) = trial;
        self.growing(tree, most, |program| {
            let lengths = program.areas.lengths();
            let answer = calls::commit(mode, tree, program.totals, totals, lengths, program.areas.lend());
            let laid = answer.program().map(|laid| laid.totals());
            program.delivered(tree, laid)
        })
    }
}
