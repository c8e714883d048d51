//! Programs that stand: whether words and totals that somebody lends are one (docs/FORMAT.md, 'The program check'), and bundles
//! laid onto one ('Laying on'). Trials and commits are in trial.rs.

use crate::areas::{areas_in, entries_for, words_for, Area, Areas, AREAS};
use crate::calls;
use crate::compiling::with_reason;
use crate::mode::Mode;
use crate::program::{Program, Totals};
use crate::refusal::Refusal;
use crate::saved::{loaded, saved, LoadError};

/// The program check of areas that follow each other in one memory by their numbers, each with so many words: nothing, or
/// [`Refusal::BadProgram`] with the first area that fails. Area 11 is not looked at.
///
/// ```
/// use clover_back_end::{check_program, Area, Areas, Refusal, Totals};
///
/// // File 2 is empty: three constants and a book.
/// let mut areas = Areas::for_tree(&[1, 1, 0, 2]);
/// areas.compile(&[1, 1, 0, 2])?;
/// let totals = areas.program().expect("delivered").totals();
/// assert_eq!(areas.check_program(totals), Ok(()));
///
/// let (memory, lengths) = areas.memory();
/// let wrong = Totals { entry_point: 1, ..totals };
/// assert_eq!(check_program(memory, lengths, wrong), Err(Refusal::BadProgram { area: Area::Functions }));
/// # Ok::<(), Refusal>(())
/// ```
pub fn check_program(memory: &[u64], lengths: [usize; AREAS], totals: Totals) -> Result<(), Refusal> {
    calls::check_program(memory, lengths, totals).program_result()
}

impl Areas {
    /// The program check of what the areas hold, with totals that the caller kept.
    pub fn check_program(&self, totals: Totals) -> Result<(), Refusal> {
        let (memory, lengths) = self.memory();
        check_program(memory, lengths, totals)
    }
}

/// A program that stands, to lay bundles onto: one memory with its areas, and its totals. It is made by a delivery, or from words
/// that pass the program check, and only deliveries change it; so it passes the check of every later call, and its views are
/// those of any delivered program. (After 4,294,967,295 bundles it is full: every later call is refused by the check.)
///
/// ```
/// use clover_back_end::{Mode, StandingProgram};
///
/// // File 2 is empty. File 3, which includes it, comes later.
/// let mut program = StandingProgram::compiled(&[1, 1, 0, 2], Mode::Present)?;
/// program.lay_on(&[1, 2, 0, 3, 11, 1, 0, 2], Mode::Present)?;
/// assert_eq!(program.program().books().count(), 2);
///
/// // A bundle that is refused leaves the program as it stood.
/// let saved = program.to_words();
/// let refusal = program.lay_on(&[1, 2, 0, 4, 11, 1, 0, 9], Mode::Present).expect_err("file 9 is missing");
/// assert_eq!((refusal.row(), program.to_words()), (6, saved.clone()));
///
/// let loaded = StandingProgram::from_words(&saved).expect("as it was saved");
/// assert_eq!(loaded.totals(), program.totals());
/// # Ok::<(), clover_back_end::Refusal>(())
/// ```
#[derive(Clone, Debug)]
pub struct StandingProgram {
    pub(crate) areas: Areas,
    pub(crate) totals: Totals,
}

impl StandingProgram {
    /// Words that the memory of a program may have in [`lay_on`](StandingProgram::lay_on): 1 GiB.
    pub const MOST_WORDS: usize = 1 << 27;

    /// The least program: null, true and false, and no book. A bundle laid onto it gives what it gives by itself, but that the
    /// number of bundles is 2: no program with less than one stands, so that the least has one.
    pub fn least() -> StandingProgram {
        let constants = [0, 0, 0, 1, 1, 0, 1, 0, 0];
        let totals = Totals { constants: 3, bundles: 1, ..Totals::default() };
        let words = [&[calls::LAYOUT][..], &totals.words(), &constants].concat();
        StandingProgram::from_words(&words).expect("three constants are a program")
    }

    /// What a bundle by itself compiles to, in at most [`MOST_WORDS`](StandingProgram::MOST_WORDS).
    pub fn compiled(tree: &[u64], mode: Mode) -> Result<StandingProgram, Refusal> {
        let mut areas = Areas::for_tree(tree);
        areas.compile_growing_in(mode, tree, StandingProgram::MOST_WORDS)?;
        Ok(areas.into_standing().expect("the last call delivered"))
    }

    /// A program from the words that [`to_words`](StandingProgram::to_words) gave, or why they are none. What is loaded has passed
    /// the program check, whoever wrote the words.
    pub fn from_words(words: &[u64]) -> Result<StandingProgram, LoadError> {
        loaded(words).map(|(areas, totals)| StandingProgram { areas, totals })
    }

    /// The program as words to keep: the layout, the totals, and the entries of each area (docs/FORMAT.md, 'A program saved').
    pub fn to_words(&self) -> Vec<u64> {
        saved(self.program())
    }

    /// The program, to read.
    pub fn program(&self) -> Program<'_> {
        let (memory, lengths) = self.memory();
        Program::new(&areas_in(lengths, memory), self.totals)
    }

    /// How many entries there are, the entry point, and the numbers of global dependencies and of bundles.
    pub fn totals(&self) -> Totals {
        self.totals
    }

    /// An area whole: its entries, then zeros. Area 11 has the errors of the last bundle where that was refused by row 7 or 8.
    pub fn words(&self, area: Area) -> &[u64] {
        self.areas.words(area)
    }

    /// All areas in one memory, one after the other by number, then the slots, and the words of each area.
    pub fn memory(&self) -> (&[u64], [usize; AREAS]) {
        self.areas.memory()
    }

    /// Lays a bundle onto the program. Books that stand are passed over, whatever a copy in the bundle says, and need none; their
    /// public names can be included. Where the bundle is refused, the program is as it stood.
    ///
    /// Where an area is full, the areas move into a larger memory and the bundle is laid on again, as long as the memory has at
    /// most [`MOST_WORDS`](StandingProgram::MOST_WORDS).
    pub fn lay_on(&mut self, tree: &[u64], mode: Mode) -> Result<(), Refusal> {
        self.lay_on_within(tree, mode, StandingProgram::MOST_WORDS)
    }

    /// The same in a memory of at most so many words, or of as many as it has.
    pub fn lay_on_within(&mut self, tree: &[u64], mode: Mode, most: usize) -> Result<(), Refusal> {
        self.growing(tree, most, |program| {
            let lengths = program.areas.lengths();
            let answer = calls::lay_on(mode, tree, program.totals, lengths, program.areas.lend());
            let laid = answer.program().map(|laid| laid.totals());
            program.delivered(tree, laid)
        })
    }

    /// A call on the program, made again in a larger memory where an area is full, as long as that has at most so many words.
    pub(crate) fn growing<T>(
        &mut self,
        tree: &[u64],
        most: usize,
        mut call: impl FnMut(&mut StandingProgram) -> Result<T, Refusal>,
    ) -> Result<T, Refusal> {
        self.make_room(tree, most);
        loop {
            // A refusal leaves the program, so that it can be moved and the call made again.
            match call(self) {
                Err(Refusal::AreaFull { area }) if self.areas.len_grown(area) <= most => {
                    self.areas = self.areas.moved(self.areas.grown(area));
                }
                answered => return answered,
            }
        }
    }

    /// Room for what most bundles of these records add, if there may be so much.
    fn make_room(&mut self, tree: &[u64], most: usize) {
        let added = entries_for(tree);
        let entries = Area::each(|area| {
            let room = self.areas.entries(area);
            let wanted = self.totals.of(area) as usize + added[area.index()];
            // At least twice as much, so that many small bundles do not move the areas each time.
            if wanted <= room {
                room
            } else {
                wanted.max(2 * room)
            }
        });
        let is_enough = Area::ALL.iter().all(|&area| entries[area.index()] == self.areas.entries(area));
        if !is_enough && words_for(entries) <= most {
            self.areas = self.areas.moved(entries);
        }
    }

    /// The totals of a program that was delivered into the memory, or why it was refused.
    pub(crate) fn delivered(&mut self, tree: &[u64], laid: Result<Totals, Refusal>) -> Result<(), Refusal> {
        self.totals = laid.map_err(|refusal| self.refused(tree, refusal))?;
        Ok(())
    }

    /// The refusal of a bundle with its reason. The program is as it stood.
    pub(crate) fn refused(&self, tree: &[u64], refusal: Refusal) -> Refusal {
        with_reason(refusal, tree, Some(self.program()))
    }
}

impl Areas {
    /// The program that the last call delivered, to lay bundles onto; none where [`program`](Areas::program) has none.
    pub fn into_standing(self) -> Option<StandingProgram> {
        let totals = self.program()?.totals();
        Some(StandingProgram { areas: self, totals })
    }
}
