//! A program as words that can be kept (docs/FORMAT.md, 'A program saved'): the layout, the totals, and the entries of each area
//! up to its total. Whatever the words are, what is loaded passes the program check.

use crate::areas::{Area, Areas, AREAS};
use crate::calls::LAYOUT;
use crate::program::{Program, Totals};
use crate::refusal::Refusal;
use crate::standing::check_program;
use std::fmt;

/// Words ahead of the entries: the layout, and the totals.
const HEAD: usize = 1 + Totals::WORDS;

/// Why words are no saved program.
#[derive(Clone, Copy, Debug, PartialEq, Eq)]
#[non_exhaustive]
pub enum LoadError {
    /// They were saved by another layout.
    OtherLayout {
        /// The first word.
        layout: u64,
    },
    /// There are more or fewer than the totals ask for.
    BadLength {
        /// How many there are.
        words: usize,
        /// How many there should be; where the totals themselves are cut off, as many as these and the layout have.
        wanted: u128,
    },
    /// An area is no part of a program: it fails the program check, area 12 also by the number of bundles. Area 11: its total is
    /// not 0.
    BadArea {
        /// The first such area.
        area: Area,
    },
}

impl fmt::Display for LoadError {
    fn fmt(&self, out: &mut fmt::Formatter<'_>) -> fmt::Result {
        write!(out, "no saved program: ")?;
        match self {
            LoadError::OtherLayout { layout } => write!(out, "its layout is {layout}, and this crate is for {LAYOUT}"),
            LoadError::BadLength { words, wanted } => write!(out, "{words} words in place of {wanted}"),
            LoadError::BadArea { area } => write!(out, "area {}, {area}, is no part of a program", area.number()),
        }
    }
}

impl std::error::Error for LoadError {}

/// The words of a program.
pub(crate) fn saved(program: Program<'_>) -> Vec<u64> {
    let areas = Area::each(|area| program.words(area));
    [&[LAYOUT][..], &program.totals().words(), &areas.concat()].concat()
}

/// Words that a program of these totals has when it is saved.
fn saved_words(totals: Totals) -> u128 {
    let entries = Area::each(|area| u128::from(totals.of(area)) * area.entry_words() as u128);
    HEAD as u128 + entries.iter().sum::<u128>()
}

/// The areas, exactly as long as their entries, and the totals.
pub(crate) fn loaded(words: &[u64]) -> Result<(Areas, Totals), LoadError> {
    let cut_off = LoadError::BadLength { words: words.len(), wanted: HEAD as u128 };
    let (&layout, rest) = words.split_first().ok_or(cut_off)?;
    if layout != LAYOUT {
        return Err(LoadError::OtherLayout { layout });
    }
    let (&totals, entries) = rest.split_first_chunk().ok_or(cut_off)?;
    let totals = Totals::from_words(totals);
    if totals.errors != 0 {
        return Err(LoadError::BadArea { area: Area::Errors });
    }
    let wanted = saved_words(totals);
    if words.len() as u128 != wanted {
        return Err(LoadError::BadLength { words: words.len(), wanted });
    }
    let mut areas = Areas::with_entries(room_for(totals));
    areas.lend()[..entries.len()].copy_from_slice(entries);
    let (memory, lengths) = areas.memory();
    match check_program(memory, lengths, totals) {
        Ok(()) => Ok((areas, totals)),
        Err(Refusal::BadProgram { area }) => Err(LoadError::BadArea { area }),
        Err(other) => unreachable!("the program check does not answer {other:?}"),
    }
}

/// As many entries as there are words for.
fn room_for(totals: Totals) -> [usize; AREAS] {
    Area::each(|area| totals.of(area) as usize)
}
