//! The calls' replies as docs/FORMAT.md has them ('The static library'), and what they mean.

use crate::areas::{Area, AREAS};
use crate::program::{Program, Totals};
use crate::refusal::Refusal;
use crate::texts::Text;

/// Which library is linked.
#[repr(C)]
#[derive(Clone, Copy, Debug, Default, PartialEq, Eq)]
pub struct Version {
    /// The library's release.
    pub version: u64,
    /// The form of records, areas and replies.
    pub layout: u64,
}

/// Of the shape check and of the program check.
#[repr(C)]
#[derive(Clone, Copy, Debug, Default, PartialEq, Eq)]
pub struct Checked {
    /// The refusal's row, or 0.
    pub number: u64,
    /// The refusal's place, or 0.
    pub place: usize,
}

impl Checked {
    /// Why the words are refused, without the reason of a row 3.
    pub fn result(self) -> Result<(), Refusal> {
        Refusal::of(self.number, self.place as u64, &[]).map_or(Ok(()), Err)
    }

    /// Of the program check: the area that fails.
    pub fn program_result(self) -> Result<(), Refusal> {
        self.result()
    }
}

/// Of a converter.
#[repr(C)]
#[derive(Clone, Copy, Debug, Default, PartialEq, Eq)]
pub struct Converted {
    /// The refusal's row, or 0.
    pub number: u64,
    /// The refusal's place, or 0.
    pub place: usize,
    /// Records converted, or bytes of lines written; 0 after a refusal.
    pub total: usize,
}

impl Converted {
    /// How many records stand in the output.
    pub fn records(self) -> Result<usize, Refusal> {
        Refusal::of(self.number, self.place as u64, &[]).map_or(Ok(self.total), Err)
    }

    /// Of errors in words: how many bytes of lines stand in the output. The place of row 3 is an error's there.
    pub fn line_bytes(self) -> Result<usize, Refusal> {
        match (self.number, self.place as u64) {
            (0, _) => Ok(self.total),
            (3, index) => Err(Refusal::UnknownError { index }),
            _ => Err(Refusal::LineBufferShort),
        }
    }
}

/// Of the way from a document to its constant table.
#[repr(C)]
#[derive(Clone, Copy, Debug, Default, PartialEq, Eq)]
pub struct Tabled {
    /// The refusal's row, or 0.
    pub number: u64,
    /// The refusal's place, or 0.
    pub place: usize,
    /// Lines written; 0 after a refusal.
    pub total: usize,
    /// The document's file number; 0 after a refusal.
    pub file: u64,
}

impl Tabled {
    /// How many lines stand in the output, and the document's file.
    pub fn lines(self) -> Result<(usize, Text), Refusal> {
        let table = (self.total, Text::from_number(self.file));
        Refusal::of(self.number, self.place as u64, &[]).map_or(Ok(table), Err)
    }
}

/// Of the compile call, of laying on, of a trial and of a commit.
#[repr(C)]
#[derive(Clone, Copy, Debug, Default, PartialEq, Eq)]
pub struct Reply {
    /// The refusal's row, or 0.
    pub number: u64,
    /// The refusal's place, or 0.
    pub place: u64,
    /// After a refusal all 0, of a call on a program that stands as they were lent. Of a trial those that the program would
    /// have, with the number of bundles as it was lent.
    pub totals: Totals,
}

/// The reply of a compile call, of laying on or of a commit, and the areas whole as it left them: entries, then zeros.
#[derive(Clone, Copy, Debug)]
pub struct Answer<'a> {
    /// The reply.
    pub reply: Reply,
    /// The areas, in the order of their numbers.
    pub areas: [&'a [u64]; AREAS],
}

impl<'a> Answer<'a> {
    /// The program, or why nothing is delivered. The reply and the words must be those of one call: other
    /// ones may panic here or in the views.
    pub fn program(&self) -> Result<Program<'a>, Refusal> {
        let Reply { number, place, totals } = self.reply;
        match Refusal::of(number, place, self.areas[Area::Errors.index()]) {
            Some(refusal) => Err(refusal),
            None => Ok(Program::new(&self.areas, totals)),
        }
    }
}

/// Totals that a trial answered, as a commit takes them: apart from the program's own, so that neither is given for the other.
#[derive(Clone, Copy, Debug, PartialEq, Eq)]
pub struct TrialTotals(pub Totals);

/// The reply of a trial and the areas whole as it left them: the program that stood, which the reply's totals are not of.
#[derive(Clone, Copy, Debug)]
pub struct Tried<'a> {
    /// The reply.
    pub reply: Reply,
    /// The areas, in the order of their numbers.
    pub areas: [&'a [u64]; AREAS],
}

impl Tried<'_> {
    /// The totals that the program would have, for a commit, or why the bundle would be refused.
    pub fn totals(&self) -> Result<TrialTotals, Refusal> {
        let Reply { number, place, totals } = self.reply;
        Refusal::of(number, place, self.areas[Area::Errors.index()]).map_or(Ok(TrialTotals(totals)), Err)
    }
}
