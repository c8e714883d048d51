//! The calls with memory of this crate's own, and results for replies. A refusal says why a line or a
//! record is refused, which the library does not.

use crate::areas::Areas;
use crate::calls;
use crate::column_file::{words, LineFault, LINE_BYTES};
use crate::fault::ShapeFault;
use crate::kind::Kind;
use crate::mode::Mode;
use crate::nodes::{documents, Node};
use crate::program::Program;
use crate::records::RECORD_WORDS;
use crate::refusal::Refusal;
use crate::table::TABLE_LINE_BYTES;
use crate::texts::Text;

/// The refusal with the rule that a record breaks, or the name that is not public. Where the bundle was laid onto a program,
/// that is the program as it stands.
pub(crate) fn with_reason(refusal: Refusal, tree: &[u64], standing: Option<Program<'_>>) -> Refusal {
    match refusal {
        Refusal::BadShape { record, .. } => Refusal::BadShape { record, reason: ShapeFault::of(tree, record) },
        Refusal::NameNotPublic { record, .. } => {
            Refusal::NameNotPublic { record, name: first_not_public(tree, record, standing) }
        }
        other => other,
    }
}

/// The first name that the include at a record lists and that is not public in its file.
fn first_not_public(tree: &[u64], record: u64, standing: Option<Program<'_>>) -> Option<Text> {
    let mut definitions = documents(tree).flat_map(|document| document.children());
    let include = definitions.find(|definition| definition.index() as u64 == record)?;
    let file = include.text()?;
    let public = standing.and_then(|program| standing_names(program, file)).or_else(|| names_in(tree, file))?;
    include.children().step_by(2).filter_map(|name| name.text()).find(|name| !public.contains(name))
}

/// The public names of a book that stands; a copy of it in the bundle does not count.
fn standing_names(program: Program<'_>, file: Text) -> Option<Vec<Text>> {
    let index = program.books().position(|book| book == file)? as u64;
    Some(program.public_names().filter(|public| public.file == index).map(|public| public.name).collect())
}

/// The public models and functions of a file's document.
fn names_in(tree: &[u64], file: Text) -> Option<Vec<Text>> {
    let book = documents(tree).find(|document| document.text() == Some(file))?;
    let kinds = [Some(Kind::PublicModel), Some(Kind::PublicFunction)];
    let public = |definition: &Node| kinds.contains(&definition.kind());
    Some(book.children().filter(public).filter_map(|definition| definition.text()).collect())
}

/// The shape check: rows 2 to 4 on any words.
pub fn check(tree: &[u64]) -> Result<(), Refusal> {
    calls::check(tree).result().map_err(|refusal| with_reason(refusal, tree, None))
}

/// A column file to records, or rows 1 to 4.
pub fn columns_to_records(file: &[u8]) -> Result<Vec<u64>, Refusal> {
    let mut out = vec![0; file.len() / LINE_BYTES * RECORD_WORDS];
    let converted = calls::columns_to_records(file, &mut out).records();
    let records = converted.map_err(|refusal| match refusal {
        Refusal::BadLine { line, .. } => Refusal::BadLine { line, reason: LineFault::of(file, line) },
        other => with_reason(other, &words(file).unwrap_or_default(), None),
    })?;
    out.truncate(records * RECORD_WORDS);
    Ok(out)
}

/// Records to a column file, or rows 2 to 4.
pub fn records_to_columns(tree: &[u64]) -> Result<Vec<u8>, Refusal> {
    let mut out = vec![0; tree.len() / RECORD_WORDS * LINE_BYTES];
    let converted = calls::records_to_columns(tree, &mut out).records();
    let records = converted.map_err(|refusal| with_reason(refusal, tree, None))?;
    out.truncate(records * LINE_BYTES);
    Ok(out)
}

/// A constant table to the records of its document, which has this file; or row 1, row 2, or row 3 for a file that is no text.
///
/// ```
/// use clover_back_end::{records_to_table, table_to_records, Text};
///
/// let table = format!("{:>8}{:>4}{:>21}\n", 3, 2, -7);
/// let records = table_to_records(table.as_bytes(), Text::from_number(5))?;
/// assert_eq!(records[..8], [1, 4, 0, 5, 10, 3, 0, 0]);
/// assert_eq!(records_to_table(&records)?, (table.into_bytes(), Text::from_number(5)));
/// # Ok::<(), clover_back_end::Refusal>(())
/// ```
pub fn table_to_records(table: &[u8], file: Text) -> Result<Vec<u64>, Refusal> {
    let mut out = vec![0; (table.len() / TABLE_LINE_BYTES * 3 + 1) * RECORD_WORDS];
    let records = calls::table_to_records(table, file.number(), &mut out).records()?;
    out.truncate(records * RECORD_WORDS);
    Ok(out)
}

/// The records of a table's document to the table and the document's file, or rows 2 to 4, or row 10.
pub fn records_to_table(tree: &[u64]) -> Result<(Vec<u8>, Text), Refusal> {
    let mut out = vec![0; tree.len() / (3 * RECORD_WORDS) * TABLE_LINE_BYTES];
    let tabled = calls::records_to_table(tree, &mut out).lines();
    let (lines, file) = tabled.map_err(|refusal| with_reason(refusal, tree, None))?;
    out.truncate(lines * TABLE_LINE_BYTES);
    Ok((out, file))
}

impl Areas {
    /// Compiles a bundle into these areas; [`program`](Areas::program) reads what was delivered. After
    /// a refusal they hold nothing but the listed errors, which the refusal has too.
    ///
    /// The areas are borrowed for the call alone, so that a loop may grow them and try again:
    ///
    /// ```
    /// use clover_back_end::{Areas, Program, Refusal, AREAS};
    ///
    /// fn compiled<'a>(tree: &[u64], areas: &'a mut Areas) -> Result<Program<'a>, Refusal> {
    ///     while let Err(refusal) = areas.compile(tree) {
    ///         let Refusal::AreaFull { area } = refusal else { return Err(refusal) };
    ///         areas.grow(area);
    ///     }
    ///     Ok(areas.program().expect("delivered"))
    /// }
    /// assert!(compiled(&[1, 1, 0, 2], &mut Areas::with_entries([0; AREAS])).is_ok());
    /// ```
    pub fn compile(&mut self, tree: &[u64]) -> Result<(), Refusal> {
        self.compile_in(Mode::Present, tree)
    }

    /// The same in a mode. In strict mode a refusal by row 11 has the include's place and its first name that is not public.
    pub fn compile_in(&mut self, mode: Mode, tree: &[u64]) -> Result<(), Refusal> {
        let lengths = self.lengths();
        let answer = calls::compile_in(mode, tree, lengths, self.lend());
        let (reply, refusal) = (answer.reply, answer.program().err());
        self.keep(reply);
        refusal.map_or(Ok(()), |refusal| Err(with_reason(refusal, tree, None)))
    }

    /// The same, and where an area is full it is [grown](Areas::grow) and the bundle compiled again,
    /// as long as all areas and their slots together have at most `most` words. (A bundle can need more
    /// memory than any machine has.)
    pub fn compile_growing(&mut self, tree: &[u64], most: usize) -> Result<Program<'_>, Refusal> {
        self.compile_growing_in(Mode::Present, tree, most)
    }

    /// The same in a mode.
    pub fn compile_growing_in(&mut self, mode: Mode, tree: &[u64], most: usize) -> Result<Program<'_>, Refusal> {
        while let Err(refusal) = self.compile_in(mode, tree) {
            let Refusal::AreaFull { area } = refusal else { return Err(refusal) };
            if self.len_grown(area) > most {
                return Err(refusal);
            }
            self.grow(area);
        }
        Ok(self.program().expect("the last call delivered"))
    }
}

/// Compiles a bundle into areas that are as long as they are: [`Areas::compile`] and the program.
pub fn compile<'a>(tree: &[u64], areas: &'a mut Areas) -> Result<Program<'a>, Refusal> {
    compile_in(Mode::Present, tree, areas)
}

/// The same in a mode.
pub fn compile_in<'a>(mode: Mode, tree: &[u64], areas: &'a mut Areas) -> Result<Program<'a>, Refusal> {
    areas.compile_in(mode, tree)?;
    Ok(areas.program().expect("the call delivered"))
}
