//! Errors in words: a line for each error of area 11 (docs/FORMAT.md, 'Errors in words'). The library writes them.

use crate::areas::Area;
use crate::calls;
use crate::refusal::Refusal;
use crate::texts::{Text, Texts};

/// Bytes that most lines do not pass.
const LINE_GUESS: usize = 96;

/// The errors of area 11 as lines of printable ASCII, a newline after each: message, file, line, column, token kind and
/// token value. `errors` are entries of four words, up to the first of zeros; `file` is the book that has them (an error 11
/// has its own). Texts that the table has stand in quotation marks, others are numbers.
///
/// The one refusal is [`Refusal::UnknownError`], row 3. The lists of the compile call have no such error, which is proved.
///
/// ```
/// use clover_back_end::{errors_in_words, Area, Areas, Refusal, Text, Texts};
///
/// // File 2, `snow.clover`, holds a rescue inside an if: 25, an expression statement; 42, an if; its condition; a block.
/// let at = |line: u64, column: u64| line << 32 | column;
/// let tree = [1, 7, 0, 2, 14, 6, 0, 1, 25, 5, 0, 0, 42, 4, 0, 0, 36, 1, at(2, 6), 1, 43, 2, 0, 0, 23, 1, at(3, 5), 0];
/// let mut areas = Areas::for_tree(&tree);
/// let refusal = areas.compile(&tree).expect_err("a faulty book");
/// let Refusal::BookFaulty { file, .. } = refusal else { panic!("{refusal}") };
/// let mut texts = Texts::new();
/// assert_eq!(texts.intern("snow.clover"), file);
/// let lines = errors_in_words(areas.words(Area::Errors), file, &texts)?;
/// assert_eq!(lines, "rescue can only in the layer of function, \"snow.clover\", 3, 5, 23, 0\n");
/// # Ok::<(), Refusal>(())
/// ```
pub fn errors_in_words(errors: &[u64], file: Text, texts: &Texts) -> Result<String, Refusal> {
    let table = texts.table();
    let entries = errors.chunks_exact(Area::Errors.entry_words());
    let listed = entries.take_while(|entry| entry.iter().any(|&word| word != 0)).count();
    let mut out = vec![0; listed * LINE_GUESS];
    loop {
        let reply = calls::errors_in_words(errors, file.number(), table.places(), table.bytes(), &mut out);
        match reply.line_bytes() {
            Ok(bytes) => {
                out.truncate(bytes);
                return Ok(String::from_utf8(out).expect("lines are ASCII"));
            }
            // Lines are as long as the texts in them.
            Err(Refusal::LineBufferShort) => out.resize(2 * out.len().max(LINE_GUESS), 0),
            Err(refusal) => return Err(refusal),
        }
    }
}
