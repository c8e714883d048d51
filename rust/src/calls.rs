//! The library's calls, over memory that the caller has: slices go to the library as they are, and the
//! replies come back as docs/FORMAT.md has them. Nothing is allocated. All else is made of these, and
//! no other file has `unsafe` or names a symbol.
//!
//! ```
//! use clover_back_end::{calls, AREAS};
//!
//! // One memory, 32 words of it for each area; file 2 is empty.
//! let mut memory = vec![0; 32 * AREAS];
//! let answer = calls::compile(&[1, 1, 0, 2], [32; AREAS], &mut memory);
//! assert_eq!((answer.reply.number, answer.reply.totals.books), (0, 1));
//! assert_eq!(answer.program().expect("no refusal").books().count(), 1);
//! ```

use crate::areas::{areas_in, AREAS};
use crate::mode::Mode;
use crate::program::Totals;
use crate::reply::{Answer, Checked, Converted, Reply, Tabled, TrialTotals, Tried, Version};
use std::sync::Once;

/// The layout that this crate was written for. The first call holds the library's to it.
pub const LAYOUT: u64 = 6;

extern "C" {
    fn clover_version() -> Version;
    fn clover_check(tree: *const u64, words: usize) -> Checked;
    fn clover_check_program(memory: *const u64, words: usize, lengths: Lengths, totals: Totals) -> Checked;
    fn clover_columns_to_records(file: *const u8, bytes: usize, out: *mut u64, words: usize) -> Converted;
    fn clover_records_to_columns(tree: *const u64, words: usize, out: *mut u8, bytes: usize) -> Converted;
    fn clover_table_to_records(table: *const u8, bytes: usize, file: u64, out: *mut u64, words: usize) -> Converted;
    fn clover_records_to_table(tree: *const u64, words: usize, out: *mut u8, bytes: usize) -> Tabled;
}

#[rustfmt::skip]
extern "C" {
    fn clover_errors_in_words(
        errors: *const u64, error_words: usize,
        file: u64,
        table: *const u64, table_words: usize,
        bytes: *const u8, byte_count: usize,
        out: *mut u8, room: usize,
    ) -> Converted;
}

#[rustfmt::skip]
extern "C" {
    fn clover_compile(
        tree: *const u64, tree_words: usize,
        mode: u64,
        lengths: Lengths,
        memory: *mut u64, memory_words: usize,
    ) -> Reply;
    fn clover_lay_on(
        tree: *const u64, tree_words: usize,
        mode: u64,
        standing: Totals,
        lengths: Lengths,
        memory: *mut u64, memory_words: usize,
    ) -> Reply;
    fn clover_trial(
        tree: *const u64, tree_words: usize,
        mode: u64,
        standing: Totals,
        lengths: Lengths,
        memory: *mut u64, memory_words: usize,
    ) -> Reply;
    fn clover_commit(
        tree: *const u64, tree_words: usize,
        mode: u64,
        standing: Totals,
        trial: Totals,
        lengths: Lengths,
        memory: *mut u64, memory_words: usize,
    ) -> Reply;
}

/// The words of each area in one memory, in the order of the areas' numbers.
#[repr(C)]
#[derive(Clone, Copy)]
struct Lengths([usize; AREAS]);

/// Which library is linked.
pub fn version() -> Version {
    // Nothing goes in; a struct of two words comes back.
    unsafe { clover_version() }
}

/// Ends the program where the linked library has another layout: its replies would be misread.
fn hold_to_layout() {
    static HELD: Once = Once::new();
    HELD.call_once(|| {
        let Version { version, layout } = version();
        assert!(
            layout == LAYOUT,
            "the linked library (version {version}) has layout {layout}, and this crate is for layout {LAYOUT}: \
             build both from one checkout"
        );
    });
}

/// Rows 2 to 4 on any words.
pub fn check(tree: &[u64]) -> Checked {
    hold_to_layout();
    // The words outlive the call, which only reads them.
    unsafe { clover_check(tree.as_ptr(), tree.len()) }
}

/// The program check: whether words and totals that somebody lends are a program. The areas follow each other in one memory by
/// their numbers, each with so many words; a length that passes the end is cut there. Row 3 with 1,048,576 plus the number of
/// the first area that fails. [`Checked::program_result`] reads the reply.
pub fn check_program(memory: &[u64], lengths: [usize; AREAS], totals: Totals) -> Checked {
    hold_to_layout();
    // The words outlive the call, which only reads them; twelve words one after the other are a struct of twelve.
    unsafe { clover_check_program(memory.as_ptr(), memory.len(), Lengths(lengths), totals) }
}

/// A column file to records, or rows 1 to 4, or row 9 with place 0 where the output is too short.
pub fn columns_to_records(file: &[u8], out: &mut [u64]) -> Converted {
    hold_to_layout();
    // Both slices outlive the call, and the output is another than the file.
    unsafe { clover_columns_to_records(file.as_ptr(), file.len(), out.as_mut_ptr(), out.len()) }
}

/// Records to a column file, or rows 2 to 4, or row 9 with place 0 where the output is too short.
pub fn records_to_columns(tree: &[u64], out: &mut [u8]) -> Converted {
    hold_to_layout();
    // Both slices outlive the call, and the output is another than the tree.
    unsafe { clover_records_to_columns(tree.as_ptr(), tree.len(), out.as_mut_ptr(), out.len()) }
}

/// A constant table to the records of its document, or row 1, row 2, row 3 with place 0 for a file number that is no text, or
/// row 9 with place 0 where the output is too short.
pub fn table_to_records(table: &[u8], file: u64, out: &mut [u64]) -> Converted {
    hold_to_layout();
    // Both slices outlive the call, and the output is another than the table.
    unsafe { clover_table_to_records(table.as_ptr(), table.len(), file, out.as_mut_ptr(), out.len()) }
}

/// The records of a table's document to the table, or rows 2 to 4, row 10, or row 9 with place 0 where the output is too short.
pub fn records_to_table(tree: &[u64], out: &mut [u8]) -> Tabled {
    hold_to_layout();
    // Both slices outlive the call, and the output is another than the tree.
    unsafe { clover_records_to_table(tree.as_ptr(), tree.len(), out.as_mut_ptr(), out.len()) }
}

/// The errors of area 11 as lines, with the file number of their book; of text n `table[2n - 2]` is the start and
/// `table[2n - 1]` the length in `bytes`, whatever these words are. Or row 3 with the index of an error that is not known, or
/// row 9 with place 13 where the output is too short. [`Converted::line_bytes`] reads the reply.
pub fn errors_in_words(errors: &[u64], file: u64, table: &[u64], bytes: &[u8], out: &mut [u8]) -> Converted {
    hold_to_layout();
    // The slices outlive the call, which writes to the output alone, and the output is another than the rest.
    #[rustfmt::skip]
    let reply = unsafe {
        clover_errors_in_words(
            errors.as_ptr(), errors.len(),
            file,
            table.as_ptr(), table.len(),
            bytes.as_ptr(), bytes.len(),
            out.as_mut_ptr(), out.len(),
        )
    };
    reply
}

/// Compiles a bundle into the areas of one memory, in the present mode. The areas follow each other in the order of their
/// numbers, so many words each; a length that passes the memory's end is cut there ([`areas_in`]). Every word of the memory is
/// written: a tail shorter than an entry and what is left over behind the last area are zeroed. What is left over is the table
/// of slots through which constants are found: any words may be in it, and its length changes nothing but the time
/// ([`slots_for`](crate::slots_for)).
pub fn compile<'a>(tree: &[u64], lengths: [usize; AREAS], memory: &'a mut [u64]) -> Answer<'a> {
    compile_in(Mode::Present, tree, lengths, memory)
}

/// The same in a mode.
pub fn compile_in<'a>(mode: Mode, tree: &[u64], lengths: [usize; AREAS], memory: &'a mut [u64]) -> Answer<'a> {
    hold_to_layout();
    let (words, size) = (Lengths(lengths), memory.len());
    // Both slices outlive the call, and the memory is another than the tree.
    let reply = unsafe { clover_compile(tree.as_ptr(), tree.len(), mode.word(), words, memory.as_mut_ptr(), size) };
    Answer { reply, areas: areas_in(lengths, memory) }
}

/// The calls on a program that are lent nothing but the bundle and the program.
type OnProgram = unsafe extern "C" fn(*const u64, usize, u64, Totals, Lengths, *mut u64, usize) -> Reply;

fn on_program(
    call: OnProgram,
    mode: Mode,
    tree: &[u64],
    standing: Totals,
    lengths: [usize; AREAS],
    memory: &mut [u64],
) -> Reply {
    hold_to_layout();
    let (words, size) = (Lengths(lengths), memory.len());
    // Both slices outlive the call, and the memory is another than the tree.
    unsafe { call(tree.as_ptr(), tree.len(), mode.word(), standing, words, memory.as_mut_ptr(), size) }
}

/// Lays a bundle onto the program that stands in the areas of one memory and has these totals. First of all the program is
/// checked as [`check_program`] does: where it fails, every word stays as it is. A delivery is what stood and what the bundle
/// adds, then zeros. Any other refusal leaves the program, and in area 11 the errors of rows 7 and 8 and zeros. After a refusal
/// the reply's totals are those lent. What is left over behind the last area is the table of slots, as in [`compile_in`]: zeros
/// after every call but the check's refusal. What area 11 holds before, and its total, do not matter. The number of bundles is
/// one more after a delivery.
pub fn lay_on<'a>(
    mode: Mode,
    tree: &[u64],
    standing: Totals,
    lengths: [usize; AREAS],
    memory: &'a mut [u64],
) -> Answer<'a> {
    let reply = on_program(clover_lay_on, mode, tree, standing, lengths, memory);
    Answer { reply, areas: areas_in(lengths, memory) }
}

/// What [`lay_on`] would answer, with the number of bundles as it was lent. The program stays as it stood, whatever is answered:
/// area 11 alone, and the slots, are as laying on leaves them.
pub fn trial<'a>(
    mode: Mode,
    tree: &[u64],
    standing: Totals,
    lengths: [usize; AREAS],
    memory: &'a mut [u64],
) -> Tried<'a> {
    let reply = on_program(clover_trial, mode, tree, standing, lengths, memory);
    Tried { reply, areas: areas_in(lengths, memory) }
}

/// Lays a bundle on as its [`trial`] said. Right behind the program check comes row 12, where the trial's number of bundles is not
/// the program's; after the work, where it would deliver, row 13, where one of the totals that line 1 of a listing has is not the
/// trial's. Else the call is [`lay_on`].
pub fn commit<'a>(
    mode: Mode,
    tree: &[u64],
    standing: Totals,
    trial: TrialTotals,
    lengths: [usize; AREAS],
    memory: &'a mut [u64],
) -> Answer<'a> {
    hold_to_layout();
    let (words, size) = (Lengths(lengths), memory.len());
    // Both slices outlive the call, and the memory is another than the tree.
    #[rustfmt::skip]
    let reply = unsafe {
        clover_commit(
            tree.as_ptr(), tree.len(),
            mode.word(),
            standing,
            trial.0,
            words,
            memory.as_mut_ptr(), size,
        )
    };
    Answer { reply, areas: areas_in(lengths, memory) }
}
