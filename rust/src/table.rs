//! Constant tables of the span calculator: a constant a line (docs/FORMAT.md, 'Constant tables'). The library reads and writes
//! them; here are the widths.

/// Bytes of each column: text number, kind, value.
const WIDTHS: [usize; 3] = [8, 4, 21];

/// Bytes of a line, its newline among them.
pub const TABLE_LINE_BYTES: usize = WIDTHS[0] + WIDTHS[1] + WIDTHS[2] + 1;
