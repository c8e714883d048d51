//! The listing of 01 ("Bench pieces") of a column file, and what the program `listing` prints for
//! one with its fixed buffers.

use crate::areas::{answer, Answer, Delivery, Lengths, ENTRY_WORDS};
use crate::columns::column_to_records;
use crate::model::compile;
use crate::records::{line_and_column, RECORD_WORDS};

/// The buffers of the program (docs/FORMAT.md): bytes of input and output, entries of each area.
pub const INPUT_BYTES: usize = 65_520;
pub const OUTPUT_BYTES: usize = 65_490;
pub const AREA_ENTRIES: usize = 1_000;

/// A line of the listing with its newline.
pub const LINE_BYTES: usize = 74;

const FIELDS: usize = 8;
/// Widths 4, six of 8, and 21.
const WIDTHS: [usize; FIELDS] = [4, 8, 8, 8, 8, 8, 8, 21];
const INTEGER_CONSTANT: u64 = 2;
const INTEGER_TOKEN: u64 = 33;

/// A listing, or row 9, place 0, where a number is wider than its field.
pub struct Writer {
    out: String,
    too_wide: bool,
}

impl Writer {
    fn new() -> Writer {
        Writer { out: String::new(), too_wide: false }
    }

    fn line(&mut self, section: u64, middle: &[u64], last: String) {
        let mut fields = vec![section.to_string()];
        fields.extend(middle.iter().map(u64::to_string));
        fields.resize(FIELDS - 1, "0".to_string());
        fields.push(last);
        for (field, width) in fields.iter().zip(WIDTHS) {
            self.too_wide |= field.len() > width;
            self.out += &format!("{field:>width$}");
        }
        self.out.push('\n');
    }

    fn finish(self) -> Vec<u8> {
        if self.too_wide {
            return refusal(9, 0, &[]);
        }
        self.out.into_bytes()
    }
}

fn value(number: u64, signed: bool) -> String {
    if signed {
        (number as i64).to_string()
    } else {
        number.to_string()
    }
}

fn refusal(row: u64, place: u64, errors: &[[u64; 4]]) -> Vec<u8> {
    let mut writer = Writer::new();
    writer.line(0, &[row, place], value(0, false));
    for (index, &[number, position, kind, token]) in (0..).zip(errors) {
        let (line, column) = line_and_column(position);
        let middle = [index, number, line, column, kind];
        writer.line(11, &middle, value(token, kind == INTEGER_TOKEN));
    }
    writer.finish()
}

fn delivery(program: &Delivery) -> Vec<u8> {
    let mut writer = Writer::new();
    let plain = |number: u64| value(number, false);
    let totals = [
        program.functions.len() as u64,
        program.constants.len() as u64,
        program.models.len() as u64,
        program.context.len() as u64,
        program.entry_point,
        program.books.len() as u64,
    ];
    writer.line(1, &totals, plain(program.globals.len() as u64));
    for (index, f) in (0..).zip(&program.functions) {
        let middle = [index, f.parameters, f.locals, f.rescue, u64::from(f.instance), f.file];
        writer.line(2, &middle, plain(f.name));
    }
    for (function, f) in (0..).zip(&program.functions) {
        for (index, &(word, position)) in (0..).zip(&f.code) {
            let (line, column) = line_and_column(position);
            let middle = [function, index, line, column, word >> 56];
            writer.line(3, &middle, plain(word & ((1 << 56) - 1)));
        }
    }
    for (index, &(kind, number)) in (0..).zip(&program.constants) {
        writer.line(4, &[index, kind], value(number, kind == INTEGER_CONSTANT));
    }
    for (index, model) in (0..).zip(&program.models) {
        writer.line(5, &[index, model.file], plain(model.name));
    }
    for (model, m) in (0..).zip(&program.models) {
        for (index, &name) in (0..).zip(&m.properties) {
            writer.line(6, &[model, index], plain(name));
        }
    }
    for (model, m) in (0..).zip(&program.models) {
        for (&name, &function) in &m.methods {
            writer.line(7, &[model, function], plain(name));
        }
    }
    for (local, entry) in (0..).zip(&program.context) {
        if let Some(constant) = entry.2 {
            writer.line(8, &[local, constant], plain(0));
        }
    }
    for &constant in &program.globals {
        writer.line(9, &[constant], plain(0));
    }
    for (index, &file) in (0..).zip(&program.books) {
        writer.line(10, &[index], plain(file));
    }
    writer.finish()
}

/// The listing of an answer.
pub fn listing(answer: &Answer) -> Vec<u8> {
    match answer {
        Answer::Delivered(program) => delivery(program),
        Answer::Refused { row, place, errors } => refusal(*row, *place, errors),
    }
}

/// The listing of a column file, with areas of these lengths.
pub fn listing_of_column(bytes: &[u8], lengths: &Lengths) -> Vec<u8> {
    let read = column_to_records(bytes, bytes.len() * RECORD_WORDS);
    if read.row != 0 {
        return refusal(read.row, read.place, &[]);
    }
    let words = &read.out[..bytes.len() / crate::columns::LINE_BYTES * RECORD_WORDS];
    let run = compile(words, lengths);
    listing(&answer(&run.reply, &run.areas))
}

/// The areas of the program, in words.
pub fn program_lengths() -> Lengths {
    ENTRY_WORDS.map(|words| AREA_ENTRIES * words)
}

/// What the program prints: the listing, or row 9, place 0, where input or listing is too long.
pub fn printed(bytes: &[u8]) -> Vec<u8> {
    if bytes.len() > INPUT_BYTES {
        return refusal(9, 0, &[]);
    }
    let whole = listing_of_column(bytes, &program_lengths());
    if whole.len() > OUTPUT_BYTES {
        return refusal(9, 0, &[]);
    }
    whole
}
