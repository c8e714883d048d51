//! Refusals, and the errors that a faulty book has.

use crate::areas::Area;
use crate::column_file::LineFault;
use crate::fault::ShapeFault;
use crate::kind::{Infix, Kind, Prefix};
use crate::numbered::numbered;
use crate::position::Position;
use crate::records::{MAX_LEVEL, MAX_RECORDS, RECORD_WORDS};
use crate::texts::{Text, Texts};
use std::fmt;

/// The place that row 9 gives for the buffer of lines: it comes after the twelve areas.
const LINE_BUFFER: u64 = 13;

/// What row 3 of the program check adds to an area's number: no record has so large an index.
const PROGRAM_PLACE: u64 = 1_048_576;

/// Why a call delivers nothing. Each case is a row of docs/FORMAT.md, 'Refusals', with what its place
/// means.
#[derive(Clone, Debug, PartialEq, Eq)]
#[non_exhaustive]
pub enum Refusal {
    /// Row 1: a line of a column file is off its form.
    BadLine {
        /// The first such line, from 1.
        line: u64,
        /// What is wrong with it, where the file was at hand.
        reason: Option<LineFault>,
    },
    /// Row 2: the words are no records, or too many.
    BadLength,
    /// Row 3: a record breaks the tree rules.
    BadShape {
        /// The first such record, from 0.
        record: u64,
        /// Which rule it breaks, where the records were at hand.
        reason: Option<ShapeFault>,
    },
    /// Row 4: a record stands below the deepest level.
    TooDeep {
        /// The first such record.
        record: u64,
    },
    /// Row 5: two documents have one file number.
    BookTwice {
        /// The second of them.
        record: u64,
    },
    /// Row 6: a needed book is not in the bundle, nor does it stand.
    BookMissing {
        /// Its file.
        file: Text,
    },
    /// Row 7: a book has errors.
    BookFaulty {
        /// Its file.
        file: Text,
        /// The errors, as they came.
        errors: Vec<Error>,
    },
    /// Row 8: books that include each other in a ring, and those that wait for them.
    Ring {
        /// Their files.
        files: Vec<Text>,
    },
    /// Row 9: an area has no room.
    AreaFull {
        /// The area.
        area: Area,
    },
    /// Row 9, place 0: a converter's output has no room.
    OutputShort,
    /// Row 3 of errors in words: a number, position or token that no error has.
    UnknownError {
        /// The first such error of the list, from 0.
        index: u64,
    },
    /// Row 3 of the program check, which laying on makes first of all: an area of a standing program fails.
    BadProgram {
        /// The first such area.
        area: Area,
    },
    /// Row 9, place 13: the buffer for lines of errors has no room.
    LineBufferShort,
    /// Row 10: the records are no constant table's.
    NotATable {
        /// The first record up to which no table agrees.
        record: u64,
    },
    /// Row 11: in strict mode, an include lists a name that is not public in its file.
    NameNotPublic {
        /// The include.
        record: u64,
        /// The first such name, where the records were at hand.
        name: Option<Text>,
    },
    /// Row 12 of a commit: its trial was made of another number of bundles.
    StaleTrial {
        /// How many bundles the program has.
        bundles: u64,
    },
    /// Row 13 of a commit: the program would have other totals than its trial answered.
    TotalsDiffer,
}

impl Refusal {
    /// The refusal of a reply and its errors area; none where the number is 0.
    pub(crate) fn of(number: u64, place: u64, errors: &[u64]) -> Option<Refusal> {
        let listed = errors.chunks_exact(Area::Errors.entry_words()).take_while(|entry| entry[0] != 0);
        Some(match number {
            0 => return None,
            1 => Refusal::BadLine { line: place, reason: None },
            2 => Refusal::BadLength,
            3 => match place.checked_sub(PROGRAM_PLACE).and_then(Area::from_number) {
                Some(area) => Refusal::BadProgram { area },
                None => Refusal::BadShape { record: place, reason: None },
            },
            4 => Refusal::TooDeep { record: place },
            5 => Refusal::BookTwice { record: place },
            6 => Refusal::BookMissing { file: Text::from_number(place) },
            7 => Refusal::BookFaulty { file: Text::from_number(place), errors: listed.map(Error::of).collect() },
            8 => Refusal::Ring { files: listed.map(|entry| Text::from_number(entry[3])).collect() },
            9 => Area::from_number(place).map_or(Refusal::OutputShort, |area| Refusal::AreaFull { area }),
            10 => Refusal::NotATable { record: place },
            11 => Refusal::NameNotPublic { record: place, name: None },
            12 => Refusal::StaleTrial { bundles: place },
            13 => Refusal::TotalsDiffer,
            other => unreachable!("no reply of this layout has the number {other}"),
        })
    }

    /// Its row.
    pub fn row(&self) -> u64 {
        match self {
            Refusal::BadLine { .. } => 1,
            Refusal::BadLength => 2,
            Refusal::BadShape { .. } | Refusal::UnknownError { .. } | Refusal::BadProgram { .. } => 3,
            Refusal::TooDeep { .. } => 4,
            Refusal::BookTwice { .. } => 5,
            Refusal::BookMissing { .. } => 6,
            Refusal::BookFaulty { .. } => 7,
            Refusal::Ring { .. } => 8,
            Refusal::AreaFull { .. } | Refusal::OutputShort | Refusal::LineBufferShort => 9,
            Refusal::NotATable { .. } => 10,
            Refusal::NameNotPublic { .. } => 11,
            Refusal::StaleTrial { .. } => 12,
            Refusal::TotalsDiffer => 13,
        }
    }

    /// Its place.
    pub fn place(&self) -> u64 {
        match self {
            Refusal::BadLength | Refusal::OutputShort | Refusal::TotalsDiffer => 0,
            Refusal::BadLine { line, .. } => *line,
            Refusal::BadShape { record, .. }
            | Refusal::TooDeep { record }
            | Refusal::BookTwice { record }
            | Refusal::NotATable { record }
            | Refusal::NameNotPublic { record, .. } => *record,
            Refusal::BookMissing { file } | Refusal::BookFaulty { file, .. } => file.number(),
            Refusal::Ring { files } => files.len() as u64,
            Refusal::AreaFull { area } => area.number(),
            Refusal::UnknownError { index } => *index,
            Refusal::BadProgram { area } => PROGRAM_PLACE + area.number(),
            Refusal::LineBufferShort => LINE_BUFFER,
            Refusal::StaleTrial { bundles } => *bundles,
        }
    }

    /// The row in a word or two.
    pub fn word(&self) -> &'static str {
        match self {
            Refusal::BadLine { .. } => "bad line",
            Refusal::BadLength => "bad length",
            Refusal::BadShape { .. } | Refusal::UnknownError { .. } | Refusal::BadProgram { .. } => "bad shape",
            Refusal::TooDeep { .. } => "too deep",
            Refusal::BookTwice { .. } => "book twice",
            Refusal::BookMissing { .. } => "book missing",
            Refusal::BookFaulty { .. } => "book faulty",
            Refusal::Ring { .. } => "ring",
            Refusal::AreaFull { .. } | Refusal::OutputShort | Refusal::LineBufferShort => "area full",
            Refusal::NotATable { .. } => "not a table",
            Refusal::NameNotPublic { .. } => "name not public",
            Refusal::StaleTrial { .. } => "stale trial",
            Refusal::TotalsDiffer => "totals differ",
        }
    }

    /// The record that is refused, for rows that name one.
    pub fn record(&self) -> Option<u64> {
        match self {
            Refusal::BadShape { record, .. }
            | Refusal::TooDeep { record }
            | Refusal::BookTwice { record }
            | Refusal::NotATable { record }
            | Refusal::NameNotPublic { record, .. } => Some(*record),
            _ => None,
        }
    }

    /// The refusal in a sentence, with the names that the table knows; errors are not in it.
    pub fn spelt(&self, texts: &Texts) -> String {
        let word = self.word();
        let because = |reason: Option<String>| reason.map_or_else(String::new, |reason| format!(": {reason}"));
        match self {
            Refusal::BadLine { line, reason } => {
                format!(
                    "{word}: line {line} of the column file is off its form{}",
                    because(reason.map(|reason| reason.to_string()))
                )
            }
            Refusal::BadLength => {
                format!("{word}: the words are no multiple of {RECORD_WORDS}, or over {MAX_RECORDS} records")
            }
            Refusal::BadShape { record, reason } => {
                format!(
                    "{word}: record {record} is against the tree rules{}",
                    because(reason.map(|reason| reason.to_string()))
                )
            }
            Refusal::TooDeep { record } => format!("{word}: record {record} stands at level {}", MAX_LEVEL + 1),
            Refusal::BookTwice { record } => {
                format!("{word}: record {record}, a document, has an earlier one's file number")
            }
            Refusal::BookMissing { file } => format!("{word}: {} is needed and absent", texts.spelt(*file)),
            Refusal::BookFaulty { file, .. } => format!("{word}: {} has errors", texts.spelt(*file)),
            Refusal::Ring { files } => {
                let names: Vec<_> = files.iter().map(|&file| texts.spelt(file)).collect();
                format!("{word}: no book is ready, and {} are left: {}", files.len(), names.join(", "))
            }
            Refusal::AreaFull { area } => format!("{word}: area {}, {area}, has no room", area.number()),
            Refusal::OutputShort => format!("{word}: the output is too short"),
            Refusal::UnknownError { index } => {
                format!("{word}: error {index} of the list has a number, a position or a token that is not known")
            }
            Refusal::BadProgram { area } => format!("{word}: area {}, {area}, is no part of a program", area.number()),
            Refusal::LineBufferShort => format!("{word}: the buffer for the lines of errors is too short"),
            Refusal::NotATable { record } => format!("{word}: up to record {record} no table agrees"),
            Refusal::NameNotPublic { record, name } => {
                let name = name.map_or_else(|| "a name".into(), |name| texts.spelt(name));
                format!("{word}: record {record}, an include, lists {name}, which is not public in its file")
            }
            Refusal::StaleTrial { bundles } => {
                format!("{word}: the program's number of bundles is {bundles}, and was another at its trial")
            }
            Refusal::TotalsDiffer => format!("{word}: the program would have other totals than its trial answered"),
        }
    }
}

impl fmt::Display for Refusal {
    fn fmt(&self, out: &mut fmt::Formatter<'_>) -> fmt::Result {
        out.write_str(&self.spelt(&Texts::new()))?;
        match self {
            Refusal::BookFaulty { errors, .. } => errors.iter().try_for_each(|error| write!(out, "\n  {error}")),
            _ => Ok(()),
        }
    }
}

impl std::error::Error for Refusal {}

numbered! {
    /// What is wrong in a book, with the original's messages.
    pub enum ErrorKind {
        /// A name is defined twice in a scope.
        VariableExists = 1 "variable already exists",
        /// The left part of an assignment is no target.
        CanNotAssign = 2 "can not assign",
        /// No operation has this token.
        UnknownOperation = 3 "unknown operation",
        /// A rescue inside an if or a loop.
        RescueInside = 4 "rescue can only in the layer of function",
        /// A local definition with another value than a constant.
        ValueNotConstant = 5 "value in local definition can be constant only",
        /// A property is named twice.
        PropertyExists = 6 "property already exists",
        /// A parameter is named twice.
        ParameterExists = 7 "parameter already exists",
        /// A function with `this` outside an implement.
        InstanceFunctionOutside = 8 "instance function can inside implement block only",
        /// The name is known and no model's.
        NotAModel = 9 "is not a model",
        /// The name is not known.
        ModelNotFound = 10 "can not found model",
        /// Of row 8 alone: a book of a ring, or one that waits for it.
        Ring = 11 "there may have cycle reference in this files",
    }
}

/// A token as its record's kind and value.
#[derive(Clone, Copy, Debug, PartialEq, Eq)]
pub struct Token {
    /// The record's kind.
    pub kind: Kind,
    /// The record's value.
    pub value: u64,
}

impl Token {
    /// As the original prints it.
    pub fn spelt(self, texts: &Texts) -> String {
        let Token { kind, value } = self;
        match kind {
            Kind::Integer => (value as i64).to_string(),
            Kind::Float => f64::from_bits(value).to_string(),
            Kind::Boolean => (value == 1).to_string(),
            Kind::Null => "Null".to_string(),
            Kind::This | Kind::ThisParameter => "this".to_string(),
            Kind::Rescue => "Rescue".to_string(),
            Kind::Prefix => Prefix::from_number(value).map_or_else(other, |prefix| format!("{prefix:?}")),
            Kind::Infix => Infix::from_number(value).map_or_else(other, |infix| format!("{infix:?}")),
            kind if kind.holds_text() => texts.spelt(Text::from_number(value)).into_owned(),
            _ => other(),
        }
    }
}

fn other() -> String {
    "another token".to_string()
}

/// An error of a book.
#[derive(Clone, Copy, Debug, PartialEq, Eq)]
pub struct Error {
    /// What is wrong.
    pub kind: ErrorKind,
    /// Where.
    pub position: Position,
    /// At which token.
    pub token: Token,
}

impl Error {
    fn of(entry: &[u64]) -> Error {
        let known = ErrorKind::from_number(entry[0]).zip(Kind::from_number(entry[2]));
        let (kind, token) = known.unwrap_or_else(|| unreachable!("a book has no error {entry:?}"));
        Error { kind, position: Position::from_word(entry[1]), token: Token { kind: token, value: entry[3] } }
    }

    /// As the original prints it.
    pub fn spelt(&self, texts: &Texts) -> String {
        format!("at {} near {} - {}", self.position, self.token.spelt(texts), self.kind)
    }
}

impl fmt::Display for Error {
    fn fmt(&self, out: &mut fmt::Formatter<'_>) -> fmt::Result {
        out.write_str(&self.spelt(&Texts::new()))
    }
}

impl std::error::Error for Error {}

#[cfg(test)]
mod tests {
    use super::*;

    #[test]
    fn rows_are_spelt() {
        let spelt = |number, place| Refusal::of(number, place, &[]).expect("a row").to_string();
        assert_eq!(Refusal::of(0, 0, &[]), None);
        assert_eq!(spelt(1, 4), "bad line: line 4 of the column file is off its form");
        assert_eq!(spelt(2, 0), "bad length: the words are no multiple of 4, or over 1048576 records");
        assert_eq!(spelt(3, 5), "bad shape: record 5 is against the tree rules");
        assert_eq!(spelt(4, 64), "too deep: record 64 stands at level 65");
        assert_eq!(spelt(5, 2), "book twice: record 2, a document, has an earlier one's file number");
        assert_eq!(spelt(6, 8), "book missing: text 8 is needed and absent");
        assert_eq!(spelt(7, 2), "book faulty: text 2 has errors");
        assert_eq!(spelt(9, 7), "area full: area 7, context locals, has no room");
        assert_eq!(spelt(9, 0), "area full: the output is too short");
        assert_eq!(
            spelt(11, 4),
            "name not public: record 4, an include, lists a name, which is not public in its file"
        );
        assert_eq!(spelt(12, 3), "stale trial: the program's number of bundles is 3, and was another at its trial");
        assert_eq!(spelt(13, 0), "totals differ: the program would have other totals than its trial answered");
    }

    #[test]
    fn rows_and_places_come_back() {
        let ring = ErrorKind::Ring.number();
        let errors = [ring, 0, 0, 5, ring, 0, 0, 6, 0, 0, 0, 0];
        let rows = [(1, 4), (2, 0), (3, 5), (4, 64), (5, 2), (6, 8), (7, 2), (8, 2), (9, 7), (9, 0), (11, 4)];
        for (row, place) in rows.into_iter().chain([(12, 3), (13, 0)]) {
            let listed = if row == 8 { &errors[..] } else { &[] };
            let refusal = Refusal::of(row, place, listed).expect("a row");
            assert_eq!((refusal.row(), refusal.place()), (row, place));
        }
        let ring = Refusal::of(8, 2, &errors).expect("row 8");
        assert_eq!(ring.to_string(), "ring: no book is ready, and 2 are left: text 5, text 6");
    }

    #[test]
    fn refusals_of_errors_in_words_are_spelt() {
        let unknown = Refusal::UnknownError { index: 4 };
        assert_eq!((unknown.row(), unknown.place(), unknown.record()), (3, 4, None));
        let spelt = "bad shape: error 4 of the list has a number, a position or a token that is not known";
        assert_eq!(unknown.to_string(), spelt);
        let short = Refusal::LineBufferShort;
        assert_eq!((short.row(), short.place(), short.record()), (9, 13, None));
        assert_eq!(short.to_string(), "area full: the buffer for the lines of errors is too short");
    }

    #[test]
    fn the_area_of_a_program_is_spelt() {
        let functions = Refusal::BadProgram { area: Area::Functions };
        assert_eq!(Refusal::of(3, 1_048_579, &[]).as_ref(), Some(&functions));
        assert_eq!(Refusal::of(3, 1_048_575, &[]), Some(Refusal::BadShape { record: 1_048_575, reason: None }));
        assert_eq!((functions.row(), functions.place(), functions.record()), (3, 1_048_579, None));
        assert_eq!(functions.to_string(), "bad shape: area 3, functions, is no part of a program");
    }

    #[test]
    fn errors_are_read_up_to_the_zeros() {
        let at = |line, column| Position::new(line, column).word();
        let (infix, name) = (Kind::Infix.number(), Kind::Name.number());
        let words = [2, at(2, 7), infix, 0, 1, at(1, 12), name, 2, 0, 0, 0, 0, 0, 0];
        let refusal = Refusal::of(7, 2, &words).expect("row 7");
        let mut texts = Texts::new();
        texts.intern("x");
        let Refusal::BookFaulty { errors, .. } = &refusal else { panic!("{refusal:?}") };
        let spelt: Vec<String> = errors.iter().map(|error| error.spelt(&texts)).collect();
        let both = ["at (2, 7) near Assign - can not assign", "at (1, 12) near x - variable already exists"];
        assert_eq!(spelt, both);
        let whole = "book faulty: text 2 has errors\n  at (2, 7) near Assign - can not assign\n  \
                     at (1, 12) near text 2 - variable already exists";
        assert_eq!(refusal.to_string(), whole);
    }

    #[test]
    fn tokens_are_spelt_as_the_original_does() {
        let spelt = |kind, value| Token { kind, value }.spelt(&Texts::new());
        assert_eq!(spelt(Kind::Integer, u64::MAX), "-1");
        assert_eq!(spelt(Kind::Float, 0.5f64.to_bits()), "0.5");
        assert_eq!(spelt(Kind::Boolean, 1), "true");
        assert_eq!(spelt(Kind::Null, 0), "Null");
        assert_eq!(spelt(Kind::ThisParameter, 7), "this");
        assert_eq!(spelt(Kind::Implement, 1), "main");
        assert_eq!(spelt(Kind::Infix, 6), "PlusAssign");
        assert_eq!(spelt(Kind::Prefix, 1), "Not");
        assert_eq!(spelt(Kind::OtherToken, 0), "another token");
    }
}
