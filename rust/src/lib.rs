//! The Clover back end of this repository for Rust programs. It is proved, in Rattle, and linked as a
//! static library; this crate wraps its calls and gives types to what they write.
//!
//! A bundle of books goes in as records, four words each ([`records`] writes them); a program comes
//! out in memory that the caller lends ([`Areas`], or a slice of its own through `calls`), read through
//! [`Program`]. Texts are numbers throughout; a [`Texts`] knows what they say. Later bundles are laid onto
//! a program that stands (`StandingProgram`), which can be saved and loaded; what a bundle would do to it can be
//! seen first (`StandingProgram::trial`).
//!
//! ```
//! # #[cfg(feature = "link")]
//! # fn main() -> Result<(), clover_back_end::Refusal> {
//! use clover_back_end::records::Records;
//! use clover_back_end::{Areas, Constant, OpCode, Position, Texts};
//!
//! // File `seven.clover` holds `function f() 7 end`.
//! let mut texts = Texts::new();
//! let (file, f) = (texts.intern("seven.clover"), texts.intern("f"));
//! let mut bundle = Records::new();
//! bundle.document(file, |book| {
//!     let seven = Position::new(1, 14);
//!     book.function(f.at(Position::new(1, 10))).body(|body| body.expression(|slot| slot.integer(7, seven)));
//! });
//!
//! let mut areas = Areas::for_tree(bundle.words());
//! // At most a million words; a full area is made longer until then.
//! let program = areas.compile_growing(bundle.words(), 1_000_000)?;
//! let f = program.functions().next().expect("one function");
//! let (first, _) = f.instructions().next().expect("two instructions");
//! assert_eq!(first.opcode(), OpCode::PushConstant);
//! assert_eq!(program.constant(first.operand()), Some(Constant::Integer(7)));
//! # Ok(())
//! # }
//! # #[cfg(not(feature = "link"))]
//! # fn main() {}
//! ```
//!
//! What is promised of a call, and the form of records, areas and reply: `docs/PROMISES.md` and
//! `docs/FORMAT.md` of the repository. This crate itself is not proved; its `unsafe` is the calls.

#![warn(missing_docs)]

mod areas;
#[cfg(feature = "clover-ast")]
pub mod ast;
#[cfg(feature = "link")]
pub mod calls;
mod column_file;
#[cfg(feature = "link")]
mod compiling;
mod constant;
#[cfg(feature = "link")]
mod error_lines;
mod fault;
mod instruction;
mod kind;
mod mode;
pub mod nodes;
mod numbered;
mod position;
mod program;
pub mod records;
mod refusal;
mod reply;
#[cfg(feature = "link")]
mod saved;
#[cfg(feature = "link")]
mod standing;
mod table;
mod texts;
#[cfg(feature = "link")]
mod trial;

pub use areas::{areas_in, slots_for, Area, Areas, AREAS};
pub use column_file::{LineFault, LINE_BYTES};
#[cfg(feature = "link")]
pub use compiling::{
    check, columns_to_records, compile, compile_in, records_to_columns, records_to_table, table_to_records,
};
pub use constant::Constant;
#[cfg(feature = "link")]
pub use error_lines::errors_in_words;
pub use fault::ShapeFault;
pub use instruction::{Instruction, OpCode, Operand, Operation};
pub use kind::{Infix, Kind, Prefix};
pub use mode::Mode;
pub use position::Position;
pub use program::{ContextLocal, Function, Method, Model, Program, PublicName, Totals};
pub use refusal::{Error, ErrorKind, Refusal, Token};
pub use reply::{Answer, Checked, Converted, Reply, Tabled, TrialTotals, Tried, Version};
#[cfg(feature = "link")]
pub use saved::LoadError;
#[cfg(feature = "link")]
pub use standing::{check_program, StandingProgram};
pub use table::TABLE_LINE_BYTES;
pub use texts::{Text, TextTable, Texts, TextsError};
#[cfg(feature = "link")]
pub use trial::Trial;
