//! `clover check`: whether bundles are delivered.

use crate::arguments::{Arguments, Choice, Command, Failure, Verdict};
use crate::bundle::{self, Bundle};
use crate::input::{self, Input};
use crate::refused;
use crate::style::counted;
use clover_back_end::check;
use clover_back_end::nodes::documents;
use clover_back_end::records::RECORD_WORDS;

pub const COMMAND: Command = Command {
    name: "check",
    operands: "FILE ..",
    files: (1, usize::MAX),
    about: "says whether bundles are delivered, and why not",
    details: "\
Says of each bundle in a line whether it is delivered. A refusal is told in words, with the lines of the
source that it is about. With --shape the shape check alone is asked, rows 1 to 4, and nothing is
compiled.",
    choices: &[&[Choice { name: "--shape", value: None, about: "rows 1 to 4 alone" }], input::CHOICES, bundle::CHOICES],
    run,
};

/// What is said of a file, and whether it passes.
type Said = (bool, String);

fn records(tree: &[u64]) -> String {
    let records = counted(tree.len() / RECORD_WORDS, "record");
    format!("{records} in {}", counted(documents(tree).count(), "document"))
}

fn shape(arguments: &Arguments, name: &str) -> Result<Said, Failure> {
    let input = Input::bundle(arguments, name)?;
    let checked = input.records().and_then(|tree| check(&tree).map(|()| tree));
    Ok(match checked {
        Ok(tree) => (true, format!("{name}: well formed, {}\n", records(&tree))),
        Err(refusal) => (false, refused::input(&refusal, &input)),
    })
}

fn whole(arguments: &Arguments, name: &str) -> Result<Said, Failure> {
    let bundle = match Bundle::open(arguments, name)? {
        Ok(bundle) => bundle,
        Err(report) => return Ok((false, report)),
    };
    if bundle.is_listed() {
        return Err(Failure::new(format!("{name} is the listing of a program, and no bundle")));
    }
    let totals = bundle.program().totals();
    let counts = [(totals.functions, "function"), (totals.code, "instruction"), (totals.constants, "constant")];
    let counts = counts.map(|(number, what)| counted(number as usize, what));
    Ok((true, format!("{name}: delivered, {}: {}\n", records(&bundle.tree), counts.join(", "))))
}

fn run(arguments: &Arguments) -> Result<(Verdict, String), Failure> {
    let one = if arguments.has("--shape") { shape } else { whole };
    let each: Vec<Said> = arguments.files.iter().map(|name| one(arguments, name)).collect::<Result<_, _>>()?;
    let fine = each.iter().all(|(fine, _)| *fine);
    let verdict = if fine { Verdict::Delivered } else { Verdict::Refused };
    Ok((verdict, each.into_iter().map(|(_, said)| said).collect()))
}
