//! The program `clover`: shows what a bundle of rule books compiles to, draws it, and compares two
//! bundles. It calls the proved library and is itself plain Rust, tested and not proved.
//!
//! Each command is a file with its own `COMMAND`. Document 02's `add` (with trial and commit), `needs`,
//! `table` and `where` join the list below with their requests.

mod align;
mod arguments;
mod blocks;
mod bundle;
mod changes;
mod check;
mod convert;
mod diff;
mod dot;
mod graph;
mod input;
mod layout;
mod listing;
mod locals;
mod names;
mod progress;
mod reading;
mod refused;
mod show;
mod sources;
mod style;
mod svg;
mod top_level;

use arguments::{Arguments, Command, Failure, Verdict};
use std::io::{ErrorKind, Write};
use std::process::ExitCode;

const COMMANDS: [&Command; 5] = [&show::COMMAND, &graph::COMMAND, &diff::COMMAND, &check::COMMAND, &convert::COMMAND];

const ABOUT: &str = "\
clover: what a bundle of rule books compiles to, by the proved back end

Usage: clover COMMAND [OPTION ..] FILE ..

";

const MORE: &str = "
A FILE is a bundle as a column file or as words (docs/FORMAT.md); `-` is standard input. Where the
bundle is NAME.col, its texts are looked for in NAME.texts and the sources of its books beside it.
`show`, `graph` and `diff` take a program by its listing too.

Exit status: 0 delivered, 1 refused, 2 the program was called wrongly or a file can not be read.
`clover help COMMAND` says more of one command; `clover version` says which library is linked.
";

fn overview() -> String {
    let rows: String = COMMANDS.iter().map(|command| format!("  {:<8}  {}\n", command.name, command.about)).collect();
    format!("{ABOUT}{rows}{MORE}")
}

fn version() -> String {
    let linked = clover_back_end::calls::version();
    format!("clover {}, library {} with layout {}\n", env!("CARGO_PKG_VERSION"), linked.version, linked.layout)
}

fn find(name: &str) -> Result<&'static Command, Failure> {
    let known = COMMANDS.iter().find(|command| command.name == name);
    known.copied().ok_or_else(|| {
        let near = arguments::nearest(name, COMMANDS.iter().map(|command| command.name));
        let hint = near.map_or_else(String::new, |near| format!("; did you mean `{near}`?"));
        Failure::new(format!("there is no command `{name}`{hint}"))
    })
}

fn run(words: &[String]) -> Result<(Verdict, String), Failure> {
    let first = words.first().map_or("help", String::as_str);
    match first {
        "help" | "--help" | "-h" => {
            let text = words.get(1).map_or_else(|| Ok(overview()), |name| find(name).map(Command::help));
            Ok((Verdict::Delivered, text?))
        }
        "version" | "--version" | "-V" => Ok((Verdict::Delivered, version())),
        _ => {
            let command = find(first)?;
            match Arguments::read(command, &words[1..])? {
                Some(arguments) => (command.run)(&arguments),
                None => Ok((Verdict::Delivered, command.help())),
            }
        }
    }
}

/// A reader that has seen enough, as `head`, is no fault.
fn print(text: &str) -> Result<(), Failure> {
    match std::io::stdout().write_all(text.as_bytes()) {
        Err(error) if error.kind() != ErrorKind::BrokenPipe => Err(Failure::new(format!("standard output: {error}"))),
        _ => Ok(()),
    }
}

fn main() -> ExitCode {
    let words: Vec<String> = std::env::args_os().skip(1).map(|word| word.to_string_lossy().into_owned()).collect();
    match run(&words).and_then(|(verdict, text)| print(&text).map(|()| verdict)) {
        Ok(Verdict::Delivered) => ExitCode::SUCCESS,
        Ok(Verdict::Refused) => ExitCode::from(1),
        Ok(Verdict::Changed) => ExitCode::from(3),
        Err(failure) => {
            eprintln!("clover: {failure}");
            ExitCode::from(2)
        }
    }
}
