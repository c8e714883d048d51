//! Commands of the oracle; see README.md.

use oracle::areas::Memory;
use oracle::arguments::Arguments;
use oracle::arguments::Flag::{self, Number, Switch, Word};
use oracle::compare::{compare, judge_side, Difference, Model, Plan, Side};
use oracle::convert::Converters;
use oracle::generate::{case, Sizes};
use oracle::hostile::{judge_onto, Narrow, NarrowOnto};
use oracle::parts::{self, Part};
use oracle::real::Prepared;
use oracle::records::records;
use oracle::table::Column;
use oracle::{clock, columns, convert, error_cases, examples, hostile, listing, sample, speed, table};
use std::collections::BTreeMap;
use std::io::{Read, Write};
use std::path::Path;
use std::process::ExitCode;
use std::time::Instant;

const USAGE: &str = "\
oracle compare [--seed S] [--seeds K] [--count N] [--large] [--ours] [--stop] [--head-includes]
    the Rust and the model (and the library, with tables of slots too) over N bundles of each of the K
    seeds from S on, with a table of the counts at the end; --stop ends a seed at its first difference; --head-includes leaves out
    bundles with an include below another definition
oracle case --seed S --index I [--large] [--column]
    the words of one bundle, or its column file
oracle listing [--program]
    a column file on standard input, its listing out; --program gives what the program `listing`
    prints, with its buffers
oracle hostile [--ours] [--onto] [--stack BYTES] [--size N] [--locals TIMES]
    bundles at the limits on a small stack, with seconds; --ours compares the library with the model;
    --onto has the library lay them onto the least program;
    N is the size of those that cost its square; --locals alone makes 257 locals in a target that is
    doubled so often (24: local numbers past 2^32, 16 GB of memory)
oracle convert [--seed S] [--count N] [--large] [--limits]
    the library's converters and shape check and the reading over N column files and N word lists,
    or over those at the limits
oracle tables [--seed S] [--count N] [--limits]
    the library's ways between constant tables and documents and the reading over N tables and N
    documents, or over those of the most lines and one more
oracle strict [--seed S] [--seeds K] [--count N] [--ours]
    both modes over N bundles of each of the K seeds from S on, with names of includes spoilt: the model against what
    row 11 must be, and the library against the model, every area exactly full, one short and empty
oracle programs [--seed S] [--count N] [--each] [--bench]
    the library's program check and the reading over N programs, six in seven damaged; or over every
    single damage of samples, N of them made by chance; or its times on programs long in one way
oracle onto --self N [--seed S] [--plant FAULT] [--next] [--stop] [--ours]; or --self N S
    N programs from seed S on, grown by up to four bundles with refusals in between: the reading of laying on, trial and commit
    (onto.rs) against the Rust with a context that is compiled on; --plant holds a reading with a fault against it; --next
    looks at the row of a refusal alone, so that what it leaves must be seen at the next bundle; --ours has the library lay the
    same bundles on, and the crate's program that is kept, saved and loaded
oracle onto --small K [--plant FAULT] [--next] [--ours]
    the same over every book of up to two definitions of a list with every book of up to K of them laid on it, in both modes
oracle onto --calls N [--seed S] [--plant FAULT] [--ours]; or --calls N S
    the same reading against that of standing.rs (or the library, in memories with tables of slots and with lengths that pass
    the end) over the calls of N sequences, odd and damaged programs among them, some in memories that end early: reply and
    every word
oracle onto --trials N [--seed S] [--plant FAULT] [--ours]; or --trials N S
    the same over N sequences: a bundle is tried on a grown program and committed as it was tried, and from the same state with
    another bundle, in the other mode, with other counts, in other lengths and with each of the trial's totals otherwise
oracle onto --damages N [--seed S] [--plant FAULT] [--ours]; or --damages N S
    the same over every single damage of two samples and of N programs made by chance, each with a bundle laid on
oracle onto --edges [--plant FAULT] [--ours]
    the same over bundles and programs of file numbers at the ends of sets
oracle onto --faults
    the faults that can be planted
oracle program-cases
    writes the part `programs` of the stored cases of the program `word_cases` anew
oracle table-cases
    writes the part `tables` of the same program anew
oracle table-bench [--runs R]
    the same ways beside plain Rust on 300,000 lines
oracle bench [--runs R]
    the library's converters and shape check beside plain Rust on 1,000,000 records
oracle speed [--shape NAME] [--runs R] [--longest SECONDS] [--small]
    the library's compile call beside the original's compile_document and to_program, as a table, without
    slots and with a table of twice the constants; --small for bundles of hundreds of records
oracle shapes [--live]
    the names of that table's shapes; with --live, of those with 30 and 300 live names
oracle once --shape NAME --records N [--original] [--slots]
    one call of a shape, for a profile (see `counts`); --slots with a table of twice the constants
oracle sample
    writes the files of sample/ anew
oracle errors [--seed S] [--count N] [--bundles]
    the library's errors in words and the reading over N lists, or over what the library's compile call
    leaves in area 11 of N bundles
oracle error-cases
    writes the part `errors` of the stored cases of the program `word_cases` anew
oracle examples
    writes the column files, listings and tables of texts of ../examples anew, from the sources there
oracle flatten ROOT.clover [OTHER.clover ..]
    writes ROOT.col and ROOT.texts beside the first source: the bundle of these books; a constant
    table NAME.table beside NAME.clover stands at the head of that book
";

/// Areas of the `listing` command, in entries; more than any column file on a screen needs.
const PLENTY: usize = 1 << 20;

fn sizes(arguments: &Arguments) -> Sizes {
    if arguments.has("--large") {
        Sizes::Large
    } else {
        Sizes::Mixed
    }
}

#[cfg(feature = "link")]
fn library() -> Box<dyn Side + Send> {
    Box::new(oracle::ours::Library)
}

#[cfg(not(feature = "link"))]
fn library() -> Box<dyn Side + Send> {
    unreachable!("`needs_library` holds it back");
}

#[cfg(feature = "link")]
fn converters() -> Box<dyn Converters> {
    Box::new(oracle::ours::Library)
}

#[cfg(not(feature = "link"))]
fn converters() -> Box<dyn Converters> {
    unreachable!("`needs_library` holds it back");
}

fn report(first: &Difference) {
    println!("first difference: case {}: {}", first.index, first.message);
    println!("shrunk to {} records (kind, span, position, value):", first.shrunk.len() / 4);
    for record in first.shrunk.chunks(4) {
        println!("  {record:?}");
    }
}

fn run_compare(arguments: &Arguments) -> ExitCode {
    let (seed, count) = (arguments.number("--seed", 1), arguments.number("--count", 1000));
    let (sizes, stop) = (sizes(arguments), arguments.has("--stop"));
    let head_includes = arguments.has("--head-includes");
    let mut ours = arguments.has("--ours").then(library);
    let mut columns = Vec::new();
    let mut code = ExitCode::SUCCESS;
    for seed in seed..seed + arguments.number("--seeds", 1) {
        let (start, processor) = (Instant::now(), clock::now());
        let side = ours.as_mut().map(|side| &mut **side as &mut dyn Side);
        println!("seed {seed}");
        let (tally, first) = compare(Plan { seed, count, sizes, stop, head_includes }, side);
        tally.print();
        let elapsed = start.elapsed().as_secs_f64();
        println!("seconds {elapsed:.1}");
        if let Some(first) = &first {
            report(first);
            code = ExitCode::FAILURE;
        }
        let large = if arguments.has("--large") { " with `--large`" } else { "" };
        let head = format!("seed {seed}, {}{large}", table::grouped(count));
        columns.push(Column { head, tally, minutes: elapsed / 60.0, seconds: clock::now() - processor });
    }
    println!("\n{}", table::table(columns).trim_end());
    code
}

fn run_case(arguments: &Arguments) -> ExitCode {
    let made = case(arguments.number("--seed", 1), arguments.number("--index", 0), sizes(arguments));
    if arguments.has("--column") {
        std::io::stdout().write_all(&columns::lines(&made.words)).expect("standard output is open");
    } else {
        for record in made.words.chunks(4) {
            println!("{}", record.iter().map(u64::to_string).collect::<Vec<_>>().join(" "));
        }
    }
    ExitCode::SUCCESS
}

fn run_listing(arguments: &Arguments) -> ExitCode {
    let mut bytes = Vec::new();
    std::io::stdin().read_to_end(&mut bytes).expect("standard input is readable");
    let out = if arguments.has("--program") {
        listing::printed(&bytes)
    } else {
        listing::listing_of_column(&bytes, &[PLENTY * 8; 12])
    };
    std::io::stdout().write_all(&out).expect("standard output is open");
    ExitCode::SUCCESS
}

/// One bundle by the compile call, or laid onto the least program: row, place and seconds.
fn hostile_call(arguments: &Arguments, stack: usize, bundle: &hostile::Hostile) -> Result<(u64, u64, f64), String> {
    if arguments.has("--onto") {
        let mut side = onto_library();
        let mut narrow = NarrowOnto { side: &mut *side, stack, seconds: 0.0 };
        let (row, place) = judge_onto(&mut narrow, bundle)?;
        return Ok((row, place, narrow.seconds));
    }
    let mut side: Box<dyn Side + Send> = if arguments.has("--ours") { library() } else { Box::new(Model) };
    let mut narrow = Narrow { side: &mut *side, stack, seconds: 0.0 };
    let reply = judge_side(&mut narrow, &bundle.words, &bundle.lengths)?;
    Ok((reply.row, reply.place, narrow.seconds))
}

fn run_hostile(arguments: &Arguments) -> ExitCode {
    let stack = arguments.number("--stack", 1 << 20) as usize;
    let mut code = ExitCode::SUCCESS;
    println!("threads with a stack of {stack} bytes, processor seconds of the call");
    let bundles = match arguments.number("--locals", 0) {
        0 => hostile::bundles(arguments.number("--size", 100_000)),
        times => vec![hostile::locals_doubled(times as usize)],
    };
    for bundle in bundles {
        print!("{}: {} records", bundle.name, bundle.words.len() / 4);
        std::io::stdout().flush().expect("standard output is open");
        match hostile_call(arguments, stack, &bundle) {
            Ok((row, place, seconds)) => println!(", row {row}, place {place}, {seconds:.3} s"),
            Err(message) => {
                println!(", different: {message}");
                code = ExitCode::FAILURE;
            }
        }
    }
    code
}

fn run_convert(arguments: &Arguments) -> ExitCode {
    let (seed, count) = (arguments.number("--seed", 1), arguments.number("--count", 1000));
    let mut side = converters();
    let start = Instant::now();
    let seen = if arguments.has("--limits") {
        convert::compare_limits(&mut *side)
    } else {
        convert::compare(&mut *side, seed, count, sizes(arguments))
    };
    seen.to_records.print("column files to records", "bytes");
    seen.to_columns.print("records to column files", "words");
    println!("shape checks: {}", seen.checks);
    println!("seconds {:.1}", start.elapsed().as_secs_f64());
    let Some(first) = &seen.first else {
        return ExitCode::SUCCESS;
    };
    println!("first difference: {}: {}\n{}", first.name, first.message, first.shrunk);
    ExitCode::FAILURE
}

#[cfg(feature = "link")]
fn run_bench(arguments: &Arguments) -> ExitCode {
    oracle::bench::run(arguments.number("--runs", 15) as usize);
    ExitCode::SUCCESS
}

#[cfg(not(feature = "link"))]
fn run_bench(_: &Arguments) -> ExitCode {
    unreachable!("`needs_library` holds it back");
}

#[cfg(feature = "link")]
fn run_tables(arguments: &Arguments) -> ExitCode {
    use oracle::table_calls::{compare, compare_limits};
    let mut side = oracle::ours::Library;
    let start = Instant::now();
    let seen = if arguments.has("--limits") {
        compare_limits(&mut side)
    } else {
        compare(&mut side, arguments.number("--seed", 1), arguments.number("--count", 1000))
    };
    seen.to_records.print("tables to records", "bytes");
    seen.to_table.print("records to tables", "words");
    println!("seconds {:.1}", start.elapsed().as_secs_f64());
    let Some(first) = &seen.first else {
        return ExitCode::SUCCESS;
    };
    println!("first difference: {first}");
    ExitCode::FAILURE
}

#[cfg(not(feature = "link"))]
fn run_tables(_: &Arguments) -> ExitCode {
    unreachable!("`needs_library` holds it back");
}

#[cfg(feature = "link")]
fn run_table_bench(arguments: &Arguments) -> ExitCode {
    oracle::table_calls::bench(arguments.number("--runs", 15) as usize);
    ExitCode::SUCCESS
}

#[cfg(not(feature = "link"))]
fn run_table_bench(_: &Arguments) -> ExitCode {
    unreachable!("`needs_library` holds it back");
}

#[cfg(feature = "link")]
fn modes() -> Box<dyn oracle::strict_calls::Modes> {
    Box::new(oracle::ours::Library)
}

#[cfg(not(feature = "link"))]
fn modes() -> Box<dyn oracle::strict_calls::Modes> {
    unreachable!("`needs_library` holds it back");
}

fn run_strict(arguments: &Arguments) -> ExitCode {
    use oracle::strict_calls::{compare_modes, Modes};
    let (seed, count) = (arguments.number("--seed", 1), arguments.number("--count", 1000));
    let mut ours = arguments.has("--ours").then(modes);
    let mut code = ExitCode::SUCCESS;
    for seed in seed..seed + arguments.number("--seeds", 1) {
        let start = Instant::now();
        let side = ours.as_mut().map(|side| &mut **side as &mut dyn Modes);
        println!("seed {seed}");
        let seen = compare_modes(side, seed, count);
        seen.print();
        println!("seconds {:.1}", start.elapsed().as_secs_f64());
        if let Some(first) = &seen.first {
            println!("first difference: {first}");
            code = ExitCode::FAILURE;
        }
    }
    code
}

#[cfg(feature = "link")]
fn run_programs(arguments: &Arguments) -> ExitCode {
    use oracle::program_calls::{bench, compare, compare_each};
    let mut side = oracle::ours::Library;
    if arguments.has("--bench") {
        bench(&mut side);
        return ExitCode::SUCCESS;
    }
    let (seed, count) = (arguments.number("--seed", 1), arguments.number("--count", 1000));
    let start = Instant::now();
    let seen = match arguments.has("--each") {
        true => compare_each(&mut side, seed, count),
        false => compare(&mut side, seed, count),
    };
    seen.print();
    println!("seconds {:.1}", start.elapsed().as_secs_f64());
    let Some(first) = &seen.first else {
        return ExitCode::SUCCESS;
    };
    println!("first difference: {first}");
    ExitCode::FAILURE
}

#[cfg(not(feature = "link"))]
fn run_programs(_: &Arguments) -> ExitCode {
    unreachable!("`needs_library` holds it back");
}

#[cfg(feature = "link")]
fn onto_library() -> Box<dyn oracle::onto_calls::OntoCalls + Send> {
    Box::new(oracle::ours::Library)
}

#[cfg(not(feature = "link"))]
fn onto_library() -> Box<dyn oracle::onto_calls::OntoCalls + Send> {
    unreachable!("`needs_library` holds it back");
}

#[cfg(feature = "link")]
fn kept_program() -> Box<dyn oracle::onto_grown::KeptProgram> {
    Box::new(oracle::ours::LibraryProgram::default())
}

#[cfg(not(feature = "link"))]
fn kept_program() -> Box<dyn oracle::onto_grown::KeptProgram> {
    unreachable!("`needs_library` holds it back");
}

fn run_onto(arguments: &Arguments) -> ExitCode {
    use oracle::onto::{Fault, Reading};
    use oracle::onto_calls::{compare_calls, compare_damages, compare_edges, OntoCalls, Standing};
    use oracle::onto_grown::{compare_grown, Look, Ours};
    use oracle::onto_small::compare_small;
    use oracle::onto_trials::compare_trials;
    if arguments.has("--faults") {
        Fault::ALL.iter().for_each(|fault| println!("{fault:?}"));
        return ExitCode::SUCCESS;
    }
    let seed = match arguments.files.as_slice() {
        [] => Some(arguments.number("--seed", 1)),
        [seed] => seed.parse().ok(),
        _ => None,
    };
    let fault = arguments.word("--plant").map(Fault::named);
    let (Some(seed), false) = (seed, fault == Some(None)) else {
        eprintln!(
            "oracle onto: one seed, a number; `--plant` is followed by a name that `oracle onto --faults` prints"
        );
        return ExitCode::from(WRONGLY_CALLED);
    };
    let reading = Reading { fault: fault.flatten() };
    let start = Instant::now();
    println!("seed {seed}");
    let is_ours = arguments.has("--ours");
    let side = || -> Box<dyn OntoCalls> {
        match (reading.fault, is_ours) {
            (Some(_), _) => Box::new(reading),
            (None, true) => onto_library(),
            (None, false) => Box::new(Standing),
        }
    };
    let first = if arguments.has("--trials") {
        let seen = compare_trials(&mut *side(), seed, arguments.number("--trials", 1000));
        seen.print();
        seen.first
    } else if ["--calls", "--damages", "--edges"].iter().any(|flag| arguments.has(flag)) {
        let mut side = side();
        let seen = if arguments.has("--edges") {
            compare_edges(&mut *side)
        } else if arguments.has("--damages") {
            compare_damages(&mut *side, seed, arguments.number("--damages", 10))
        } else {
            compare_calls(&mut *side, seed, arguments.number("--calls", 1000))
        };
        seen.print();
        seen.first
    } else {
        let look = if arguments.has("--next") { Look::NextBundle } else { Look::AllLeft };
        let mut sides = is_ours.then(|| (onto_library(), kept_program()));
        let ours = sides.as_mut().map(|(calls, kept)| Ours { calls: &mut **calls, kept: &mut **kept });
        let (count, stop) = (arguments.number("--self", 1000), arguments.has("--stop"));
        let seen = match arguments.has("--small") {
            true => compare_small(reading, look, arguments.number("--small", 2) as usize, ours),
            false => compare_grown(reading, look, seed, count, stop, ours),
        };
        seen.print();
        seen.first
    };
    println!("seconds {:.1}", start.elapsed().as_secs_f64());
    let Some(first) = first else {
        return ExitCode::SUCCESS;
    };
    println!("first difference: {first}");
    ExitCode::FAILURE
}

fn store(name: &str, part: Part) -> ExitCode {
    println!("{name}: {} and {} bytes", part.given.len(), part.wanted.len());
    parts::store(name, part);
    ExitCode::SUCCESS
}

fn run_program_cases(_: &Arguments) -> ExitCode {
    store("programs", oracle::program_calls::stored())
}

fn run_table_cases(_: &Arguments) -> ExitCode {
    store("tables", oracle::table_calls::stored())
}

fn run_speed(arguments: &Arguments) -> ExitCode {
    let (runs, longest) = (arguments.number("--runs", 15), arguments.number("--longest", 60));
    let sizes: &[usize] = if arguments.has("--small") { &speed::SMALL } else { &speed::SIZES };
    let only = arguments.word("--shape").map(speed::Shape::named);
    if only.is_some_and(|shape| shape.is_none()) {
        eprintln!("oracle: `--shape` is followed by a name that `oracle shapes` prints");
        return ExitCode::from(WRONGLY_CALLED);
    }
    speed::run(&mut *library(), only.flatten(), runs as usize, longest as f64, sizes);
    ExitCode::SUCCESS
}

fn run_shapes(arguments: &Arguments) -> ExitCode {
    let shapes = if arguments.has("--live") { &speed::LIVE_SHAPES[..] } else { &speed::SHAPES };
    shapes.iter().for_each(|shape| println!("{}", shape.name));
    ExitCode::SUCCESS
}

fn run_once(arguments: &Arguments) -> ExitCode {
    let Some(shape) = arguments.word("--shape").and_then(speed::Shape::named) else {
        eprintln!("oracle: `--shape` is followed by a name that `oracle shapes` prints");
        return ExitCode::from(WRONGLY_CALLED);
    };
    let words = shape.words(arguments.number("--records", 10_000) as usize);
    if arguments.has("--original") {
        let (_, program) = Prepared::new(&records(&words)).compile();
        println!("{} records, {} functions", words.len() / 4, program.functions.len());
    } else {
        let exact = speed::needs(&words);
        let slots = arguments.has("--slots");
        let mut memory = if slots { speed::with_slots(&exact) } else { Memory::new(&exact, 1) };
        let reply = speed::call_side(&mut *library(), &words, &mut memory);
        println!("{} records, {} functions", words.len() / 4, reply.totals[2]);
    }
    ExitCode::SUCCESS
}

fn write_files(folder: &Path, files: &BTreeMap<String, Vec<u8>>) -> ExitCode {
    std::fs::create_dir_all(folder).expect("the folder can be made");
    for (name, content) in files {
        std::fs::write(folder.join(name), content).expect("the folder is writable");
    }
    println!("{} files, {} bytes", files.len(), files.values().map(Vec::len).sum::<usize>());
    ExitCode::SUCCESS
}

fn run_sample(_: &Arguments) -> ExitCode {
    write_files(&Path::new(env!("CARGO_MANIFEST_DIR")).join("sample"), &sample::files())
}

#[cfg(feature = "link")]
fn run_errors(arguments: &Arguments) -> ExitCode {
    use oracle::error_calls::{compare, compare_bundles};
    let mut side = oracle::ours::Library;
    let (seed, count) = (arguments.number("--seed", 1), arguments.number("--count", 1000));
    let start = Instant::now();
    let seen = match arguments.has("--bundles") {
        true => compare_bundles(&mut side, seed, count),
        false => compare(&mut side, seed, count),
    };
    seen.print();
    println!("seconds {:.1}", start.elapsed().as_secs_f64());
    let Some(first) = &seen.first else {
        return ExitCode::SUCCESS;
    };
    println!("first difference: {first}");
    ExitCode::FAILURE
}

#[cfg(not(feature = "link"))]
fn run_errors(_: &Arguments) -> ExitCode {
    unreachable!("`needs_library` holds it back");
}

fn run_error_cases(_: &Arguments) -> ExitCode {
    store("errors", error_cases::stored())
}

fn run_examples(_: &Arguments) -> ExitCode {
    write_files(&examples::folder(), &examples::files())
}

fn run_flatten(arguments: &Arguments) -> ExitCode {
    let sources: Vec<&Path> = arguments.files.iter().map(Path::new).collect();
    match examples::flattened(&sources) {
        Ok(files) => {
            files.iter().for_each(|(path, content)| std::fs::write(path, content).expect("the folder is writable"));
            ExitCode::SUCCESS
        }
        Err(message) => {
            eprintln!("oracle: {message}");
            ExitCode::from(WRONGLY_CALLED)
        }
    }
}

/// Exit status of a call that names no command, an unknown flag or a bad number.
const WRONGLY_CALLED: u8 = 2;

/// A command, its flags, whether it takes files, and what it does.
type Command = (&'static str, &'static [Flag], bool, fn(&Arguments) -> ExitCode);

const COMMANDS: [Command; 21] = [
    (
        "compare",
        &[
            Number("--seed"),
            Number("--seeds"),
            Number("--count"),
            Switch("--large"),
            Switch("--ours"),
            Switch("--stop"),
            Switch("--head-includes"),
        ],
        false,
        run_compare,
    ),
    ("case", &[Number("--seed"), Number("--index"), Switch("--large"), Switch("--column")], false, run_case),
    ("listing", &[Switch("--program")], false, run_listing),
    (
        "hostile",
        &[Switch("--ours"), Switch("--onto"), Number("--stack"), Number("--size"), Number("--locals")],
        false,
        run_hostile,
    ),
    ("convert", &[Number("--seed"), Number("--count"), Switch("--large"), Switch("--limits")], false, run_convert),
    ("tables", &[Number("--seed"), Number("--count"), Switch("--limits")], false, run_tables),
    ("strict", &[Number("--seed"), Number("--seeds"), Number("--count"), Switch("--ours")], false, run_strict),
    ("programs", &[Number("--seed"), Number("--count"), Switch("--each"), Switch("--bench")], false, run_programs),
    (
        "onto",
        &[
            Number("--self"),
            Number("--small"),
            Number("--calls"),
            Number("--trials"),
            Number("--damages"),
            Number("--seed"),
            Word("--plant"),
            Switch("--edges"),
            Switch("--faults"),
            Switch("--ours"),
            Switch("--next"),
            Switch("--stop"),
        ],
        true,
        run_onto,
    ),
    ("program-cases", &[], false, run_program_cases),
    ("table-cases", &[], false, run_table_cases),
    ("table-bench", &[Number("--runs")], false, run_table_bench),
    ("bench", &[Number("--runs")], false, run_bench),
    ("speed", &[Word("--shape"), Number("--runs"), Number("--longest"), Switch("--small")], false, run_speed),
    ("shapes", &[Switch("--live")], false, run_shapes),
    ("once", &[Word("--shape"), Number("--records"), Switch("--original"), Switch("--slots")], false, run_once),
    ("sample", &[], false, run_sample),
    ("errors", &[Number("--seed"), Number("--count"), Switch("--bundles")], false, run_errors),
    ("error-cases", &[], false, run_error_cases),
    ("examples", &[], false, run_examples),
    ("flatten", &[], true, run_flatten),
];

fn needs_library(command: &str, arguments: &Arguments) -> bool {
    match command {
        "compare" | "strict" | "onto" => arguments.has("--ours"),
        "hostile" => arguments.has("--ours") || arguments.has("--onto"),
        "convert" | "bench" | "speed" | "tables" | "table-bench" | "errors" => true,
        "once" => !arguments.has("--original"),
        _ => false,
    }
}

fn main() -> ExitCode {
    let words: Vec<String> = std::env::args().skip(1).collect();
    let Some((name, rest)) = words.split_first() else {
        eprint!("{USAGE}");
        return ExitCode::from(WRONGLY_CALLED);
    };
    if matches!(name.as_str(), "help" | "--help" | "-h") {
        print!("{USAGE}");
        return ExitCode::SUCCESS;
    }
    let Some((_, flags, files, run)) = COMMANDS.iter().find(|command| command.0 == name) else {
        eprint!("oracle: there is no command `{name}`\n\n{USAGE}");
        return ExitCode::from(WRONGLY_CALLED);
    };
    match Arguments::read(flags, *files, rest) {
        Ok(arguments) if needs_library(name, &arguments) && !cfg!(feature = "link") => {
            eprintln!("oracle {name}: the library is there with `--features link`");
            ExitCode::from(WRONGLY_CALLED)
        }
        Ok(arguments) => run(&arguments),
        Err(message) => {
            eprintln!("oracle {name}: {message}");
            ExitCode::from(WRONGLY_CALLED)
        }
    }
}
