//! `clover diff`: what changed between two bundles, by function.

use crate::arguments::{Arguments, Choice, Command, Failure, Verdict};
use crate::bundle::{self, Bundle};
use crate::changes::{code_changes, Change, Reading};
use crate::input;
use crate::names::Names;
use crate::progress::Progress;
use crate::style::{counted, Style};
use crate::top_level::{readers, Entries, SECTIONS};
use clover_back_end::Function;
use std::collections::BTreeMap;

pub const COMMAND: Command = Command {
    name: "diff",
    operands: "OLD NEW",
    files: (2, 2),
    about: "says what changed between two bundles or two programs, by function",
    details: "\
Compiles both bundles and says what changed: top-level values, models, and function by function the
instructions, with constants read as values, locals and top-level names by name and jumps by where they
lead. What only moved to other lines is not a change. Programs may be given by their listings too; then
locals and top-level names go by their numbers. With --distances a top-level name is read as its
distance from the book's first one, as document 02 has it (2026-11); so it is too where a bundle has no
table of texts.

Exit status 0 says that both bundles are delivered. With --exit-code it is 3 where something changed.",
    choices: &[
        &[
            Choice { name: "--distances", value: None, about: "reads top-level names as distances" },
            Choice { name: "--exit-code", value: None, about: "exit status 3 where something changed" },
        ],
        input::CHOICES,
        bundle::CHOICES,
    ],
    run,
};

/// One of the two bundles.
pub struct Side<'a> {
    pub bundle: &'a Bundle,
    pub names: Names<'a>,
}

/// A function is the same in both bundles if its book, its name and its place among those of that name
/// are the same.
type Key = (String, String, usize);

impl<'a> Side<'a> {
    fn new(bundle: &'a Bundle) -> Side<'a> {
        Side { bundle, names: Names::of(bundle) }
    }

    fn functions(&self) -> BTreeMap<Key, Function<'a>> {
        let mut out = BTreeMap::new();
        for function in self.names.program.functions() {
            let (book, name) = (self.names.book(function.file()), self.names.function(function));
            let mut key = (book, name, 0);
            while out.contains_key(&key) {
                key.2 += 1;
            }
            out.insert(key, function);
        }
        out
    }
}

struct Report {
    style: Style,
    out: String,
    changed: usize,
    same: usize,
    /// Functions whose instructions stand on other lines and are the same.
    moved: usize,
}

impl Report {
    fn entries(&mut self, what: &str, old: &Entries, new: &Entries, side: &Side) {
        for (key, entry) in old {
            let name = &entry.name;
            match new.get(key) {
                None => self.say(&entry.place, &format!("{what} {name} is gone{}", after(" (was ", &entry.value, ")"))),
                Some(other) if other.value != entry.value => {
                    let (was, is) = (self.style.removed(&entry.value), self.style.added(&other.value));
                    let read = other.context.map(|index| readers(side, index)).unwrap_or_default();
                    self.say(&other.place, &format!("{what} {name}: {was} → {is}{read}"));
                }
                Some(_) => {}
            }
        }
        let added = new.iter().filter(|(key, _)| !old.contains_key(*key));
        added.for_each(|(_, entry)| {
            let value = after(": ", &entry.value, "");
            self.say(&entry.place, &format!("{what} {} is new{value}", entry.name));
        });
    }

    fn say(&mut self, place: &str, what: &str) {
        self.changed += 1;
        let place = if place.is_empty() { String::new() } else { format!("{}: ", self.style.title(place)) };
        self.out += &format!("{place}{what}\n");
    }

    fn function(&mut self, key: &Key, old: (&Side, Function), new: (&Side, Function), reading: Reading) {
        let mut lines = heads(old, new);
        let code = code_changes(old, new, reading);
        lines.extend(code.changes.iter().map(|change| self.change(change)));
        if lines.is_empty() {
            self.same += 1;
            self.moved += usize::from(code.moved);
            return;
        }
        self.say(&key.0, &format!("function {}\n{}", self.style.title(&key.1), lines.concat().trim_end()));
    }

    /// A run of instructions that changed, with the source lines.
    fn change(&self, change: &Change) -> String {
        let mut out = format!("  {}", change.place);
        match &change.single {
            Some((opcode, was, is)) => {
                out += &format!(": {opcode} {} → {}\n", self.style.removed(was), self.style.added(is));
            }
            None => {
                out += ":\n";
                change.old.iter().for_each(|line| out += &format!("    {}\n", self.style.removed(format!("- {line}"))));
                change.new.iter().for_each(|line| out += &format!("    {}\n", self.style.added(format!("+ {line}"))));
            }
        }
        for (sign, source) in &change.sources {
            out += &format!("    {}\n", self.style.faint(format!("{sign} | {source}")));
        }
        out
    }

    fn end(mut self) -> (bool, String) {
        let changed = self.changed > 0;
        let same = counted(self.same, "function");
        let moved = match self.moved {
            0 => String::new(),
            moved => format!(", {moved} of them on other lines"),
        };
        let head = if changed { counted(self.changed, "change") } else { "no change".to_string() };
        self.out += &format!("{head}; {same} the same{moved}\n");
        (changed, self.out)
    }
}

/// Something between two words, if there is something.
fn after(before: &str, text: &str, behind: &str) -> String {
    if text.is_empty() {
        String::new()
    } else {
        format!("{before}{text}{behind}")
    }
}

/// What changed of a function beside its code.
fn heads(old: (&Side, Function), new: (&Side, Function)) -> Vec<String> {
    let head = |(side, function): (&Side, Function)| {
        let signature = side.names.signature(function);
        let public = if side.names.known(function).public { "public" } else { "not public" };
        let rescue = if function.rescue_position() > 0 { "a rescue" } else { "no rescue" };
        [signature, public.to_string(), counted(function.locals() as usize, "local"), rescue.to_string()]
    };
    let pairs = head(old).into_iter().zip(head(new));
    pairs.filter(|(was, is)| was != is).map(|(was, is)| format!("  {was} → {is}\n")).collect()
}

fn compare(old: &Side, new: &Side, distances: bool) -> (bool, String) {
    let texts = old.bundle.texts.len() > 1 && new.bundle.texts.len() > 1;
    let reading = if texts && !distances { Reading::Names } else { Reading::Distances };
    let mut report = Report { style: Style::of_output(), out: String::new(), changed: 0, same: 0, moved: 0 };
    SECTIONS.iter().for_each(|(what, of)| report.entries(what, &of(old), &of(new), new));
    let (was, is) = (old.functions(), new.functions());
    for (key, &function) in &was {
        match is.get(key) {
            Some(&other) => report.function(key, (old, function), (new, other), reading),
            None => report.say(&key.0, &format!("function {} is gone", key.1)),
        }
    }
    let added = is.iter().filter(|(key, _)| !was.contains_key(*key));
    added.for_each(|(key, function)| {
        let code = counted(function.instructions().len(), "instruction");
        report.say(&key.0, &format!("function {} is new: {code}", key.1));
    });
    report.end()
}

fn run(arguments: &Arguments) -> Result<(Verdict, String), Failure> {
    let mut bundles = Vec::new();
    for name in &arguments.files {
        match Bundle::open(arguments, name)? {
            Ok(bundle) => bundles.push(bundle),
            Err(report) => return Ok((Verdict::Refused, report)),
        }
    }
    let (old, new) = (Side::new(&bundles[0]), Side::new(&bundles[1]));
    if bundles[0].is_listed() != bundles[1].is_listed() {
        return Err(Failure::new("one is a bundle and one the listing of a program: compare two of a kind"));
    }
    let _progress = Progress::of("comparing".to_string());
    let (changed, text) = compare(&old, &new, arguments.has("--distances"));
    let verdict = if changed && arguments.has("--exit-code") { Verdict::Changed } else { Verdict::Delivered };
    Ok((verdict, text))
}
