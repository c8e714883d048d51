//! A refusal in words, with the line of the source or of the column file under it.

use crate::bundle::Bundle;
use crate::input::{Content, Input};
use crate::sources::Sources;
use crate::style::{counted, Style};
use clover_back_end::nodes::{documents, Node};
use clover_back_end::{errors_in_words, Error, ErrorKind, Kind, Position, Refusal, Text, Texts};

/// Of rows 1 to 4 while a file is read.
pub fn input(refusal: &Refusal, input: &Input) -> String {
    let line = match (refusal, &input.content) {
        (Refusal::BadLine { line, .. }, Content::Columns(file) | Content::Table(file, _)) => raw_line(file, *line),
        (_, Content::Columns(file)) => refusal.record().and_then(|record| raw_line(file, record + 1)),
        (_, Content::Words(_) | Content::Table(..) | Content::Listing(_)) => None,
    };
    format!("{}{}", head(&input.name, refusal, &input.texts), line.unwrap_or_default())
}

/// The line of a column file under the refusal; other bytes than printable ones are shown as dots.
fn raw_line(file: &[u8], line: u64) -> Option<String> {
    let mut lines = file.split(|&byte| byte == b'\n');
    let found = lines.nth(usize::try_from(line).ok()?.checked_sub(1)?).filter(|found| !found.is_empty())?;
    let plain = |&byte: &u8| if (b' '..=b'~').contains(&byte) { byte as char } else { '.' };
    Some(format!("{line:>6} | {}\n", found.iter().map(plain).collect::<String>()))
}

fn head(name: &str, refusal: &Refusal, texts: &Texts) -> String {
    let style = Style::of_output();
    let title = style.title(format!("{name}: refused, row {}", refusal.row()));
    format!("{title}: {}\n", refusal.spelt(texts))
}

/// Of a bundle whose records were read.
pub fn bundle(refusal: &Refusal, bundle: &Bundle) -> String {
    let head = head(&bundle.name, refusal, &bundle.texts);
    let more = match refusal {
        Refusal::BookFaulty { file, errors } => faults(*file, errors, bundle),
        Refusal::BookMissing { file } => includes(*file, bundle),
        Refusal::Ring { files } => ring(files, bundle),
        Refusal::NameNotPublic { record, name } => not_public(*record, *name, bundle).unwrap_or_default(),
        Refusal::AreaFull { .. } => "The bundle needs more memory than was lent: see --memory.\n".to_string(),
        _ => refusal.record().and_then(|record| record_line(record, bundle)).unwrap_or_default(),
    };
    format!("{head}{more}")
}

/// What a record is, and its source line.
fn record_line(record: u64, bundle: &Bundle) -> Option<String> {
    let index = usize::try_from(record).ok()?;
    let words = bundle.tree.get(4 * index..4 * index + 4)?;
    Some(format!(
        "Its words are {} (kind, span, position, value).\n",
        words.iter().map(u64::to_string).collect::<Vec<_>>().join(", ")
    ))
}

/// A line of a source, and a mark under a column.
pub fn source_line(sources: &Sources, file: Text, position: Position) -> Option<String> {
    let style = Style::of_output();
    let line = sources.line(file, position.line)?;
    let before = usize::try_from(position.column).ok()?.checked_sub(1)?;
    // Tabs stay tabs, so that the mark stands under its column.
    let blanks: String = line.chars().chain(std::iter::repeat(' ')).take(before).map(blank).collect();
    let mark = style.removed("^");
    Some(format!("{:>6} | {line}\n       | {blanks}{mark}\n", position.line))
}

fn blank(letter: char) -> char {
    if letter == '\t' {
        '\t'
    } else {
        ' '
    }
}

/// The listed errors as the library's lines; `file` is the book that has them.
fn lines(file: Text, bundle: &Bundle) -> Vec<String> {
    let lines =
        errors_in_words(bundle.errors(), file, &bundle.texts).expect("the compile call lists known errors alone");
    lines.lines().map(|line| Style::of_output().title(line)).collect()
}

/// Each error's line, with the source line under it.
fn faults(file: Text, errors: &[Error], bundle: &Bundle) -> String {
    let fault = |(line, error): (String, &Error)| {
        let source = source_line(&bundle.sources, file, error.position).unwrap_or_default();
        format!("\n{line}\n{source}{}", advice(error.kind))
    };
    let each: String = lines(file, bundle).into_iter().zip(errors).map(fault).collect();
    format!("{each}\n{} in {}\n", counted(errors.len(), "error"), bundle.texts.spelt(file))
}

/// What an author may do.
fn advice(kind: ErrorKind) -> &'static str {
    match kind {
        ErrorKind::RescueInside => {
            "       = `rescue` stands among a function's own statements, outside every if and for\n"
        }
        ErrorKind::CanNotAssign => "       = the left part is a name, `instance.name` or `instance[index]`\n",
        ErrorKind::ValueNotConstant => "       = a top-level local starts with a number, true, false or null\n",
        _ => "",
    }
}

/// The include definitions that name a file, each with its book.
fn including(tree: &[u64], file: Text) -> impl Iterator<Item = (Text, Node<'_>)> {
    documents(tree).flat_map(move |document| {
        let book = document.text().expect("a document has a file");
        let includes =
            document.children().filter(move |node| node.kind() == Some(Kind::Include) && node.text() == Some(file));
        includes.map(move |include| (book, include))
    })
}

fn includes(file: Text, bundle: &Bundle) -> String {
    let each = including(&bundle.tree, file).map(|(book, include)| {
        let Position { line, column } = include.position();
        let place = if line > 0 { format!("{line}:{column}:") } else { String::new() };
        let source = source_line(&bundle.sources, book, include.position()).unwrap_or_default();
        format!("\n{}:{place} included here\n{source}", bundle.texts.spelt(book))
    });
    each.collect()
}

/// Where the include of a record lists the name, with the source line, and which names are public in its file.
fn not_public(record: u64, name: Option<Text>, bundle: &Bundle) -> Option<String> {
    let holds = |document: &Node| document.children().any(|node| node.index() as u64 == record);
    let document = documents(&bundle.tree).find(holds)?;
    let (book, include) = (document.text()?, document.children().find(|node| node.index() as u64 == record)?);
    let listed = include.children().step_by(2).find(|node| node.text() == name)?;
    let Position { line, column } = listed.position();
    let place = if line > 0 { format!("{line}:{column}:") } else { String::new() };
    let source = source_line(&bundle.sources, book, listed.position()).unwrap_or_default();
    let file = include.text()?;
    let kinds = [Some(Kind::PublicModel), Some(Kind::PublicFunction)];
    let definitions =
        documents(&bundle.tree).filter(|other| other.text() == Some(file)).flat_map(|other| other.children());
    let public = definitions.filter(|node| kinds.contains(&node.kind())).filter_map(|node| node.text());
    let names: Vec<_> = public.map(|name| bundle.texts.spelt(name)).collect();
    let names = if names.is_empty() { "nothing".to_string() } else { names.join(", ") };
    let (book, file) = (bundle.texts.spelt(book), bundle.texts.spelt(file));
    Some(format!("\n{book}:{place} listed here\n{source}       = public in {file}: {names}\n"))
}

/// The books' lines, each with the books that it waits for under it. Each line has its own file.
fn ring(files: &[Text], bundle: &Bundle) -> String {
    let lines = lines(Text::from_number(0), bundle).into_iter().zip(files);
    lines.map(|(line, &file)| format!("{line}\n{}", waiting(file, bundle))).collect()
}

/// A book of a ring with the books that it waits for.
fn waiting(file: Text, bundle: &Bundle) -> String {
    let books = documents(&bundle.tree).filter(|document| document.text() == Some(file));
    let includes = books.flat_map(|book| book.children()).filter(|node| node.kind() == Some(Kind::Include));
    let names: Vec<_> = includes.filter_map(|include| include.text()).map(|text| bundle.texts.spelt(text)).collect();
    format!("  {} includes {}\n", bundle.texts.spelt(file), names.join(", "))
}
