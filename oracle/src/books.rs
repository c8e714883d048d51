//! Rows 5 and 6, and the order in which books are compiled (01, "Emission").

use crate::records::{kind, Record};
use crate::shape::Refusal;
use std::collections::{BTreeMap, BTreeSet};

const BOOK_TWICE: u64 = 5;
const BOOK_MISSING: u64 = 6;

pub struct Book {
    /// Index of the document's record.
    pub at: usize,
    /// Files of its includes, wherever they are written (2026-04).
    pub needs: BTreeSet<u64>,
}

/// The books that the root needs, itself among them, by file number.
pub type Books = BTreeMap<u64, Book>;

/// Indices of the children of a record.
pub fn children(records: &[Record], at: usize) -> Vec<usize> {
    let end = at + records[at].span as usize;
    let mut out = Vec::new();
    let mut next = at + 1;
    while next < end {
        out.push(next);
        next += records[next].span as usize;
    }
    out
}

/// 2026-04: "all includes of a book are dependencies, wherever they are written".
fn includes(records: &[Record], at: usize) -> BTreeSet<u64> {
    let definitions = children(records, at).into_iter().map(|d| records[d]);
    definitions.filter(|d| d.kind == kind::INCLUDE).map(|d| d.value).collect()
}

/// Whether a book has an include below another definition.
pub fn has_late_include(records: &[Record], at: usize) -> bool {
    let kinds = children(records, at).into_iter().map(|d| records[d].kind);
    kinds.skip_while(|&k| k == kind::INCLUDE).any(|k| k == kind::INCLUDE)
}

/// All documents by file number, or row 5.
fn documents(records: &[Record]) -> Result<BTreeMap<u64, usize>, Refusal> {
    let mut found = BTreeMap::new();
    let mut at = 0;
    while at < records.len() {
        if found.insert(records[at].value, at).is_some() {
            return Err((BOOK_TWICE, at as u64));
        }
        at += records[at].span as usize;
    }
    Ok(found)
}

/// The books needed from the root, or row 5 or 6.
pub fn needed(records: &[Record]) -> Result<Books, Refusal> {
    let documents = documents(records)?;
    let mut books = Books::new();
    let mut absent = BTreeSet::new();
    let mut waiting = vec![records[0].value];
    while let Some(file) = waiting.pop() {
        if books.contains_key(&file) {
            continue;
        }
        match documents.get(&file) {
            None => {
                absent.insert(file);
            }
            Some(&at) => {
                let needs = includes(records, at);
                waiting.extend(&needs);
                books.insert(file, Book { at, needs });
            }
        }
    }
    match absent.first() {
        Some(&file) => Err((BOOK_MISSING, file)),
        None => Ok(books),
    }
}

/// The books in the order of compiling, and those left in or behind a ring, ascending.
pub fn order(books: &Books) -> (Vec<u64>, Vec<u64>) {
    let mut open: BTreeMap<u64, usize> = books.iter().map(|(&file, book)| (file, book.needs.len())).collect();
    let mut users: BTreeMap<u64, Vec<u64>> = BTreeMap::new();
    for (&file, book) in books {
        for &need in &book.needs {
            users.entry(need).or_default().push(file);
        }
    }
    let mut ready: BTreeSet<u64> = open.iter().filter(|(_, &count)| count == 0).map(|(&file, _)| file).collect();
    let mut done = Vec::new();
    while let Some(file) = ready.pop_first() {
        done.push(file);
        open.remove(&file);
        for user in users.get(&file).into_iter().flatten() {
            let count = open.get_mut(user).expect("a user waits for this book");
            *count -= 1;
            if *count == 0 {
                ready.insert(*user);
            }
        }
    }
    (done, open.into_keys().collect())
}
