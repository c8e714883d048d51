//! Rows 2 to 4: the tree rules of 01, read in record order (readings 5.1 to 5.3).

use crate::records::{is_position, kind, records, Record, MAX_LEVEL, MAX_RECORDS, MAX_TEXT, RECORD_WORDS};

/// Row and place.
pub type Refusal = (u64, u64);

const BAD_LENGTH: u64 = 2;
const BAD_SHAPE: u64 = 3;
const TOO_DEEP: u64 = 4;

/// A record whose children are being read.
struct Open {
    kind: u64,
    end: usize,
    /// Children seen so far.
    seen: usize,
    /// A function's parameters end with its first statement.
    body: bool,
}

impl Open {
    /// Whether the next child may be of this kind.
    fn admits(&self, child: u64) -> bool {
        let even = self.seen % 2 == 0;
        match self.kind {
            kind::DOCUMENT => (kind::LOCAL_DEFINITION..=kind::APPLY).contains(&child),
            kind::LOCAL_DEFINITION if even => child == kind::NAME,
            kind::LOCAL_DEFINITION => {
                matches!(child, kind::IDENTIFIER | kind::NULL..=kind::BOOLEAN | kind::OTHER_TOKEN | kind::ABSENT)
            }
            kind::INCLUDE | kind::MODEL | kind::PUBLIC_MODEL => child == kind::NAME,
            kind::FUNCTION | kind::PUBLIC_FUNCTION => {
                kind::is_statement(child) || !self.body && matches!(child, kind::NAME | kind::THIS_PARAMETER)
            }
            kind::IMPLEMENT => child == kind::FUNCTION,
            kind::APPLY => self.seen < 2 && child == kind::NAME,
            kind::LOCAL if even => child == kind::NAME,
            kind::LOCAL => kind::is_expression(child) || child == kind::ABSENT,
            kind::FOR => match self.seen {
                0 => child == kind::NAME,
                1 => kind::is_expression(child),
                _ => kind::is_statement(child),
            },
            kind::EXPRESSION | kind::PREFIX => self.seen < 1 && kind::is_expression(child),
            kind::ARRAY | kind::CALL => kind::is_expression(child),
            kind::INFIX | kind::INSTANCE_GET | kind::INDEX_GET => self.seen < 2 && kind::is_expression(child),
            kind::IF => match self.seen {
                0 => kind::is_expression(child),
                1 | 2 => child == kind::BLOCK,
                _ => false,
            },
            kind::BLOCK => kind::is_statement(child),
            _ => false,
        }
    }
}

/// Whether another child is due after `count` of them.
fn due(parent: u64, count: usize) -> bool {
    match parent {
        kind::LOCAL_DEFINITION | kind::INCLUDE | kind::LOCAL => count % 2 == 1,
        kind::APPLY | kind::FOR | kind::INFIX | kind::INSTANCE_GET | kind::INDEX_GET | kind::IF => count < 2,
        kind::EXPRESSION | kind::PREFIX | kind::CALL => count < 1,
        _ => false,
    }
}

/// How many children fill the record exactly; none if a span stops the hop.
fn children(records: &[Record], at: usize, end: usize) -> Option<usize> {
    let (mut next, mut count) = (at + 1, 0);
    while next < end {
        let span = records[next].span;
        if span == 0 || span > (end - next) as u64 {
            return None;
        }
        next += span as usize;
        count += 1;
    }
    Some(count)
}

fn value_fits(kind: u64, value: u64) -> bool {
    match kind {
        kind::INTEGER | kind::FLOAT => true,
        kind::BOOLEAN => value <= 1,
        kind::PREFIX => value <= 2,
        kind::INFIX => value <= 19,
        _ if kind::holds_text(kind) => (1..=MAX_TEXT).contains(&value),
        _ => value == 0,
    }
}

fn position_fits(kind: u64, position: u64) -> bool {
    if kind::has_no_position(kind) {
        position == 0
    } else {
        is_position(position)
    }
}

/// The records, if rows 2 to 4 have nothing against them.
pub fn check(words: &[u64]) -> Result<Vec<Record>, Refusal> {
    if words.len() % RECORD_WORDS != 0 || words.len() / RECORD_WORDS > MAX_RECORDS {
        return Err((BAD_LENGTH, 0));
    }
    let records = records(words);
    if records.is_empty() {
        return Err((BAD_SHAPE, 0));
    }
    let mut open: Vec<Open> = Vec::new();
    let mut this = None;
    for (at, r) in records.iter().enumerate() {
        while open.last().is_some_and(|o| o.end == at) {
            open.pop();
        }
        let parent = open.last_mut();
        let room = parent.as_ref().map_or(records.len(), |o| o.end) - at;
        let admitted = parent.as_ref().map_or(r.kind == kind::DOCUMENT, |o| o.admits(r.kind));
        let span_fits = r.span != 0 && r.span <= room as u64;
        let mut fits = admitted && span_fits && position_fits(r.kind, r.position) && value_fits(r.kind, r.value);
        if fits && r.kind == kind::THIS_PARAMETER {
            fits = *this.get_or_insert(r.value) == r.value;
        }
        if fits {
            let count = children(&records, at, at + r.span as usize);
            fits = !count.is_some_and(|count| due(r.kind, count));
        }
        if !fits {
            return Err((BAD_SHAPE, at as u64));
        }
        if let Some(o) = parent {
            o.seen += 1;
            o.body |= kind::is_statement(r.kind);
        }
        if open.len() == MAX_LEVEL {
            return Err((TOO_DEEP, at as u64));
        }
        open.push(Open { kind: r.kind, end: at + r.span as usize, seen: 0, body: false });
    }
    Ok(records)
}
