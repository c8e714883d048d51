//! The part `errors` of the stored cases of `crates/word_cases`: inputs from a seed, answered by the reading in `error_words`.

use crate::error_words::{case, Case};
use crate::parts::Part;
use std::fmt::Write;

const SEED: u64 = 7;
/// The program reads no more than 65,536 bytes, and a case of no more than these words and bytes.
const MOST_INPUT: usize = 64_000;
const MOST_PART: usize = 300;
const MOST_ROOM: usize = 1900;
/// Words of an error in area 11.
const ENTRY: usize = 4;

/// A line buffer one byte short, longer, of any length, or exactly long enough; and what a case's name says of it.
fn buffer_length(case: &Case, index: u64) -> (usize, &'static str) {
    let long = Case { out_len: 1 << 16, ..case.clone() };
    let needed = long.answer().0.total as usize;
    match index % 5 {
        0 => (needed.saturating_sub(1), "a byte short"),
        1 => (needed + 7, "room to spare"),
        2 => (index as usize % 50, "any room"),
        _ => (needed, "exact"),
    }
}

/// A case's name, which ends at the line's first colon.
fn name(case: &Case, index: u64, room: &str) -> String {
    format!("list {index}, {} entries, {room}: ", case.errors.len() / ENTRY)
}

fn line(case: &Case) -> String {
    let counts = [case.errors.len(), case.table.len(), case.bytes.len()].map(|count| count as u64);
    let mut words = counts.to_vec();
    words.extend([case.file, case.out_len as u64]);
    words.extend(&case.errors);
    words.extend(&case.table);
    words.extend(case.bytes.iter().map(|&byte| byte as u64));
    words.iter().map(u64::to_string).collect::<Vec<_>>().join(" ") + "\n"
}

/// What the program writes of a case.
fn answer(case: &Case) -> String {
    let (reply, out) = case.answer();
    let (lines, rest) = out.split_at(reply.total as usize);
    assert!(rest.iter().all(|&byte| byte == 0));
    let mut text = String::new();
    writeln!(text, "{} {} {}", reply.number, reply.place, reply.total).expect("a string takes it");
    text + std::str::from_utf8(lines).expect("lines are ASCII") + "zeros, kept, kept\n"
}

/// What the part reads, and what it must write.
pub fn stored() -> Part {
    let (mut input, mut output) = (String::new(), String::new());
    for index in 1.. {
        if input.len() >= MOST_INPUT {
            break;
        }
        let mut case = case(SEED, index - 1);
        let (length, room) = buffer_length(&case, index);
        case.out_len = length;
        let parts = [case.errors.len(), case.table.len(), case.bytes.len()];
        if case.out_len > MOST_ROOM || parts.iter().any(|&part| part > MOST_PART) {
            continue;
        }
        let name = name(&case, index, room);
        input += &(name.clone() + &line(&case));
        output += &(name + &answer(&case));
    }
    Part { given: input, wanted: output }
}

#[cfg(test)]
mod tests {
    #[test]
    fn the_stored_cases_are_current() {
        assert!(crate::parts::is_stored("errors", &super::stored()), "`oracle error-cases` writes them anew");
    }
}
