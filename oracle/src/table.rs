//! Counts of comparisons as docs/DIFFERENCES.md has them: a column for each run, and their sum.

use crate::compare::Tally;
use crate::slot_calls::Tables;

/// One run's counts.
pub struct Column {
    pub head: String,
    pub tally: Tally,
    /// Of the wall clock.
    pub minutes: f64,
    /// Of the processor.
    pub seconds: f64,
}

/// Thousands apart.
pub fn grouped(number: u64) -> String {
    let digits = number.to_string();
    let mut out = String::new();
    for (at, digit) in digits.chars().enumerate() {
        if at > 0 && (digits.len() - at) % 3 == 0 {
            out.push(',');
        }
        out.push(digit);
    }
    out
}

fn several(numbers: &[u64]) -> String {
    numbers.iter().map(|&number| grouped(number)).collect::<Vec<_>>().join(", ")
}

fn sum(columns: &[Column]) -> Column {
    let mut tally = Tally::default();
    columns.iter().for_each(|column| tally.join(&column.tally));
    Column {
        head: format!("together, {}", grouped(tally.cases)),
        tally,
        minutes: columns.iter().map(|column| column.minutes).sum(),
        seconds: columns.iter().map(|column| column.seconds).sum(),
    }
}

/// What stands in a column, with its name.
fn cells(column: &Column) -> Vec<(&'static str, String)> {
    let tally = &column.tally;
    let calls: u64 = tally.calls.iter().sum();
    let mut out = vec![("", column.head.clone()), ("records", grouped(tally.records))];
    let compared = if calls > 0 { "the reading compared with the Rust" } else { "compared with the Rust" };
    out.push((compared, grouped(tally.compared)));
    out.push(("delivered", grouped(tally.rows[0])));
    out.push(("row 2, 3, 4, 5", several(&tally.rows[2..=5])));
    out.push(("row 6, 7, 8", several(&tally.rows[6..=8])));
    let floats = &tally.floats;
    out.push((
        "pools with a float that the Rust adds again; entries merged",
        several(&[floats.repeated, floats.merged]),
    ));
    let apart = [floats.zeros, floats.nans, floats.integers];
    out.push(("pools with both zeros, with two NaNs, with a float and an integer of its bits", several(&apart)));
    out.push(("with an include below another definition", grouped(tally.late)));
    if calls > 0 {
        out.push(("calls of the library", grouped(calls)));
        out.push(("of these delivered", grouped(tally.calls[0])));
        out.push(("of these row 9", grouped(tally.calls[9])));
        let least = tally.calls_full.iter().min().copied().unwrap_or(0);
        out.push(("row 9 of the area that is least often the full one", grouped(least)));
        let Tables { lent, to_the_end, slots } = tally.tables;
        out.push((
            "calls with a table of slots; of these delivered with more slots than constants",
            several(&[lent, to_the_end]),
        ));
        out.push(("slots compared after the call", grouped(slots)));
    } else {
        out.push(("panics of `emit_return`", grouped(tally.panics)));
        out.push(("`this` numbered as `main`, not comparable", grouped(tally.inexpressible)));
        out.push(("lengths tried, row 9 met", several(&[tally.lengths, tally.full.iter().sum()])));
    }
    let least = tally.errors[1..].iter().min().copied().unwrap_or(0);
    out.push(("the one of errors 1 to 11 that is least often listed", grouped(least)));
    out.push(("**differences**", format!("**{}**", grouped(tally.differences))));
    out.push(("minutes; processor seconds", format!("{:.1}; {:.0}", column.minutes, column.seconds)));
    out
}

pub fn table(mut columns: Vec<Column>) -> String {
    if columns.len() > 1 {
        columns.push(sum(&columns));
    }
    let cells: Vec<_> = columns.iter().map(cells).collect();
    let mut out = String::new();
    for at in 0..cells.first().map_or(0, Vec::len) {
        let values: Vec<&str> = cells.iter().map(|column| column[at].1.as_str()).collect();
        let name = cells[0][at].0;
        let named = if name.is_empty() { "| |".to_string() } else { format!("| {name} |") };
        out += &format!("{named} {} |\n", values.join(" | "));
        if at == 0 {
            out += &format!("|{}\n", "---|".repeat(columns.len() + 1));
        }
    }
    out
}

#[cfg(test)]
mod tests {
    use super::*;

    #[test]
    fn thousands_stand_apart() {
        assert_eq!([0, 999, 1000, 1_234_567].map(grouped), ["0", "999", "1,000", "1,234,567"]);
    }

    #[test]
    fn runs_are_summed() {
        let column = |seed: u64| {
            let mut tally = Tally { cases: 1000, differences: seed, ..Tally::default() };
            tally.calls[9] = 600;
            tally.calls_full = [50; 12];
            tally.calls_full[5] = seed;
            Column { head: format!("seed {seed}"), tally, minutes: 1.0, seconds: 2.0 }
        };
        let made = table(vec![column(1), column(2)]);
        let lines: Vec<&str> = made.lines().collect();
        assert_eq!(lines[..2], ["| | seed 1 | seed 2 | together, 2,000 |", "|---|---|---|---|"]);
        assert!(lines.contains(&"| of these row 9 | 600 | 600 | 1,200 |"), "{made}");
        assert!(lines.contains(&"| row 9 of the area that is least often the full one | 1 | 2 | 3 |"), "{made}");
        assert!(lines.contains(&"| **differences** | **1** | **2** | **3** |"), "{made}");
        assert_eq!(lines.last(), Some(&"| minutes; processor seconds | 1.0; 2 | 1.0; 2 | 2.0; 4 |"));
    }
}
