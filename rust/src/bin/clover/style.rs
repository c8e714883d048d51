//! Colours, where standard output is a terminal.

use std::fmt::Display;
use std::io::IsTerminal;

/// How text is marked.
#[derive(Clone, Copy)]
pub struct Style {
    coloured: bool,
}

impl Style {
    /// Colours on a terminal, unless the variable NO_COLOR is there.
    pub fn of_output() -> Style {
        Style { coloured: std::io::stdout().is_terminal() && std::env::var_os("NO_COLOR").is_none() }
    }

    fn mark(self, code: &str, text: impl Display) -> String {
        if self.coloured {
            format!("\x1b[{code}m{text}\x1b[0m")
        } else {
            text.to_string()
        }
    }

    pub fn title(self, text: impl Display) -> String {
        self.mark("1", text)
    }

    pub fn faint(self, text: impl Display) -> String {
        self.mark("2", text)
    }

    pub fn value(self, text: impl Display) -> String {
        self.mark("36", text)
    }

    pub fn label(self, text: impl Display) -> String {
        self.mark("33", text)
    }

    pub fn removed(self, text: impl Display) -> String {
        self.mark("31", text)
    }

    pub fn added(self, text: impl Display) -> String {
        self.mark("32", text)
    }
}

/// A number with its digits in groups of three.
pub fn grouped(number: usize) -> String {
    let digits = number.to_string();
    let mut out = String::new();
    for (at, digit) in digits.chars().enumerate() {
        if at > 0 && (digits.len() - at) % 3 == 0 {
            out.push(',');
        }
        out.push(digit);
    }
    out
}

/// So many of something: `1 local`, `2 locals`.
pub fn counted(number: usize, what: &str) -> String {
    let end = if number == 1 { "" } else { "s" };
    format!("{} {what}{end}", grouped(number))
}

#[cfg(test)]
mod tests {
    use super::*;

    #[test]
    fn numbers_are_grouped() {
        assert_eq!([0, 999, 1000, 1_048_576].map(grouped), ["0", "999", "1,000", "1,048,576"]);
        assert_eq!((counted(1, "local"), counted(0, "local")), ("1 local".to_string(), "0 locals".to_string()));
    }
}
