//! Constants of a program's pool.

use crate::texts::{Text, Texts};

/// A constant of the pool. Models and functions are indices.
#[derive(Clone, Copy, Debug, PartialEq)]
pub enum Constant {
    /// `null`.
    Null,
    /// `true` or `false`.
    Boolean(bool),
    /// An integer.
    Integer(i64),
    /// A float, with all its bits.
    Float(f64),
    /// A string.
    Text(Text),
    /// A model's index.
    Model(u64),
    /// A function's index.
    Function(u64),
}

impl Constant {
    pub(crate) fn of(kind: u64, value: u64) -> Constant {
        match kind {
            0 => Constant::Null,
            1 => Constant::Boolean(value == 1),
            2 => Constant::Integer(value as i64),
            3 => Constant::Float(f64::from_bits(value)),
            4 => Constant::Text(Text::from_number(value)),
            5 => Constant::Model(value),
            6 => Constant::Function(value),
            other => unreachable!("no delivered program has a constant of kind {other}"),
        }
    }

    /// The number of its kind.
    pub fn kind(self) -> u64 {
        match self {
            Constant::Null => 0,
            Constant::Boolean(_) => 1,
            Constant::Integer(_) => 2,
            Constant::Float(_) => 3,
            Constant::Text(_) => 4,
            Constant::Model(_) => 5,
            Constant::Function(_) => 6,
        }
    }

    /// The word of its value.
    pub fn value(self) -> u64 {
        match self {
            Constant::Null => 0,
            Constant::Boolean(value) => value.into(),
            Constant::Integer(value) => value as u64,
            Constant::Float(value) => value.to_bits(),
            Constant::Text(text) => text.number(),
            Constant::Model(index) | Constant::Function(index) => index,
        }
    }

    /// As one writes it in a book: `0.8`, `"storage"`. Floats of different bits are spelt differently.
    pub fn spelt(self, texts: &Texts) -> String {
        match self {
            Constant::Null => "null".to_string(),
            Constant::Boolean(value) => value.to_string(),
            Constant::Integer(value) => value.to_string(),
            Constant::Float(value) if value.is_nan() => format!("NaN (bits {:x})", value.to_bits()),
            Constant::Float(value) => format!("{value:?}"),
            Constant::Text(text) => texts.get(text).map_or_else(|| text.to_string(), |known| format!("{known:?}")),
            Constant::Model(index) => format!("model {index}"),
            Constant::Function(index) => format!("function {index}"),
        }
    }
}

#[cfg(test)]
mod tests {
    use super::*;

    #[test]
    fn constants_are_spelt_as_in_a_book() {
        let mut texts = Texts::new();
        let storage = texts.intern("a \"b\"");
        let spelt = |constant: Constant| constant.spelt(&texts);
        assert_eq!([0.8, 60.0, -0.0, 1e300].map(|x| spelt(Constant::Float(x))), ["0.8", "60.0", "-0.0", "1e300"]);
        let odd = f64::from_bits(0x7ff8_0000_0000_0001);
        assert_eq!(spelt(Constant::Float(odd)), "NaN (bits 7ff8000000000001)");
        assert_eq!([Constant::Null, Constant::Boolean(true), Constant::Integer(-7)].map(spelt), ["null", "true", "-7"]);
        assert_eq!(spelt(Constant::Text(storage)), "\"a \\\"b\\\"\"");
        assert_eq!(spelt(Constant::Text(Text::from_number(9))), "text 9");
    }
}
