//! Places in a source, and the word that holds one: no other file knows how.

use std::fmt;

/// The column stands in so many bits of the word, and the line above them.
const COLUMN_BITS: u32 = 32;

/// A place in a source; line 0 and column 0 where there is none.
#[derive(Clone, Copy, Debug, Default, PartialEq, Eq, Hash, PartialOrd, Ord)]
pub struct Position {
    /// The line, mostly from 1.
    pub line: u32,
    /// The column, mostly from 1.
    pub column: u32,
}

impl Position {
    /// No place: line 0, column 0.
    pub const NONE: Position = Position { line: 0, column: 0 };
    /// The greatest line, and the greatest column.
    pub const MOST: u32 = 99_999_999;

    /// A place.
    pub const fn new(line: u32, column: u32) -> Position {
        Position { line, column }
    }

    /// Whether line and column are within [`MOST`](Position::MOST).
    pub fn is_known(self) -> bool {
        self.line <= Position::MOST && self.column <= Position::MOST
    }

    /// The word of a record, each place its own. The library refuses one beyond
    /// [`MOST`](Position::MOST) (row 3).
    pub fn word(self) -> u64 {
        u64::from(self.line) << COLUMN_BITS | u64::from(self.column)
    }

    /// The place that a word holds.
    pub fn from_word(word: u64) -> Position {
        Position { line: (word >> COLUMN_BITS) as u32, column: word as u32 }
    }
}

impl fmt::Display for Position {
    fn fmt(&self, out: &mut fmt::Formatter<'_>) -> fmt::Result {
        write!(out, "({}, {})", self.line, self.column)
    }
}

#[cfg(test)]
mod tests {
    use super::*;

    #[test]
    fn positions_come_back() {
        let most = Position::new(Position::MOST, Position::MOST);
        for position in
            [Position::NONE, Position::new(2, 6), most, Position::new(0, u32::MAX), Position::new(u32::MAX, 0)]
        {
            assert_eq!(Position::from_word(position.word()), position);
        }
        assert_eq!(Position::new(2, 6).word(), (2 << COLUMN_BITS) + 6);
    }

    #[test]
    fn a_place_beyond_the_limit_is_not_known() {
        for position in [Position::new(Position::MOST + 1, 1), Position::new(1, Position::MOST + 1)] {
            assert!(!position.is_known());
            assert!(!Position::from_word(position.word()).is_known());
        }
    }
}
