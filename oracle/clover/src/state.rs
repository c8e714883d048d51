//! Stub: `object.rs` and `program.rs` name these types. No call made by the oracle reaches them.

use crate::intermediate::Position;

pub struct State;

impl State {
    pub fn last_position(&self) -> Position {
        unreachable!("stub of the running state reached")
    }
}

#[derive(Debug, Clone)]
pub struct Frame;
