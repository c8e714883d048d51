//! Instruction words, by the names of the original `opcode.rs`.

use crate::numbered::numbered;
use std::fmt;

numbered! {
    /// What an instruction does.
    pub enum OpCode {
        /// Takes a value off the stack.
        Pop = 0x01 "Pop",
        /// Operand: a constant.
        PushConstant = 0x02 "PushConstant",
        /// Leaves the function with the value on the stack.
        Return = 0x05 "Return",
        /// Operand: a local.
        LocalSet = 0x06 "LocalSet",
        /// Operand: a local.
        LocalGet = 0x07 "LocalGet",
        /// Operand: a local.
        LocalInit = 0x08 "LocalInit",
        /// Operand: a context local.
        ContextSet = 0x0C "ContextSet",
        /// Operand: a context local.
        ContextGet = 0x0D "ContextGet",
        /// Operand: a constant, the global's name.
        GlobalSet = 0x11 "GlobalSet",
        /// Operand: a constant, the global's name.
        GlobalGet = 0x12 "GlobalGet",
        /// A property is set.
        InstanceSet = 0x13 "InstanceSet",
        /// A property is read.
        InstanceGet = 0x14 "InstanceGet",
        /// An element is set.
        IndexSet = 0x15 "IndexSet",
        /// An element is read.
        IndexGet = 0x16 "IndexGet",
        /// Operand: an [`Operation`].
        Operation = 0x21 "Operation",
        /// `not`.
        Not = 0x22 "Not",
        /// A sign changed.
        Negative = 0x23 "Negative",
        /// In no delivered program.
        Closure = 0x31 "Closure",
        /// Operand: how many parameters.
        Call = 0x32 "Call",
        /// Operand: how many values.
        Array = 0x36 "Array",
        /// In no delivered program.
        PushNewMap = 0x41 "PushNewMap",
        /// Operand: an instruction of the function.
        Jump = 0x51 "Jump",
        /// Operand: an instruction of the function, to which a true value leads.
        JumpIf = 0x52 "JumpIf",
        /// Operand: the local with what a loop goes through.
        ForNext = 0x56 "ForNext",
        /// Operand: the local with a loop's count.
        Iterate = 0x57 "Iterate",
        /// No word of a delivered program.
        Unknown = 0xFF "Unknown",
    }
}

numbered! {
    /// What an [`OpCode::Operation`] does with two values.
    pub enum Operation {
        /// `+`.
        Add = 0 "+",
        /// `-`.
        Sub = 1 "-",
        /// `*`.
        Multiply = 2 "*",
        /// `/`.
        Divide = 3 "/",
        /// `%`.
        Mod = 4 "%",
        /// `==`; `!=` is this and then [`OpCode::Not`].
        Equal = 5 "==",
        /// `>`.
        Greater = 6 ">",
        /// `<`.
        Less = 7 "<",
        /// `>=`.
        GreaterEqual = 8 ">=",
        /// `<=`.
        LessEqual = 9 "<=",
        /// `and`.
        And = 257 "and",
        /// `or`.
        Or = 258 "or",
    }
}

/// What an operand is.
#[derive(Clone, Copy, Debug, PartialEq, Eq, Hash)]
pub enum Operand {
    /// 0, and no more than that.
    Unused,
    /// An index of [`Area::Constants`](crate::Area::Constants).
    Constant,
    /// A local of the function.
    Local,
    /// An index of [`Area::ContextLocals`](crate::Area::ContextLocals).
    ContextLocal,
    /// An [`Operation`].
    Operation,
    /// How many values.
    Count,
    /// An instruction of the function.
    Instruction,
}

impl OpCode {
    /// What its operand is.
    pub fn operand(self) -> Operand {
        match self {
            OpCode::PushConstant | OpCode::GlobalSet | OpCode::GlobalGet => Operand::Constant,
            OpCode::LocalSet | OpCode::LocalGet | OpCode::LocalInit => Operand::Local,
            OpCode::ForNext | OpCode::Iterate => Operand::Local,
            OpCode::ContextSet | OpCode::ContextGet => Operand::ContextLocal,
            OpCode::Operation => Operand::Operation,
            OpCode::Call | OpCode::Array => Operand::Count,
            OpCode::Jump | OpCode::JumpIf => Operand::Instruction,
            _ => Operand::Unused,
        }
    }
}

const OPERAND_BITS: u32 = 56;

/// A word of code: opcode × 2^56 + operand.
#[derive(Clone, Copy, PartialEq, Eq, Hash)]
pub struct Instruction(u64);

impl Instruction {
    /// The instruction that a word is.
    pub fn from_word(word: u64) -> Instruction {
        Instruction(word)
    }

    /// The instruction of an opcode and an operand, which is below 2^56.
    pub fn new(opcode: OpCode, operand: u64) -> Instruction {
        Instruction(opcode.number() << OPERAND_BITS | operand)
    }

    /// Its word.
    pub fn word(self) -> u64 {
        self.0
    }

    /// Its opcode; [`OpCode::Unknown`] for a number that is none's.
    pub fn opcode(self) -> OpCode {
        OpCode::from_number(self.0 >> OPERAND_BITS).unwrap_or(OpCode::Unknown)
    }

    /// Its operand; 0 where the opcode has none.
    pub fn operand(self) -> u64 {
        self.0 & ((1 << OPERAND_BITS) - 1)
    }

    /// The operation of an [`OpCode::Operation`].
    pub fn operation(self) -> Option<Operation> {
        if self.opcode() != OpCode::Operation {
            return None;
        }
        Operation::from_number(self.operand())
    }
}

impl fmt::Display for Instruction {
    fn fmt(&self, out: &mut fmt::Formatter<'_>) -> fmt::Result {
        let opcode = self.opcode();
        match (self.operation(), opcode.operand()) {
            (Some(operation), _) => write!(out, "{opcode} {operation}"),
            (None, Operand::Unused) => write!(out, "{opcode}"),
            _ => write!(out, "{opcode} {}", self.operand()),
        }
    }
}

impl fmt::Debug for Instruction {
    fn fmt(&self, out: &mut fmt::Formatter<'_>) -> fmt::Result {
        write!(out, "({:?}, {})", self.opcode(), self.operand())
    }
}

#[cfg(test)]
mod tests {
    use super::*;

    #[test]
    fn words_part_into_opcode_and_operand() {
        let jump = Instruction::from_word(0x51 << 56 | 6);
        assert_eq!((jump.opcode(), jump.operand()), (OpCode::Jump, 6));
        assert_eq!((jump, jump.to_string()), (Instruction::new(OpCode::Jump, 6), "Jump 6".to_string()));
        assert_eq!(Instruction::from_word(0).opcode(), OpCode::Unknown);
        let widest = Instruction::from_word(u64::MAX);
        assert_eq!((widest.opcode(), widest.operand()), (OpCode::Unknown, (1 << 56) - 1));
    }

    #[test]
    fn operations_are_named() {
        let less = Instruction::new(OpCode::Operation, 9);
        assert_eq!((less.operation(), less.to_string()), (Some(Operation::LessEqual), "Operation <=".to_string()));
        assert_eq!(Instruction::new(OpCode::Operation, 258).operation(), Some(Operation::Or));
        assert_eq!(Instruction::new(OpCode::Operation, 10).operation(), None);
        assert_eq!(Instruction::new(OpCode::Jump, 9).operation(), None);
        assert_eq!(Instruction::new(OpCode::Return, 0).to_string(), "Return");
    }
}
