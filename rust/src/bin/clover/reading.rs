//! A block's instructions as one would write them: the stack is followed, and what it holds is kept as
//! text. `LocalGet angle`, `PushConstant 30`, `Operation <=`, `JumpIf` is read as `angle <= 30 ?`.
//! Where two ways meet with different values on the stack, one says `(the value)`.

use crate::blocks::{Block, Flow, Way};
use crate::names::Names;
use clover_back_end::{Constant, Function, Instruction, OpCode, Operation};

/// A value that came on more than one way, or that is not known.
const MET: &str = "(the value)";

/// The end of a line that decides where control goes.
pub const CONDITION: &str = " ?";

/// How tightly an expression holds together, as the original's parser has it.
#[derive(Clone, Copy, Debug, PartialEq, Eq, PartialOrd, Ord)]
enum Rank {
    Assign,
    Boolean,
    Equals,
    Compare,
    Sum,
    Product,
    Prefix,
    Whole,
}

#[derive(Clone, Debug, PartialEq, Eq)]
struct Value {
    text: String,
    rank: Rank,
    /// What a string says, for `instance.name`.
    name: Option<String>,
}

impl Value {
    fn whole(text: impl Into<String>) -> Value {
        Value { text: text.into(), rank: Rank::Whole, name: None }
    }

    fn ranked(text: String, rank: Rank) -> Value {
        Value { text, rank, name: None }
    }

    /// In brackets where it holds less tightly than is needed.
    fn within(&self, least: Rank) -> String {
        if self.rank < least {
            format!("({})", self.text)
        } else {
            self.text.clone()
        }
    }
}

fn rank(operation: Operation) -> (Rank, Rank) {
    match operation {
        Operation::And | Operation::Or => (Rank::Boolean, Rank::Equals),
        Operation::Equal => (Rank::Equals, Rank::Compare),
        Operation::Greater | Operation::Less | Operation::GreaterEqual | Operation::LessEqual => {
            (Rank::Compare, Rank::Sum)
        }
        Operation::Add | Operation::Sub => (Rank::Sum, Rank::Product),
        Operation::Multiply | Operation::Divide | Operation::Mod => (Rank::Product, Rank::Prefix),
    }
}

/// The lines of each block.
pub fn read(names: &Names, function: Function, flow: &Flow) -> Vec<Vec<String>> {
    // Stacks with which the blocks before lead to each.
    let mut entries: Vec<Vec<Vec<Value>>> = vec![Vec::new(); flow.blocks.len()];
    let mut out = Vec::new();
    for (at, block) in flow.blocks.iter().enumerate() {
        let entry = met(std::mem::take(&mut entries[at]));
        let mut reader = Reader { names, function, floor: entry.len(), stack: entry, lines: Vec::new() };
        flow.code_of(block).iter().for_each(|&(instruction, _)| reader.step(instruction));
        let (lines, stack) = reader.finish(block, flow.code.len());
        block.ways.iter().for_each(|&(way, to)| entries[to].push(after(way, &stack)));
        out.push(lines);
    }
    out
}

/// What the stack holds where several ways meet. Those that lead back come too late to count.
fn met(stacks: Vec<Vec<Value>>) -> Vec<Value> {
    let mut stacks = stacks.into_iter();
    let Some(first) = stacks.next() else { return Vec::new() };
    stacks.fold(first, |known, other| {
        if known.len() != other.len() {
            return Vec::new();
        }
        let meet = |(one, two): (Value, Value)| if one == two { one } else { Value::whole(MET) };
        known.into_iter().zip(other).map(meet).collect()
    })
}

/// A loop that is done has no next value on the stack.
fn after(way: Way, stack: &[Value]) -> Vec<Value> {
    let kept = if way == Way::Done { stack.len().saturating_sub(1) } else { stack.len() };
    stack[..kept].to_vec()
}

struct Reader<'a> {
    names: &'a Names<'a>,
    function: Function<'a>,
    stack: Vec<Value>,
    /// So many values of the stack are not this block's.
    floor: usize,
    lines: Vec<String>,
}

impl Reader<'_> {
    fn pop(&mut self) -> Value {
        let value = self.stack.pop().unwrap_or_else(|| Value::whole(MET));
        self.floor = self.floor.min(self.stack.len());
        value
    }

    fn pop_many(&mut self, count: u64) -> String {
        let mut values: Vec<String> = (0..count).map(|_| self.pop().text).collect();
        values.reverse();
        values.join(", ")
    }

    fn push(&mut self, value: Value) {
        self.stack.push(value);
    }

    fn assign(&mut self, target: String) {
        let value = self.pop();
        self.push(Value::ranked(format!("{target} = {}", value.text), Rank::Assign));
    }

    /// `instance.name` or `instance[index]`.
    fn place(&mut self, by_name: bool) -> String {
        let index = self.pop();
        let instance = self.pop().within(Rank::Whole);
        match index.name.filter(|_| by_name) {
            Some(name) => format!("{instance}.{name}"),
            None if by_name => format!("{instance}.({})", index.text),
            None => format!("{instance}[{}]", index.text),
        }
    }

    fn constant(&mut self, operand: u64) {
        let mut value = Value::whole(self.names.constant(operand));
        if let Some(Constant::Text(text)) = self.names.program.constant(operand) {
            value.name = Some(self.names.text(text));
        }
        self.push(value);
    }

    fn operation(&mut self, instruction: Instruction) {
        let (right, left) = (self.pop(), self.pop());
        let Some(operation) = instruction.operation() else { return self.push(Value::whole(MET)) };
        let (own, tighter) = rank(operation);
        let text = format!("{} {operation} {}", left.within(own), right.within(tighter));
        self.push(Value::ranked(text, own));
    }

    /// `a == b` becomes `a != b`, as it was written.
    fn not(&mut self) {
        let value = self.pop();
        let parts = (value.rank == Rank::Equals).then(|| value.text.split_once(" == ")).flatten();
        let single = parts.filter(|(_, right)| !right.contains(" == "));
        self.push(match single {
            Some((left, right)) => Value::ranked(format!("{left} != {right}"), Rank::Equals),
            None => Value::ranked(format!("not {}", value.within(Rank::Prefix)), Rank::Prefix),
        });
    }

    fn step(&mut self, instruction: Instruction) {
        let (opcode, operand) = (instruction.opcode(), instruction.operand());
        let named = self.names.operand(self.function, opcode, operand);
        match opcode {
            OpCode::PushConstant => self.constant(operand),
            OpCode::LocalGet | OpCode::ContextGet | OpCode::GlobalGet => self.push(Value::whole(named)),
            OpCode::LocalSet => self.local_set(operand, named),
            OpCode::ContextSet | OpCode::GlobalSet => self.assign(named),
            OpCode::Operation => self.operation(instruction),
            OpCode::Not => self.not(),
            OpCode::Negative => {
                let value = self.pop().within(Rank::Prefix);
                self.push(Value::ranked(format!("-{value}"), Rank::Prefix));
            }
            OpCode::Call => {
                let parameters = self.pop_many(operand);
                let called = self.pop().within(Rank::Whole);
                self.push(Value::whole(format!("{called}({parameters})")));
            }
            OpCode::Array => {
                let values = self.pop_many(operand);
                self.push(Value::whole(format!("[{values}]")));
            }
            OpCode::ForNext => {
                let word = self.names.looped(self.function, operand).unwrap_or(named);
                self.push(Value::whole(format!("next {word}")));
                self.push(Value::whole(format!("another {word}")));
            }
            _ => self.effect(opcode, named),
        }
    }

    /// What a loop goes through is set where the loop begins.
    fn local_set(&mut self, operand: u64, named: String) {
        match self.names.looped(self.function, operand) {
            Some(word) => {
                let values = self.pop().text;
                self.push(Value::ranked(format!("for {word} in {values}"), Rank::Assign));
            }
            None => self.assign(named),
        }
    }

    /// Instructions that read or write a place, or leave nothing on the stack.
    fn effect(&mut self, opcode: OpCode, named: String) {
        match opcode {
            OpCode::InstanceGet | OpCode::IndexGet => {
                let place = self.place(opcode == OpCode::InstanceGet);
                self.push(Value::whole(place));
            }
            OpCode::InstanceSet | OpCode::IndexSet => {
                let place = self.place(opcode == OpCode::InstanceSet);
                self.assign(place);
            }
            OpCode::LocalInit => {
                let value = self.pop().text;
                self.lines.push(format!("local {named} = {value}"));
            }
            OpCode::Pop => {
                // What an earlier block left is a line there.
                let own = self.stack.len() > self.floor;
                let value = self.pop().text;
                self.lines.extend(own.then_some(value));
            }
            OpCode::Return => {
                let value = self.pop().text;
                self.lines.push(format!("return {value}"));
            }
            OpCode::JumpIf => {
                let value = self.pop().text;
                self.lines.push(format!("{value}{CONDITION}"));
            }
            OpCode::Iterate => self.lines.push(format!("step {named}")),
            OpCode::Jump => {}
            other => self.lines.push(other.to_string()),
        }
    }

    /// What this block leaves on the stack is a line of it too; a condition stays the last.
    fn finish(mut self, block: &Block, length: usize) -> (Vec<String>, Vec<Value>) {
        let waits = block.ways.iter().any(|&(way, _)| way == Way::Next);
        let kept = self.stack.len() - usize::from(waits && !self.stack.is_empty());
        let own = self.stack.iter().take(kept).skip(self.floor).map(|value| value.text.clone());
        let decides = self.lines.last().is_some_and(|line| line.ends_with(CONDITION));
        let condition = if decides { self.lines.pop() } else { None };
        self.lines.extend(own.chain(condition));
        if self.lines.is_empty() && block.start == length {
            self.lines.push("end of the function".to_string());
        }
        (self.lines, self.stack)
    }
}

#[cfg(test)]
mod tests {
    use super::*;
    use crate::bundle::Bundle;
    use clover_back_end::records::{Filled, Records, Slot};
    use clover_back_end::{Infix, Position, Prefix, Text, Texts};

    const NONE: Position = Position::NONE;
    const A: Text = Text::from_number(4);
    const B: Text = Text::from_number(5);

    /// The lines of each block of `function f(a, b)` with one expression.
    fn blocks(value: impl FnOnce(Slot) -> Filled) -> Vec<Vec<String>> {
        let mut texts = Texts::new();
        let [file, f, a, b] = ["f.clover", "f", "a", "b"].map(|text| texts.intern(text));
        assert_eq!((a, b), (A, B));
        let mut tree = Records::new();
        tree.document(file, |book| {
            book.function(f).parameter(a).parameter(b).body(|body| body.expression(value));
        });
        let bundle = Bundle::of(tree.into_words(), texts);
        let names = Names::of(&bundle);
        let function = names.program.function(0).expect("f");
        read(&names, function, &Flow::of(function))
    }

    fn single(value: impl FnOnce(Slot) -> Filled) -> String {
        let lines = blocks(value).concat();
        assert_eq!(lines.len(), 1, "{lines:?}");
        lines[0].strip_prefix("return ").expect("a return").to_string()
    }

    fn a(slot: Slot) -> Filled {
        slot.identifier(A)
    }

    fn b(slot: Slot) -> Filled {
        slot.identifier(B)
    }

    fn pair(slot: Slot, infix: Infix, left: fn(Slot) -> Filled, right: fn(Slot) -> Filled) -> Filled {
        slot.infix(infix, NONE).left(left).right(right)
    }

    #[test]
    fn brackets_stand_where_they_are_needed() {
        use Infix::{And, Equal, Minus, NotEqual, Or, Plus, Star};
        assert_eq!(single(|slot| pair(slot, Minus, a, |slot| pair(slot, Minus, b, a))), "a - (b - a)");
        assert_eq!(single(|slot| pair(slot, Minus, |slot| pair(slot, Minus, a, b), a)), "a - b - a");
        assert_eq!(single(|slot| pair(slot, Star, |slot| pair(slot, Plus, a, b), a)), "(a + b) * a");
        assert_eq!(single(|slot| pair(slot, Plus, |slot| pair(slot, Star, a, b), a)), "a * b + a");
        assert_eq!(single(|slot| pair(slot, And, a, |slot| pair(slot, Or, a, b))), "a and (a or b)");
        assert_eq!(single(|slot| pair(slot, NotEqual, a, b)), "a != b");
        let negated = |slot: Slot| slot.prefix(Prefix::Not, NONE, |slot| pair(slot, And, a, b));
        assert_eq!(single(negated), "not (a and b)");
        let equal = |slot: Slot| pair(slot, Equal, |slot| pair(slot, Equal, a, b), a);
        assert_eq!(single(|slot| slot.prefix(Prefix::Not, NONE, equal)), "not (a == b == a)");
        let minus = |slot: Slot| slot.prefix(Prefix::Minus, NONE, |slot| pair(slot, Star, a, b));
        assert_eq!(single(minus), "-(a * b)");
    }

    #[test]
    fn gets_calls_and_assignments() {
        let index = |slot: Slot| slot.index_get(NONE).instance(a).index(b);
        assert_eq!(single(index), "a[b]");
        let call = |slot: Slot| slot.call(NONE).function(a).parameters(|values| values.value(b));
        assert_eq!(single(call), "a(b)");
        assert_eq!(single(|slot| pair(slot, Infix::Assign, a, b)), "a = b");
        assert_eq!(single(|slot| pair(slot, Infix::PlusAssign, a, b)), "a = a + b");
        let named = |slot: Slot| slot.instance_get(NONE).instance(a).index(|slot| slot.string(B));
        assert_eq!(single(named), "a.b");
        assert_eq!(single(|slot| slot.infix(Infix::Assign, NONE).left(named).right(b)), "a.b = b");
    }

    #[test]
    fn values_that_meet_have_no_other_name() {
        let found = blocks(|slot| {
            let out = slot.infix(Infix::Plus, NONE).left(a);
            out.right(|slot| {
                let out = slot.if_expression().condition(b).then(|body| body.expression(a));
                out.otherwise(|body| body.expression(b))
            })
        });
        assert_eq!(found, [vec!["a", "b ?"], vec!["b"], vec!["a"], vec!["return a + (the value)"]]);
    }
}
