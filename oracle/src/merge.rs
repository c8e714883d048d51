//! 02, 2026-05: "The Rust's output is then compared after merging each float it adds onto the first of equal bits and
//! moving later numbers down." The numbers stand in operands, context values, public names and global dependencies.

use crate::areas::{Answer, Delivery};
use crate::model::{constant, instruction, op};
use std::collections::HashMap;

/// The operand's bits of an instruction word.
const OPERAND: u64 = (1 << 56) - 1;

/// Where each constant goes when a float goes onto the first of equal bits.
struct Moved {
    numbers: Vec<u64>,
    kept: Vec<(u64, u64)>,
}

impl Moved {
    fn of(constants: &[(u64, u64)]) -> Moved {
        let mut first = HashMap::new();
        let mut moved = Moved { numbers: Vec::new(), kept: Vec::new() };
        for &(kind, bits) in constants {
            let next = moved.kept.len() as u64;
            let number = if kind == constant::FLOAT { *first.entry(bits).or_insert(next) } else { next };
            if number == next {
                moved.kept.push((kind, bits));
            }
            moved.numbers.push(number);
        }
        moved
    }

    fn number(&self, number: u64) -> u64 {
        self.numbers[number as usize]
    }

    fn word(&self, word: u64) -> u64 {
        match word >> 56 {
            opcode @ (op::PUSH_CONSTANT | op::GLOBAL_GET | op::GLOBAL_SET) => {
                instruction(opcode, self.number(word & OPERAND))
            }
            _ => word,
        }
    }
}

/// The Rust's answer with equal floats in one entry, and how many entries that took away.
pub fn merge_floats(answer: Answer) -> (Answer, u64) {
    let Answer::Delivered(mut delivery) = answer else { return (answer, 0) };
    let moved = Moved::of(&delivery.constants);
    let merged = delivery.constants.len() - moved.kept.len();
    for (word, _) in delivery.functions.iter_mut().flat_map(|function| &mut function.code) {
        *word = moved.word(*word);
    }
    for (_, _, value) in &mut delivery.context {
        *value = value.map(|number| moved.number(number));
    }
    for number in delivery.public.values_mut().chain(&mut delivery.globals) {
        *number = moved.number(*number);
    }
    (Answer::Delivered(Delivery { constants: moved.kept, ..delivery }), merged as u64)
}

#[cfg(test)]
mod tests {
    use super::*;
    use crate::areas::FunctionAnswer;
    use std::collections::BTreeMap;

    const ZERO: (u64, u64) = (constant::FLOAT, 0);
    const MINUS_ZERO: (u64, u64) = (constant::FLOAT, 1 << 63);
    const NAN: (u64, u64) = (constant::FLOAT, 0x7FF8_0000_0000_0000);
    const OTHER_NAN: (u64, u64) = (constant::FLOAT, 0x7FF8_0000_0000_0001);
    const INTEGER: (u64, u64) = (constant::INTEGER, 0);
    const TEXT: (u64, u64) = (constant::TEXT, 7);

    fn delivery(constants: Vec<(u64, u64)>, code: &[(u64, u64)]) -> Delivery {
        let code = code.iter().map(|&(opcode, operand)| (instruction(opcode, operand), 0)).collect();
        let function = FunctionAnswer { parameters: 0, locals: 0, rescue: 0, instance: false, file: 0, name: 1, code };
        Delivery {
            functions: vec![function],
            constants,
            globals: vec![7],
            models: Vec::new(),
            context: vec![(0, 9, Some(4)), (0, 10, None), (0, 11, Some(8))],
            public: BTreeMap::from([((0, 9), 4), ((0, 11), 8)]),
            entry_point: 0,
            books: vec![2],
        }
    }

    #[test]
    fn later_numbers_move_down_wherever_they_stand() {
        let three = [(0, 0), (1, 1), (1, 0)];
        let made = [three.to_vec(), vec![ZERO, ZERO, INTEGER, MINUS_ZERO, TEXT, NAN, NAN, OTHER_NAN]].concat();
        let kept = [three.to_vec(), vec![ZERO, INTEGER, MINUS_ZERO, TEXT, NAN, OTHER_NAN]].concat();
        let reads = |numbers: [u64; 5]| numbers.map(|number| (op::PUSH_CONSTANT, number)).to_vec();
        let others = |number| [(op::GLOBAL_GET, number), (op::GLOBAL_SET, number), (op::LOCAL_GET, 7)];
        let theirs = delivery(made, &[reads([2, 4, 8, 9, 10]), others(7).to_vec()].concat());
        let mut ours = delivery(kept, &[reads([2, 3, 7, 7, 8]), others(6).to_vec()].concat());
        ours.globals = vec![6];
        ours.context = vec![(0, 9, Some(3)), (0, 10, None), (0, 11, Some(7))];
        ours.public = BTreeMap::from([((0, 9), 3), ((0, 11), 7)]);
        assert_eq!(merge_floats(Answer::Delivered(theirs)), (Answer::Delivered(ours), 2));
    }

    #[test]
    fn a_refusal_stays() {
        let refusal = Answer::Refused { row: 7, place: 2, errors: vec![[1, 0, 40, 9]] };
        assert_eq!(merge_floats(refusal.clone()), (refusal, 0));
    }
}
