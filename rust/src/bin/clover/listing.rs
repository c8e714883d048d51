//! A program from its listing (docs/FORMAT.md, 'The listing'): what the program `listing` printed, read
//! back into the areas that it was printed from. A listing has no names of context locals and no public
//! names; a context local is then known by its number.

use clover_back_end::{Answer, Area, Constant, Instruction, OpCode, Position, Program, Reply, Totals, AREAS};

const FIELDS: usize = 8;

/// The words of the areas, and how many entries they are.
pub struct Listing {
    areas: [Vec<u64>; AREAS],
    totals: Totals,
}

/// A line: its section, six numbers, the last number as a word.
struct Line {
    section: u64,
    middle: [u64; FIELDS - 2],
    last: u64,
}

fn line(text: &str) -> Option<Line> {
    let fields: Vec<&str> = text.split_whitespace().collect();
    let [section, middle @ .., last] = &fields[..] else { return None };
    let middle: Vec<u64> = middle.iter().map(|field| field.parse().ok()).collect::<Option<_>>()?;
    let last = last.parse().or_else(|_| last.parse().map(|signed: i64| signed as u64)).ok()?;
    Some(Line { section: section.parse().ok()?, middle: middle.try_into().ok()?, last })
}

impl Listing {
    /// Reads a listing; the error is what is wrong with it.
    pub fn read(text: &str) -> Result<Listing, String> {
        let mut out = Listing { areas: Default::default(), totals: Totals::default() };
        for (number, text) in (1..).zip(text.lines()) {
            let line = line(text).ok_or_else(|| format!("line {number} is not eight numbers"))?;
            out.take(&line).ok_or_else(|| format!("line {number} is not one of a delivered program's listing"))?;
        }
        out.counted().ok_or("its lines are not as many as its totals say".to_string())?;
        out.holds_together().ok_or("it names an entry that it does not have".to_string())?;
        Ok(out)
    }

    fn area(&mut self, area: Area) -> &mut Vec<u64> {
        &mut self.areas[area.number() as usize - 1]
    }

    fn words(&self, area: Area) -> &[u64] {
        &self.areas[area.number() as usize - 1]
    }

    /// A word of an entry.
    fn word(&mut self, area: Area, entry: u64, word: usize) -> Option<&mut u64> {
        let at = usize::try_from(entry).ok()?.checked_mul(area.entry_words())?.checked_add(word)?;
        self.area(area).get_mut(at)
    }

    fn take(&mut self, line: &Line) -> Option<()> {
        let [first, second, third, fourth, fifth, sixth] = line.middle;
        let last = line.last;
        match line.section {
            1 => self.begin(line)?,
            // Where its code begins and how much it is comes with the instructions.
            2 => self.area(Area::Functions).extend([second, third, fourth, fifth, 0, 0, sixth, last]),
            3 => {
                let place = Position::new(u32::try_from(third).ok()?, u32::try_from(fourth).ok()?);
                let instruction = Instruction::new(OpCode::from_number(fifth)?, last);
                self.area(Area::Code).extend([instruction.word(), place.word()]);
                *self.word(Area::Functions, first, 5)? += 1;
            }
            4 => self.area(Area::Constants).extend([second, last, 0]),
            5 => self.area(Area::Models).extend([second, last]),
            6 => self.area(Area::Properties).extend([first, last]),
            7 => self.area(Area::Methods).extend([first, last, second]),
            8 => {
                *self.word(Area::ContextLocals, first, 2)? = 1;
                *self.word(Area::ContextLocals, first, 3)? = second;
            }
            9 => *self.word(Area::Constants, first, 2)? = 1,
            10 => self.area(Area::Books).push(last),
            _ => return None,
        }
        Some(())
    }

    /// The totals, without the number of bundles, which no line has; room for the context locals, whose files and names are not
    /// known.
    fn begin(&mut self, line: &Line) -> Option<()> {
        let [functions, constants, models, context_locals, entry_point, books] = line.middle;
        let none = Totals::default();
        self.totals = Totals { functions, constants, models, context_locals, entry_point, books, ..none };
        self.totals.global_dependencies = line.last;
        let room = usize::try_from(context_locals).ok().filter(|&count| count <= 1 << 24)?;
        let unknown = [u64::MAX, 0, 0, 0];
        *self.area(Area::ContextLocals) = unknown.repeat(room);
        Some(())
    }

    /// The totals of the other areas, and where each function's code begins; none if a total is not met.
    fn counted(&mut self) -> Option<()> {
        let mut code = 0;
        for function in 0..self.totals.functions {
            *self.word(Area::Functions, function, 4)? = code;
            code += *self.word(Area::Functions, function, 5)?;
        }
        let (properties, methods) = (self.entries(Area::Properties), self.entries(Area::Methods));
        self.totals = Totals { code, properties, methods, ..self.totals };
        Area::ALL.iter().all(|&area| self.entries(area) == self.totals.of(area)).then_some(())
    }

    fn entries(&self, area: Area) -> u64 {
        (self.words(area).len() / area.entry_words()) as u64
    }

    /// Whether no index leads outside, so that the views can be read.
    fn holds_together(&self) -> Option<()> {
        let totals = self.totals;
        let kinds = self.words(Area::Constants).chunks(3).all(|entry| entry[0] <= Constant::Function(0).kind());
        let functions =
            self.words(Area::Functions).chunks(8).all(|entry| entry[6] < totals.books && entry[2] <= entry[5]);
        let models = self.words(Area::Models).chunks(2).all(|entry| entry[0] < totals.books);
        if !kinds || !functions || !models {
            return None;
        }
        let inside = |(instruction, length): (Instruction, u64)| {
            !matches!(instruction.opcode(), OpCode::Jump | OpCode::JumpIf) || instruction.operand() <= length
        };
        let program = self.program();
        let mut all = program.functions().flat_map(|function| {
            let length = function.instructions().len() as u64;
            function.instructions().map(move |(instruction, _)| (instruction, length))
        });
        all.all(inside).then_some(())
    }

    pub fn program(&self) -> Program<'_> {
        let reply = Reply { number: 0, place: 0, totals: self.totals };
        let areas = self.areas.each_ref().map(Vec::as_slice);
        Answer { reply, areas }.program().unwrap_or_else(|_| unreachable!("row 0 is a delivery"))
    }
}

#[cfg(test)]
mod tests {
    use super::*;

    /// 01's example.
    const EXAMPLE: &str = "1 1 4 0 1 0 1 0\n2 0 1 1 0 0 0 3\n3 0 0 2 6 7 0 0\n3 0 1 2 6 82 0 4\n3 0 2 2 6 2 0 0\n\
        3 0 3 2 6 81 0 6\n3 0 4 2 6 2 0 0\n3 0 5 3 5 5 0 0\n4 0 0 0 0 0 0 0\n4 1 1 0 0 0 0 1\n4 2 1 0 0 0 0 0\n\
        4 3 6 0 0 0 0 0\n8 0 3 0 0 0 0 0\n10 0 0 0 0 0 0 2\n";

    #[test]
    fn the_example_of_01_is_read_back() {
        let listing = Listing::read(EXAMPLE).expect("a listing");
        let program = listing.program();
        let f = program.function(0).expect("f");
        assert_eq!((f.instructions().len(), f.parameters(), f.name().number()), (6, 1, 3));
        assert_eq!(program.constant(3), Some(Constant::Function(0)));
        assert_eq!(program.context_local(0).and_then(|local| local.constant), Some(3));
    }

    #[test]
    fn other_files_are_refused() {
        let wrong = |text: &str| Listing::read(text).err().expect("wrong");
        assert_eq!(wrong("1 2\n"), "line 1 is not eight numbers");
        assert_eq!(wrong("0 7 2 0 0 0 0 0\n"), "line 1 is not one of a delivered program's listing");
        assert_eq!(wrong(&EXAMPLE.replace("10 0 0 0 0 0 0 2\n", "")), "its lines are not as many as its totals say");
        let far = EXAMPLE.replace("81 0 6", "81 0 7");
        assert_eq!(wrong(&far), "it names an entry that it does not have");
        let kind = EXAMPLE.replace("4 3 6 0", "4 3 7 0");
        assert_eq!(wrong(&kind), "it names an entry that it does not have");
    }

    #[test]
    fn integers_are_signed() {
        let text = "1 0 1 0 0 0 0 0\n4 0 2 0 0 0 0 -9223372036854775808\n";
        let listing = Listing::read(text).expect("a listing");
        assert_eq!(listing.program().constant(0), Some(Constant::Integer(i64::MIN)));
    }
}
