//! The twelve areas of lent memory.

use crate::kind::Kind;
use crate::numbered::numbered;
use crate::program::Program;
use crate::records::RECORD_WORDS;
use crate::reply::{Answer, Reply};

/// How many areas there are.
pub const AREAS: usize = 12;

numbered! {
    /// An area by its number.
    pub enum Area {
        /// Instructions with their positions.
        Code = 1 "code",
        /// Constants with their global mark.
        Constants = 2 "constants",
        /// Functions.
        Functions = 3 "functions",
        /// Models.
        Models = 4 "models",
        /// Properties of models.
        Properties = 5 "properties",
        /// Methods of models.
        Methods = 6 "methods",
        /// Top-level names of the books.
        ContextLocals = 7 "context locals",
        /// Names that other books may include.
        PublicNames = 8 "public names",
        /// Names inside the function under compilation.
        ScopeNames = 9 "scope names",
        /// Breaks of the function under compilation.
        Breaks = 10 "breaks",
        /// Errors.
        Errors = 11 "errors",
        /// Books in the order of compiling.
        Books = 12 "books",
    }
}

impl Area {
    /// Words of one entry.
    pub fn entry_words(self) -> usize {
        match self {
            Area::Breaks | Area::Books => 1,
            Area::Code | Area::Models | Area::Properties | Area::ScopeNames => 2,
            Area::Constants | Area::Methods | Area::PublicNames => 3,
            Area::ContextLocals | Area::Errors => 4,
            Area::Functions => 8,
        }
    }

    pub(crate) fn index(self) -> usize {
        self as usize - 1
    }

    /// One for each area, in the order of their numbers.
    pub(crate) fn each<T>(mut each: impl FnMut(Area) -> T) -> [T; AREAS] {
        std::array::from_fn(|at| each(Area::ALL[at]))
    }
}

/// The areas in a memory, by how many words each has. They follow each other in the order of their numbers; a length that passes
/// the memory's end is cut there, and what is left over behind the last belongs to none.
pub fn areas_in(lengths: [usize; AREAS], memory: &[u64]) -> [&[u64]; AREAS] {
    let mut rest = memory;
    lengths.map(|length| {
        let (area, after) = rest.split_at(length.min(rest.len()));
        rest = after;
        area
    })
}

/// Slots of the table through which the compile call finds a constant (docs/FORMAT.md, 'The twelve areas'), for so many
/// constants: the smallest prime above twice as many, so that most searches end at the first slot. A home slot is a remainder by
/// the number of slots, so constants in equal steps share homes where that number and the step have a divisor. Without
/// constants there is nothing to find.
pub fn slots_for(constants: usize) -> usize {
    if constants == 0 {
        return 0;
    }
    let divisors = |number: usize| (2..).take_while(move |divisor| divisor * divisor <= number);
    (2 * constants + 1..)
        .find(|&number| divisors(number).all(|divisor| number % divisor != 0))
        .expect("primes do not end")
}

/// Memory to lend to a compile call, all areas in one piece and behind them the table of slots, and the
/// program that the last call left in it. Every call overwrites all of it, so that its cost counts in
/// each call; keep areas for the next call rather than making new ones.
#[derive(Clone, Debug)]
pub struct Areas {
    /// The areas, one after the other, then the slots.
    memory: Vec<u64>,
    /// Room of each area.
    entries: [usize; AREAS],
    /// Of the last call; none since the areas were made or grown.
    reply: Option<Reply>,
}

/// Entries that a record of a kind takes in most bundles, in code and in constants.
fn weight(kind: Option<Kind>) -> (usize, usize) {
    match kind {
        Some(Kind::For) => (12, 1),
        Some(Kind::If) => (5, 0),
        Some(Kind::Function | Kind::PublicFunction | Kind::Return | Kind::Rescue) => (2, 1),
        Some(Kind::Infix) => (3, 0),
        Some(Kind::Model | Kind::PublicModel) => (0, 1),
        Some(Kind::Identifier | Kind::Integer | Kind::Float | Kind::String) => (1, 1),
        _ => (1, 0),
    }
}

/// Entries that most bundles of these records take.
pub(crate) fn entries_for(tree: &[u64]) -> [usize; AREAS] {
    let kinds = || tree.chunks_exact(RECORD_WORDS).map(|record| Kind::from_number(record[0]));
    let count = |wanted: &[Kind]| kinds().flatten().filter(|kind| wanted.contains(kind)).count();
    let (code, constants) = kinds().map(weight).fold((8, 8), |sum, more| (sum.0 + more.0, sum.1 + more.1));
    let functions = count(&[Kind::Function, Kind::PublicFunction]);
    let models = count(&[Kind::Model, Kind::PublicModel]);
    let names = count(&[Kind::Name, Kind::ThisParameter]);
    Area::each(|area| match area {
        Area::Code => code,
        Area::Constants => constants,
        Area::Functions | Area::Methods => functions,
        Area::Models => models,
        Area::Properties | Area::ScopeNames => names,
        Area::ContextLocals => names + functions + models,
        Area::PublicNames => count(&[Kind::PublicFunction, Kind::PublicModel]),
        Area::Breaks => count(&[Kind::Break]),
        Area::Errors => 64,
        Area::Books => count(&[Kind::Document]),
    })
}

/// Words of areas with so many entries, and of their slots.
pub(crate) fn words_for(entries: [usize; AREAS]) -> usize {
    let areas: usize = Area::each(|area| entries[area.index()] * area.entry_words()).iter().sum();
    areas + slots_for(entries[Area::Constants.index()])
}

impl Areas {
    /// Room for so many entries, in the order of the areas' numbers, and [slots](slots_for) for the constants among them.
    pub fn with_entries(entries: [usize; AREAS]) -> Areas {
        Areas { memory: vec![0; words_for(entries)], entries, reply: None }
    }

    /// Room for most bundles of these records. None suffices for all: a compound assignment compiles
    /// its target twice, so that code can double at every second level. Where an area is full,
    /// [`grow`](Areas::grow) it.
    pub fn for_tree(tree: &[u64]) -> Areas {
        Areas::with_entries(entries_for(tree))
    }

    /// Makes an area twice as long and at least 64 entries; the table of slots grows with the constants.
    /// The program that was there is given up.
    pub fn grow(&mut self, area: Area) {
        *self = Areas::with_entries(self.grown(area));
    }

    /// The room of each area, once an area is grown.
    pub(crate) fn grown(&self, area: Area) -> [usize; AREAS] {
        let mut entries = self.entries;
        entries[area.index()] = (2 * entries[area.index()]).max(64);
        entries
    }

    /// Words of all areas and of the slots, once an area is grown.
    #[cfg(feature = "link")]
    pub(crate) fn len_grown(&self, area: Area) -> usize {
        words_for(self.grown(area))
    }

    /// The same words in areas with room for so many entries, in none for fewer than here. The last call's reply is given up.
    #[cfg(feature = "link")]
    pub(crate) fn moved(&self, entries: [usize; AREAS]) -> Areas {
        let mut moved = Areas::with_entries(entries);
        let mut rest = &mut moved.memory[..];
        for (&area, words) in Area::ALL.iter().zip(areas_in(self.lengths(), &self.memory)) {
            let length = entries[area.index()] * area.entry_words();
            let (longer, behind) = std::mem::take(&mut rest).split_at_mut(length);
            longer[..words.len()].copy_from_slice(words);
            rest = behind;
        }
        moved
    }

    /// Room of an area in entries.
    pub fn entries(&self, area: Area) -> usize {
        self.entries[area.index()]
    }

    /// Slots of the table behind the areas.
    pub fn slots(&self) -> usize {
        slots_for(self.entries(Area::Constants))
    }

    /// Words of all areas and of the slots together.
    pub fn len(&self) -> usize {
        self.memory.len()
    }

    /// Whether no area has room for a word.
    pub fn is_empty(&self) -> bool {
        self.memory.is_empty()
    }

    fn words_of(&self, area: Area) -> usize {
        self.entries(area) * area.entry_words()
    }

    /// An area whole, as the last call left it.
    pub fn words(&self, area: Area) -> &[u64] {
        areas_in(self.lengths(), &self.memory)[area.index()]
    }

    /// How many words each area has.
    pub fn lengths(&self) -> [usize; AREAS] {
        Area::each(|area| self.words_of(area))
    }

    /// All areas in one memory, one after the other by number, then the slots, and the words of each area.
    pub fn memory(&self) -> (&[u64], [usize; AREAS]) {
        (&self.memory, self.lengths())
    }

    /// The memory with all areas and the slots, for a call that is made by hand with the areas' [lengths](Areas::lengths).
    pub fn lend(&mut self) -> &mut [u64] {
        self.reply = None;
        &mut self.memory
    }

    #[cfg(feature = "link")]
    pub(crate) fn keep(&mut self, reply: Reply) {
        self.reply = Some(reply);
    }

    /// The last call's reply with the areas; none since they were made, grown or lent by hand.
    pub fn answer(&self) -> Option<Answer<'_>> {
        Some(Answer { reply: self.reply?, areas: areas_in(self.lengths(), &self.memory) })
    }

    /// The program that the last call delivered; none after a refusal.
    pub fn program(&self) -> Option<Program<'_>> {
        self.answer()?.program().ok()
    }
}

#[cfg(test)]
mod tests {
    use super::*;

    #[test]
    fn numbers_and_words() {
        assert_eq!(Area::each(Area::number), [1, 2, 3, 4, 5, 6, 7, 8, 9, 10, 11, 12]);
        assert_eq!(Area::each(Area::entry_words), [2, 3, 8, 2, 2, 3, 4, 3, 2, 1, 4, 1]);
        assert_eq!(Area::from_number(12), Some(Area::Books));
        assert_eq!((Area::from_number(0), Area::from_number(13)), (None, None));
    }

    #[test]
    fn areas_grow() {
        let mut areas = Areas::with_entries([0; AREAS]);
        assert_eq!((areas.entries(Area::Functions), areas.is_empty()), (0, true));
        areas.grow(Area::Functions);
        assert_eq!((areas.entries(Area::Functions), areas.words(Area::Functions).len()), (64, 512));
        areas.grow(Area::Functions);
        assert_eq!((areas.entries(Area::Functions), areas.len()), (128, 1024));
        assert!(areas.program().is_none());
    }

    #[test]
    fn slots_are_a_prime_above_twice_the_constants() {
        let cases = [(0, 0), (1, 3), (2, 5), (3, 7), (4, 11), (8, 17), (64, 131), (100, 211), (1_000_000, 2_000_003)];
        for (constants, slots) in cases {
            assert_eq!(slots_for(constants), slots, "{constants}");
        }
        let prime = |number: usize| number > 1 && (2..number).all(|divisor| number % divisor != 0);
        for constants in 1..500 {
            let slots = slots_for(constants);
            assert!(slots > 2 * constants && prime(slots), "{constants}");
            assert!((2 * constants + 1..slots).all(|fewer| !prime(fewer)), "{constants}");
        }
    }

    #[test]
    fn slots_lie_behind_the_areas_and_grow_with_the_constants() {
        let mut areas = Areas::with_entries([10; AREAS]);
        let words = areas.lengths().iter().sum::<usize>();
        assert_eq!((areas.slots(), areas.len()), (23, words + 23));
        assert_eq!((areas.memory().0.len(), areas.lend().len()), (words + 23, words + 23));
        areas.grow(Area::Models);
        assert_eq!(areas.slots(), 23);
        areas.grow(Area::Constants);
        assert_eq!((areas.entries(Area::Constants), areas.slots()), (64, 131));
        assert_eq!(areas.len(), areas.lengths().iter().sum::<usize>() + 131);
        areas.grow(Area::Constants);
        assert_eq!((areas.entries(Area::Constants), areas.slots()), (128, 257));
    }

    #[test]
    fn areas_lie_one_after_the_other() {
        let mut areas = Areas::with_entries(std::array::from_fn(|at| at + 1));
        let mut memory = areas.lengths().into_iter().zip(1..).flat_map(|(words, number)| vec![number; words]);
        areas.lend().fill_with(|| memory.next().unwrap_or(13));
        assert_eq!(memory.next(), None);
        let (words, lengths) = areas.memory();
        let slots = &words[lengths.iter().sum()..];
        assert!(slots.len() == areas.slots() && slots.iter().all(|&slot| slot == 13));
        for &area in Area::ALL {
            let words = areas.words(area);
            assert_eq!(words.len(), area.number() as usize * area.entry_words());
            assert!(words.iter().all(|&word| word == area.number()));
        }
    }

    #[test]
    fn lengths_are_cut_at_the_end() {
        let memory = [1, 2, 3, 4, 5];
        let mut lengths = [0; AREAS];
        assert!(areas_in(lengths, &memory).iter().all(|area| area.is_empty()));
        (lengths[1], lengths[4]) = (2, 2);
        let areas = areas_in(lengths, &memory);
        assert_eq!((areas[1], areas[4], areas[11]), (&[1, 2][..], &[3, 4][..], &[][..]));
        (lengths[4], lengths[5]) = (usize::MAX, 1);
        let areas = areas_in(lengths, &memory);
        assert_eq!((areas[1], areas[4], areas[5]), (&[1, 2][..], &[3, 4, 5][..], &[][..]));
        assert!(areas_in([usize::MAX; AREAS], &[]).iter().all(|area| area.is_empty()));
    }
}
