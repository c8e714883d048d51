//! A delivered program, read in the areas where it lies.

use crate::areas::{Area, AREAS};
use crate::constant::Constant;
use crate::instruction::Instruction;
use crate::position::Position;
use crate::texts::Text;
use std::fmt;

/// How many entries each area holds, and three numbers beside them.
#[repr(C)]
#[derive(Clone, Copy, Debug, Default, PartialEq, Eq)]
pub struct Totals {
    /// Instructions.
    pub code: u64,
    /// Constants.
    pub constants: u64,
    /// Functions.
    pub functions: u64,
    /// Models.
    pub models: u64,
    /// Properties of models.
    pub properties: u64,
    /// Methods of models.
    pub methods: u64,
    /// Top-level names.
    pub context_locals: u64,
    /// Names that others may include.
    pub public_names: u64,
    /// Always 0: they are given up.
    pub scope_names: u64,
    /// Always 0: they are given up.
    pub breaks: u64,
    /// Always 0: a book with errors is refused.
    pub errors: u64,
    /// Books compiled.
    pub books: u64,
    /// A function; 0 where there are none.
    pub entry_point: u64,
    /// Constants that name globals.
    pub global_dependencies: u64,
    /// Bundles delivered into the program: 1 when it is fresh, one more with each that is laid on. A program stands with 1 to
    /// 4,294,967,294.
    pub bundles: u64,
}

impl Totals {
    /// The total of an area.
    pub fn of(&self, area: Area) -> u64 {
        match area {
            Area::Code => self.code,
            Area::Constants => self.constants,
            Area::Functions => self.functions,
            Area::Models => self.models,
            Area::Properties => self.properties,
            Area::Methods => self.methods,
            Area::ContextLocals => self.context_locals,
            Area::PublicNames => self.public_names,
            Area::ScopeNames => self.scope_names,
            Area::Breaks => self.breaks,
            Area::Errors => self.errors,
            Area::Books => self.books,
        }
    }

    /// How many numbers there are.
    pub const WORDS: usize = AREAS + 3;

    /// All of them: the areas' totals in the order of their numbers, the entry point, the number of global dependencies, the
    /// number of bundles.
    pub fn words(&self) -> [u64; Totals::WORDS] {
        let beside = [self.entry_point, self.global_dependencies, self.bundles];
        std::array::from_fn(|at| Area::ALL.get(at).map_or_else(|| beside[at - AREAS], |&area| self.of(area)))
    }

    /// From the numbers in that order.
    pub fn from_words(words: [u64; Totals::WORDS]) -> Totals {
        let of = |area: Area| words[area.index()];
        Totals {
            code: of(Area::Code),
            constants: of(Area::Constants),
            functions: of(Area::Functions),
            models: of(Area::Models),
            properties: of(Area::Properties),
            methods: of(Area::Methods),
            context_locals: of(Area::ContextLocals),
            public_names: of(Area::PublicNames),
            scope_names: of(Area::ScopeNames),
            breaks: of(Area::Breaks),
            errors: of(Area::Errors),
            books: of(Area::Books),
            entry_point: words[AREAS],
            global_dependencies: words[AREAS + 1],
            bundles: words[AREAS + 2],
        }
    }
}

/// A program in the areas that were lent for it. Files are indices of [`books`](Program::books),
/// names are texts; models, functions and constants are named by their indices.
#[derive(Clone, Copy)]
pub struct Program<'a> {
    /// Each area up to its last entry.
    areas: [&'a [u64]; AREAS],
    totals: Totals,
}

impl<'a> Program<'a> {
    /// The areas must hold a delivery with these totals.
    pub(crate) fn new(areas: &[&'a [u64]; AREAS], totals: Totals) -> Program<'a> {
        let used = |area: Area| &areas[area.index()][..totals.of(area) as usize * area.entry_words()];
        Program { areas: Area::each(used), totals }
    }

    /// How many entries there are, the entry point, and the numbers of global dependencies and of bundles.
    pub fn totals(&self) -> Totals {
        self.totals
    }

    /// The words of an area up to its last entry.
    pub fn words(&self, area: Area) -> &'a [u64] {
        self.areas[area.index()]
    }

    fn entries<const WORDS: usize>(&self, area: Area) -> impl ExactSizeIterator<Item = &'a [u64; WORDS]> + Clone {
        debug_assert_eq!(WORDS, area.entry_words());
        self.words(area).chunks_exact(WORDS).map(|entry| entry.try_into().expect("chunks of this length"))
    }

    fn entry<const WORDS: usize>(&self, area: Area, index: u64) -> Option<&'a [u64; WORDS]> {
        debug_assert_eq!(WORDS, area.entry_words());
        let at = usize::try_from(index).ok()?.checked_mul(WORDS)?;
        self.words(area).get(at..)?.first_chunk()
    }

    /// The functions, by index.
    pub fn functions(&self) -> impl ExactSizeIterator<Item = Function<'a>> + Clone {
        let code = self.words(Area::Code);
        let made = move |(index, entry)| Function { index: index as u64, entry, code };
        self.entries(Area::Functions).enumerate().map(made)
    }

    /// The function with an index.
    pub fn function(&self, index: u64) -> Option<Function<'a>> {
        let entry = self.entry(Area::Functions, index)?;
        Some(Function { index, entry, code: self.words(Area::Code) })
    }

    /// The function to start with; none where there are no functions.
    pub fn entry_point(&self) -> Option<Function<'a>> {
        self.function(self.totals.entry_point)
    }

    /// The pool, by index. The first three are null, true and false.
    pub fn constants(&self) -> impl ExactSizeIterator<Item = Constant> + Clone + 'a {
        self.entries(Area::Constants).map(|&[kind, value, _]| Constant::of(kind, value))
    }

    /// The constant with an index.
    pub fn constant(&self, index: u64) -> Option<Constant> {
        self.entry(Area::Constants, index).map(|&[kind, value, _]| Constant::of(kind, value))
    }

    /// The constants that name globals, ascending.
    pub fn global_dependencies(&self) -> impl Iterator<Item = u64> + Clone + 'a {
        (0..).zip(self.entries(Area::Constants)).filter(|(_, &[_, _, mark])| mark == 1).map(|(index, _)| index)
    }

    /// The models, by index.
    pub fn models(&self) -> impl ExactSizeIterator<Item = Model<'a>> + Clone {
        let program = *self;
        let made = move |(index, entry): (usize, _)| Model::of(program, index as u64, entry);
        self.entries(Area::Models).enumerate().map(made)
    }

    /// The model with an index.
    pub fn model(&self, index: u64) -> Option<Model<'a>> {
        self.entry(Area::Models, index).map(|entry| Model::of(*self, index, entry))
    }

    /// The books' top-level names, by index.
    pub fn context_locals(&self) -> impl ExactSizeIterator<Item = ContextLocal> + Clone + 'a {
        self.entries(Area::ContextLocals).map(ContextLocal::of)
    }

    /// The top-level name with an index.
    pub fn context_local(&self, index: u64) -> Option<ContextLocal> {
        self.entry(Area::ContextLocals, index).map(ContextLocal::of)
    }

    /// What the books let others include, each name once a book.
    pub fn public_names(&self) -> impl ExactSizeIterator<Item = PublicName> + Clone + 'a {
        let made = |&[file, name, constant]: &[u64; 3]| PublicName { file, name: Text::from_number(name), constant };
        self.entries(Area::PublicNames).map(made)
    }

    /// The files of the books in the order of compiling.
    pub fn books(&self) -> impl ExactSizeIterator<Item = Text> + Clone + 'a {
        self.words(Area::Books).iter().map(|&file| Text::from_number(file))
    }

    /// The file of the book with an index.
    pub fn book(&self, index: u64) -> Option<Text> {
        self.books().nth(usize::try_from(index).ok()?)
    }
}

impl fmt::Debug for Program<'_> {
    fn fmt(&self, out: &mut fmt::Formatter<'_>) -> fmt::Result {
        out.debug_struct("Program")
            .field("functions", &self.functions().collect::<Vec<_>>())
            .field("constants", &self.constants().collect::<Vec<_>>())
            .field("models", &self.models().collect::<Vec<_>>())
            .field("context_locals", &self.context_locals().collect::<Vec<_>>())
            .field("public_names", &self.public_names().collect::<Vec<_>>())
            .field("books", &self.books().collect::<Vec<_>>())
            .field("entry_point", &self.totals.entry_point)
            .finish()
    }
}

/// A function of a program.
#[derive(Clone, Copy)]
pub struct Function<'a> {
    index: u64,
    entry: &'a [u64; 8],
    code: &'a [u64],
}

impl<'a> Function<'a> {
    /// Its index in the program.
    pub fn index(&self) -> u64 {
        self.index
    }

    /// How many parameters it has; they are its first locals.
    pub fn parameters(&self) -> u64 {
        self.entry[0]
    }

    /// How many locals it has, parameters among them.
    pub fn locals(&self) -> u64 {
        self.entry[1]
    }

    /// The instruction that an error leads to; 0 where there is no rescue.
    pub fn rescue_position(&self) -> u64 {
        self.entry[2]
    }

    /// Whether it has a parameter `this`.
    pub fn is_instance(&self) -> bool {
        self.entry[3] == 1
    }

    /// The index of its book.
    pub fn file(&self) -> u64 {
        self.entry[6]
    }

    /// Its name.
    pub fn name(&self) -> Text {
        Text::from_number(self.entry[7])
    }

    /// The part of code memory that the function occupies: an instruction and its position in turn.
    pub fn code(&self) -> &'a [u64] {
        let words = Area::Code.entry_words();
        let (first, count) = (self.entry[4] as usize, self.entry[5] as usize);
        // A function without instructions may start anywhere in a program that somebody lent.
        if count == 0 {
            return &[];
        }
        &self.code[first * words..(first + count) * words]
    }

    /// Numbered from 0, as jumps and the rescue position count them.
    pub fn instructions(&self) -> impl ExactSizeIterator<Item = (Instruction, Position)> + Clone + 'a {
        let pairs = self.code().chunks_exact(Area::Code.entry_words());
        pairs.map(|pair| (Instruction::from_word(pair[0]), Position::from_word(pair[1])))
    }
}

impl fmt::Debug for Function<'_> {
    fn fmt(&self, out: &mut fmt::Formatter<'_>) -> fmt::Result {
        out.debug_struct("Function")
            .field("name", &self.name())
            .field("file", &self.file())
            .field("parameters", &self.parameters())
            .field("locals", &self.locals())
            .field("rescue_position", &self.rescue_position())
            .field("is_instance", &self.is_instance())
            .field("instructions", &self.instructions().map(|(instruction, _)| instruction).collect::<Vec<_>>())
            .finish()
    }
}

/// A model of a program.
#[derive(Clone, Copy)]
pub struct Model<'a> {
    program: Program<'a>,
    index: u64,
    file: u64,
    name: Text,
}

/// A name of a model, and its function.
#[derive(Clone, Copy, Debug, PartialEq, Eq)]
pub struct Method {
    /// The name.
    pub name: Text,
    /// The function's index.
    pub function: u64,
}

impl<'a> Model<'a> {
    fn of(program: Program<'a>, index: u64, &[file, name]: &[u64; 2]) -> Model<'a> {
        Model { program, index, file, name: Text::from_number(name) }
    }

    /// Its index in the program.
    pub fn index(&self) -> u64 {
        self.index
    }

    /// The index of its book.
    pub fn file(&self) -> u64 {
        self.file
    }

    /// Its name.
    pub fn name(&self) -> Text {
        self.name
    }

    /// Names in their order.
    pub fn properties(&self) -> impl Iterator<Item = Text> + Clone + 'a {
        let index = self.index;
        let entries = self.program.entries(Area::Properties);
        entries.filter(move |&&[model, _]| model == index).map(|&[_, name]| Text::from_number(name))
    }

    /// In the order in which each name first came.
    pub fn methods(&self) -> impl Iterator<Item = Method> + Clone + 'a {
        let index = self.index;
        let entries = self.program.entries(Area::Methods);
        let made = |&[_, name, function]: &[u64; 3]| Method { name: Text::from_number(name), function };
        entries.filter(move |&&[model, _, _]| model == index).map(made)
    }
}

impl fmt::Debug for Model<'_> {
    fn fmt(&self, out: &mut fmt::Formatter<'_>) -> fmt::Result {
        out.debug_struct("Model")
            .field("name", &self.name)
            .field("file", &self.file)
            .field("properties", &self.properties().collect::<Vec<_>>())
            .field("methods", &self.methods().collect::<Vec<_>>())
            .finish()
    }
}

/// A top-level name of a book, with its first value if it has one.
#[derive(Clone, Copy, Debug, PartialEq, Eq)]
pub struct ContextLocal {
    /// The index of its book.
    pub file: u64,
    /// The name.
    pub name: Text,
    /// The constant that it starts with.
    pub constant: Option<u64>,
}

impl ContextLocal {
    fn of(&[file, name, mark, constant]: &[u64; 4]) -> ContextLocal {
        ContextLocal { file, name: Text::from_number(name), constant: (mark == 1).then_some(constant) }
    }
}

/// What a book lets others include.
#[derive(Clone, Copy, Debug, PartialEq, Eq)]
pub struct PublicName {
    /// The index of its book.
    pub file: u64,
    /// The name.
    pub name: Text,
    /// The constant behind it: a function or a model.
    pub constant: u64,
}

#[cfg(test)]
mod tests {
    use super::*;
    use crate::instruction::OpCode;

    fn word(opcode: OpCode, operand: u64) -> u64 {
        Instruction::new(opcode, operand).word()
    }

    fn text(number: u64) -> Text {
        Text::from_number(number)
    }

    /// Entries behind the total are none of the program's.
    fn areas(filled: &[(Area, &[u64])]) -> [Vec<u64>; AREAS] {
        let words = |area: Area| filled.iter().find(|(filled, _)| *filled == area).map_or(&[][..], |(_, words)| words);
        Area::each(|area| [words(area), &vec![0; 2 * area.entry_words()]].concat())
    }

    fn program(areas: &[Vec<u64>; AREAS], totals: Totals) -> Program<'_> {
        Program::new(&areas.each_ref().map(Vec::as_slice), totals)
    }

    /// 01's example: file 2 holds f, text 3, with a parameter: `if x return end`.
    #[test]
    fn a_function_and_its_code() {
        let position = Position::new(2, 6).word();
        let code = [
            word(OpCode::LocalGet, 0),
            position,
            word(OpCode::JumpIf, 4),
            position,
            word(OpCode::PushConstant, 0),
            position,
            word(OpCode::Jump, 6),
            position,
            word(OpCode::PushConstant, 0),
            position,
            word(OpCode::Return, 0),
            Position::new(3, 5).word(),
        ];
        let areas = areas(&[
            (Area::Code, &code),
            (Area::Constants, &[0, 0, 0, 1, 1, 0, 1, 0, 0, 6, 0, 0]),
            (Area::Functions, &[1, 1, 0, 0, 0, 6, 0, 3]),
            (Area::ContextLocals, &[0, 3, 1, 3]),
            (Area::Books, &[2]),
        ]);
        let totals = Totals { code: 6, constants: 4, functions: 1, context_locals: 1, books: 1, ..Totals::default() };
        let program = program(&areas, totals);
        let f = program.entry_point().expect("one function");
        assert_eq!((f.parameters(), f.locals(), f.rescue_position()), (1, 1, 0));
        assert_eq!((f.is_instance(), f.file(), f.name()), (false, 0, text(3)));
        assert_eq!(f.code(), code);
        let (last, place) = f.instructions().last().expect("six instructions");
        assert_eq!((last.opcode(), place), (OpCode::Return, Position::new(3, 5)));
        assert_eq!(f.instructions().len(), 6);
        let constants: Vec<Constant> = program.constants().collect();
        let first = [Constant::Null, Constant::Boolean(true), Constant::Boolean(false), Constant::Function(0)];
        assert_eq!(constants, first);
        assert_eq!((program.constant(3), program.constant(4)), (Some(Constant::Function(0)), None));
        let local = ContextLocal { file: 0, name: text(3), constant: Some(3) };
        assert_eq!(program.context_locals().collect::<Vec<_>>(), [local]);
        assert!(program.books().eq([text(2)]));
        assert_eq!((program.book(0), program.book(1)), (Some(text(2)), None));
        assert_eq!((program.models().len(), program.public_names().len()), (0, 0));
        assert!(format!("{program:?}").contains("(JumpIf, 4)"));
    }

    #[test]
    fn functions_share_the_code_area() {
        let code: Vec<u64> = (0..5).flat_map(|i| [word(OpCode::LocalGet, i), i]).collect();
        let functions = [0, 1, 2, 1, 0, 2, 0, 3, 4, 5, 0, 0, 2, 3, 1, 9];
        let areas = areas(&[(Area::Code, &code), (Area::Functions, &functions)]);
        let totals = Totals { code: 5, functions: 2, entry_point: 1, ..Totals::default() };
        let program = program(&areas, totals);
        let second = program.entry_point().expect("the second function");
        assert_eq!(second.instructions().map(|(i, _)| i.operand()).collect::<Vec<_>>(), [2, 3, 4]);
        assert_eq!((second.parameters(), second.locals(), second.file(), second.name()), (4, 5, 1, text(9)));
        assert_eq!(second.index(), 1);
        let first = program.function(0).expect("the first");
        assert_eq!((first.rescue_position(), first.is_instance(), first.instructions().len()), (2, true, 2));
        assert!(program.function(2).is_none());
    }

    #[test]
    fn totals_are_fourteen_words() {
        let words = std::array::from_fn(|at| 100 + at as u64);
        let totals = Totals::from_words(words);
        assert_eq!(totals.words(), words);
        assert!(Area::ALL.iter().all(|&area| totals.of(area) == 99 + area.number()));
        assert_eq!((totals.entry_point, totals.global_dependencies, totals.bundles), (112, 113, 114));
    }

    #[test]
    fn a_function_without_instructions_starts_anywhere() {
        let areas = areas(&[(Area::Functions, &[0, 0, 0, 0, u64::MAX, 0, 0, 3])]);
        let program = program(&areas, Totals { functions: 1, ..Totals::default() });
        let function = program.function(0).expect("one function");
        assert_eq!((function.code().len(), function.instructions().len()), (0, 0));
    }

    #[test]
    fn constants_of_every_kind() {
        let smallest = 1 << 63;
        let half = 0.5f64.to_bits();
        let words = [2, smallest, 0, 3, half, 0, 4, 7, 1, 5, 2, 0, 4, 8, 0, 4, 9, 1];
        let areas = areas(&[(Area::Constants, &words)]);
        let program = program(&areas, Totals { constants: 6, ..Totals::default() });
        assert_eq!(program.constant(0), Some(Constant::Integer(i64::MIN)));
        assert_eq!(program.constant(1), Some(Constant::Float(0.5)));
        assert_eq!(program.constant(2), Some(Constant::Text(text(7))));
        assert_eq!(program.constant(3), Some(Constant::Model(2)));
        assert_eq!(program.global_dependencies().collect::<Vec<_>>(), [2, 5]);
        assert!(program.entry_point().is_none());
        let words = program.words(Area::Constants);
        assert!(program.constants().zip(words.chunks(3)).all(|(c, entry)| [c.kind(), c.value()] == entry[..2]));
    }

    #[test]
    fn models_have_their_own_properties_and_methods() {
        let areas = areas(&[
            (Area::Models, &[0, 20, 1, 21]),
            (Area::Properties, &[0, 30, 0, 31, 1, 30]),
            (Area::Methods, &[1, 40, 3, 0, 40, 2, 1, 41, 0]),
            (Area::PublicNames, &[1, 21, 6]),
            (Area::ContextLocals, &[0, 50, 0, 0, 1, 51, 1, 0]),
        ]);
        let totals =
            Totals { models: 2, properties: 3, methods: 3, public_names: 1, context_locals: 2, ..Totals::default() };
        let program = program(&areas, totals);
        let second = program.model(1).expect("two models");
        assert_eq!((second.file(), second.name()), (1, text(21)));
        assert!(second.properties().eq([text(30)]));
        let methods = [Method { name: text(40), function: 3 }, Method { name: text(41), function: 0 }];
        assert_eq!(second.methods().collect::<Vec<_>>(), methods);
        assert!(program.models().next().expect("one").properties().eq([text(30), text(31)]));
        assert!(program.public_names().eq([PublicName { file: 1, name: text(21), constant: 6 }]));
        let values: Vec<Option<u64>> = program.context_locals().map(|local| local.constant).collect();
        assert_eq!(values, [None, Some(0)]);
        assert_eq!(program.context_local(1).map(|local| local.name), Some(text(51)));
        assert!(program.model(2).is_none());
    }
}
