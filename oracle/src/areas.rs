//! The twelve areas, the reply, and an answer in plain form for comparing.

use std::collections::BTreeMap;

pub const AREAS: usize = 12;

/// Area numbers of 01.
pub mod area {
    pub const CODE: usize = 1;
    pub const CONSTANTS: usize = 2;
    pub const FUNCTIONS: usize = 3;
    pub const MODELS: usize = 4;
    pub const PROPERTIES: usize = 5;
    pub const METHODS: usize = 6;
    pub const CONTEXT: usize = 7;
    pub const PUBLIC: usize = 8;
    pub const NAMES: usize = 9;
    pub const BREAKS: usize = 10;
    pub const ERRORS: usize = 11;
    pub const BOOKS: usize = 12;
}

/// Words of one entry, by area number less one.
pub const ENTRY_WORDS: [usize; AREAS] = [2, 3, 8, 2, 2, 3, 4, 3, 2, 1, 4, 1];

/// So that every number fits its operand, an area counts as no longer than this (01, "Emission").
pub const MAX_ENTRIES: u64 = (1 << 56) - 1;

pub type Lengths = [usize; AREAS];
pub type Counts = [u64; AREAS];

/// Areas without an end, for comparing with the Rust, which has none.
pub const UNLIMITED: Lengths = [usize::MAX; AREAS];

pub fn capacities(lengths: &Lengths) -> Counts {
    std::array::from_fn(|i| MAX_ENTRIES.min((lengths[i] / ENTRY_WORDS[i]) as u64))
}

/// Words of a reply: row, place and fifteen totals.
pub const REPLY_WORDS: usize = 17;

/// What a call returns beside the areas. Row 0 is a delivery; a refusal has no totals.
#[derive(Clone, Copy, Debug, Default, PartialEq, Eq)]
pub struct Reply {
    pub row: u64,
    pub place: u64,
    pub totals: Counts,
    pub entry_point: u64,
    pub globals: u64,
    /// 2026-08: "the number of bundles delivered into it, 1 when fresh".
    pub bundles: u64,
}

impl Reply {
    pub fn refusal(row: u64, place: u64) -> Reply {
        Reply { row, place, ..Reply::default() }
    }

    /// Row, place, the twelve totals, entry point, global dependencies, bundles.
    pub fn words(&self) -> [u64; REPLY_WORDS] {
        let mut out = [0; REPLY_WORDS];
        out[0] = self.row;
        out[1] = self.place;
        out[2..14].copy_from_slice(&self.totals);
        out[14..].copy_from_slice(&[self.entry_point, self.globals, self.bundles]);
        out
    }
}

/// The words of each area up to the last entry; what follows is zero.
pub type Areas = [Vec<u64>; AREAS];

/// Lengths as a memory of this many words has them: one that passes its end is cut there.
pub fn cut(lengths: &Lengths, size: usize) -> Lengths {
    let mut left = size;
    lengths.map(|length| {
        let words = length.min(left);
        left -= words;
        words
    })
}

/// The areas of a memory, and what is left over behind them.
pub type Parts<'a> = ([&'a mut [u64]; AREAS], &'a mut [u64]);

/// What a call is lent: the words of each area, and the memory in which they follow each other.
pub struct Lent<'a> {
    pub lengths: Lengths,
    pub memory: &'a mut [u64],
}

impl<'a> Lent<'a> {
    /// The same, for a call within a call.
    pub fn again(&mut self) -> Lent<'_> {
        Lent { lengths: self.lengths, memory: self.memory }
    }

    /// The lengths of the areas in the memory.
    pub fn cut(&self) -> Lengths {
        cut(&self.lengths, self.memory.len())
    }

    pub fn parts(self) -> Parts<'a> {
        let lengths = self.cut();
        let mut rest = self.memory;
        let areas = lengths.map(|words| {
            let (area, after) = std::mem::take(&mut rest).split_at_mut(words);
            rest = after;
            area
        });
        (areas, rest)
    }

    /// Writes the areas' words, and zeros everywhere else.
    pub fn write(self, made: &Areas) -> [&'a [u64]; AREAS] {
        self.memory.fill(0);
        let (mut areas, _) = self.parts();
        areas.iter_mut().zip(made).for_each(|(area, made)| area[..made.len()].copy_from_slice(made));
        areas.map(|area| &*area)
    }
}

/// Words before and after the memory that no call may touch.
const BESIDE: usize = 8;

/// Memory to lend. It stands between words of its own, and all of it holds anything before a call.
pub struct Memory {
    words: Vec<u64>,
    lengths: Lengths,
    stale: u64,
}

impl Memory {
    /// As long as the areas together.
    pub fn new(lengths: &Lengths, stale: u64) -> Memory {
        Memory::of(lengths, lengths.iter().sum(), stale)
    }

    /// Of this many words, whatever the lengths.
    pub fn of(lengths: &Lengths, size: usize, stale: u64) -> Memory {
        Memory { words: vec![stale; size + 2 * BESIDE], lengths: *lengths, stale }
    }

    /// As long as the areas together and these words behind them.
    pub fn with_left_over(lengths: &Lengths, left_over: &[u64], stale: u64) -> Memory {
        let mut memory = Memory::of(lengths, lengths.iter().sum::<usize>() + left_over.len(), stale);
        let end = memory.words.len() - BESIDE;
        memory.words[end - left_over.len()..end].copy_from_slice(left_over);
        memory
    }

    pub fn lengths(&self) -> &Lengths {
        &self.lengths
    }

    pub fn lend(&mut self) -> Lent<'_> {
        let end = self.words.len() - BESIDE;
        Lent { lengths: self.lengths, memory: &mut self.words[BESIDE..end] }
    }

    /// All words that are lent.
    pub fn lent(&self) -> &[u64] {
        &self.words[BESIDE..self.words.len() - BESIDE]
    }

    pub fn area(&self, i: usize) -> &[u64] {
        let lengths = cut(&self.lengths, self.lent().len());
        let start: usize = lengths[..i].iter().sum();
        &self.lent()[start..start + lengths[i]]
    }

    /// The words behind the last area.
    pub fn left_over(&self) -> &[u64] {
        let used: usize = cut(&self.lengths, self.lent().len()).iter().sum();
        &self.lent()[used..]
    }

    /// Whether the words beside the memory are as they were.
    pub fn is_kept_beside(&self) -> bool {
        let kept = |words: &[u64]| words.iter().all(|&word| word == self.stale);
        kept(&self.words[..BESIDE]) && kept(&self.words[self.words.len() - BESIDE..])
    }
}

#[derive(Clone, Debug, PartialEq, Eq)]
pub struct FunctionAnswer {
    pub parameters: u64,
    pub locals: u64,
    pub rescue: u64,
    pub instance: bool,
    pub file: u64,
    pub name: u64,
    /// Instruction words with their positions.
    pub code: Vec<(u64, u64)>,
}

#[derive(Clone, Debug, PartialEq, Eq)]
pub struct ModelAnswer {
    pub file: u64,
    pub name: u64,
    pub properties: Vec<u64>,
    /// Name to function. The Rust keeps them in hash order, so order is not compared.
    pub methods: BTreeMap<u64, u64>,
}

#[derive(Clone, Debug, PartialEq, Eq)]
pub struct Delivery {
    pub functions: Vec<FunctionAnswer>,
    /// Kind and value.
    pub constants: Vec<(u64, u64)>,
    pub globals: Vec<u64>,
    pub models: Vec<ModelAnswer>,
    /// File, name and value of each context local.
    pub context: Vec<(u64, u64, Option<u64>)>,
    /// File and public name to constant.
    pub public: BTreeMap<(u64, u64), u64>,
    pub entry_point: u64,
    /// File numbers in the order of compiling.
    pub books: Vec<u64>,
}

/// Number, position, token kind, token value.
pub type ErrorAnswer = [u64; 4];

#[derive(Clone, Debug, PartialEq, Eq)]
pub enum Answer {
    Delivered(Delivery),
    Refused { row: u64, place: u64, errors: Vec<ErrorAnswer> },
}

pub(crate) fn entries<const N: usize>(words: &[u64]) -> Vec<[u64; N]> {
    words.chunks_exact(N).map(|entry| entry.try_into().expect("chunks have this length")).collect()
}

/// Reads a reply and its areas back into plain form.
pub fn answer(reply: &Reply, areas: &Areas) -> Answer {
    let cut = |number: usize| &areas[number - 1][..reply.totals[number - 1] as usize * ENTRY_WORDS[number - 1]];
    if reply.row != 0 {
        let errors = entries(&areas[area::ERRORS - 1]);
        let errors = errors.into_iter().take_while(|error| error[0] != 0).collect();
        return Answer::Refused { row: reply.row, place: reply.place, errors };
    }
    let code: Vec<[u64; 2]> = entries(cut(area::CODE));
    let constants: Vec<[u64; 3]> = entries(cut(area::CONSTANTS));
    let mut models: Vec<ModelAnswer> = entries::<2>(cut(area::MODELS))
        .into_iter()
        .map(|[file, name]| ModelAnswer { file, name, properties: Vec::new(), methods: BTreeMap::new() })
        .collect();
    for [model, name] in entries::<2>(cut(area::PROPERTIES)) {
        models[model as usize].properties.push(name);
    }
    for [model, name, function] in entries::<3>(cut(area::METHODS)) {
        let earlier = models[model as usize].methods.insert(name, function);
        assert!(earlier.is_none(), "method {name} of model {model} stands twice");
    }
    let mut public = BTreeMap::new();
    for [file, name, constant] in entries::<3>(cut(area::PUBLIC)) {
        assert!(public.insert((file, name), constant).is_none(), "public name {name} stands twice");
    }
    Answer::Delivered(Delivery {
        functions: entries::<8>(cut(area::FUNCTIONS))
            .into_iter()
            .map(|[parameters, locals, rescue, instance, first, count, file, name]| FunctionAnswer {
                parameters,
                locals,
                rescue,
                instance: instance == 1,
                file,
                name,
                code: code[first as usize..(first + count) as usize].iter().map(|&[i, p]| (i, p)).collect(),
            })
            .collect(),
        globals: (0u64..).zip(&constants).filter(|(_, c)| c[2] == 1).map(|(i, _)| i).collect(),
        constants: constants.iter().map(|&[kind, value, _]| (kind, value)).collect(),
        models,
        context: entries::<4>(cut(area::CONTEXT))
            .into_iter()
            .map(|[file, name, mark, constant]| (file, name, (mark == 1).then_some(constant)))
            .collect(),
        public,
        entry_point: reply.entry_point,
        books: cut(area::BOOKS).to_vec(),
    })
}
