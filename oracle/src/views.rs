//! What the typed views of `rust/` say of a compile call's answer, in the plain form that is compared.
//! Every view is read; those that say the same thing twice must agree.

use crate::areas::{
    area, entries, Answer, Delivery, ErrorAnswer, FunctionAnswer, ModelAnswer, Reply, AREAS, ENTRY_WORDS,
};
use crate::real::MESSAGES;
use clover_back_end::{Area, Constant, Error, ErrorKind, Function, Model, Position, Program, Refusal, Totals};
use std::collections::BTreeMap;

/// A reply of the crate's form, and the areas as the call left them.
pub type Answered<'a> = clover_back_end::Answer<'a>;

impl From<clover_back_end::Reply> for Reply {
    fn from(reply: clover_back_end::Reply) -> Reply {
        let totals = reply.totals;
        Reply {
            row: reply.number,
            place: reply.place,
            totals: [
                totals.code,
                totals.constants,
                totals.functions,
                totals.models,
                totals.properties,
                totals.methods,
                totals.context_locals,
                totals.public_names,
                totals.scope_names,
                totals.breaks,
                totals.errors,
                totals.books,
            ],
            entry_point: totals.entry_point,
            globals: totals.global_dependencies,
            bundles: totals.bundles,
        }
    }
}

impl From<Reply> for clover_back_end::Reply {
    fn from(reply: Reply) -> clover_back_end::Reply {
        let total = |number: usize| reply.totals[number - 1];
        let totals = Totals {
            code: total(area::CODE),
            constants: total(area::CONSTANTS),
            functions: total(area::FUNCTIONS),
            models: total(area::MODELS),
            properties: total(area::PROPERTIES),
            methods: total(area::METHODS),
            context_locals: total(area::CONTEXT),
            public_names: total(area::PUBLIC),
            scope_names: total(area::NAMES),
            breaks: total(area::BREAKS),
            errors: total(area::ERRORS),
            books: total(area::BOOKS),
            entry_point: reply.entry_point,
            global_dependencies: reply.globals,
            bundles: reply.bundles,
        };
        clover_back_end::Reply { number: reply.row, place: reply.place, totals }
    }
}

/// What the views say.
#[derive(Clone, Debug, PartialEq, Eq)]
pub struct Viewed {
    pub reply: Reply,
    pub answer: Answer,
}

pub fn view(answered: &Answered) -> Result<Viewed, String> {
    match answered.program() {
        Ok(program) => delivered(&program, answered),
        Err(refusal) => refused(&refusal),
    }
}

fn agree<T: PartialEq + std::fmt::Debug>(what: &str, here: T, there: T) -> Result<(), String> {
    if here == there {
        return Ok(());
    }
    Err(format!("views of {what}: {here:?} and {there:?}"))
}

/// The items of a view that says how many there are.
fn listed<T>(what: &str, items: impl ExactSizeIterator<Item = T>) -> Result<Vec<T>, String> {
    let length = items.len();
    let items: Vec<T> = items.collect();
    agree(what, length, items.len())?;
    Ok(items)
}

fn position(at: Position) -> u64 {
    u64::from(at.line) << 32 | u64::from(at.column)
}

fn delivered(program: &Program, answered: &Answered) -> Result<Viewed, String> {
    let totals = program.totals();
    for (i, &known) in Area::ALL.iter().enumerate() {
        let used = totals.of(known) as usize * ENTRY_WORDS[i];
        agree("an area's words", program.words(known), &answered.areas[i][..used])?;
    }
    let reply = Reply {
        row: 0,
        place: 0,
        totals: std::array::from_fn(|i| totals.of(Area::ALL[i])),
        entry_point: totals.entry_point,
        globals: totals.global_dependencies,
        bundles: totals.bundles,
    };
    let public = listed("public names", program.public_names())?;
    let flat: Vec<u64> = public.iter().flat_map(|name| [name.file, name.name.number(), name.constant]).collect();
    agree("the order of public names", &flat[..], program.words(Area::PublicNames))?;
    let context = listed("context locals", program.context_locals())?;
    for (index, &local) in (0..).zip(&context) {
        agree("a context local by its index", program.context_local(index), Some(local))?;
    }
    let books: Vec<u64> = listed("books", program.books())?.iter().map(|file| file.number()).collect();
    agree("a book behind the last", program.book(books.len() as u64), None)?;
    let globals: Vec<u64> = program.global_dependencies().collect();
    agree("global dependencies", globals.len() as u64, totals.global_dependencies)?;
    let delivery = Delivery {
        functions: functions(program)?,
        constants: constants(program)?,
        globals,
        models: models(program)?,
        context: context.iter().map(|local| (local.file, local.name.number(), local.constant)).collect(),
        public: public.iter().map(|name| ((name.file, name.name.number()), name.constant)).collect(),
        entry_point: totals.entry_point,
        books,
    };
    Ok(Viewed { reply, answer: Answer::Delivered(delivery) })
}

fn header(function: Function) -> ([u64; 6], bool, usize) {
    let [rescue, file, name] = [function.rescue_position(), function.file(), function.name().number()];
    let numbers = [function.index(), function.parameters(), function.locals(), rescue, file, name];
    (numbers, function.is_instance(), function.code().as_ptr() as usize)
}

fn functions(program: &Program) -> Result<Vec<FunctionAnswer>, String> {
    let all = listed("functions", program.functions())?;
    for (index, &function) in (0..).zip(&all) {
        agree("a function's index", function.index(), index)?;
        agree("a function by its index", program.function(index).map(header), Some(header(function)))?;
    }
    let entry = program.totals().entry_point as usize;
    agree("the entry point", program.entry_point().map(header), all.get(entry).copied().map(header))?;
    agree("a function behind the last", program.function(all.len() as u64).map(header), None)?;
    all.into_iter().map(function).collect()
}

fn function(function: Function) -> Result<FunctionAnswer, String> {
    let mut code = Vec::new();
    for (instruction, at) in listed("instructions", function.instructions())? {
        let word = (instruction.opcode() as u64) << 56 | instruction.operand();
        agree("an instruction", instruction.word(), word)?;
        code.push((word, position(at)));
    }
    let flat: Vec<u64> = code.iter().flat_map(|&(word, at)| [word, at]).collect();
    agree("a function's code", function.code(), &flat[..])?;
    Ok(FunctionAnswer {
        parameters: function.parameters(),
        locals: function.locals(),
        rescue: function.rescue_position(),
        instance: function.is_instance(),
        file: function.file(),
        name: function.name().number(),
        code,
    })
}

fn constant(constant: Constant) -> (u64, u64) {
    (constant.kind(), constant.value())
}

fn constants(program: &Program) -> Result<Vec<(u64, u64)>, String> {
    let all: Vec<(u64, u64)> = listed("constants", program.constants())?.into_iter().map(constant).collect();
    for (index, &known) in (0..).zip(&all) {
        agree("a constant by its index", program.constant(index).map(constant), Some(known))?;
    }
    agree("a constant behind the last", program.constant(all.len() as u64).map(constant), None)?;
    Ok(all)
}

/// File, name, properties, and methods in their order.
type PlainModel = (u64, u64, Vec<u64>, Vec<(u64, u64)>);

fn model(model: Model) -> PlainModel {
    let methods = model.methods().map(|method| (method.name.number(), method.function)).collect();
    let properties = model.properties().map(|name| name.number()).collect();
    (model.file(), model.name().number(), properties, methods)
}

fn models(program: &Program) -> Result<Vec<ModelAnswer>, String> {
    let all: Vec<PlainModel> = listed("models", program.models())?.into_iter().map(model).collect();
    agree("a model behind the last", program.model(all.len() as u64).map(model), None)?;
    let mut methods = vec![Vec::new(); all.len()];
    for [model, name, function] in entries::<3>(program.words(Area::Methods)) {
        methods[model as usize].push((name, function));
    }
    let mut out = Vec::new();
    for (index, (known, expected)) in all.into_iter().zip(methods).enumerate() {
        agree("a model by its index", program.model(index as u64).map(model).as_ref(), Some(&known))?;
        let (file, name, properties, methods) = known;
        agree("the order of methods", &methods, &expected)?;
        out.push(ModelAnswer { file, name, properties, methods: BTreeMap::from_iter(methods) });
    }
    Ok(out)
}

/// `compile_to`'s own message.
const RING: (u64, &str) = (11, "there may have cycle reference in this files");

fn error(error: &Error) -> Result<ErrorAnswer, String> {
    let number = error.kind.number();
    agree("a message", Some(error.kind.word()), MESSAGES.get(number as usize - 1).copied())?;
    Ok([number, position(error.position), error.token.kind.number(), error.token.value])
}

fn errors(refusal: &Refusal) -> Result<Vec<ErrorAnswer>, String> {
    match refusal {
        Refusal::BookFaulty { errors, .. } => errors.iter().map(error).collect(),
        Refusal::Ring { files } => {
            agree("the message of a ring", (ErrorKind::Ring.number(), ErrorKind::Ring.word()), RING)?;
            Ok(files.iter().map(|file| [RING.0, 0, 0, file.number()]).collect())
        }
        _ => Ok(Vec::new()),
    }
}

fn refused(refusal: &Refusal) -> Result<Viewed, String> {
    let (row, place) = (refusal.row(), refusal.place());
    let full = (1..=AREAS as u64).find(|&number| row == 9 && number == place);
    let area = if let Refusal::AreaFull { area } = refusal { Some(area.number()) } else { None };
    agree("the full area", area, full)?;
    let errors = errors(refusal)?;
    Ok(Viewed { reply: Reply::refusal(row, place), answer: Answer::Refused { row, place, errors } })
}
