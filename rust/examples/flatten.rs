//! A front end's small syntax tree, flattened into records and compiled; prints the program.
//!
//!     cargo run --offline --example flatten

use clover_back_end::records::{Filled, Records, Slot, Statements};
use clover_back_end::{Areas, Infix, Operand, Position, Program, Refusal, Texts};

enum Expression {
    Float(f64),
    Name(&'static str),
    Infix(Infix, Box<Expression>, Box<Expression>),
    If(Box<Expression>, Vec<Statement>, Vec<Statement>),
}

enum Statement {
    Expression(Expression),
    Local(&'static str, Expression),
    Return,
}

struct Function {
    name: &'static str,
    parameters: Vec<&'static str>,
    body: Vec<Statement>,
}

struct Book {
    file: &'static str,
    functions: Vec<Function>,
}

/// A front end has a position for each token; this small one has none.
const NOWHERE: Position = Position::NONE;

fn flatten(book: &Book, texts: &mut Texts) -> Records {
    let mut out = Records::new();
    out.document(texts.intern(book.file), |out| {
        for function in &book.functions {
            let mut out = out.function(texts.intern(function.name));
            for parameter in &function.parameters {
                out = out.parameter(texts.intern(parameter));
            }
            out.body(|out| statements(&function.body, out, texts));
        }
    });
    out
}

fn statements(list: &[Statement], out: &mut Statements, texts: &mut Texts) {
    for statement in list {
        match statement {
            Statement::Expression(value) => out.expression(|slot| expression(value, slot, texts)),
            Statement::Return => out.return_statement(NOWHERE),
            Statement::Local(name, value) => {
                let name = texts.intern(name);
                out.local(|out| out.value(name, |slot| expression(value, slot, texts)));
            }
        }
    }
}

fn expression(value: &Expression, slot: Slot, texts: &mut Texts) -> Filled {
    match value {
        Expression::Float(number) => slot.float(*number, NOWHERE),
        Expression::Name(name) => slot.identifier(texts.intern(name)),
        Expression::Infix(infix, left, right) => {
            let out = slot.infix(*infix, NOWHERE).left(|slot| expression(left, slot, texts));
            out.right(|slot| expression(right, slot, texts))
        }
        Expression::If(condition, holds, fails) => {
            let out = slot.if_expression().condition(|slot| expression(condition, slot, texts));
            let out = out.then(|out| statements(holds, out, texts));
            out.otherwise(|out| statements(fails, out, texts))
        }
    }
}

/// `function factor(angle)` with a local and an early return.
fn book() -> Book {
    use Expression::{Float, If, Infix as Pair, Name};
    let boxed = |name| Box::new(Name(name));
    let flat = Pair(Infix::LessEqual, boxed("angle"), Box::new(Float(30.0)));
    let rest = Pair(Infix::Minus, Box::new(Float(60.0)), boxed("angle"));
    let product = Pair(Infix::Star, boxed("highest"), Box::new(rest));
    let sloped = Pair(Infix::Slash, Box::new(product), Box::new(Float(30.0)));
    let early = If(Box::new(flat), vec![Statement::Expression(Name("highest")), Statement::Return], vec![]);
    Book {
        file: "snow.clover",
        functions: vec![Function {
            name: "factor",
            parameters: vec!["angle"],
            body: vec![
                Statement::Local("highest", Float(0.8)),
                Statement::Expression(early),
                Statement::Expression(sloped),
            ],
        }],
    }
}

fn print(program: &Program, texts: &Texts) {
    for function in program.functions() {
        println!("{}: {} locals", texts.spelt(function.name()), function.locals());
        for (index, (instruction, _)) in function.instructions().enumerate() {
            let constant = program.constant(instruction.operand());
            match (instruction.opcode().operand(), constant) {
                (Operand::Constant, Some(constant)) => {
                    println!("{index:>4}  {} {}", instruction.opcode(), constant.spelt(texts));
                }
                _ => println!("{index:>4}  {instruction}"),
            }
        }
    }
}

fn main() -> Result<(), Refusal> {
    let mut texts = Texts::new();
    let bundle = flatten(&book(), &mut texts);
    let mut areas = Areas::for_tree(bundle.words());
    let program = areas.compile_growing(bundle.words(), 1 << 20)?;
    print(&program, &texts);
    Ok(())
}
