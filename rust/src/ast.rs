//! The original's syntax tree to records, as a program with the original's parser has it (feature
//! `clover-ast`).
//!
//! ```
//! use clover::frontend::parser::parse;
//! use clover_back_end::{ast, records::Records, Position, Texts};
//!
//! let book = parse("function f() 7 end", "seven.clover").expect("a book");
//! let (mut texts, mut bundle) = (Texts::new(), Records::new());
//! ast::flatten(&book, &mut texts, &mut bundle);
//! let [f, seven] = [10, 14].map(|column| Position::new(1, column).word());
//! assert_eq!(bundle.words(), [1, 4, 0, 2, 14, 3, f, 3, 25, 2, 0, 0, 33, 1, seven, 7]);
//! ```

use crate::kind::{Infix, Prefix};
use crate::position::Position;
use crate::records::{Definitions, Filled, Function, LocalDefinition, Model, Name, Records, Slot, Statements, Values};
use crate::texts::Texts;
use clover::intermediate::ast::{self as original, Definition, Document, Expression, Statement};
use clover::intermediate::{Token, TokenValue};

/// Adds a book to a bundle. Texts get their numbers in the order of the records.
///
/// # Panics
///
/// Where a token that the parser takes for a name or a string is neither.
pub fn flatten(document: &Document, texts: &mut Texts, records: &mut Records) {
    let file = texts.intern(&document.filename);
    records.document(file, |book| document.definitions.iter().for_each(|d| definition(d, texts, book)));
}

fn place(token: &Token) -> Position {
    Position::new(token.position.line.into(), token.position.column.into())
}

fn name(token: &Token, texts: &mut Texts) -> Name {
    let text = match &token.value {
        TokenValue::Identifier(text) | TokenValue::String(text) => text,
        TokenValue::This => "this",
        other => panic!("{other:?} is no text"),
    };
    texts.intern(text).at(place(token))
}

fn definition(definition: &Definition, texts: &mut Texts, book: &mut Definitions) {
    match definition {
        Definition::Local(local) => book.local(|out| {
            let pairs = local.variables.iter().zip(&local.values);
            pairs.for_each(|(variable, value)| constant(variable, value.as_ref(), texts, out));
        }),
        Definition::Include(include) => {
            let file = name(&include.filename, texts);
            book.include(file, |names| {
                for (public, alias) in include.public_names.iter().zip(&include.aliases) {
                    names.name(name(public, texts), name(alias, texts));
                }
            });
        }
        Definition::Model(model) => {
            book.model(name(&model.name, texts), |out| properties(model, texts, out));
        }
        Definition::PublicModel(model) => {
            book.public_model(name(&model.name, texts), |out| properties(model, texts, out));
        }
        Definition::Function(function) => self::function(function, texts, |name| book.function(name)),
        Definition::PublicFunction(function) => self::function(function, texts, |name| book.public_function(name)),
        Definition::Implement(implement) => {
            let model = name(&implement.model_name, texts);
            book.implement(model, |methods| {
                implement.functions.iter().for_each(|f| function(f, texts, |name| methods.function(name)));
            });
        }
        Definition::Apply(apply) => book.apply(name(&apply.source_model, texts), name(&apply.target_model, texts)),
    }
}

/// A name of a local definition and its token, if it has one.
fn constant(variable: &Token, value: Option<&Token>, texts: &mut Texts, out: &mut LocalDefinition) {
    let variable = name(variable, texts);
    let Some(token) = value else { return out.absent(variable) };
    match &token.value {
        TokenValue::Null => out.null(variable, place(token)),
        TokenValue::True => out.boolean(variable, true, place(token)),
        TokenValue::False => out.boolean(variable, false, place(token)),
        TokenValue::Integer(value) => out.integer(variable, *value, place(token)),
        TokenValue::Float(value) => out.float(variable, *value, place(token)),
        TokenValue::String(_) => out.string(variable, name(token, texts)),
        TokenValue::Identifier(_) => out.identifier(variable, name(token, texts)),
        _ => out.other(variable, place(token)),
    }
}

fn properties(model: &original::ModelDefinition, texts: &mut Texts, out: &mut Model) {
    model.properties.iter().for_each(|property| out.property(name(property, texts)));
}

fn function<'a>(function: &original::FunctionDefinition, texts: &mut Texts, open: impl FnOnce(Name) -> Function<'a>) {
    let mut out = open(name(&function.name, texts));
    for parameter in &function.parameters {
        let named = name(parameter, texts);
        let this = parameter.value == TokenValue::This;
        out = if this { out.this_parameter(named) } else { out.parameter(named) };
    }
    out.body(|body| statements(&function.body, texts, body));
}

fn statements(list: &[Statement], texts: &mut Texts, out: &mut Statements) {
    list.iter().for_each(|one| statement(one, texts, out));
}

fn statement(statement: &Statement, texts: &mut Texts, out: &mut Statements) {
    match statement {
        Statement::Local(local) => out.local(|out| {
            for (variable, value) in local.variables.iter().zip(&local.values) {
                let variable = name(variable, texts);
                match value {
                    Some(value) => out.value(variable, |slot| expression(value, texts, slot)),
                    None => out.absent(variable),
                }
            }
        }),
        Statement::Return(statement) => out.return_statement(place(&statement.token)),
        Statement::Break(statement) => out.break_statement(place(&statement.token)),
        Statement::Rescue(statement) => out.rescue_statement(place(&statement.token)),
        Statement::For(statement) => {
            let variable = name(&statement.identifier, texts);
            let out = out.for_statement(variable, place(&statement.token));
            let out = out.over(|slot| expression(&statement.enumerable, texts, slot));
            out.body(|body| statements(&statement.statements, texts, body));
        }
        Statement::Expression(value) => out.expression(|slot| expression(value, texts, slot)),
    }
}

fn values(list: &[Expression], texts: &mut Texts, out: &mut Values) {
    list.iter().for_each(|one| out.value(|slot| expression(one, texts, slot)));
}

fn expression(expression: &Expression, texts: &mut Texts, slot: Slot) -> Filled {
    let mut part = |part: &Expression, slot: Slot| self::expression(part, texts, slot);
    match expression {
        Expression::Array(array) => slot.array(place(&array.token), |out| values(&array.values, texts, out)),
        Expression::Prefix(prefix) => {
            let position = place(&prefix.prefix);
            slot.prefix(prefix_of(&prefix.prefix), position, |slot| part(&prefix.right, slot))
        }
        Expression::Infix(infix) => {
            let out = slot.infix(infix_of(&infix.infix), place(&infix.infix));
            out.left(|slot| part(&infix.left, slot)).right(|slot| part(&infix.right, slot))
        }
        Expression::If(expression) => if_expression(expression, texts, slot),
        Expression::Call(call) => {
            let out = slot.call(place(&call.token)).function(|slot| part(&call.function, slot));
            out.parameters(|out| values(&call.parameters, texts, out))
        }
        Expression::InstanceGet(get) => {
            let out = slot.instance_get(place(&get.token)).instance(|slot| part(&get.instance, slot));
            out.index(|slot| part(&get.index, slot))
        }
        Expression::IndexGet(get) => {
            let out = slot.index_get(place(&get.token)).instance(|slot| part(&get.instance, slot));
            out.index(|slot| part(&get.index, slot))
        }
        Expression::Identifier(expression) => slot.identifier(name(&expression.token, texts)),
        Expression::String(expression) => slot.string(name(&expression.token, texts)),
        Expression::This(expression) => slot.this(place(&expression.token)),
        Expression::Null(expression) => slot.null(place(&expression.token)),
        Expression::Integer(original::IntegerExpression { token })
        | Expression::Float(original::FloatExpression { token })
        | Expression::Boolean(original::BooleanExpression { token }) => number(token, slot),
    }
}

fn number(token: &Token, slot: Slot) -> Filled {
    match token.value {
        TokenValue::Integer(value) => slot.integer(value, place(token)),
        TokenValue::Float(value) => slot.float(value, place(token)),
        TokenValue::True => slot.boolean(true, place(token)),
        TokenValue::False => slot.boolean(false, place(token)),
        ref other => panic!("{other:?} is no number or boolean"),
    }
}

fn if_expression(expression: &original::IfExpression, texts: &mut Texts, slot: Slot) -> Filled {
    let out = slot.if_expression().condition(|slot| self::expression(&expression.condition, texts, slot));
    let out = out.then(|body| statements(&expression.true_part, texts, body));
    match &expression.false_part {
        Some(part) => out.otherwise(|body| statements(part, texts, body)),
        None => out.end(),
    }
}

fn prefix_of(token: &Token) -> Prefix {
    match token.value {
        TokenValue::Minus => Prefix::Minus,
        TokenValue::Not => Prefix::Not,
        _ => Prefix::Other,
    }
}

fn infix_of(token: &Token) -> Infix {
    match token.value {
        TokenValue::Assign => Infix::Assign,
        TokenValue::Plus => Infix::Plus,
        TokenValue::Minus => Infix::Minus,
        TokenValue::Star => Infix::Star,
        TokenValue::Slash => Infix::Slash,
        TokenValue::Percent => Infix::Percent,
        TokenValue::PlusAssign => Infix::PlusAssign,
        TokenValue::MinusAssign => Infix::MinusAssign,
        TokenValue::StarAssign => Infix::StarAssign,
        TokenValue::SlashAssign => Infix::SlashAssign,
        TokenValue::PercentAssign => Infix::PercentAssign,
        TokenValue::Equal => Infix::Equal,
        TokenValue::NotEqual => Infix::NotEqual,
        TokenValue::Greater => Infix::Greater,
        TokenValue::Less => Infix::Less,
        TokenValue::GreaterEqual => Infix::GreaterEqual,
        TokenValue::LessEqual => Infix::LessEqual,
        TokenValue::And => Infix::And,
        TokenValue::Or => Infix::Or,
        _ => Infix::Other,
    }
}
