//! Records to the `Document`s of the Rust, and its tokens back to numbers.

use crate::books::children;
use crate::records::{kind, line_and_column, Record, MAIN};
use clover::intermediate::ast::*;
use clover::intermediate::{Position, Token, TokenValue};

/// Gives each text number a string of its own: 1 is `main`, the 41s' number is `this`.
#[derive(Clone, Copy)]
pub struct Texts {
    this: Option<u64>,
}

impl Texts {
    pub fn new(records: &[Record]) -> Texts {
        Texts { this: records.iter().find(|r| r.kind == kind::THIS_PARAMETER).map(|r| r.value) }
    }

    /// For several bundles that number `this` alike.
    pub fn with_this(this: u64) -> Texts {
        Texts { this: Some(this) }
    }

    /// A bundle may number `this` as 1, which is `main`; no string is both, so the Rust can then be
    /// driven only where nothing depends on which of the two it is.
    pub fn consistent(&self, records: &[Record]) -> bool {
        if self.this != Some(MAIN) {
            return true;
        }
        // Only a function of a book, not a method, becomes the entry point by its name.
        let is_main = |at: &usize| {
            matches!(records[*at].kind, kind::FUNCTION | kind::PUBLIC_FUNCTION) && records[*at].value == MAIN
        };
        !documents(records).into_iter().any(|at| children(records, at).iter().any(is_main))
    }

    pub fn string(&self, number: u64) -> String {
        if self.this == Some(number) {
            "this".to_string()
        } else if number == MAIN {
            "main".to_string()
        } else {
            format!("t{number}")
        }
    }

    pub fn number(&self, string: &str) -> u64 {
        match string {
            "this" => self.this.expect("a `this` came out that did not go in"),
            "main" => MAIN,
            _ => string.strip_prefix('t').and_then(|digits| digits.parse().ok()).expect("a string of ours"),
        }
    }
}

/// Indices of the documents of a bundle.
fn documents(records: &[Record]) -> Vec<usize> {
    let mut out = Vec::new();
    let mut at = 0;
    while at < records.len() {
        out.push(at);
        at += records[at].span as usize;
    }
    out
}

/// How positions are given to the Rust: as they are, or as the number of the record plus one, which
/// tells afterwards from which record a token came.
#[derive(Clone, Copy, PartialEq, Eq)]
pub enum Positions {
    Given,
    Tagged,
}

/// The number of the record, plus one, that a tagged position holds; 0 for a position that is no record's.
pub fn tag(position: Position) -> usize {
    usize::from(position.line) << 16 | usize::from(position.column)
}

fn tagged(tag: usize) -> Position {
    Position::new((tag >> 16) as u16, tag as u16)
}

/// Whether the Rust's 16 bits hold line and column.
pub fn fits(position: u64) -> bool {
    let (line, column) = line_and_column(position);
    line <= u64::from(u16::MAX) && column <= u64::from(u16::MAX)
}

fn given(position: u64) -> Position {
    let (line, column) = line_and_column(position);
    Position::new(line as u16, column as u16)
}

pub struct Builder<'a> {
    pub records: &'a [Record],
    pub texts: Texts,
    pub positions: Positions,
}

const INFIX: [TokenValue; 20] = [
    TokenValue::Assign,
    TokenValue::Plus,
    TokenValue::Minus,
    TokenValue::Star,
    TokenValue::Slash,
    TokenValue::Percent,
    TokenValue::PlusAssign,
    TokenValue::MinusAssign,
    TokenValue::StarAssign,
    TokenValue::SlashAssign,
    TokenValue::PercentAssign,
    TokenValue::Equal,
    TokenValue::NotEqual,
    TokenValue::Greater,
    TokenValue::Less,
    TokenValue::GreaterEqual,
    TokenValue::LessEqual,
    TokenValue::And,
    TokenValue::Or,
    TokenValue::BitAnd,
];
const PREFIX: [TokenValue; 3] = [TokenValue::Minus, TokenValue::Not, TokenValue::BitOr];

impl Builder<'_> {
    /// The token of a record, as the parser of the Rust would have made it.
    pub fn token(&self, at: usize) -> Token {
        let r = self.records[at];
        let text = || self.texts.string(r.value);
        let value = match r.kind {
            kind::INCLUDE | kind::STRING => TokenValue::String(text()),
            kind::MODEL..=kind::IMPLEMENT | kind::IDENTIFIER | kind::NAME => TokenValue::Identifier(text()),
            kind::RETURN => TokenValue::Return,
            kind::BREAK => TokenValue::Break,
            kind::RESCUE => TokenValue::Rescue,
            kind::FOR => TokenValue::For,
            kind::THIS | kind::THIS_PARAMETER => TokenValue::This,
            kind::NULL => TokenValue::Null,
            kind::INTEGER => TokenValue::Integer(r.value as i64),
            kind::FLOAT => TokenValue::Float(f64::from_bits(r.value)),
            kind::BOOLEAN if r.value == 1 => TokenValue::True,
            kind::BOOLEAN => TokenValue::False,
            kind::ARRAY | kind::INDEX_GET => TokenValue::LeftBracket,
            kind::PREFIX => PREFIX[r.value as usize].clone(),
            kind::INFIX => INFIX[r.value as usize].clone(),
            kind::CALL => TokenValue::LeftParentheses,
            kind::INSTANCE_GET => TokenValue::Dot,
            kind::OTHER_TOKEN => TokenValue::LeftBracket,
            other => unreachable!("kind {other} has no token"),
        };
        let position = match self.positions {
            Positions::Given => given(r.position),
            Positions::Tagged => tagged(at + 1),
        };
        Token::new(value, position)
    }

    fn tokens(&self, places: &[usize]) -> Vec<Token> {
        places.iter().map(|&at| self.token(at)).collect()
    }

    /// First and second of each pair.
    fn halves(&self, at: usize) -> (Vec<usize>, Vec<usize>) {
        children(self.records, at).chunks(2).map(|pair| (pair[0], pair[1])).unzip()
    }

    fn boxed(&self, at: usize) -> Box<Expression> {
        Box::new(self.expression(at))
    }

    fn expressions(&self, places: &[usize]) -> Vec<Expression> {
        places.iter().map(|&at| self.expression(at)).collect()
    }

    pub fn expression(&self, at: usize) -> Expression {
        let parts = children(self.records, at);
        let kind = self.records[at].kind;
        if kind == kind::IF {
            return Expression::If(IfExpression {
                condition: self.boxed(parts[0]),
                true_part: self.block(parts[1]),
                false_part: parts.get(2).map(|&block| self.block(block)),
            });
        }
        let token = self.token(at);
        match kind {
            kind::IDENTIFIER => Expression::Identifier(IdentifierExpression { token }),
            kind::THIS => Expression::This(ThisExpression { token }),
            kind::NULL => Expression::Null(NullExpression { token }),
            kind::INTEGER => Expression::Integer(IntegerExpression { token }),
            kind::FLOAT => Expression::Float(FloatExpression { token }),
            kind::STRING => Expression::String(StringExpression { token }),
            kind::BOOLEAN => Expression::Boolean(BooleanExpression { token }),
            kind::ARRAY => Expression::Array(ArrayExpression { token, values: self.expressions(&parts) }),
            kind::PREFIX => Expression::Prefix(PrefixExpression { prefix: token, right: self.boxed(parts[0]) }),
            kind::INFIX => Expression::Infix(InfixExpression {
                left: self.boxed(parts[0]),
                infix: token,
                right: self.boxed(parts[1]),
            }),
            kind::CALL => Expression::Call(CallExpression {
                token,
                function: self.boxed(parts[0]),
                parameters: self.expressions(&parts[1..]),
            }),
            kind::INSTANCE_GET => Expression::InstanceGet(InstanceGetExpression {
                token,
                instance: self.boxed(parts[0]),
                index: self.boxed(parts[1]),
            }),
            kind::INDEX_GET => Expression::IndexGet(IndexGetExpression {
                token,
                instance: self.boxed(parts[0]),
                index: self.boxed(parts[1]),
            }),
            other => unreachable!("kind {other} is no expression"),
        }
    }

    fn block(&self, at: usize) -> Vec<Statement> {
        self.statements(&children(self.records, at))
    }

    fn statements(&self, places: &[usize]) -> Vec<Statement> {
        places.iter().map(|&at| self.statement(at)).collect()
    }

    fn statement(&self, at: usize) -> Statement {
        match self.records[at].kind {
            kind::LOCAL => {
                let (names, values) = self.halves(at);
                let is_present = |at: usize| self.records[at].kind != kind::ABSENT;
                Statement::Local(LocalStatement {
                    variables: self.tokens(&names),
                    values: values.iter().map(|&at| is_present(at).then(|| self.expression(at))).collect(),
                })
            }
            kind::RETURN => Statement::Return(ReturnStatement { token: self.token(at) }),
            kind::BREAK => Statement::Break(BreakStatement { token: self.token(at) }),
            kind::RESCUE => Statement::Rescue(RescueStatement { token: self.token(at) }),
            kind::FOR => {
                let parts = children(self.records, at);
                Statement::For(ForStatement {
                    token: self.token(at),
                    identifier: self.token(parts[0]),
                    enumerable: self.expression(parts[1]),
                    statements: self.statements(&parts[2..]),
                })
            }
            kind::EXPRESSION => Statement::Expression(self.expression(at + 1)),
            other => unreachable!("kind {other} is no statement"),
        }
    }

    fn function(&self, at: usize) -> FunctionDefinition {
        let (body, parameters): (Vec<usize>, Vec<usize>) =
            children(self.records, at).into_iter().partition(|&child| kind::is_statement(self.records[child].kind));
        FunctionDefinition { name: self.token(at), parameters: self.tokens(&parameters), body: self.statements(&body) }
    }

    fn model(&self, at: usize) -> ModelDefinition {
        ModelDefinition { name: self.token(at), properties: self.tokens(&children(self.records, at)) }
    }

    fn definition(&self, at: usize) -> Definition {
        match self.records[at].kind {
            kind::LOCAL_DEFINITION => {
                let (names, values) = self.halves(at);
                let is_present = |at: usize| self.records[at].kind != kind::ABSENT;
                Definition::Local(LocalDefinition {
                    variables: self.tokens(&names),
                    values: values.iter().map(|&at| is_present(at).then(|| self.token(at))).collect(),
                })
            }
            kind::INCLUDE => {
                let (public, aliases) = self.halves(at);
                Definition::Include(IncludeDefinition {
                    public_names: self.tokens(&public),
                    aliases: self.tokens(&aliases),
                    filename: self.token(at),
                })
            }
            kind::MODEL => Definition::Model(self.model(at)),
            kind::PUBLIC_MODEL => Definition::PublicModel(self.model(at)),
            kind::FUNCTION => Definition::Function(self.function(at)),
            kind::PUBLIC_FUNCTION => Definition::PublicFunction(self.function(at)),
            kind::IMPLEMENT => Definition::Implement(ImplementDefinition {
                model_name: self.token(at),
                functions: children(self.records, at).into_iter().map(|child| self.function(child)).collect(),
            }),
            kind::APPLY => Definition::Apply(ApplyDefinition {
                source_model: self.token(at + 1),
                target_model: self.token(at + 2),
            }),
            other => unreachable!("kind {other} is no definition"),
        }
    }

    pub fn document(&self, at: usize) -> Document {
        Document {
            definitions: children(self.records, at).into_iter().map(|child| self.definition(child)).collect(),
            filename: self.texts.string(self.records[at].value),
        }
    }

    /// Every document of the bundle, in order, with its file number.
    pub fn documents(&self) -> Vec<(u64, usize, Document)> {
        let places = documents(self.records).into_iter();
        places.map(|at| (self.records[at].value, at, self.document(at))).collect()
    }
}
