//! In the place of the original's lexer, which is not among the sources: `parser.rs` calls it. Only the
//! examples' sources (`examples/*.clover`) come here; the comparison builds its trees itself. Tokens
//! are those that `parser.rs` names. A comment goes from `#` to the end of its line.

use crate::intermediate::{CompileError, CompileErrorList, Position, Token, TokenList, TokenValue};
use std::iter::Peekable;
use std::str::Chars;

fn keyword(word: &str) -> TokenValue {
    match word {
        "true" => TokenValue::True,
        "false" => TokenValue::False,
        "null" => TokenValue::Null,
        "and" => TokenValue::And,
        "or" => TokenValue::Or,
        "not" => TokenValue::Not,
        "include" => TokenValue::Include,
        "from" => TokenValue::From,
        "model" => TokenValue::Model,
        "function" => TokenValue::Function,
        "end" => TokenValue::End,
        "implement" => TokenValue::Implement,
        "local" => TokenValue::Local,
        "apply" => TokenValue::Apply,
        "to" => TokenValue::To,
        "return" => TokenValue::Return,
        "public" => TokenValue::Public,
        "as" => TokenValue::As,
        "this" => TokenValue::This,
        "if" => TokenValue::If,
        "else" => TokenValue::Else,
        "elseif" => TokenValue::ElseIf,
        "while" => TokenValue::While,
        "for" => TokenValue::For,
        "in" => TokenValue::In,
        "break" => TokenValue::Break,
        "rescue" => TokenValue::Rescue,
        _ => TokenValue::Identifier(word.to_string()),
    }
}

/// A sign, or none, and the same with `=` behind it.
fn sign(first: char, assigned: bool) -> Option<TokenValue> {
    Some(match (first, assigned) {
        ('+', false) => TokenValue::Plus,
        ('-', false) => TokenValue::Minus,
        ('*', false) => TokenValue::Star,
        ('/', false) => TokenValue::Slash,
        ('%', false) => TokenValue::Percent,
        ('=', false) => TokenValue::Assign,
        ('<', false) => TokenValue::Less,
        ('>', false) => TokenValue::Greater,
        ('&', false) => TokenValue::BitAnd,
        ('|', false) => TokenValue::BitOr,
        ('(', false) => TokenValue::LeftParentheses,
        (')', false) => TokenValue::RightParentheses,
        ('[', false) => TokenValue::LeftBracket,
        (']', false) => TokenValue::RightBracket,
        (',', false) => TokenValue::Comma,
        (':', false) => TokenValue::Colon,
        ('.', false) => TokenValue::Dot,
        ('+', true) => TokenValue::PlusAssign,
        ('-', true) => TokenValue::MinusAssign,
        ('*', true) => TokenValue::StarAssign,
        ('/', true) => TokenValue::SlashAssign,
        ('%', true) => TokenValue::PercentAssign,
        ('=', true) => TokenValue::Equal,
        ('!', true) => TokenValue::NotEqual,
        ('<', true) => TokenValue::LessEqual,
        ('>', true) => TokenValue::GreaterEqual,
        _ => return None,
    })
}

struct Lexer<'a> {
    rest: Peekable<Chars<'a>>,
    line: u16,
    column: u16,
}

impl Lexer<'_> {
    fn take(&mut self) -> Option<char> {
        let taken = self.rest.next()?;
        if taken == '\n' {
            self.line += 1;
            self.column = 1;
        } else {
            self.column += 1;
        }
        Some(taken)
    }

    fn take_while(&mut self, wanted: impl Fn(char) -> bool) -> String {
        let mut out = String::new();
        while self.rest.peek().is_some_and(|&next| wanted(next)) {
            out.extend(self.take());
        }
        out
    }

    /// Digits, and a point with more digits for a float.
    fn number(&mut self) -> TokenValue {
        let mut digits = self.take_while(|next| next.is_ascii_digit());
        if self.rest.peek() == Some(&'.') {
            digits.extend(self.take());
            digits += &self.take_while(|next| next.is_ascii_digit());
            return digits.parse().map_or(TokenValue::Invalid(digits), TokenValue::Float);
        }
        digits.parse().map_or(TokenValue::Invalid(digits), TokenValue::Integer)
    }

    fn token(&mut self, first: char) -> TokenValue {
        if first.is_ascii_digit() {
            return self.number();
        }
        if first.is_ascii_alphabetic() || first == '_' {
            return keyword(&self.take_while(|next| next.is_ascii_alphanumeric() || next == '_'));
        }
        self.take();
        if first == '"' {
            let text = self.take_while(|next| next != '"' && next != '\n');
            return if self.take() == Some('"') { TokenValue::String(text) } else { TokenValue::Invalid(text) };
        }
        if self.rest.peek() == Some(&'=') {
            if let Some(value) = sign(first, true) {
                self.take();
                return value;
            }
        }
        sign(first, false).unwrap_or(TokenValue::Invalid(first.to_string()))
    }
}

pub fn lex(source: &str) -> Result<TokenList, CompileErrorList> {
    let mut lexer = Lexer { rest: source.chars().peekable(), line: 1, column: 1 };
    let mut tokens = TokenList::new();
    loop {
        lexer.take_while(char::is_whitespace);
        let position = Position::new(lexer.line, lexer.column);
        let Some(&first) = lexer.rest.peek() else {
            tokens.push(Token::new(TokenValue::Eof, position));
            return Ok(tokens);
        };
        if first == '#' {
            lexer.take_while(|next| next != '\n');
            continue;
        }
        let value = lexer.token(first);
        let token = Token::new(value, position);
        if let TokenValue::Invalid(_) = token.value {
            let mut errors = CompileErrorList::new("");
            errors.push_error(&token, "no token");
            return Err(errors);
        }
        tokens.push(token);
    }
}
