//! A walk over the tokens of a text, with the small parts that commands and expressions share.

use super::foreign::hint;
use super::lexer::{tokens, Lexeme, Token};
use super::place::{refuse_if, Error, Place};
use super::syntax::{Integer, Members, Name, Object, Side};
use std::collections::HashMap;

/// The words of the language, which name nothing else.
const WORDS: [&str; 37] = [
    "and",
    "base",
    "bound",
    "constant",
    "constraint",
    "cost",
    "count",
    "element",
    "else",
    "empty",
    "exists",
    "for",
    "forall",
    "from",
    "high",
    "if",
    "in",
    "include",
    "largest",
    "less",
    "max",
    "min",
    "more",
    "not",
    "number",
    "object",
    "objects",
    "of",
    "or",
    "prefer",
    "set",
    "subset",
    "sum",
    "table",
    "then",
    "transition",
    "when",
];

/// The most expressions that may stand open around one another while reading: two for each level of nesting, and
/// room for parentheses without need.
const MOST_OPEN: usize = 100;

/// The value of digits; the greatest i64, which is outside every range here, stands for all beyond it.
fn value_of(digits: &str) -> i64 {
    digits.parse().unwrap_or(i64::MAX)
}

#[derive(Default)]
pub struct Cursor {
    tokens: Vec<Lexeme>,
    at: usize,
    open: usize,
    /// The constants declared so far.
    pub constants: HashMap<String, i64>,
    /// The variables of the loops that stand around this place.
    pub bound: Vec<String>,
}

impl Cursor {
    /// A walk over a file's text, and what is wrong with its signs.
    pub fn new(file: usize, text: &str) -> (Cursor, Vec<Error>) {
        let (tokens, errors) = tokens(file, text);
        let cursor = Cursor {
            tokens,
            ..Cursor::default()
        };
        (cursor, errors)
    }

    /// The token due here, without passing it; behind the end, the end.
    pub fn peek(&self) -> &Token {
        &self.tokens[self.at].token
    }

    pub fn peek_second(&self) -> &Token {
        &self.tokens[(self.at + 1).min(self.tokens.len() - 1)].token
    }

    pub fn place(&self) -> Place {
        self.tokens[self.at].place
    }

    /// The column where the line's first token stands.
    pub fn indent(&self) -> usize {
        self.tokens[self.at].indent
    }

    /// Whether the line begins with the token due here.
    pub fn begins_line(&self) -> bool {
        self.indent() == self.place().column
    }

    pub fn pass(&mut self) {
        if self.at + 1 < self.tokens.len() {
            self.at += 1;
        }
    }

    /// How many expressions and loops stand open here.
    pub fn standing(&self) -> (usize, usize) {
        (self.open, self.bound.len())
    }

    /// Leaves what has been opened since.
    pub fn back_to(&mut self, (open, bound): (usize, usize)) {
        self.open = open;
        self.bound.truncate(bound);
    }

    /// The error that something else was due here.
    pub fn expected(&self, what: &str) -> Error {
        let found = self.peek();
        let hint = match found {
            Token::Word(word) => hint(word),
            _ => String::new(),
        };
        Error::new(
            self.place(),
            format!("expected {what}, found {found}{hint}"),
        )
    }

    pub fn at_word(&self, word: &str) -> bool {
        matches!(self.peek(), Token::Word(found) if found == word)
    }

    pub fn at_any(&self, words: &[&str]) -> bool {
        words.iter().any(|word| self.at_word(word))
    }

    /// The number of the token due here.
    pub fn position(&self) -> usize {
        self.at
    }

    /// The words that name something, from the token of that number up to here.
    pub fn names_since(&self, begun: usize) -> Vec<String> {
        let passed = self.tokens[begun..self.at].iter();
        let names = passed.filter_map(|lexeme| match &lexeme.token {
            Token::Word(word) if !WORDS.contains(&word.as_str()) => Some(word.clone()),
            _ => None,
        });
        names.collect()
    }

    pub fn at_symbol(&self, symbol: &str) -> bool {
        matches!(self.peek(), Token::Symbol(found) if *found == symbol)
    }

    /// Passes the word, if it stands here.
    pub fn take_word(&mut self, word: &str) -> bool {
        let here = self.at_word(word);
        if here {
            self.pass();
        }
        here
    }

    /// Passes the symbol, if it stands here.
    pub fn take_symbol(&mut self, symbol: &str) -> bool {
        let here = self.at_symbol(symbol);
        if here {
            self.pass();
        }
        here
    }

    pub fn word(&mut self, word: &str) -> Result<(), Error> {
        if self.take_word(word) {
            Ok(())
        } else {
            Err(self.expected(&format!("`{word}`")))
        }
    }

    pub fn symbol(&mut self, symbol: &str) -> Result<(), Error> {
        if self.take_symbol(symbol) {
            Ok(())
        } else {
            Err(self.expected(&format!("`{symbol}`")))
        }
    }

    /// A word that may name something.
    pub fn free_name(&mut self) -> Option<Name> {
        let at = self.place();
        let Token::Word(word) = self.peek() else {
            return None;
        };
        if WORDS.contains(&word.as_str()) {
            return None;
        }
        let text = word.clone();
        self.pass();
        Some(Name { at, text })
    }

    /// The value of a token that is digits, or the name of a constant.
    fn value(&self, token: &Token) -> Option<i64> {
        match token {
            Token::Integer(digits) => Some(value_of(digits)),
            Token::Word(word) if !self.bound.contains(word) => self.constants.get(word).copied(),
            _ => None,
        }
    }

    /// Digits without a sign, or a constant.
    pub fn digits(&mut self) -> Option<Integer> {
        let at = self.place();
        let value = self.value(self.peek())?;
        self.pass();
        Some(Integer { at, value })
    }

    /// Digits or a constant, with a minus before them or not.
    pub fn integer(&mut self) -> Option<Integer> {
        let at = self.place();
        if !self.at_symbol("-") {
            return self.digits();
        }
        let value = self.value(self.peek_second())?;
        self.pass();
        self.pass();
        Some(Integer { at, value: -value })
    }

    /// The text between quotation marks that names a file.
    pub fn quoted(&mut self) -> Result<Name, Error> {
        let at = self.place();
        let Token::Quoted(text) = self.peek() else {
            return Err(self.expected("a file's name in quotation marks"));
        };
        let text = text.clone();
        self.pass();
        Ok(Name { at, text })
    }

    pub fn side(&mut self) -> Result<Side, Error> {
        if let Some(count) = self.digits() {
            return Ok(Side::Count(count));
        }
        let group = self.free_name().map(Side::Group);
        group.ok_or_else(|| self.expected("an object count or the name of a group of objects"))
    }

    pub fn object(&mut self) -> Result<Object, Error> {
        if let Some(number) = self.digits() {
            return Ok(Object::Number(number));
        }
        let named = self.free_name().map(Object::Name);
        named.ok_or_else(|| self.expected("an object's name or number"))
    }

    /// Objects and runs of objects between braces.
    pub fn members(&mut self) -> Result<Members, Error> {
        self.symbol("{")?;
        let mut members = Vec::new();
        if self.take_symbol("}") {
            return Ok(members);
        }
        loop {
            let first = self.object()?;
            let last = if self.take_symbol("..") {
                Some(self.object()?)
            } else {
                None
            };
            members.push((first, last));
            if self.take_symbol("}") {
                return Ok(members);
            }
            if !self.take_symbol(",") {
                return Err(self.expected("`,` or `}`"));
            }
        }
    }

    /// Counts one more expression as open.
    pub fn enter(&mut self) -> Result<(), Error> {
        self.open += 1;
        refuse_if(self.open > MOST_OPEN, self.place(), || {
            format!("more than {MOST_OPEN} expressions stand open here")
        })
    }

    pub fn leave(&mut self) {
        self.open -= 1;
    }
}
