//! Text to tokens with their places. Blanks and line ends separate tokens, `#` begins a comment.

use super::foreign;
use super::place::{Error, Place};
use std::fmt;

#[derive(Clone, PartialEq, Eq, Debug)]
pub enum Token {
    Word(String),
    /// Digits as written.
    Integer(String),
    Symbol(&'static str),
    /// What stands between quotation marks.
    Quoted(String),
    End,
}

impl fmt::Display for Token {
    fn fmt(&self, out: &mut fmt::Formatter) -> fmt::Result {
        match self {
            Token::Word(word) => write!(out, "`{word}`"),
            Token::Integer(digits) => write!(out, "`{digits}`"),
            Token::Symbol(symbol) => write!(out, "`{symbol}`"),
            Token::Quoted(text) => write!(out, "\"{text}\""),
            Token::End => write!(out, "the end of the text"),
        }
    }
}

/// A token, its place, and the column where its line's first token stands.
#[derive(Clone, Debug)]
pub struct Lexeme {
    pub token: Token,
    pub place: Place,
    pub indent: usize,
}

/// The symbols of the language, each before its own beginnings.
const SYMBOLS: [&str; 23] = [
    ":=", "<=", ">=", "!=", "..", "{", "}", "(", ")", "[", "]", ",", ":", "=", "<", ">", "+", "-",
    "*", "/", "&", "|", "~",
];

fn begins_name(letter: char) -> bool {
    letter.is_alphabetic() || letter == '_'
}

fn continues_name(letter: char) -> bool {
    letter.is_alphanumeric() || letter == '_'
}

struct Lexer<'a> {
    rest: &'a str,
    place: Place,
    errors: Vec<Error>,
}

impl<'a> Lexer<'a> {
    /// Passes the characters at the front for which `wanted` holds.
    fn take_while(&mut self, wanted: impl Fn(char) -> bool) -> &'a str {
        let end = self
            .rest
            .find(|letter| !wanted(letter))
            .unwrap_or(self.rest.len());
        self.take(end)
    }

    /// Passes the first `end` bytes.
    fn take(&mut self, end: usize) -> &'a str {
        let (taken, rest) = self.rest.split_at(end);
        for letter in taken.chars() {
            if letter == '\n' {
                self.place.line += 1;
                self.place.column = 1;
            } else {
                self.place.column += 1;
            }
        }
        self.rest = rest;
        taken
    }

    fn skip_blanks(&mut self) {
        loop {
            self.take_while(char::is_whitespace);
            if !self.rest.starts_with('#') {
                return;
            }
            self.take_while(|letter| letter != '\n');
        }
    }

    fn wrong(&mut self, message: impl Into<String>) {
        self.errors.push(Error::new(self.place, message));
    }

    /// The next token; nothing where a sign is told and passed over.
    fn token(&mut self) -> Option<Token> {
        match self.rest.chars().next() {
            None => Some(Token::End),
            Some(letter) if begins_name(letter) => {
                Some(Token::Word(self.take_while(continues_name).to_string()))
            }
            Some(letter) if letter.is_ascii_digit() => Some(self.integer()),
            Some('"') => Some(self.quoted()),
            Some(letter) => self.symbol(letter),
        }
    }

    fn integer(&mut self) -> Token {
        let start = self.place;
        let digits = self.take_while(|letter| letter.is_ascii_digit());
        if self.rest.starts_with(continues_name) {
            self.errors
                .push(Error::new(start, "a name begins with a letter"));
            let rest = self.take_while(continues_name);
            return Token::Word(format!("{digits}{rest}"));
        }
        Token::Integer(digits.to_string())
    }

    /// The text up to the next quotation mark of the line.
    fn quoted(&mut self) -> Token {
        let start = self.place;
        self.take(1);
        let text = self.take_while(|letter| letter != '"' && letter != '\n');
        if self.rest.starts_with('"') {
            self.take(1);
        } else {
            self.errors.push(Error::new(
                start,
                "the quotation mark that begins here is not closed",
            ));
        }
        Token::Quoted(text.to_string())
    }

    fn symbol(&mut self, letter: char) -> Option<Token> {
        let begins = |symbol: &str| self.rest.starts_with(symbol);
        let own = SYMBOLS.iter().find(|symbol| begins(symbol));
        let foreign = foreign::SYMBOLS.iter().find(|(sign, ..)| begins(sign));
        let longer = |sign: &str| own.is_none_or(|own| own.len() < sign.len());
        if let Some((sign, taken_for, message)) = foreign.filter(|(sign, ..)| longer(sign)) {
            self.wrong(*message);
            self.take(sign.len());
            return taken(taken_for);
        }
        if let Some(symbol) = own {
            self.take(symbol.len());
            return Some(Token::Symbol(symbol));
        }
        self.wrong(match letter {
            '\u{FEFF}' => {
                "a UTF-8 byte-order mark stands here: the file is to be saved without one"
                    .to_string()
            }
            _ if letter.is_control() => {
                format!(
                    "no word, number or symbol begins with `{}`",
                    letter.escape_default()
                )
            }
            _ => format!("no word, number or symbol begins with `{letter}`"),
        });
        self.take(letter.len_utf8());
        None
    }
}

/// The token that stands in a foreign sign's place.
fn taken(sign: &'static str) -> Option<Token> {
    match sign {
        "" => None,
        "and" | "or" | "not" => Some(Token::Word(sign.to_string())),
        _ => Some(Token::Symbol(sign)),
    }
}

/// The tokens of the text, the last of them the end, and what is wrong with its signs.
pub fn tokens(file: usize, text: &str) -> (Vec<Lexeme>, Vec<Error>) {
    let mut lexer = Lexer {
        rest: text,
        place: Place::first(file),
        errors: Vec::new(),
    };
    let mut tokens: Vec<Lexeme> = Vec::new();
    loop {
        lexer.skip_blanks();
        let place = lexer.place;
        let Some(token) = lexer.token() else {
            continue;
        };
        let last = token == Token::End;
        let indent = match tokens.last() {
            Some(before) if before.place.line == place.line => before.indent,
            _ => place.column,
        };
        tokens.push(Lexeme {
            token,
            place,
            indent,
        });
        if last {
            return (tokens, lexer.errors);
        }
    }
}
