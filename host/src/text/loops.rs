//! Loops in a text: their variables, what they go over, and the parts that they repeat.

use super::cursor::Cursor;
use super::lexer::Token;
use super::place::{refuse_if, Error};
use super::syntax::{Binder, Form, Joining, Loop, Name, Node, Object, Part, Span};

impl Cursor {
    /// The name of a loop's variable, if one stands here.
    pub fn bound_name(&mut self) -> Option<Name> {
        match self.peek() {
            Token::Word(word) if self.bound.contains(word) => self.free_name(),
            _ => None,
        }
    }

    /// How parts are joined by the word that stands here before a loop's variable.
    pub fn joining(&self) -> Option<Joining> {
        let Token::Word(word) = self.peek() else {
            return None;
        };
        let opens = matches!(self.peek_second(), Token::Symbol("("));
        match word.as_str() {
            "forall" => Some(Joining::All),
            "exists" => Some(Joining::Some),
            "sum" if !opens => Some(Joining::Sum),
            "max" if !opens => Some(Joining::Greatest),
            "min" if !opens => Some(Joining::Least),
            _ => None,
        }
    }

    /// `forall j in …: p` and its like; the part reaches as far as it can.
    pub fn over(&mut self, joining: Joining) -> Result<Node, Error> {
        let at = self.place();
        self.pass();
        let outer = self.bound.len();
        let binders = self.binders()?;
        let part = self.boxed()?;
        self.bound.truncate(outer);
        Node::new(at, Form::Over(joining, binders, part))
    }

    /// `max` or `min` of two and more.
    pub fn several(&mut self, joining: Joining) -> Result<Form, Error> {
        self.pass();
        self.symbol("(")?;
        self.no_loop(match joining {
            Joining::Least => "min",
            _ => "max",
        })?;
        let mut parts = vec![self.expression()?];
        self.symbol(",")?;
        parts.push(self.expression()?);
        while self.take_symbol(",") {
            parts.push(self.expression()?);
        }
        self.symbol(")")?;
        if parts.len() > 2 {
            return Ok(Form::Several(joining, parts));
        }
        let mut parts = parts.into_iter().map(Box::new);
        let (first, second) = (parts.next(), parts.next());
        let (first, second) = first.zip(second).expect("two parts");
        Ok(match joining {
            Joining::Least => Form::Lesser(first, second),
            _ => Form::Greater(first, second),
        })
    }

    /// Tells a loop that is written in parentheses, as in `sum(j in s: x)`.
    pub fn no_loop(&self, word: &str) -> Result<(), Error> {
        let named = matches!(self.peek(), Token::Word(_));
        let goes_over = matches!(self.peek_second(), Token::Word(word) if word == "in");
        refuse_if(named && goes_over, self.place(), || {
            format!("a loop is written `{word} j in group: x`, in parentheses as a whole where it is an operand")
        })
    }

    /// The variables of a loop up to the colon, which stand for something until they are forgotten.
    fn binders(&mut self) -> Result<Vec<Binder>, Error> {
        let mut binders = Vec::new();
        loop {
            let binder = self.binder()?;
            self.bound.push(binder.name.text.clone());
            binders.push(binder);
            if self.take_symbol(":") {
                return Ok(binders);
            }
            if !self.take_symbol(",") {
                return Err(self.expected("`-`, `,` or `:`"));
            }
        }
    }

    fn binder(&mut self) -> Result<Binder, Error> {
        let name = self.free_name();
        let name = name.ok_or_else(|| self.expected("a name for what the loop goes over"))?;
        refuse_if(self.bound.contains(&name.text), name.at, || {
            format!("`{}` is the variable of a loop around this one", name.text)
        })?;
        self.word("in")?;
        let over = self.span()?;
        let mut without = Vec::new();
        while self.take_symbol("-") {
            without.push(self.span()?);
        }
        Ok(Binder {
            name,
            over,
            without,
        })
    }

    fn span(&mut self) -> Result<Span, Error> {
        if self.at_symbol("{") {
            return Ok(Span::Members(self.members()?));
        }
        let first = self.span_end()?;
        if self.take_symbol("..") {
            return Ok(Span::Run(first, self.object()?));
        }
        Ok(Span::One(first))
    }

    fn span_end(&mut self) -> Result<Object, Error> {
        let known = matches!(self.peek(), Token::Word(_) | Token::Integer(_));
        if !known {
            return Err(self.expected("a group of objects, a set in braces or a run"));
        }
        self.object()
    }

    /// Parts of the command with this margin up to the first token that begins none, some of them in loops.
    pub fn parts<T>(&mut self, margin: Margin, one: One<T>) -> Result<Vec<Part<T>>, Error> {
        let mut parts = Vec::new();
        loop {
            if self.at_word("for") && self.inside(margin) {
                parts.push(Part::Loop(self.repeated(one)?));
            } else if let Some(part) = one(self)? {
                parts.push(Part::One(part));
            } else {
                return Ok(parts);
            }
        }
    }

    /// A loop around parts.
    fn repeated<T>(&mut self, one: One<T>) -> Result<Loop<Part<T>>, Error> {
        self.enter()?;
        let at = self.place();
        let (binders, outer, margin) = self.loop_head()?;
        let mut body = Vec::new();
        while self.inside(margin) {
            if self.at_word("for") {
                body.push(Part::Loop(self.repeated(one)?));
            } else if let Some(part) = one(self)? {
                body.push(Part::One(part));
            } else {
                break;
            }
        }
        self.bound.truncate(outer);
        self.leave();
        refuse_if(body.is_empty(), at, || EMPTY_LOOP.to_string())?;
        Ok(Loop { binders, body })
    }

    /// A loop's variables, how many there were before, and the loop's margin.
    pub fn loop_head(&mut self) -> Result<(Vec<Binder>, usize, Margin), Error> {
        let margin = self.margin();
        let outer = self.bound.len();
        self.word("for")?;
        Ok((self.binders()?, outer, margin))
    }

    /// The margin of what begins here.
    pub fn margin(&self) -> Margin {
        (self.place().line, self.indent())
    }

    /// Whether what stands here is on the margin's line, or on a line further to the right.
    pub fn inside(&self, (line, column): Margin) -> bool {
        let here = self.place().line == line || self.indent() > column;
        here && *self.peek() != Token::End
    }
}

/// The line where a loop or a command begins, and the column where that line begins.
pub type Margin = (usize, usize);

/// Reads one part, if one begins here.
type One<T> = fn(&mut Cursor) -> Result<Option<T>, Error>;

pub const EMPTY_LOOP: &str =
    "the loop repeats nothing: what it repeats begins further to the right than its line";
