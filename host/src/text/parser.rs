//! The files of a text to commands, in document 01's order. What is wrong is noted, and the next command read.

use super::cursor::Cursor;
use super::lexer::Token;
use super::loops::EMPTY_LOOP;
use super::place::{refuse_if, Error, Place};
use super::sources::Sources;
use super::syntax::{Command, Loop};
use std::collections::HashSet;

/// The groups of commands in their order, with the words that begin them.
const ORDER: [(&str, &[&str]); 7] = [
    ("the cost rule", &["cost"]),
    ("variables", &["set", "element", "number"]),
    ("tables", &["table"]),
    ("transitions", &["transition"]),
    ("base cases", &["base"]),
    ("constraints", &["constraint"]),
    ("bounds", &["bound"]),
];

/// The first of the groups whose commands a loop may repeat.
const TRANSITIONS: usize = 3;

/// Words that begin a command beside those of the order.
const UNORDERED: [&str; 4] = ["objects", "constant", "include", "for"];

/// The most files that may stand open around one another, and the most that are included in all.
const MOST_OPEN: usize = 16;
const MOST_INCLUDED: usize = 200;

/// The commands of a text, what is wrong with it, and names that stand in what could not be read.
#[derive(Default)]
pub struct Parsed {
    pub commands: Vec<Command>,
    pub errors: Vec<Error>,
    pub unread: HashSet<String>,
    /// The group of the last command.
    group: Option<usize>,
    open: usize,
    included: usize,
}

/// The commands of the text and of the files that it includes.
pub fn parsed(sources: &mut Sources) -> Parsed {
    let mut parsed = Parsed::default();
    let end = parsed.file(sources, 0, &mut Cursor::default());
    if parsed.group.is_none() && parsed.errors.is_empty() {
        let message = "expected `cost sum` or `cost largest`, found the end of the text";
        parsed.errors.push(Error::new(end, message));
    }
    parsed
}

impl Parsed {
    /// Reads a file's commands with the constants of the text around it; answers where it ends.
    fn file(&mut self, sources: &mut Sources, file: usize, around: &mut Cursor) -> Place {
        let (mut cursor, errors) = Cursor::new(file, sources.text(file));
        self.errors.extend(errors);
        cursor.constants = std::mem::take(&mut around.constants);
        while *cursor.peek() != Token::End {
            if cursor.at_word("include") {
                let included = self.include(sources, &mut cursor);
                self.errors.extend(included.err());
            } else if let Some(command) = self.command(sources, &mut cursor) {
                self.commands.push(command);
            }
        }
        around.constants = std::mem::take(&mut cursor.constants);
        cursor.place()
    }

    fn include(&mut self, sources: &mut Sources, cursor: &mut Cursor) -> Result<(), Error> {
        cursor.pass();
        let name = cursor.quoted()?;
        refuse_if(self.open >= MOST_OPEN, name.at, || {
            format!("more than {MOST_OPEN} files stand open here: does a file include itself?")
        })?;
        refuse_if(self.included >= MOST_INCLUDED, name.at, || {
            format!(
                "a text includes at most {MOST_INCLUDED} files, one included twice counting twice"
            )
        })?;
        let file = sources.read(name.at, &name.text)?;
        self.included += 1;
        self.open += 1;
        self.file(sources, file, cursor);
        self.open -= 1;
        Ok(())
    }

    /// The next command; what is wrong with it is noted and passed over.
    fn command(&mut self, sources: &mut Sources, cursor: &mut Cursor) -> Option<Command> {
        let standing = cursor.standing();
        let begun = cursor.position();
        let column = cursor.place().column;
        let read = if cursor.at_word("for") {
            self.looped(sources, cursor)
        } else {
            let due = self.group_due(cursor);
            self.errors.extend(due.err());
            cursor.command(sources)
        };
        match read {
            Ok(command) => Some(command),
            Err(error) => {
                self.errors.push(error);
                cursor.back_to(standing);
                self.recover(cursor, begun, column);
                None
            }
        }
    }

    /// A loop around commands of one group.
    fn looped(&mut self, sources: &mut Sources, cursor: &mut Cursor) -> Result<Command, Error> {
        cursor.enter()?;
        let at = cursor.place();
        let (binders, outer, margin) = cursor.loop_head()?;
        let mut body = Vec::new();
        let mut first_group = None;
        while cursor.inside(margin) {
            let place = cursor.place();
            if !cursor.at_word("for") {
                let group = ORDER.iter().position(|(_, words)| cursor.at_any(words));
                let fits = group.is_some_and(|group| group >= TRANSITIONS);
                refuse_if(!fits, place, || {
                    "a loop repeats transitions, base cases, constraints or bounds".to_string()
                })?;
                let first = *first_group.get_or_insert(group);
                refuse_if(first != group, place, || {
                    "a loop repeats commands of one kind: this begins another loop".to_string()
                })?;
            }
            body.extend(self.command(sources, cursor));
        }
        cursor.bound.truncate(outer);
        cursor.leave();
        refuse_if(body.is_empty() && self.errors.is_empty(), at, || {
            EMPTY_LOOP.to_string()
        })?;
        Ok(Command::Loop(Loop { binders, body }))
    }

    /// Whether the command that begins here may follow the last one; it becomes the last one.
    fn group_due(&mut self, cursor: &Cursor) -> Result<(), Error> {
        if cursor.at_any(&UNORDERED) {
            return Ok(());
        }
        let found = ORDER.iter().position(|(_, words)| cursor.at_any(words));
        let Some(last) = self.group else {
            self.group = found.or(Some(0));
            let due = "`cost sum` or `cost largest`";
            return match found {
                Some(0) => Ok(()),
                _ => Err(cursor.expected(due)),
            };
        };
        let Some(group) = found else {
            return Err(cursor.expected("a command or the end of the text"));
        };
        refuse_if(group == 0, cursor.place(), || {
            "the cost rule stands once, at the front".to_string()
        })?;
        refuse_if(group < last, cursor.place(), || {
            format!("{} stand before {}", ORDER[group].0, ORDER[last].0)
        })?;
        self.group = Some(group);
        Ok(())
    }

    /// Passes over the rest of a command that could not be read, up to a line that begins another.
    fn recover(&mut self, cursor: &mut Cursor, begun: usize, column: usize) {
        if cursor.position() == begun {
            cursor.pass();
        }
        while *cursor.peek() != Token::End && !begins_command(cursor, column) {
            cursor.pass();
        }
        self.unread.extend(cursor.names_since(begun));
    }
}

/// Whether a command begins at this line; a loop only if it is no further to the right than the last command.
fn begins_command(cursor: &Cursor, column: usize) -> bool {
    if !cursor.begins_line() {
        return false;
    }
    let by_number = matches!(cursor.peek_second(), Token::Integer(_));
    let variable = cursor.at_any(ORDER[1].1) && !by_number;
    let later = ORDER[2..].iter().any(|(_, words)| cursor.at_any(words));
    let outer = cursor.place().column <= column;
    let unordered = cursor.at_any(&UNORDERED) && (outer || !cursor.at_word("for"));
    variable || later || unordered
}
