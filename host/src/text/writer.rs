//! Plain commands as text, with the names that they have.

use super::listing::{Listing, Step};
use super::names::{kind_name, Names};
use super::plain::{Plain, PlainTable, PlainTransition};
use super::spelling::{aligned, level};
use super::syntax::{Form, Members, Node, Object, Operator, Reference, Side, Start};
use crate::reference::syntax::{CostRule, Preference};

/// An operator's sign and level.
fn sign(operator: Operator) -> (&'static str, u8) {
    match operator {
        Operator::Or => ("or", level::OR),
        Operator::And => ("and", level::AND),
        Operator::Equal => ("=", level::COMPARISON),
        Operator::Less => ("<", level::COMPARISON),
        Operator::AtMost => ("<=", level::COMPARISON),
        Operator::In => ("in", level::COMPARISON),
        Operator::Subset => ("subset", level::COMPARISON),
        Operator::Union => ("|", level::UNION),
        Operator::Intersection => ("&", level::INTERSECTION),
        Operator::Plus => ("+", level::SUM),
        Operator::Minus => ("-", level::SUM),
        Operator::Times => ("*", level::PRODUCT),
        Operator::By => ("/", level::PRODUCT),
    }
}

fn object(object: &Object) -> String {
    match object {
        Object::Number(number) => number.value.to_string(),
        Object::Name(name) => name.text.clone(),
    }
}

fn members(members: &Members) -> String {
    let run = |(first, last): &(Object, Option<Object>)| match last {
        Some(last) => format!("{}..{}", object(first), object(last)),
        None => object(first),
    };
    let runs: Vec<String> = members.iter().map(run).collect();
    format!("{{{}}}", runs.join(", "))
}

fn side(side: &Side) -> String {
    match side {
        Side::Count(count) => count.value.to_string(),
        Side::Group(name) => name.text.clone(),
    }
}

fn table(table: &Reference) -> String {
    match table {
        Reference::Number(number) => format!("table {}", number.value),
        Reference::Name(name) => name.text.clone(),
    }
}

fn entry(reference: &Reference, row: &Node, column: Option<&Node>) -> String {
    let table = table(reference);
    match column {
        Some(column) => format!("{table}[{}, {}]", expression(row), expression(column)),
        None => format!("{table}[{}]", expression(row)),
    }
}

/// The expression's text.
pub fn expression(node: &Node) -> String {
    spelled(node).0
}

/// In parentheses if its sign binds more loosely than the level.
fn at_least(node: &Node, level: u8) -> String {
    let (text, own) = spelled(node);
    if own < level {
        format!("({text})")
    } else {
        text
    }
}

/// The expression's text and the level of its outermost sign.
fn spelled(node: &Node) -> (String, u8) {
    let atom = |text: String| (text, level::ATOM);
    match &node.form {
        Form::Integer(value) => atom(value.to_string()),
        Form::Object(number) => atom(format!("object {}", number.value)),
        Form::Name(name) => atom(name.clone()),
        Form::Numbered(kind, number) => atom(format!("{} {}", kind_name(*kind), number.value)),
        Form::NumberedBy(kind, name) => atom(format!("{} {}", kind_name(*kind), name.text)),
        Form::Members(list, None) => atom(members(list)),
        Form::Members(list, Some(count)) => atom(format!("{} of {}", members(list), side(count))),
        Form::Entry(table, row, column) => atom(entry(table, row, column.as_deref())),
        Form::EntrySum(table, set, column) => {
            atom(format!("sum({})", entry(table, set, column.as_deref())))
        }
        Form::Lesser(first, second) => atom(format!(
            "min({}, {})",
            expression(first),
            expression(second)
        )),
        Form::Greater(first, second) => atom(format!(
            "max({}, {})",
            expression(first),
            expression(second)
        )),
        Form::Count(part) => atom(format!("count({})", expression(part))),
        Form::Empty(part) => atom(format!("empty({})", expression(part))),
        Form::Complement(part) => atom(format!("~{}", at_least(part, level::ATOM))),
        Form::Not(part) => (format!("not {}", at_least(part, level::NOT)), level::NOT),
        Form::Choice(condition, first, second) => {
            let (condition, first) = (expression(condition), expression(first));
            let second = expression(second);
            (
                format!("if {condition} then {first} else {second}"),
                level::CHOICE,
            )
        }
        Form::Binary(operator, first, second) => {
            let (sign, level) = sign(*operator);
            let (first, second) = (at_least(first, level), at_least(second, level + 1));
            (format!("{first} {sign} {second}"), level)
        }
        Form::Over(_, _, part) => spelled(part),
        Form::Several(_, parts) => {
            let parts: Vec<String> = parts.iter().map(expression).collect();
            atom(parts.join(", "))
        }
    }
}

/// The name with a blank before it, or nothing.
fn after_blank(name: Option<&super::syntax::Name>) -> String {
    name.map_or(String::new(), |name| format!(" {}", name.text))
}

fn preference(preference: Preference) -> &'static str {
    match preference {
        Preference::None => "",
        Preference::Less => " prefer less",
        Preference::More => " prefer more",
    }
}

fn start(name: &str, start: &Start) -> String {
    match start {
        Start::Set(count, start) => {
            format!("set{name} of {} = {}", side(count), members(start))
        }
        Start::Element(count, start, prefer) => {
            let (count, start) = (side(count), object(start));
            format!("element{name} of {count} = {start}{}", preference(*prefer))
        }
        Start::Number(start, prefer) => {
            format!("number{name} = {}{}", start.value, preference(*prefer))
        }
    }
}

fn whole_table(table: &PlainTable) -> String {
    let name = after_blank(table.name.as_ref());
    let rows = side(&table.rows);
    let entries = table.entries.iter().flatten();
    let entries: Vec<String> = entries.map(|entry| entry.value.to_string()).collect();
    // Between the table's name and its bracket there is no blank.
    let gap = if name.is_empty() { " " } else { "" };
    match &table.columns {
        None => format!("\ntable{name}{gap}[{rows}] =\n    {}\n", entries.join(" ")),
        Some(columns) => {
            let width = table.entries[0].len();
            let lines = aligned(&entries, width).join(" /\n");
            format!("\ntable{name}{gap}[{rows}, {}] =\n{lines}\n", side(columns))
        }
    }
}

fn transition(step: &PlainTransition) -> String {
    let mut text = format!("\ntransition{}:\n", after_blank(step.label.as_ref()));
    for condition in &step.conditions {
        text += &format!("    when {}\n", expression(condition));
    }
    text += &format!("    cost {}\n", expression(&step.cost));
    if let Some(high) = &step.high {
        text += &format!("    high {}\n", expression(high));
    }
    for (variable, value) in &step.effects {
        text += &format!("    {} := {}\n", expression(variable), expression(value));
    }
    text
}

/// The plain text of the commands.
pub fn written(commands: &[Plain]) -> String {
    let mut text = String::new();
    for command in commands {
        text += &match command {
            Plain::Cost(CostRule::Sum) => "cost sum\n".to_string(),
            Plain::Cost(CostRule::Largest) => "cost largest\n".to_string(),
            Plain::Objects(group, objects) => {
                let objects: Vec<&str> = objects.iter().map(|name| name.text.as_str()).collect();
                format!("\nobjects {} = {}\n\n", group.text, objects.join(" "))
            }
            Plain::Variable(name, value) => {
                format!("{}\n", start(&after_blank(name.as_ref()), value))
            }
            Plain::Table(table) => whole_table(table),
            Plain::Transition(step) => transition(step),
            Plain::Base(conditions) => {
                let when = |condition| format!("    when {}\n", expression(condition));
                let conditions: String = conditions.iter().map(when).collect();
                format!("\nbase:\n{conditions}")
            }
            Plain::Constraint(condition) => format!("\nconstraint {}\n", expression(condition)),
            Plain::Bound(number) => format!("\nbound {}\n", expression(number)),
        };
    }
    text
}

/// The expressions of the commands as they are written, by the commands that they stand in.
pub fn listing(commands: &[Plain], names: &Names) -> Listing {
    let mut listing = Listing::default();
    for command in commands {
        match command {
            Plain::Transition(step) => listing.transitions.push(Step {
                conditions: step.conditions.iter().map(expression).collect(),
                cost: expression(&step.cost),
                high: step.high.as_ref().map(expression),
                effects: step
                    .effects
                    .iter()
                    .map(|(variable, value)| (assigned(variable, names), expression(value)))
                    .collect(),
            }),
            Plain::Base(conditions) => {
                let conditions = conditions.iter().map(expression);
                listing.base_cases.push(conditions.collect());
            }
            Plain::Constraint(condition) => listing.constraints.push(expression(condition)),
            Plain::Bound(number) => listing.bounds.push(expression(number)),
            Plain::Cost(_) | Plain::Objects(..) | Plain::Variable(..) | Plain::Table(_) => {}
        }
    }
    listing
}

/// The variable of an effect by its index.
fn assigned(variable: &Node, names: &Names) -> usize {
    let named = |name: &str| {
        let mut variables = names.variables.iter();
        variables.position(|variable| variable.name.as_deref() == Some(name))
    };
    match &variable.form {
        Form::Numbered(_, number) => number.value as usize,
        Form::Name(name) => named(name).unwrap_or_default(),
        _ => 0,
    }
}
