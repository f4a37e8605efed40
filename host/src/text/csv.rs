//! Tables from files of comma separated values: a line of headings, then a line for each row with its object's name.

use super::place::{refuse_if, Error, Place};
use super::scope::Scope;
use super::syntax::{Integer, Name};

/// A cell's content and where it begins.
struct Cell {
    at: Place,
    text: String,
}

/// An object count with the group if it is a group's: what a side's headings are held against.
pub type Headed = (u8, Option<usize>);

/// The cells of the lines that are not empty.
fn lines(file: usize, text: &str) -> Result<Vec<Vec<Cell>>, Error> {
    let text = text.strip_prefix('\u{FEFF}').unwrap_or(text);
    let mut lines = Vec::new();
    for (number, line) in text.lines().enumerate() {
        let line = line.trim_end_matches('\r');
        if line.trim().is_empty() {
            continue;
        }
        lines.push(cells(file, number + 1, line)?);
    }
    Ok(lines)
}

/// The cells of a line; one may stand in quotation marks, where two in a row are one.
fn cells(file: usize, line: usize, text: &str) -> Result<Vec<Cell>, Error> {
    let letters: Vec<char> = text.chars().collect();
    let place = |column: usize| Place {
        file,
        line,
        column: column + 1,
    };
    let mut cells = Vec::new();
    let mut at = 0;
    loop {
        while letters
            .get(at)
            .is_some_and(|letter| *letter == ' ' || *letter == '\t')
        {
            at += 1;
        }
        let start = at;
        let mut content = String::new();
        if letters.get(at) == Some(&'"') {
            at = quoted(&letters, at, &mut content).ok_or_else(|| {
                Error::new(
                    place(start),
                    "the quotation mark that begins here is not closed",
                )
            })?;
        }
        let quoted_end = at;
        while letters.get(at).is_some_and(|letter| *letter != ',') {
            content.push(letters[at]);
            at += 1;
        }
        let behind = content.trim_end().len() > content.len() - (at - quoted_end);
        refuse_if(
            quoted_end > start && at > quoted_end && behind,
            place(quoted_end),
            || "expected `,` behind the quotation mark".to_string(),
        )?;
        let text = content.trim().to_string();
        cells.push(Cell {
            at: place(start),
            text,
        });
        if at >= letters.len() {
            return Ok(cells);
        }
        at += 1;
    }
}

/// Passes a part in quotation marks; answers where it ends.
fn quoted(letters: &[char], start: usize, content: &mut String) -> Option<usize> {
    let mut at = start + 1;
    loop {
        match (letters.get(at)?, letters.get(at + 1)) {
            ('"', Some('"')) => {
                content.push('"');
                at += 2;
            }
            ('"', _) => return Some(at + 1),
            (letter, _) => {
                content.push(*letter);
                at += 1;
            }
        }
    }
}

fn whole_number(cell: &Cell) -> Result<Integer, Error> {
    let digits = cell.text.strip_prefix(['-', '+']).unwrap_or(&cell.text);
    let plain = !digits.is_empty() && digits.bytes().all(|byte| byte.is_ascii_digit());
    refuse_if(cell.text.is_empty(), cell.at, || {
        "a whole number is due in this cell, which is empty".to_string()
    })?;
    refuse_if(!plain, cell.at, || {
        format!("a whole number is due, found `{}`", cell.text)
    })?;
    let value = cell.text.parse().unwrap_or(i64::MAX);
    let at = cell.at;
    Ok(Integer { at, value })
}

/// The object that a heading names.
fn object(scope: &Scope, (count, group): Headed, cell: &Cell) -> Result<usize, Error> {
    let Some(group) = group else {
        let number = cell.text.parse().ok();
        let number = number.filter(|number: &usize| *number < usize::from(count));
        let last = count - 1;
        return number.ok_or_else(|| {
            Error::new(
                cell.at,
                format!(
                    "an object's number from 0 to {last} is due, found `{}`",
                    cell.text
                ),
            )
        });
    };
    let group = &scope.names.groups[group];
    let found = group.objects.iter().position(|name| *name == cell.text);
    found.ok_or_else(|| {
        let (name, group) = (&cell.text, &group.name);
        Error::new(cell.at, format!("`{name}` is no object of `{group}`"))
    })
}

/// The name of an object of a side.
fn object_name(scope: &Scope, (_, group): Headed, object: usize) -> String {
    match group {
        Some(group) => scope.names.groups[group].objects[object].clone(),
        None => object.to_string(),
    }
}

/// The objects that the cells name, none of them twice and none left out.
fn objects(
    scope: &Scope,
    side: Headed,
    cells: &[&Cell],
    at: Place,
    what: &str,
) -> Result<Vec<usize>, Error> {
    let mut found = Vec::new();
    for cell in cells {
        let object = object(scope, side, cell)?;
        refuse_if(found.contains(&object), cell.at, || {
            format!("`{}` has a {what} already", cell.text)
        })?;
        found.push(object);
    }
    let missing = (0..usize::from(side.0)).find(|object| !found.contains(object));
    match missing {
        None => Ok(found),
        Some(object) => {
            let name = object_name(scope, side, object);
            Err(Error::new(at, format!("no {what} for `{name}`")))
        }
    }
}

/// The entries of a table in the order of its sides' objects; a list is one row.
pub fn entries(
    scope: &Scope,
    (file, text): (usize, &str),
    rows: Headed,
    columns: Option<Headed>,
    column: Option<&Name>,
) -> Result<Vec<Vec<Integer>>, Error> {
    let lines = lines(file, text)?;
    let Some((headings, lines)) = lines.split_first() else {
        return Err(Error::new(
            Place::first(file),
            "the file is empty: a line of headings is due",
        ));
    };
    let first = headings[0].at;
    refuse_if(
        headings.len() == 1 && headings[0].text.contains(';'),
        first,
        || "cells are separated by commas, not by semicolons".to_string(),
    )?;
    for cells in lines {
        refuse_if(cells.len() != headings.len(), cells[0].at, || {
            format!(
                "cells in this line: {}; headings: {}",
                cells.len(),
                headings.len()
            )
        })?;
    }
    let named: Vec<&Cell> = lines.iter().map(|cells| &cells[0]).collect();
    let order = objects(scope, rows, &named, first, "row")?;
    let places: Vec<usize> = match columns {
        None => vec![chosen(headings, column)?],
        Some(side) => {
            if let Some(column) = column {
                return Err(Error::new(column.at, "only a list takes one column"));
            }
            let headings: Vec<&Cell> = headings[1..].iter().collect();
            let order = objects(scope, side, &headings, first, "column")?;
            let place = |object| order.iter().position(|found| *found == object);
            let places = (0..usize::from(side.0)).filter_map(place);
            places.map(|place| place + 1).collect()
        }
    };
    let mut table = vec![Vec::new(); order.len()];
    for (cells, row) in lines.iter().zip(order) {
        let entries: Result<Vec<Integer>, Error> = places
            .iter()
            .map(|place| whole_number(&cells[*place]))
            .collect();
        table[row] = entries?;
    }
    Ok(match columns {
        Some(_) => table,
        None => vec![table.concat()],
    })
}

/// The place of a list's column: the one with the heading, or the only one.
fn chosen(headings: &[Cell], column: Option<&Name>) -> Result<usize, Error> {
    let Some(name) = column else {
        refuse_if(headings.len() != 2, headings[0].at, || {
            let columns = headings.len() - 1;
            format!("the file has {columns} columns behind the names: `column` and a heading say which one is meant")
        })?;
        return Ok(1);
    };
    let found = headings
        .iter()
        .skip(1)
        .position(|cell| cell.text == name.text);
    match found {
        Some(place) => Ok(place + 1),
        None => Err(Error::new(
            name.at,
            format!("the file has no column `{}`", name.text),
        )),
    }
}
