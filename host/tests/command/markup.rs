//! A strict reader of XML, as far as charts and pages use it.

use std::collections::HashMap;

/// An element: its tag, its attributes and the text inside it.
pub struct Element {
    pub tag: String,
    pub attributes: HashMap<String, String>,
    pub text: String,
}

impl Element {
    pub fn number(&self, name: &str) -> f64 {
        self.attributes[name].parse().unwrap()
    }
}

/// The attributes behind a tag's name, each once, in double quotes.
fn attributes(mut rest: &str) -> HashMap<String, String> {
    let mut found = HashMap::new();
    while !rest.trim().is_empty() {
        assert!(rest.starts_with(' '), "a blank before an attribute: {rest}");
        let (name, behind) = rest.trim_start().split_once("=\"").expect("a quoted value");
        let (value, behind) = behind.split_once('"').expect("a quote behind the value");
        assert!(
            name.chars()
                .all(|c| c.is_ascii_alphanumeric() || "-:".contains(c)),
            "{name}"
        );
        let again = found.insert(name.to_string(), unescaped(value));
        assert_eq!(again, None, "{name} once");
        rest = behind;
    }
    found
}

/// Text without `<` and `>`, and with `&` only in the four escapes.
fn unescaped(text: &str) -> String {
    assert!(!text.contains(['<', '>']), "{text}");
    let mut plain = String::new();
    let mut parts = text.split('&');
    plain += parts.next().unwrap();
    for part in parts {
        let (name, rest) = part.split_once(';').expect("an escape ends");
        plain += match name {
            "amp" => "&",
            "lt" => "<",
            "gt" => ">",
            "quot" => "\"",
            _ => panic!("an unknown escape: {name}"),
        };
        plain += rest;
    }
    plain
}

/// The elements of a well-formed document in their order; the root is the first, with this tag.
pub fn parsed(root: &str, document: &str) -> Vec<Element> {
    let mut elements: Vec<Element> = Vec::new();
    let mut open: Vec<usize> = Vec::new();
    let mut parts = document.trim().split('<');
    assert_eq!(parts.next(), Some(""));
    for part in parts {
        let (inside, text) = part.split_once('>').expect("a tag ends");
        if let Some(tag) = inside.strip_prefix('/') {
            let last = open.pop().expect("an open tag");
            assert_eq!(elements[last].tag, tag);
        } else {
            assert!(elements.is_empty() || !open.is_empty(), "one root");
            let closed = inside.strip_suffix('/');
            let inside = closed.unwrap_or(inside);
            let end = inside.find(' ').unwrap_or(inside.len());
            elements.push(Element {
                tag: inside[..end].to_string(),
                attributes: attributes(&inside[end..]),
                text: String::new(),
            });
            if closed.is_none() {
                open.push(elements.len() - 1);
            }
        }
        if let Some(last) = open.last() {
            elements[*last].text += &unescaped(text);
        } else {
            assert_eq!(text.trim(), "");
        }
    }
    assert!(open.is_empty(), "every tag is closed");
    assert_eq!(elements[0].tag, root);
    elements
}
