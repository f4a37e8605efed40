//! A strict reader of JSON for the tests.

/// A value; the members of an object in their order.
#[derive(Clone, PartialEq, Debug)]
pub enum Value {
    Null,
    Truth(bool),
    Number(i128),
    Text(String),
    List(Vec<Value>),
    Object(Vec<(String, Value)>),
}

impl Value {
    /// The member of this name.
    pub fn get(&self, name: &str) -> &Value {
        let Value::Object(members) = self else {
            panic!("{name} of no object: {self:?}");
        };
        let found = members.iter().find(|(known, _)| known == name);
        &found.unwrap_or_else(|| panic!("{name} is missing")).1
    }

    pub fn list(&self) -> &[Value] {
        match self {
            Value::List(values) => values,
            _ => panic!("no list: {self:?}"),
        }
    }

    pub fn text(&self) -> &str {
        match self {
            Value::Text(text) => text,
            _ => panic!("no text: {self:?}"),
        }
    }
}

/// The one value of a document.
pub fn parsed(document: &str) -> Value {
    let mut reader = Reader { rest: document };
    let value = reader.value();
    reader.blanks();
    assert_eq!(reader.rest, "", "something follows the value");
    value
}

struct Reader<'a> {
    rest: &'a str,
}

impl Reader<'_> {
    fn blanks(&mut self) {
        self.rest = self.rest.trim_start_matches([' ', '\n', '\r', '\t']);
    }

    fn take(&mut self, sign: &str) -> bool {
        self.blanks();
        match self.rest.strip_prefix(sign) {
            Some(rest) => {
                self.rest = rest;
                true
            }
            None => false,
        }
    }

    fn due(&mut self, sign: &str) {
        assert!(self.take(sign), "{sign} is due before {:.40}", self.rest);
    }

    fn value(&mut self) -> Value {
        if self.take("null") {
            Value::Null
        } else if self.take("true") {
            Value::Truth(true)
        } else if self.take("false") {
            Value::Truth(false)
        } else if self.take("[") {
            Value::List(self.parts("]", Reader::value))
        } else if self.take("{") {
            let members = self.parts("}", |reader| {
                let name = reader.quoted();
                reader.due(":");
                (name, reader.value())
            });
            for (place, (name, _)) in members.iter().enumerate() {
                let again = members[..place].iter().any(|(other, _)| other == name);
                assert!(!again, "{name} stands twice");
            }
            Value::Object(members)
        } else if self.rest.starts_with('"') {
            Value::Text(self.quoted())
        } else {
            self.number()
        }
    }

    fn parts<Part>(&mut self, end: &str, part: impl Fn(&mut Self) -> Part) -> Vec<Part> {
        let mut parts = Vec::new();
        if self.take(end) {
            return parts;
        }
        loop {
            parts.push(part(self));
            if self.take(end) {
                return parts;
            }
            self.due(",");
        }
    }

    /// Whole numbers without leading zeros.
    fn number(&mut self) -> Value {
        let digits = self.rest.strip_prefix('-').unwrap_or(self.rest);
        let length = digits.bytes().take_while(u8::is_ascii_digit).count();
        let (text, rest) = self.rest.split_at(self.rest.len() - digits.len() + length);
        assert!(length > 0, "a value is due before {:.40}", self.rest);
        assert!(length == 1 || !digits.starts_with('0'), "{text}");
        assert!(!rest.starts_with(['.', 'e', 'E']), "{text}");
        self.rest = rest;
        Value::Number(text.parse().unwrap())
    }

    fn quoted(&mut self) -> String {
        self.due("\"");
        let mut text = String::new();
        let mut signs = self.rest.chars();
        loop {
            match signs.next().expect("a text ends") {
                '"' => break,
                '\\' => text.push(escape(&mut signs)),
                sign => {
                    assert!(sign >= ' ', "a control sign stands bare");
                    text.push(sign);
                }
            }
        }
        self.rest = signs.as_str();
        text
    }
}

fn escape(signs: &mut std::str::Chars) -> char {
    match signs.next().expect("an escape ends") {
        'n' => '\n',
        'r' => '\r',
        't' => '\t',
        'b' => '\u{8}',
        'f' => '\u{C}',
        'u' => {
            let digits: String = signs.take(4).collect();
            let number = u32::from_str_radix(&digits, 16).expect("four digits");
            char::from_u32(number).expect("a character")
        }
        sign => {
            assert!("\"\\/".contains(sign), "an unknown escape: {sign}");
            sign
        }
    }
}
