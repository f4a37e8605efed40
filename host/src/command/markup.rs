//! Text inside XML and HTML.

/// The text as it may stand between tags and in attributes; control signs are shown as such.
pub fn escaped(text: &str) -> String {
    text.chars().map(sign).collect()
}

/// The same for several lines, whose ends and tabs stay.
pub fn escaped_lines(text: &str) -> String {
    let kept = |character| matches!(character, '\n' | '\t');
    let one = |character| match kept(character) {
        true => character.to_string(),
        false => sign(character),
    };
    text.replace("\r\n", "\n").chars().map(one).collect()
}

fn sign(character: char) -> String {
    match character {
        '&' => "&amp;".to_string(),
        '<' => "&lt;".to_string(),
        '>' => "&gt;".to_string(),
        '"' => "&quot;".to_string(),
        _ if character.is_control() => "\u{FFFD}".to_string(),
        _ => character.to_string(),
    }
}

/// The text as it may stand in an address: every byte but letters, digits and a few signs as `%` and two digits.
pub fn percent_encoded(text: &str) -> String {
    let byte = |byte: u8| match byte {
        b'0'..=b'9' | b'A'..=b'Z' | b'a'..=b'z' | b'-' | b'.' | b'_' => {
            char::from(byte).to_string()
        }
        _ => format!("%{byte:02X}"),
    };
    text.bytes().map(byte).collect()
}
