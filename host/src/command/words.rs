//! Words for document 01's numbers, and numbers and lists as a reader likes them.

use crate::numbers::{refusal, verdict};

/// A verdict's name.
pub fn verdict_name(number: u8) -> &'static str {
    match number {
        verdict::CHEAPEST => "cheapest",
        verdict::NO_PLAN => "no plan",
        verdict::WIDTH_STOP => "width stop",
        verdict::LENGTH_STOP => "length stop",
        verdict::BUDGET_SPENT => "budget spent",
        verdict::CONTRADICTED => "contradicted",
        _ => "unknown",
    }
}

/// A refusal's name.
pub fn refusal_name(number: u8) -> &'static str {
    match number {
        refusal::MODEL_TOO_LONG => "model too long",
        refusal::BAD_SETTING => "setting out of range",
        refusal::TOO_LITTLE_LENT => "too little lent",
        refusal::ENDS_EARLY => "bytes end early",
        refusal::NOT_DUE => "a byte that begins nothing due here",
        refusal::MISMATCH => "wrong kind, undeclared name or counts that do not fit",
        refusal::OFF_LIMITS => "outside its limits",
        refusal::TOO_DEEP => "nested too deep",
        refusal::BYTES_AFTER_END => "bytes after the end command",
        refusal::OUT_OF_RANGE => "number out of range",
        refusal::DIVISOR_ZERO => "quotient by zero",
        refusal::NEGATIVE_COST => "negative cost",
        refusal::NOT_A_PLAN => "not a plan",
        refusal::OUTSIDE_PROFILE => "outside the loading profile",
        refusal::BAD_WIDTHS => "bad widths",
        refusal::HIGH_BELOW_LOW => "high cost below low cost",
        _ => "unknown",
    }
}

/// The sentence with a capital letter at its front.
pub fn capital(sentence: &str) -> String {
    let (first, rest) = sentence.split_at(1);
    format!("{}{rest}", first.to_uppercase())
}

/// A number with commas between its thousands.
pub fn grouped(number: u64) -> String {
    let digits = number.to_string();
    let mut text = String::new();
    for (place, digit) in digits.chars().enumerate() {
        if place > 0 && (digits.len() - place).is_multiple_of(3) {
            text.push(',');
        }
        text.push(digit);
    }
    text
}

/// The same with its sign, if it is negative.
pub fn signed(number: i64) -> String {
    let sign = if number < 0 { "-" } else { "" };
    format!("{sign}{}", grouped(number.unsigned_abs()))
}

/// Such as `6 to 15`; of two that are the same, the one.
pub fn range(low: u64, high: u64) -> String {
    match low == high {
        true => grouped(high),
        false => format!("{} to {}", grouped(low), grouped(high)),
    }
}

/// Such as `1 step` and `1,000 steps`.
pub fn counted(number: u64, what: &str) -> String {
    let ending = if number == 1 { "" } else { "s" };
    format!("{} {what}{ending}", grouped(number))
}

/// The bytes in decimal, with a blank between two.
pub fn spaced(bytes: &[u8]) -> String {
    let numbers: Vec<String> = bytes.iter().map(u8::to_string).collect();
    numbers.join(" ")
}
