//! Fields that aren't the number that is due.

use super::text::{shown, Text};
use super::{told, Told};

const NUMBERS: &str = "numbers are decimal, 0 to 4294967295, without needless zeros";

/// What was written where a number is due.
pub fn number(field: &[u8], text: Text) -> Told {
    let (fact, advice) = match Written::of(field) {
        Written::Negative => ("is negative", "write a number from 0 on".to_string()),
        Written::Padded(plain) => ("has a needless zero", format!("write {}", shown(plain))),
        Written::Large if text == Text::Memory => {
            ("is too large", "write a number up to 4294967295".to_string())
        }
        Written::Large => ("is too large", "write a smaller number".to_string()),
        Written::Other => (
            "isn't a number",
            "write its number in digits: names stand in a names file".to_string(),
        ),
    };
    told(format!("{} {fact}", shown(field)), advice, NUMBERS)
}

/// What was written as the integer of an `i` line.
pub fn integer(field: &[u8]) -> Told {
    let digits = || std::str::from_utf8(&field[1..]).ok().and_then(|digits| digits.parse().ok());
    let less = match Written::of(field) {
        Written::Negative => digits().map(|less: u32| less.wrapping_neg()),
        _ => None,
    };
    match less {
        None => number(field, Text::Memory),
        Some(word) => told(
            format!("{} is negative", shown(field)),
            format!("write {word}, which takes as much away: sums are modulo 4294967296"),
            NUMBERS,
        ),
    }
}

/// What a field that isn't a number looks like.
enum Written<'a> {
    Negative,
    /// With zeros in front, which the rest has none of.
    Padded(&'a [u8]),
    Large,
    Other,
}

impl Written<'_> {
    fn of(field: &[u8]) -> Written<'_> {
        let digits = field.strip_prefix(b"-").unwrap_or(field);
        let zeros = digits.iter().take_while(|&&digit| digit == b'0').count();
        if digits.is_empty() || !digits.iter().all(u8::is_ascii_digit) {
            Written::Other
        } else if digits.len() < field.len() {
            Written::Negative
        } else if zeros > 0 {
            Written::Padded(&digits[zeros.min(digits.len() - 1)..])
        } else {
            Written::Large
        }
    }
}
