//! A memory or a view as text.

use crate::sheet_text::MOST_LOCATIONS;
use crate::text::{fields, lines, number, Cause, Counted, Fault};
use crate::value::{padded, MOST_WORDS};

/// The words of a text with one line for each of `locations` locations.
pub fn parse(text: &[u8], locations: usize) -> Result<Vec<u32>, Fault> {
    let words = parse_any(text)?;
    let found = words.len() / MOST_WORDS;
    if found == locations {
        Ok(words)
    } else {
        // the first line that is too many, or the last that is there
        let line = if found > locations { locations + 1 } else { found.max(1) };
        Err(Cause::Locations { found, wanted: locations }.at(line))
    }
}

/// The words of a text with as many lines as some sheet has locations.
pub fn parse_any(text: &[u8]) -> Result<Vec<u32>, Fault> {
    let lines = lines(text)?;
    if lines.len() > MOST_LOCATIONS {
        let cause = Cause::TooMany { what: Counted::MemoryLines, most: MOST_LOCATIONS };
        return Err(cause.at(MOST_LOCATIONS + 1));
    }
    let mut words = Vec::new();
    for (before, line) in lines.into_iter().enumerate() {
        words.extend(padded(parse_line(line).map_err(|cause| cause.at(before + 1))?));
    }
    Ok(words)
}

/// The words of one line. An empty line has none.
fn parse_line(line: &[u8]) -> Result<Vec<u32>, Cause> {
    if line.is_empty() {
        return Ok(Vec::new());
    }
    let words = fields(line).into_iter().map(number).collect::<Result<Vec<u32>, Cause>>()?;
    if words.len() > MOST_WORDS {
        Err(Cause::TooMany { what: Counted::Words, most: MOST_WORDS })
    } else if words.last() == Some(&0) {
        Err(Cause::EndingZero)
    } else {
        Ok(words)
    }
}

/// One line a location, words in decimal, zeros at the end dropped.
pub fn print(words: &[u32]) -> Vec<u8> {
    let mut text = String::new();
    for location in words.chunks(MOST_WORDS) {
        let shown = location.iter().rposition(|&word| word != 0).map_or(0, |last| last + 1);
        let line: Vec<String> = location[..shown].iter().map(u32::to_string).collect();
        text.push_str(&line.join("\t"));
        text.push('\n');
    }
    text.into_bytes()
}

#[cfg(test)]
mod tests {
    use super::{parse, parse_any, print};
    use crate::text::{Cause, Counted};

    #[test]
    fn a_text_comes_back() {
        let text = b"1\t5\n\n1\n3\t5\t2\n";
        let words = parse(text, 4).unwrap();
        assert_eq!(words.len(), 64);
        assert_eq!(words[32..34], [1, 0]);
        assert_eq!(print(&words), text);
    }

    #[test]
    fn a_zero_inside_a_pair_stays_and_one_at_its_end_is_dropped() {
        let text = b"6\t1\t0\t1\n6\t5\t1\t0\t1\t9\n";
        let words = parse(text, 2).unwrap();
        assert_eq!(words[..5], [6, 1, 0, 1, 0]);
        assert_eq!(words[16..22], [6, 5, 1, 0, 1, 9]);
        assert_eq!(print(&words), text);
    }

    #[test]
    fn what_is_no_memory_text() {
        let cause = |text: &[u8], locations| parse(text, locations).unwrap_err().cause;
        let many = |what, most| Cause::TooMany { what, most };
        let lines = |found, wanted| Cause::Locations { found, wanted };
        let number = |field: &[u8]| Cause::Number(field.to_vec());
        assert_eq!(cause(b"1\t0\n", 1), Cause::EndingZero);
        assert_eq!(cause(b"0\n", 1), Cause::EndingZero);
        assert_eq!(parse(b"1\n", 2), Err(lines(1, 2).at(1)));
        assert_eq!(parse(b"1\n1\n", 1), Err(lines(2, 1).at(2)));
        assert_eq!(cause(b"", 1), lines(0, 1));
        assert_eq!(parse(b"1\n1\t4294967296\n", 2), Err(number(b"4294967296").at(2)));
        assert_eq!(cause(b"1\t\n", 1), Cause::LooseTab);
        assert_eq!(cause(b"1\t\t5\n", 1), Cause::LooseTab);
        assert_eq!(cause(b"1", 1), Cause::UnendedLine);
        assert_eq!(parse(b"1\t1\t1\t1\t1\t1\t1\t1\t1\t1\t1\t1\t1\t1\t1\t1\n", 1), Ok(vec![1; 16]));
        let seventeen = b"1\t1\t1\t1\t1\t1\t1\t1\t1\t1\t1\t1\t1\t1\t1\t1\t1\n";
        assert_eq!(cause(seventeen, 1), many(Counted::Words, 16));
    }

    #[test]
    fn a_text_has_a_line_for_each_location_of_some_sheet() {
        assert_eq!(parse_any(b""), Ok(vec![]));
        assert_eq!(parse_any(&b"1\n".repeat(64)).map(|words| words.len()), Ok(1024));
        let many = Cause::TooMany { what: Counted::MemoryLines, most: 64 };
        assert_eq!(parse_any(&b"1\n".repeat(65)), Err(many.at(65)));
    }
}
