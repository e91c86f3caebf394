//! Lines, fields, numbers and sets, shared by the three texts.

use crate::principals::Principals;

/// The most bytes a text may have.
pub const MOST_BYTES: usize = 16_384;

/// Why a text isn't of its form: the line, counted from 1, and what is wrong there.
#[derive(Clone, Debug, PartialEq, Eq)]
pub struct Fault {
    pub line: usize,
    pub cause: Cause,
}

#[derive(Clone, Debug, PartialEq, Eq)]
pub enum Cause {
    /// The text has more than 16,384 bytes: so many.
    TextLength(usize),
    /// The text starts with a mark of its encoding.
    ByteOrderMark,
    /// The line ends in byte 13.
    CarriageReturn,
    /// The line has a byte 0.
    ZeroByte,
    /// The line is a comment.
    Comment,
    /// A blank stands where only a tab parts fields.
    Blank,
    /// A tab stands where no field comes before or after it.
    LooseTab,
    /// The last line doesn't end in byte 10.
    UnendedLine,
    /// The line is empty, in a sheet or a script.
    EmptyLine,
    /// The first field, given here, can't stand here.
    LineKind { found: Vec<u8>, expected: Expected },
    /// A line has too few or too many fields after its first.
    FieldCount { kind: Vec<u8>, wanted: usize, found: usize },
    /// A field isn't a number, has a needless zero, or is above 4294967295.
    Number(Vec<u8>),
    /// The same of the integer of an `i` line.
    Integer(Vec<u8>),
    /// A field isn't exactly four lowercase hexadecimal digits.
    Set(Vec<u8>),
    /// The number of principals isn't 1 to 16.
    PrincipalCount(usize),
    /// The field of an `R` line, given here, isn't `1`.
    ReadingRule { found: Vec<u8> },
    /// An owner doesn't come after the one before it.
    OwnerOrder { owner: usize, before: usize },
    /// There are more of these than the form has.
    TooMany { what: Counted, most: usize },
    /// The number names nothing: there are only `count`.
    Missing { thing: Thing, number: usize, count: usize },
    /// A sheet or a script has no line.
    NoLines,
    /// The script ends before an operand of this line.
    Ends(Operand),
    /// The command has ended, in the line before this one.
    LeftOver,
    /// The script has an opening and no command after it.
    NoCommand,
    /// A `b` line isn't where a script opens: the script has one already (`again`) or not, and its
    /// command has ended in the line before this one (`ended`) or not.
    LateStart { again: bool, ended: bool },
    /// Cases nest more than 8 deep.
    CaseDepth,
    /// A memory line ends in a zero word.
    EndingZero,
    /// A memory has other lines than one for each location.
    Locations { found: usize, wanted: usize },
}

/// What may stand where a line of another kind was found.
#[derive(Clone, Debug, PartialEq, Eq)]
pub enum Expected {
    /// One of these kinds of line of a sheet.
    Sheet(&'static [&'static str]),
    /// The command that a script is.
    Script,
    /// An operand.
    Operand(Operand),
}

/// An operand of a line, by its place from 0.
#[derive(Clone, Copy, Debug, PartialEq, Eq)]
pub struct Operand {
    /// The line that it belongs to, and that line's kind.
    pub line: usize,
    pub kind: &'static str,
    pub place: usize,
    pub sort: Sort,
}

/// What an operand is.
#[derive(Clone, Copy, Debug, PartialEq, Eq)]
pub enum Sort {
    Command,
    Expression,
}

/// What a text has a limited number of.
#[derive(Clone, Copy, Debug, PartialEq, Eq)]
pub enum Counted {
    /// Lines that make types, `T` and `Q` together.
    TypeLines,
    Labels,
    Locations,
    ScriptLines,
    MemoryLines,
    Words,
}

/// What a text can name.
#[derive(Clone, Copy, Debug, PartialEq, Eq)]
pub enum Thing {
    Principal,
    Type,
    /// A type before the one that a `T` or `Q` line makes.
    EarlierType,
    Label,
    Location,
    Binding,
}

impl Cause {
    pub fn at(self, line: usize) -> Fault {
        Fault { line, cause: self }
    }
}

/// The lines of a text, without their byte 10.
pub fn lines(text: &[u8]) -> Result<Vec<&[u8]>, Fault> {
    let marks: [&[u8]; 3] = [b"\xef\xbb\xbf", b"\xff\xfe", b"\xfe\xff"];
    if marks.iter().any(|mark| text.starts_with(mark)) {
        return Err(Cause::ByteOrderMark.at(1));
    }
    if text.len() > MOST_BYTES {
        let line = 1 + text[..MOST_BYTES].iter().filter(|&&byte| byte == b'\n').count();
        return Err(Cause::TextLength(text.len()).at(line));
    }
    let (lines, ended) = match text.split_last() {
        None => return Ok(Vec::new()),
        Some((b'\n', body)) => (body, true),
        Some(_) => (text, false),
    };
    let lines: Vec<&[u8]> = lines.split(|&byte| byte == b'\n').collect();
    for (before, line) in lines.iter().enumerate() {
        if let Some(cause) = stray(line) {
            return Err(cause.at(before + 1));
        }
    }
    if ended {
        Ok(lines)
    } else {
        Err(Cause::UnendedLine.at(lines.len()))
    }
}

/// What no line of any text has.
fn stray(line: &[u8]) -> Option<Cause> {
    let comments: [&[u8]; 3] = [b"#", b"//", b"--"];
    if line.ends_with(b"\r") {
        Some(Cause::CarriageReturn)
    } else if line.contains(&0) {
        Some(Cause::ZeroByte)
    } else if comments.iter().any(|comment| line.starts_with(comment)) {
        Some(Cause::Comment)
    } else if line.contains(&b' ') {
        Some(Cause::Blank)
    } else if line.contains(&b'\t') && fields(line).contains(&&b""[..]) {
        Some(Cause::LooseTab)
    } else {
        None
    }
}

/// The fields of a line, parted by one tab each.
pub fn fields(line: &[u8]) -> Vec<&[u8]> {
    line.split(|&byte| byte == b'\t').collect()
}

/// A decimal number without needless zeros, up to 4294967295.
pub fn number(field: &[u8]) -> Result<u32, Cause> {
    let wrong = || Cause::Number(field.to_vec());
    let plain = !field.is_empty() && field.iter().all(u8::is_ascii_digit);
    let needless = field.len() > 1 && field[0] == b'0';
    if !plain || needless {
        return Err(wrong());
    }
    let digits = std::str::from_utf8(field).map_err(|_| wrong())?;
    digits.parse().map_err(|_| wrong())
}

/// A number that names one of `count` things.
pub fn name(field: &[u8], count: usize, thing: Thing) -> Result<usize, Cause> {
    let number = number(field)? as usize;
    if number < count {
        Ok(number)
    } else {
        Err(Cause::Missing { thing, number, count })
    }
}

/// Exactly four lowercase hexadecimal digits.
pub fn set_bits(field: &[u8]) -> Result<u16, Cause> {
    let wrong = || Cause::Set(field.to_vec());
    if field.len() != 4 {
        return Err(wrong());
    }
    let mut bits = 0;
    for &byte in field {
        let digit = match byte {
            b'0'..=b'9' => byte - b'0',
            b'a'..=b'f' => byte - b'a' + 10,
            _ => return Err(wrong()),
        };
        bits = bits * 16 + u16::from(digit);
    }
    Ok(bits)
}

/// A set of some of the principals 0 to n-1.
pub fn set(field: &[u8], n: usize) -> Result<Principals, Cause> {
    let set = Principals::from_bits(set_bits(field)?);
    match set.members().find(|&member| member >= n) {
        None => Ok(set),
        Some(number) => Err(Cause::Missing { thing: Thing::Principal, number, count: n }),
    }
}

#[cfg(test)]
mod tests {
    use super::*;

    #[test]
    fn lines_end_in_byte_ten() {
        assert_eq!(lines(b""), Ok(vec![]));
        assert_eq!(lines(b"\n"), Ok(vec![&b""[..]]));
        assert_eq!(lines(b"a\n\nb\n"), Ok(vec![&b"a"[..], b"", b"b"]));
        assert_eq!(lines(b"a\nb"), Err(Cause::UnendedLine.at(2)));
    }

    #[test]
    fn bytes_that_no_text_has_are_found_first() {
        assert_eq!(lines(b"a\nb\r\nc d"), Err(Cause::CarriageReturn.at(2)));
        assert_eq!(lines(b"a\nb c\r\n"), Err(Cause::CarriageReturn.at(2)));
        assert_eq!(lines(b"a\tb\nb c"), Err(Cause::Blank.at(2)));
        assert_eq!(lines(b"a\tb\n\n# b c\n"), Err(Cause::Comment.at(3)));
        for line in [&b"a\t"[..], b"\ta", b"a\t\tb", b"\t"] {
            assert_eq!(lines(&[line, b"\n"].concat()), Err(Cause::LooseTab.at(1)), "{line:?}");
        }
        assert_eq!(lines(b"\xef\xbb\xbfs\r\n"), Err(Cause::ByteOrderMark.at(1)));
        assert_eq!(lines(b"\xff\xfes\0\n\0"), Err(Cause::ByteOrderMark.at(1)));
        assert_eq!(lines(b"s\0\n\0"), Err(Cause::ZeroByte.at(1)));
    }

    #[test]
    fn a_text_has_at_most_16384_bytes() {
        assert_eq!(lines(&[b'\n'; 16_384]).map(|lines| lines.len()), Ok(16_384));
        assert_eq!(lines(&[b'\n'; 16_385]), Err(Cause::TextLength(16_385).at(16_385)));
    }

    #[test]
    fn numbers_have_no_needless_zeros() {
        assert_eq!(number(b"0"), Ok(0));
        assert_eq!(number(b"4294967295"), Ok(u32::MAX));
        let wrong = [
            &b""[..],
            b"00",
            b"01",
            b"4294967296",
            b"99999999999",
            b"+1",
            b"-1",
            b" 1",
            b"1\r",
            b"a",
        ];
        for field in wrong {
            assert_eq!(number(field), Err(Cause::Number(field.to_vec())), "{field:?}");
        }
    }

    #[test]
    fn sets_are_four_lowercase_digits() {
        assert_eq!(set_bits(b"0af9"), Ok(0x0af9));
        for field in [&b""[..], b"0", b"00000", b"00A0", b"000g", b"0x01", b"+001", b"000 "] {
            assert_eq!(set_bits(field), Err(Cause::Set(field.to_vec())), "{field:?}");
        }
        let missing = Cause::Missing { thing: Thing::Principal, number: 3, count: 3 };
        assert_eq!(set(b"0008", 3), Err(missing));
        assert_eq!(set(b"0004", 3), Ok(Principals::only(2)));
    }
}
