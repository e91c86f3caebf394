//! The parting of several scripts in one text.

/// A script of a round: its text, and the line of the whole text at which it starts, counted from 1.
#[derive(Clone, Copy, Debug, PartialEq, Eq)]
pub struct Part<'a> {
    pub first_line: usize,
    pub text: &'a [u8],
}

/// The scripts of a text. Every empty line parts two, so there is one script more than there are
/// empty lines; a text of no bytes is one empty script.
pub fn parts(text: &[u8]) -> Vec<Part<'_>> {
    let (mut parts, mut first_line, mut start, mut at) = (Vec::new(), 1, 0, 0);
    for (before, line) in text.split_inclusive(|&byte| byte == b'\n').enumerate() {
        if line == b"\n" {
            parts.push(Part { first_line, text: &text[start..at] });
            (first_line, start) = (before + 2, at + 1);
        }
        at += line.len();
    }
    parts.push(Part { first_line, text: &text[start..] });
    parts
}

#[cfg(test)]
mod tests {
    use super::parts;

    /// A text, and the first line and the text of each part.
    type Row<'a> = (&'a [u8], &'a [(usize, &'a [u8])]);

    #[test]
    fn every_empty_line_parts() {
        let table: &[Row] = &[
            (b"", &[(1, b"")]),
            (b"s", &[(1, b"s")]),
            (b"s\n", &[(1, b"s\n")]),
            (b"\n", &[(1, b""), (2, b"")]),
            (b"\n\n", &[(1, b""), (2, b""), (3, b"")]),
            (b"\ns\n", &[(1, b""), (2, b"s\n")]),
            (b"s\n\n", &[(1, b"s\n"), (3, b"")]),
            (b"a\nb\n\nc\n\nd", &[(1, b"a\nb\n"), (4, b"c\n"), (6, b"d")]),
            (b"a\n\n\nb\n", &[(1, b"a\n"), (3, b""), (4, b"b\n")]),
        ];
        for (text, expected) in table {
            let found = parts(text);
            let found: Vec<(usize, &[u8])> = found.iter().map(|p| (p.first_line, p.text)).collect();
            assert_eq!(found, *expected, "{}", text.escape_ascii());
        }
    }

    #[test]
    fn a_line_with_a_byte_does_not_part() {
        for text in [&b"a\n\t\nb\n"[..], b"a\n \nb\n", b"a\n\r\nb\n", b"a\n\0\nb\n"] {
            assert_eq!(parts(text).len(), 1, "{}", text.escape_ascii());
        }
    }

    #[test]
    fn empty_lines_put_the_parts_together_again() {
        for text in [&b""[..], b"\n", b"a", b"a\n\n\nb\n\n", b"\n\na\nb\n\nc"] {
            let texts: Vec<&[u8]> = parts(text).iter().map(|part| part.text).collect();
            assert_eq!(texts.join(&b'\n'), text, "{}", text.escape_ascii());
        }
    }
}
