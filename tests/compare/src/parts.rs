//! Several texts in one input, and the texts that are one field.

use reference::text;

/// The texts that the first empty lines of an input part. A missing one is empty; the last has all
/// that is left.
pub fn parts<const COUNT: usize>(input: &[u8]) -> [&[u8]; COUNT] {
    let mut texts = [&input[..0]; COUNT];
    let (last, others) = texts.split_last_mut().expect("an input has a text");
    *last = input;
    for text in others {
        (*text, *last) = part(last);
    }
    texts
}

/// The bytes before and after the first empty line. Without one, nothing comes after.
fn part(input: &[u8]) -> (&[u8], &[u8]) {
    let starts_line = |i: usize| i == 0 || input[i - 1] == b'\n';
    match (0..input.len()).find(|&i| input[i] == b'\n' && starts_line(i)) {
        Some(i) => (&input[..i], &input[i + 1..]),
        None => (input, &[]),
    }
}

/// A group: four digits and byte 10.
pub fn set(text: &[u8]) -> Option<u16> {
    text::set_bits(text.strip_suffix(b"\n")?).ok()
}

#[cfg(test)]
mod tests {
    use super::{part, parts, set};

    #[test]
    fn the_first_empty_line_parts() {
        let cases: [(&[u8], &[u8], &[u8]); 6] = [
            (b"", b"", b""),
            (b"a\nb\n", b"a\nb\n", b""),
            (b"a\n\nb\n", b"a\n", b"b\n"),
            (b"\nb\n", b"", b"b\n"),
            (b"a\n\n\nb\n", b"a\n", b"\nb\n"),
            (b"a\n\n", b"a\n", b""),
        ];
        for (input, before, after) in cases {
            assert_eq!(part(input), (before, after), "{input:?}");
        }
    }

    #[test]
    fn the_last_text_has_all_that_is_left() {
        assert_eq!(parts(b"a\n\nb\n\nc\n\nd\n"), [&b"a\n"[..], b"b\n", b"c\n\nd\n"]);
        assert_eq!(parts(b"a\n\nb\n"), [&b"a\n"[..], b"b\n", b""]);
        assert_eq!(parts(b"\n\n\n"), [&b""[..], b"", b"\n"]);
        assert_eq!(parts(b"a\n\n"), [b"a\n\n"]);
    }

    #[test]
    fn texts_of_one_field_end_in_byte_ten() {
        assert_eq!(set(b"00a1\n"), Some(0xa1));
        for text in [&b""[..], b"0001", b"0001\n\n", b"001\n", b"0001\t\n", b"\n", b"0001\r\n"] {
            assert_eq!(set(text), None, "{text:?}");
        }
    }
}
