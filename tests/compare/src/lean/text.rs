//! A text that is read field by field.

const MOST_BYTES: usize = 16_384;

/// What is left of a text.
pub struct Reader<'a> {
    rest: &'a [u8],
}

impl<'a> Reader<'a> {
    /// A text that is too long has no reader.
    pub fn new(text: &'a [u8]) -> Option<Reader<'a>> {
        (text.len() <= MOST_BYTES).then_some(Reader { rest: text })
    }

    pub fn is_at_end(&self) -> bool {
        self.rest.is_empty()
    }

    /// The next byte.
    pub fn byte(&mut self) -> Option<u8> {
        let (first, rest) = self.rest.split_first()?;
        self.rest = rest;
        Some(*first)
    }

    /// Reads the next byte if it is this one.
    pub fn take(&mut self, byte: u8) -> bool {
        let found = self.rest.first() == Some(&byte);
        if found {
            self.rest = &self.rest[1..];
        }
        found
    }

    fn expect(&mut self, byte: u8) -> Option<()> {
        self.take(byte).then_some(())
    }

    pub fn end_of_line(&mut self) -> Option<()> {
        self.expect(b'\n')
    }

    /// The next byte if it is a decimal digit.
    fn digit(&mut self) -> Option<u32> {
        let digit = self.rest.first()?.wrapping_sub(b'0');
        if digit > 9 {
            return None;
        }
        self.rest = &self.rest[1..];
        Some(u32::from(digit))
    }

    /// A field with a number. What follows a zero is no part of it.
    pub fn number(&mut self) -> Option<u32> {
        self.expect(b'\t')?;
        let mut number = self.digit()?;
        if number > 0 {
            while let Some(digit) = self.digit() {
                number = number.checked_mul(10)?.checked_add(digit)?;
            }
        }
        Some(number)
    }

    /// A field with a number that names one of `count` things, at most 256.
    pub fn name(&mut self, count: usize) -> Option<u8> {
        let number = self.number()?;
        if (number as usize) < count {
            u8::try_from(number).ok()
        } else {
            None
        }
    }

    /// A field with a set.
    pub fn set(&mut self) -> Option<u16> {
        let ([b'\t', digits @ ..], rest) = self.rest.split_first_chunk::<5>()? else {
            return None;
        };
        let mut set = 0;
        for &byte in digits {
            let digit = match byte {
                b'0'..=b'9' => byte - b'0',
                b'a'..=b'f' => byte - b'a' + 10,
                _ => return None,
            };
            set = set << 4 | u16::from(digit);
        }
        self.rest = rest;
        Some(set)
    }
}
