//! Values as trees, and their words.

use crate::sheet::{LabelId, Sheet};
use crate::types::{Type, TypeId};

/// The most words a value may have.
pub const MOST_WORDS: usize = 16;

#[derive(Clone, Copy, Debug, PartialEq, Eq)]
pub enum Error {
    InsufficientAuth = 1,
    IllegalFlow = 2,
    TypeMismatch = 3,
}

#[derive(Clone, Debug, PartialEq, Eq)]
pub enum Value {
    Integer(u32),
    Error(Error),
    Left(Box<Value>),
    Right(Box<Value>),
    Package(LabelId, Box<Value>),
    Pair(Box<Value>, Box<Value>),
}

/// Why words aren't those of a value and zeros.
#[derive(Clone, Copy, Debug, PartialEq, Eq)]
pub enum BadWords {
    /// No value starts with this word.
    Start(u32),
    /// The words end before the value does.
    Cut,
    /// There is no such error.
    ErrorCode(u32),
    /// The label of a package isn't on the sheet.
    Label(u32),
    /// This word stands after the value.
    After(u32),
}

impl Value {
    /// The value that a location's words hold: what follows it must be zeros, and the labels of
    /// its packages must be among the first `labels`.
    pub fn decode(words: &[u32], labels: usize) -> Result<Value, BadWords> {
        let (value, rest) = Value::decode_start(words, labels)?;
        match rest.iter().find(|&&word| word != 0) {
            None => Ok(value),
            Some(&word) => Err(BadWords::After(word)),
        }
    }

    /// The value that words start with, and the words after it.
    fn decode_start(words: &[u32], labels: usize) -> Result<(Value, &[u32]), BadWords> {
        match *words {
            [1, n, ref rest @ ..] => Ok((Value::Integer(n), rest)),
            [2, 1, ref rest @ ..] => Ok((Value::Error(Error::InsufficientAuth), rest)),
            [2, 2, ref rest @ ..] => Ok((Value::Error(Error::IllegalFlow), rest)),
            [2, 3, ref rest @ ..] => Ok((Value::Error(Error::TypeMismatch), rest)),
            [2, code, ..] => Err(BadWords::ErrorCode(code)),
            [3, ref rest @ ..] => {
                let (value, rest) = Value::decode_start(rest, labels)?;
                Ok((Value::Left(Box::new(value)), rest))
            }
            [4, ref rest @ ..] => {
                let (value, rest) = Value::decode_start(rest, labels)?;
                Ok((Value::Right(Box::new(value)), rest))
            }
            [5, label, ..] if label as usize >= labels => Err(BadWords::Label(label)),
            [5, label, ref rest @ ..] => {
                let (value, rest) = Value::decode_start(rest, labels)?;
                Ok((Value::Package(label as usize, Box::new(value)), rest))
            }
            [6, ref rest @ ..] => {
                let (first, rest) = Value::decode_start(rest, labels)?;
                let (second, rest) = Value::decode_start(rest, labels)?;
                Ok((Value::Pair(Box::new(first), Box::new(second)), rest))
            }
            [] | [1 | 2 | 5] => Err(BadWords::Cut),
            [word, ..] => Err(BadWords::Start(word)),
        }
    }

    /// The words of the value, without zeros after it.
    pub fn words(&self) -> Vec<u32> {
        let after = |start: &[u32], value: &Value| [start, &value.words()].concat();
        match self {
            Value::Integer(n) => vec![1, *n],
            Value::Error(error) => vec![2, *error as u32],
            Value::Left(value) => after(&[3], value),
            Value::Right(value) => after(&[4], value),
            Value::Package(label, value) => after(&[5, *label as u32], value),
            Value::Pair(first, second) => [&[6], &first.words()[..], &second.words()].concat(),
        }
    }

    /// The number of words of the value.
    pub fn length(&self) -> usize {
        match self {
            Value::Integer(_) | Value::Error(_) => 2,
            Value::Left(value) | Value::Right(value) => 1 + value.length(),
            Value::Package(_, value) => 2 + value.length(),
            Value::Pair(first, second) => 1 + first.length() + second.length(),
        }
    }

    /// Whether the value has the type, both parts of a pair too. A package's content may be any
    /// value.
    pub fn has_type(&self, sheet: &Sheet, ty: TypeId) -> bool {
        match (self, sheet.types[ty]) {
            (Value::Integer(_), Type::Int) => true,
            (Value::Error(_), Type::Error) => true,
            (Value::Package(..), Type::Package) => true,
            (Value::Left(value), Type::Sum(left, _)) => value.has_type(sheet, left),
            (Value::Right(value), Type::Sum(_, right)) => value.has_type(sheet, right),
            (Value::Pair(v1, v2), Type::Pair(first, second)) => {
                v1.has_type(sheet, first) && v2.has_type(sheet, second)
            }
            _ => false,
        }
    }
}

/// The 16 words of a location whose value has these words.
pub fn padded(mut words: Vec<u32>) -> Vec<u32> {
    assert!(words.len() <= MOST_WORDS, "a location has 16 words");
    words.resize(MOST_WORDS, 0);
    words
}

#[cfg(test)]
mod tests {
    use super::{padded, BadWords, Error, Value};
    use crate::sheet_text;

    #[test]
    fn words_come_back() {
        let package =
            Value::Package(2, Box::new(Value::Right(Box::new(Value::Error(Error::TypeMismatch)))));
        let value = Value::Left(Box::new(package));
        assert_eq!(value.words(), [3, 5, 2, 4, 2, 3]);
        assert_eq!(value.length(), 6);
        assert_eq!(Value::decode(&padded(value.words()), 3), Ok(value.clone()));
        assert_eq!(Value::decode(&padded(value.words()), 2), Err(BadWords::Label(2)));
    }

    fn pair(first: Value, second: Value) -> Value {
        Value::Pair(Box::new(first), Box::new(second))
    }

    #[test]
    fn the_second_part_of_a_pair_follows_the_first() {
        let inner = pair(Value::Package(1, Box::new(Value::Integer(7))), Value::Integer(0));
        let value = pair(inner, Value::Left(Box::new(Value::Integer(9))));
        assert_eq!(value.words(), [6, 6, 5, 1, 1, 7, 1, 0, 3, 1, 9]);
        assert_eq!(value.length(), 11);
        assert_eq!(Value::decode(&padded(value.words()), 2), Ok(value.clone()));
        assert_eq!(Value::decode(&padded(value.words()), 1), Err(BadWords::Label(1)));
    }

    #[test]
    fn both_parts_of_a_pair_have_their_types() {
        let sheet = sheet_text::parse(b"P\t1\nQ\t0\t2\nQ\t5\t1\nL\n").expect("a sheet");
        let package = Value::Package(0, Box::new(pair(Value::Integer(1), Value::Integer(2))));
        let error = || Value::Error(Error::IllegalFlow);
        let inner = |second| pair(Value::Integer(3), second);
        assert!(pair(inner(package.clone()), error()).has_type(&sheet, 6));
        assert!(!pair(inner(package.clone()), Value::Integer(2)).has_type(&sheet, 6));
        assert!(!pair(inner(Value::Integer(2)), error()).has_type(&sheet, 6));
        assert!(!inner(package.clone()).has_type(&sheet, 6));
        assert!(!inner(package).has_type(&sheet, 3));
        assert!(!Value::Left(Box::new(Value::Integer(3))).has_type(&sheet, 5));
    }

    #[test]
    fn what_is_no_value() {
        let wrong: [(&[u32], BadWords); 13] = [
            (&[], BadWords::Start(0)),
            (&[2, 0], BadWords::ErrorCode(0)),
            (&[2, 4], BadWords::ErrorCode(4)),
            (&[7, 1], BadWords::Start(7)),
            (&[3], BadWords::Start(0)),
            (&[5, 0], BadWords::Start(0)),
            (&[5, 1, 1, 7], BadWords::Label(1)),
            (&[1, 0, 1], BadWords::After(1)),
            (&[6], BadWords::Start(0)),
            (&[6, 1, 7], BadWords::Start(0)),
            (&[6, 1, 7, 2, 4], BadWords::ErrorCode(4)),
            (&[6, 1, 7, 5, 1, 1, 7], BadWords::Label(1)),
            (&[6, 1, 7, 1, 8, 1, 9], BadWords::After(1)),
        ];
        for (start, why) in wrong {
            assert_eq!(Value::decode(&padded(start.to_vec()), 1), Err(why), "{start:?}");
        }
        // sixteen lefts leave no room for an integer, fifteen for half of one
        assert_eq!(Value::decode(&[3; 16], 1), Err(BadWords::Cut));
        let mut full = vec![3; 15];
        full.push(1);
        assert_eq!(Value::decode(&full, 1), Err(BadWords::Cut));
        full[14..].copy_from_slice(&[1, 9]);
        assert!(Value::decode(&full, 1).is_ok());
        // four pairs of five integers, the last of them under two lefts; with three it is cut
        let pairs = [6, 6, 6, 6, 1, 1, 1, 2, 1, 3, 1, 4, 3, 3, 1, 5];
        assert_eq!(Value::decode(&pairs, 1).map(|value| value.length()), Ok(16));
        let cut = [6, 6, 6, 6, 1, 1, 1, 2, 1, 3, 1, 4, 3, 3, 3, 1];
        assert_eq!(Value::decode(&cut, 1), Err(BadWords::Cut));
    }
}
