//! Files that are read, and their names.

use crate::status::{Status, Stop};
use crate::streams::{cause, Streams};
use std::ffi::OsStr;
use std::fs::{self, File};
use std::io::{self, Read};
use std::os::unix::fs::FileTypeExt;
use std::path::Path;

/// The most bytes that are read of a file. A text of more than 16,384 is refused, so the rest of a
/// longer one changes nothing; 32 scripts of a round have fewer together.
const MOST_READ: u64 = 1 << 20;

/// A text, or the start of a long one.
#[derive(Clone, Debug, Default, PartialEq, Eq)]
pub struct Text {
    pub bytes: Vec<u8>,
    /// The bytes of the whole, where the system knows them, else those that were read.
    pub length: usize,
}

impl Text {
    /// Whether only the start was read.
    pub fn is_cut(&self) -> bool {
        self.bytes.len() as u64 == MOST_READ
    }
}

/// Whether a name stands for standard input.
pub fn is_input(name: &OsStr) -> bool {
    name == "-"
}

/// A file's name as it was given, as far as it is UTF-8.
pub fn name(name: &OsStr) -> String {
    name.to_string_lossy().into_owned()
}

/// A file's name as it is printed: on one line, whatever its bytes.
pub fn shown(name: &OsStr) -> String {
    if is_input(name) {
        "standard input".to_string()
    } else {
        printable(&name.to_string_lossy())
    }
}

/// A text on one line, without what could steer a terminal.
pub fn printable(text: &str) -> String {
    let mut printable = String::with_capacity(text.len());
    for c in text.chars() {
        if c.is_control() {
            printable.extend(c.escape_default());
        } else {
            printable.push(c);
        }
    }
    printable
}

/// Reads a file, or standard input for `-`.
pub fn read(name: &OsStr, streams: &mut Streams) -> io::Result<Text> {
    if is_input(name) {
        return read_start(&mut streams.input, 0);
    }
    let kind = fs::metadata(name)?.file_type();
    // those that the system names have a writer: a shell's `<(..)`, standard input
    let of_system = ["/dev/", "/proc/"].iter().any(|start| Path::new(name).starts_with(start));
    if kind.is_fifo() && !of_system {
        // opening it would wait for a writer
        return Err(io::Error::other("it is a pipe: name it `-` and give it on standard input"));
    }
    let mut file = File::open(name)?;
    let length = file.metadata()?.len();
    read_start(&mut file, length)
}

fn read_start(source: &mut dyn Read, length: u64) -> io::Result<Text> {
    let mut bytes = Vec::new();
    source.take(MOST_READ).read_to_end(&mut bytes)?;
    let length = usize::try_from(length).unwrap_or(usize::MAX).max(bytes.len());
    Ok(Text { bytes, length })
}

/// Reads several files. Each that can't be read is told of.
pub fn read_all<const N: usize>(
    names: [&OsStr; N],
    streams: &mut Streams,
) -> Result<[Text; N], Stop> {
    let mut errors = Vec::new();
    let texts = names.map(|name| {
        read(name, streams).unwrap_or_else(|error| {
            errors.push(unread(name, &error));
            Text::default()
        })
    });
    if errors.is_empty() {
        Ok(texts)
    } else {
        Err(Stop::new(Status::Files, errors.join("\n")))
    }
}

/// That a file can't be read, for standard error.
pub fn unread(name: &OsStr, error: &io::Error) -> String {
    format!("simp: {}: {}", shown(name), cause(error))
}

#[cfg(test)]
mod tests {
    use super::{printable, read_start, shown, Text};
    use std::ffi::OsStr;
    use std::io;
    use std::os::unix::ffi::OsStrExt;

    #[test]
    fn names_stay_on_their_line() {
        assert_eq!(shown(OsStr::new("-")), "standard input");
        assert_eq!(shown(OsStr::new("./-")), "./-");
        assert_eq!(shown(OsStr::from_bytes(b"a\nb\xff")), "a\\nb\u{fffd}");
        assert_eq!(printable("Güte\x1b[31m"), "Güte\\u{1b}[31m");
    }

    #[test]
    fn a_long_text_is_read_in_part() {
        let text = read_start(&mut &b"s\n"[..], 2).unwrap();
        assert_eq!(text, Text { bytes: b"s\n".to_vec(), length: 2 });
        let endless = read_start(&mut io::repeat(b's'), 0).unwrap();
        assert_eq!((endless.bytes.len(), endless.length), (1 << 20, 1 << 20));
        let long = read_start(&mut io::repeat(b's'), 1 << 30).unwrap();
        assert_eq!((long.bytes.len(), long.length), (1 << 20, 1 << 30));
    }
}
