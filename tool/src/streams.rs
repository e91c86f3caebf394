//! The standard streams.

use crate::status::{Status, Stop};
use std::env;
use std::ffi::OsString;
use std::io::{self, ErrorKind, IsTerminal, Read, Write};

/// The standard streams, and how to write to them.
pub struct Streams<'a> {
    pub input: &'a mut dyn Read,
    pub out: &'a mut dyn Write,
    pub err: &'a mut dyn Write,
    /// Whether standard output is for someone who sees colours.
    pub colour: bool,
    /// Whether standard error is for someone who sees progress.
    pub progress: bool,
}

impl Streams<'_> {
    /// Writes to standard output. What couldn't be written is an error, whatever became of it.
    pub fn print(&mut self, text: &str) -> io::Result<()> {
        self.out.write_all(text.as_bytes())?;
        self.out.flush()
    }

    /// Writes all that a command prints, which ends with this status.
    pub fn finish(&mut self, text: &str, status: Status) -> Result<Status, Stop> {
        match self.print(text) {
            Ok(()) => Ok(status),
            Err(error) => Err(Stop::late(status.max(Status::Files), unprinted(&error))),
        }
    }

    /// Says something on standard error. If that fails there is no one left to tell.
    pub fn say(&mut self, text: &str) {
        if !text.is_empty() {
            let _ = writeln!(self.err, "{text}").and_then(|()| self.err.flush());
        }
    }

    pub fn paint(&self) -> Paint {
        Paint { on: self.colour }
    }
}

/// That standard output failed. A reader that went away wants to hear nothing.
fn unprinted(error: &io::Error) -> String {
    match error.kind() {
        ErrorKind::BrokenPipe => String::new(),
        _ => output_failed(error),
    }
}

pub fn output_failed(error: &io::Error) -> String {
    format!("simp: standard output: {}", cause(error))
}

/// What went wrong, without the system's number for it.
pub fn cause(error: &io::Error) -> String {
    let text = error.to_string();
    match error.raw_os_error() {
        None => text,
        Some(code) => text.replace(&format!(" (os error {code})"), ""),
    }
}

/// Colours, if they are on.
#[derive(Clone, Copy, Debug)]
pub struct Paint {
    on: bool,
}

impl Paint {
    pub const OFF: Paint = Paint { on: false };

    pub fn good(self, text: &str) -> String {
        self.wrap("32", text)
    }

    pub fn bad(self, text: &str) -> String {
        self.wrap("31", text)
    }

    pub fn bold(self, text: &str) -> String {
        self.wrap("1", text)
    }

    fn wrap(self, code: &str, text: &str) -> String {
        if self.on && !text.is_empty() {
            format!("\x1b[{code}m{text}\x1b[0m")
        } else {
            text.to_string()
        }
    }
}

/// Whether standard output is a terminal whose user didn't turn colours off.
pub fn wants_colour() -> bool {
    let set = |name: &str| env::var_os(name).filter(|value| !value.is_empty());
    let able = |term: OsString| term != "dumb";
    io::stdout().is_terminal() && set("NO_COLOR").is_none() && set("TERM").is_some_and(able)
}

/// A standard stream that was closed before the program started.
pub struct Closed;

fn closed() -> io::Error {
    io::Error::other("it is closed")
}

impl Read for Closed {
    fn read(&mut self, _: &mut [u8]) -> io::Result<usize> {
        Err(closed())
    }
}

impl Write for Closed {
    fn write(&mut self, _: &[u8]) -> io::Result<usize> {
        Err(closed())
    }

    fn flush(&mut self) -> io::Result<()> {
        Ok(())
    }
}

#[cfg(test)]
mod tests {
    use super::{cause, Paint};
    use std::io;

    #[test]
    fn causes_have_no_numbers() {
        assert_eq!(cause(&io::Error::from_raw_os_error(2)), "No such file or directory");
        assert_eq!(cause(&io::Error::other("it is closed")), "it is closed");
    }

    #[test]
    fn colours_are_off_unless_wanted() {
        assert_eq!(Paint { on: false }.good("done"), "done");
        assert_eq!(Paint { on: true }.good("done"), "\x1b[32mdone\x1b[0m");
        assert_eq!(Paint { on: true }.bold(""), "");
    }
}
