//! How the tool ends.

/// The exit status. Where several apply, the greatest is given.
#[derive(Clone, Copy, Debug, PartialEq, Eq, PartialOrd, Ord)]
pub enum Status {
    /// Accepted, done, shown.
    Done = 0,
    /// Refused, or a script of a round stopped.
    Refused = 1,
    /// The arguments or the names file aren't of their form.
    Usage = 2,
    /// A file or a standard stream can't be read or written.
    Files = 3,
    /// The library and the reference disagree.
    Disagree = 4,
}

impl Status {
    pub fn code(self) -> i32 {
        self as i32
    }
}

/// Why a command ends early, and what standard error says of it.
#[derive(Clone, Debug, PartialEq, Eq)]
pub struct Stop {
    pub status: Status,
    /// Lines without the last one's end. Nothing is said if it is empty.
    pub text: String,
    /// Whether something was printed, or tried, before.
    pub late: bool,
}

impl Stop {
    pub fn new(status: Status, text: impl Into<String>) -> Stop {
        Stop { status, text: text.into(), late: false }
    }

    /// The same, after something was printed.
    pub fn late(status: Status, text: impl Into<String>) -> Stop {
        Stop { late: true, ..Stop::new(status, text) }
    }
}
