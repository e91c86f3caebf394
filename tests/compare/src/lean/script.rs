//! A script as rows, one for each line, in prefix order.

use super::list::List;

pub const MOST_LINES: usize = 512;
pub const MOST_CASES: usize = 8;

pub type Script = List<Row, MOST_LINES>;

/// The label that a script starts at, where it names one, and the row that its command starts at.
pub fn opening(rows: &[Row]) -> (Option<u8>, usize) {
    match rows[0] {
        Row::Start { label } => (Some(label), 1),
        _ => (None, 0),
    }
}

/// A line. The first operand follows it; where it has another, the row says where that starts.
#[derive(Clone, Copy)]
pub enum Row {
    /// The first row of some scripts.
    Start {
        label: u8,
    },
    Skip,
    Seq {
        second: u16,
    },
    Assign {
        location: u8,
    },
    While {
        body: u16,
    },
    /// `depth` cases stand around this one.
    Case {
        depth: u8,
        left: u16,
        right: u16,
    },
    Integer(u32),
    Location(u8),
    /// The value bound by the case with `depth` cases around it.
    Bound {
        depth: u8,
    },
    Plus {
        second: u16,
    },
    Left {
        ty: u8,
    },
    Right {
        ty: u8,
    },
    Pack {
        label: u8,
    },
    Unpack {
        ty: u8,
        label: u8,
    },
    Pair {
        ty: u8,
        second: u16,
    },
    First,
    Second,
}
