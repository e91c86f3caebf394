//! A refusal as it is printed, and a disagreement.

use crate::calls::Disagreement;
use crate::files::{printable, shown};
use crate::json::{Fields, Json};
use crate::message::{Blamed, Message};
use crate::status::{Status, Stop};
use crate::streams::Paint;
use std::ffi::OsStr;

/// A message and the file or argument that it blames.
#[derive(Clone, Debug, PartialEq, Eq)]
pub struct Refusal {
    pub name: String,
    pub message: Message,
}

impl Refusal {
    /// `NAME:LINE: MESSAGE`, without the line's end.
    pub fn line(&self, paint: Paint) -> String {
        let name = shown(OsStr::new(&self.name));
        let place = match self.message.line {
            None => format!("{name}:"),
            Some(line) => format!("{name}:{line}:"),
        };
        let place = paint.bold(&paint.bad(&place));
        format!("{place} {}", printable(&self.message.to_string()))
    }

    /// The parts of the message.
    pub fn fields(&self) -> Fields {
        let Message { blamed, line, fact, rule, advice, .. } = &self.message;
        let blamed = match blamed {
            Blamed::Sheet => "sheet",
            Blamed::Script => "script",
            Blamed::Memory => "memory",
            Blamed::Argument => "argument",
        };
        vec![
            ("blamed", Json::text(blamed)),
            ("line", line.map_or(Json::Null, Json::number)),
            ("fact", Json::text(fact)),
            ("advice", Json::text(advice)),
            ("rule", Json::text(rule)),
        ]
    }

    /// The same, with the name of what is blamed.
    pub fn named_fields(&self) -> Fields {
        let mut fields = self.fields();
        fields.insert(1, ("name", Json::text(&self.name)));
        fields
    }
}

/// What standard error says where the library and the reference disagree.
pub fn disagreement(asked: &str, found: &Disagreement) -> String {
    format!(
        "simp: THE PROVED LIBRARY AND THE REFERENCE DISAGREE\n\
         \x20 asked:     {asked}\n\
         \x20 library:   {}\n\
         \x20 reference: {}\n\
         The library's verdict counts. Nothing was written to any file.\n\
         One of the two has a fault: keep these files as they are, and report it with what\n\
         `simp --version` prints.",
        found.library, found.reference
    )
}

/// The end of a command whose answer the two disagree on.
pub fn disagreed(asked: &str, found: &Disagreement) -> Stop {
    Stop::new(Status::Disagree, disagreement(asked, found))
}
