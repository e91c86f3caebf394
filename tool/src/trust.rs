//! Whether an accepted script is trust-keeping, as it is printed.

use crate::files::{printable, shown};
use crate::json::{Fields, Json};
use crate::message::Unpack;
use crate::streams::Paint;
use std::ffi::OsStr;

/// What is said of a script that is.
pub const KEEPING: &str = "trust-keeping";

/// `NAME:LINE: WHY` for each unpack by which a script of the file isn't.
pub fn lines(file: &OsStr, unpacks: &[Unpack], paint: Paint) -> String {
    let line = |unpack: &Unpack| {
        let place = paint.bold(&format!("{}:{}:", shown(file), unpack.line));
        format!("{place} {}\n", printable(&unpack.to_string()))
    };
    unpacks.iter().map(line).collect()
}

/// That it is or isn't, and the unpacks by which it isn't.
pub fn fields(unpacks: &[Unpack]) -> Fields {
    vec![
        ("keeping", Json::Bool(unpacks.is_empty())),
        ("unpacks", Json::list(unpacks, |unpack| Json::Object(told(unpack)))),
    ]
}

fn told(unpack: &Unpack) -> Fields {
    let Unpack { line, label, fact, advice, rule, .. } = unpack;
    vec![
        ("line", Json::number(*line)),
        ("label", Json::number(*label)),
        ("fact", Json::text(fact)),
        ("advice", Json::text(advice)),
        ("rule", Json::text(rule)),
    ]
}
