//! The sheet's rule of reading, as it is printed.

use crate::json::Json;
use reference::label::Reading;

/// The line of a sheet where `R 1` stands.
pub const LINE: usize = 2;

/// Which rule it is, the line that it comes from, and what a group needs to read a label.
pub fn in_words(reading: Reading) -> String {
    match reading {
        Reading::Pooled => {
            "parties read together (no line `R 1`): a group needs a reader for each owner, not \
             necessarily the same"
                .to_string()
        }
        Reading::Alone => format!(
            "one reader by himself (line {LINE}, `R 1`): a group needs one member who is a reader \
             for every owner"
        ),
    }
}

pub fn json(reading: Reading) -> Json {
    let (kind, line) = match reading {
        Reading::Pooled => ("pooled", Json::Null),
        Reading::Alone => ("alone", Json::number(LINE)),
    };
    Json::Object(vec![
        ("kind", Json::text(kind)),
        ("line", line),
        ("words", Json::text(in_words(reading))),
    ])
}
