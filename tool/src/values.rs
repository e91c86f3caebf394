//! The values of a memory or a view, for people and for programs.

use crate::json::Json;
use crate::names::Names;
use crate::streams::Paint;
use crate::table::aligned;
use crate::words::Words;
use reference::memory_text;
use reference::value::{Value, MOST_WORDS};

/// What is printed of a location.
pub struct Row<'a> {
    /// What stands before it.
    pub mark: &'static str,
    /// Its 16 words.
    pub words: &'a [u32],
    pub value: String,
}

/// A line for each location in turn; those with a mark are bold.
pub fn lines(rows: &[Row], names: &Names, paint: Paint) -> String {
    let cells = |(location, row): (usize, &Row)| {
        let name = names.location(location).unwrap_or_default().to_string();
        let words: Vec<String> = trimmed(row.words).iter().map(u32::to_string).collect();
        vec![
            row.mark.to_string(),
            format!("{location:>2}"),
            name,
            words.join(" "),
            row.value.clone(),
        ]
    };
    let table = aligned(&rows.iter().enumerate().map(cells).collect::<Vec<_>>());
    let line = |(row, cells): (&Row, &Vec<String>)| {
        let line = format!("  {}", cells.join("  "));
        let line = if row.mark.is_empty() { line } else { paint.bold(&line) };
        line + "\n"
    };
    rows.iter().zip(&table).map(line).collect()
}

/// The 16 words of each location.
pub fn locations(memory: &[u32]) -> impl Iterator<Item = &[u32]> {
    memory.chunks(MOST_WORDS)
}

/// The words without the zeros at the end.
pub fn trimmed(words: &[u32]) -> &[u32] {
    let end = words.iter().rposition(|&word| word != 0).map_or(0, |last| last + 1);
    &words[..end]
}

/// What is told of words that hold no value.
pub const NONE: &str = "no value";

/// The value that words hold, or that they hold none.
pub fn in_words(held: &[u32], words: &Words) -> String {
    match Value::decode(held, words.sheet.labels.len()) {
        Ok(value) => words.value(&value),
        Err(_) => NONE.to_string(),
    }
}

pub fn json(location: &[u32]) -> Json {
    Json::list(trimmed(location), |&word| Json::Number(word.into()))
}

/// A memory or a view as its text.
pub fn text(memory: &[u32]) -> String {
    String::from_utf8_lossy(&memory_text::print(memory)).into_owned()
}
