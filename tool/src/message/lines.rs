//! Lines that stand where others are due.

use super::text::shown;
use super::{told, Told};
use crate::reading;
use reference::text::{Expected, Operand, Sort};

/// Each kind of line with its fields.
const SHEET: &[&str] =
    &["P n", "R 1", "T a b", "Q a b", "L", "O owner readers writers", "X type label"];
const OPENINGS: &[&str] = &["b label"];
const COMMANDS: &[&str] = &["s", ";", "= loc", "w", "c"];
const EXPRESSIONS: &[&str] =
    &["i n", "x loc", "v d", "+", "l t", "r t", "k label", "u t label", "p t", "f", "g"];

pub const ORDER: &str = "a sheet is `P n`, perhaps `R 1`, then `T` and `Q` lines, labels (`L` and \
                         its `O` lines) and `X` lines";
pub const PREFIX: &str = "a script is one command, the operands of each line following it";
pub const OPENED: &str = "a script is one command, which a line `b label` may open";

/// A line whose first field can't stand there. `opens` is whether it is the first of its text.
pub fn misplaced(found: &[u8], expected: &Expected, opens: bool) -> Told {
    match expected {
        Expected::Sheet(kinds) => told(stands(found, SHEET), sheet_advice(found, kinds), ORDER),
        Expected::Script if opens => told(
            format!("{}, and a script starts with `b label` or a command", stands(found, &[])),
            nearly(found, OPENINGS).unwrap_or_else(|| {
                format!("start it with {}; `b label` may stand before it", kinds(COMMANDS))
            }),
            OPENED,
        ),
        Expected::Script => told(
            format!("{}, and the command is due here, after `b`", stands(found, &[])),
            due(found, Sort::Command),
            OPENED,
        ),
        Expected::Operand(operand) => told(
            format!("{}, and {} is due here", stands(found, &[]), role(*operand)),
            due(found, operand.sort),
            PREFIX,
        ),
    }
}

/// What to write where a command or an expression is due.
fn due(found: &[u8], sort: Sort) -> String {
    let due = || format!("write {}", of_sort(sort));
    if nearly(found, OPENINGS).is_some() && nearly(found, &[]).is_none() {
        return format!("{}; `b label` can only be the first line of a script", due());
    }
    nearly(found, &[]).unwrap_or_else(due)
}

/// A script that ends before an operand.
pub fn missing_operand(operand: Operand) -> Told {
    told(format!("the script ends before {}", role(operand)), added("at the end", operand), PREFIX)
}

/// What is to be added there.
pub fn added(there: &str, operand: Operand) -> String {
    format!("add it {there}: {}", of_sort(operand.sort))
}

/// Whether the line starts an expression, and so no script.
pub fn starts_expression(line: &[u8]) -> bool {
    let found = line.split(|&byte| byte == b'\t').next().unwrap_or_default();
    EXPRESSIONS.iter().any(|kind| first_field(kind).as_bytes() == found)
}

/// A line after the end of the command.
pub fn left_over(line: usize) -> Told {
    told(
        format!("the command ends in line {}, and this line is left over", line - 1),
        "take it out, or put a line `;` before the first of two commands",
        PREFIX,
    )
}

/// A `b` line that isn't the first of its script.
pub fn late_start(line: usize, first: usize, again: bool, ended: bool) -> Told {
    let fact = match (ended, again) {
        (true, _) => format!("the command ends in line {}, and `b` opens a script", line - 1),
        (false, true) => format!("the script opens with `b` in line {first}, and here is another"),
        (false, false) => {
            format!("`b` stands inside the command, which starts in line {first}")
        }
    };
    let moved = moved_start(line, first, again);
    let advice = match ended {
        true => format!(
            "{moved}; or put an empty line before it and give the file to `simp round` if another \
             script starts there"
        ),
        false => moved,
    };
    told(fact, advice, "only the first line of a script may be `b label`")
}

/// What to do with a `b` line that belongs to the script that it stands in.
pub fn moved_start(line: usize, first: usize, again: bool) -> String {
    match again {
        true if line == first + 1 => "take one of the two out".to_string(),
        true => format!("take it out: the `b` in line {first} says where the script starts"),
        false => format!("move it up, before line {first}"),
    }
}

/// What to do with a line of a sheet that can't stand where only these kinds may.
fn sheet_advice(found: &[u8], kinds: &[&str]) -> String {
    match found {
        b"R" if kinds == ["P"] => {
            "start the sheet with `P n`, and put `R 1` right after it".to_string()
        }
        _ if kinds == ["P"] => "start the sheet with `P n`".to_string(),
        b"R" => format!("move it up to line {}, right after `P n`", reading::LINE),
        b"R1" if kinds.contains(&"R") => "put a tab after `R`".to_string(),
        b"r" if kinds.contains(&"R") => "write `R` in upper case".to_string(),
        b"T" | b"Q" => "move it up, before the first `L` and `X`".to_string(),
        b"L" => "move it up, before the first `X`".to_string(),
        b"O" => "put it after the `L` of its label".to_string(),
        _ => {
            let forms = kinds.iter().map(|kind| form_of(kind.as_bytes()));
            format!("put {} here", either(&forms.collect::<Vec<_>>()))
        }
    }
}

/// What to do with an `R` line that isn't the one after `P n`, where that is there.
pub fn repeated_rule(sheet: &[u8]) -> Option<String> {
    let line = sheet.split(|&byte| byte == b'\n').nth(reading::LINE - 1)?;
    let rule = || format!("take it out, line {} is `R 1` already", reading::LINE);
    (line == b"R\t1").then(rule)
}

/// What stands where something else is due.
fn stands(found: &[u8], sheet: &[&str]) -> String {
    let starts = |kinds: &[&str]| kinds.iter().any(|kind| first_field(kind).as_bytes() == found);
    let shown = shown(found);
    if starts(sheet) {
        format!("{shown} can't stand here")
    } else if sheet.is_empty() && starts(COMMANDS) {
        format!("{shown} starts a command")
    } else if sheet.is_empty() && starts(EXPRESSIONS) {
        format!("{shown} starts an expression")
    } else {
        format!("{shown} is no kind of line")
    }
}

/// For a kind of line that was written in upper case, or without the tab before its first field.
fn nearly(found: &[u8], openings: &[&str]) -> Option<String> {
    let known = |kind: &[u8]| {
        let mut forms = openings.iter().chain(COMMANDS).chain(EXPRESSIONS);
        forms.find(|form| first_field(form).as_bytes() == kind)
    };
    let takes_fields = |kind: &[u8]| known(kind).is_some_and(|form| first_field(form) != *form);
    let lower = found.to_ascii_lowercase();
    let (kind, rest) = found.split_at(found.len().min(1));
    if lower != found && known(&lower).is_some() {
        Some(format!("write {} in lower case", shown(&lower)))
    } else if takes_fields(kind) && !rest.is_empty() && rest.iter().all(u8::is_ascii_digit) {
        Some(format!("put a tab after {}", shown(kind)))
    } else {
        None
    }
}

fn of_sort(sort: Sort) -> String {
    match sort {
        Sort::Command => format!("a command, {}", kinds(COMMANDS)),
        Sort::Expression => format!("an expression, {}", kinds(EXPRESSIONS)),
    }
}

/// Which operand of which line.
fn role(operand: Operand) -> String {
    let Operand { line, kind, place, .. } = operand;
    let name = match (kind, place) {
        ("=", _) => "the value",
        ("w", 0) => "the guard",
        ("w", _) => "the body",
        ("c", 0) => "the expression",
        ("c", 1) => "the command for left",
        ("c", _) => "the command for right",
        (";", 0) => "the first command",
        (";", _) => "the second command",
        ("+" | "p", 0) => "the first operand",
        ("+" | "p", _) => "the second operand",
        _ => "the operand",
    };
    format!("{name} of `{kind}` (line {line})")
}

/// The kind of line with its fields, in quotes.
pub fn form_of(kind: &[u8]) -> String {
    let mut all = SHEET.iter().chain(OPENINGS).chain(COMMANDS).chain(EXPRESSIONS);
    let known = all.find(|form| first_field(form).as_bytes() == kind);
    known.map_or_else(|| shown(kind), |form| format!("`{form}`"))
}

fn first_field(form: &str) -> &str {
    form.split(' ').next().unwrap_or(form)
}

fn kinds(forms: &[&str]) -> String {
    either(&forms.iter().map(|form| format!("`{form}`")).collect::<Vec<_>>())
}

/// `a`, `a or b`, `a, b or c`.
fn either(items: &[String]) -> String {
    match items {
        [] => String::new(),
        [one] => one.clone(),
        [most @ .., last] => format!("{} or {last}", most.join(", ")),
    }
}
