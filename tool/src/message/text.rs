//! Texts that aren't of their form.

use super::lines::{
    form_of, late_start, left_over, misplaced, missing_operand, OPENED, ORDER, PREFIX,
};
use super::number::{integer, number};
use super::{told, Told};
use reference::text::{Cause, Counted, Fault, Thing};

/// Which text it is.
#[derive(Clone, Copy, Debug, PartialEq, Eq)]
pub enum Text {
    Sheet,
    Script,
    Memory,
}

impl Text {
    fn name(self) -> &'static str {
        match self {
            Text::Sheet => "sheet",
            Text::Script => "script",
            Text::Memory => "memory",
        }
    }
}

/// What to do with an `R` line that isn't wanted.
const WITHOUT_RULE: &str = "take the line out: without it parties read together";

/// What is told where nothing of the text stands in it: the fact, the advice and the rule.
type Fixed = [&'static str; 3];

const BYTE_ORDER_MARK: Fixed = [
    "the text starts with a byte order mark",
    "save it as plain text, UTF-8 without a mark",
    "a text has no bytes but its lines'",
];
const CARRIAGE_RETURN: Fixed =
    ["line ends in byte 13", "save with Unix line ends", "a line ends in byte 10 alone"];
const ZERO_BYTE: Fixed = [
    "the line has a byte 0",
    "save the text with one byte a letter, as ASCII or UTF-8",
    "a text has no bytes but its lines'",
];
const COMMENT: Fixed = [
    "the line is a comment",
    "take it out, and keep notes in another file",
    "no text has comments",
];
const BLANK: Fixed = [
    "fields are parted by a tab, found a blank",
    "put one tab between fields, and nothing after the last",
    "no text has blanks",
];
const LOOSE_TAB: Fixed = [
    "there is a tab too many",
    "put one tab between two fields, none at either end of the line",
    "fields are parted by one tab",
];
const UNENDED_LINE: Fixed = [
    "the last line has no end",
    "end it with a line feed, as the others",
    "every line ends in byte 10",
];
const CASE_DEPTH: Fixed = [
    "this `c` stands inside 8 others",
    "store a value in a location and take the rest apart after this case",
    "cases nest at most 8 deep",
];
const ENDING_ZERO: Fixed = [
    "the line ends in a zero word",
    "leave the zeros at the end out (integer 0 is `1`)",
    "zeros at the end of a location's words are dropped",
];
const NO_SHEET: Fixed =
    ["the sheet is empty", "start it with `P n`, n the number of principals", ORDER];
const NO_SCRIPT: Fixed =
    ["the script is empty", "write a command, such as `s`, which does nothing", PREFIX];
const NO_COMMAND: Fixed =
    ["the script has no command after `b`", "write one, such as `s`, which does nothing", OPENED];

fn fixed([fact, advice, rule]: Fixed) -> Told {
    told(fact, advice, rule)
}

/// `first` is the line of the file in which the text starts.
pub fn form(text: Text, fault: &Fault, first: usize) -> Told {
    match &fault.cause {
        Cause::TextLength(bytes) => too_long(text, *bytes),
        Cause::ByteOrderMark => fixed(BYTE_ORDER_MARK),
        Cause::CarriageReturn => fixed(CARRIAGE_RETURN),
        Cause::ZeroByte => fixed(ZERO_BYTE),
        Cause::Comment => fixed(COMMENT),
        Cause::Blank => fixed(BLANK),
        Cause::LooseTab => fixed(LOOSE_TAB),
        Cause::UnendedLine => fixed(UNENDED_LINE),
        Cause::EmptyLine => empty_line(text),
        Cause::NoLines if text == Text::Sheet => fixed(NO_SHEET),
        Cause::NoLines => fixed(NO_SCRIPT),
        Cause::LineKind { found, expected } => misplaced(found, expected, fault.line == first),
        Cause::FieldCount { kind, wanted, found } => field_count(text, kind, *wanted, *found),
        Cause::Number(field) => number(field, text),
        Cause::Integer(field) => integer(field),
        Cause::Set(field) => set(field),
        Cause::PrincipalCount(count) => principal_count(*count),
        Cause::ReadingRule { found } => reading_rule(found),
        Cause::OwnerOrder { owner, before } => owner_order(*owner, *before),
        Cause::TooMany { what, most } => too_many(*what, *most),
        Cause::Missing { thing, number, count } => missing(*thing, *number, *count),
        Cause::Ends(operand) => missing_operand(*operand),
        Cause::LeftOver => left_over(fault.line),
        Cause::NoCommand => fixed(NO_COMMAND),
        Cause::LateStart { again, ended } => late_start(fault.line, first, *again, *ended),
        Cause::CaseDepth => fixed(CASE_DEPTH),
        Cause::EndingZero => fixed(ENDING_ZERO),
        Cause::Locations { found, wanted } => locations(*found, *wanted),
    }
}

fn too_long(text: Text, bytes: usize) -> Told {
    told(
        format!("the {} has {bytes} bytes, and byte 16385 is in this line", text.name()),
        "make it shorter",
        "a text has at most 16384 bytes",
    )
}

fn empty_line(text: Text) -> Told {
    match text {
        Text::Sheet => told("the line is empty", "take it out", ORDER),
        _ => told(
            "the line is empty",
            "take it out, or give the file to `simp round` if it parts two scripts",
            PREFIX,
        ),
    }
}

fn field_count(text: Text, kind: &[u8], wanted: usize, found: usize) -> Told {
    let advice = match (kind, found) {
        (b"b", 0) => {
            "write it as `b label`, or take it out: without it a script starts at bottom, which \
             everyone reads"
                .to_string()
        }
        (b"b", _) => "write it as `b label`: a script starts at one label".to_string(),
        (b"R", 0) => format!("write it as `R 1`, or {WITHOUT_RULE}"),
        _ => format!("write it as {}", form_of(kind)),
    };
    let rule = match text {
        Text::Sheet => "each kind of line has its own fields",
        _ => "each kind of line has its own fields, and its operands follow on lines of their own",
    };
    let fact = format!("{} has {} after it, not {wanted}", shown(kind), counted(found, "field"));
    told(fact, advice, rule)
}

fn set(field: &[u8]) -> Told {
    told(
        format!("{} isn't a set", shown(field)),
        "write exactly four digits, 0 to 9 or a to f in lower case: `0005` is principals 0 and 2",
        "bit p of a set is principal p",
    )
}

fn principal_count(count: usize) -> Told {
    told(
        format!("the sheet has {}", counted(count, "principal")),
        "give 1 to 16",
        "a sheet has 1 to 16 principals, and a set 16 bits",
    )
}

/// What an `R` line has in the place of `1`.
fn reading_rule(found: &[u8]) -> Told {
    let fact = match found {
        [b'0', .., b'1'] if found.iter().rev().skip(1).all(|&digit| digit == b'0') => {
            format!("{} has a needless zero", shown(found))
        }
        _ => format!("`R` has {} after it, not `1`", shown(found)),
    };
    let alone = "write `R 1` if one reader must read by himself";
    let advice = match found {
        b"0" => format!("{WITHOUT_RULE}; {alone}"),
        _ => format!("{alone}, or {WITHOUT_RULE}"),
    };
    told(fact, advice, "the only `R` line is `R 1`, for one reader by himself")
}

fn owner_order(owner: usize, before: usize) -> Told {
    told(
        format!("owner {owner} stands after owner {before}"),
        "put the owners of a label in rising order, each once",
        "owners rise",
    )
}

fn locations(found: usize, wanted: usize) -> Told {
    let (lines, locations) = (counted(found, "line"), counted(wanted, "location"));
    told(
        format!("the memory has {lines}, and the sheet {locations}"),
        "give each location its line, in the sheet's order",
        "a memory has one line for each location",
    )
}

fn too_many(what: Counted, most: usize) -> Told {
    let (things, advice) = match what {
        Counted::TypeLines => ("`T` and `Q` lines", "take out types that nothing uses"),
        Counted::Labels => ("labels", "take out labels that nothing uses"),
        Counted::Locations => ("`X` lines", "take out locations that nothing uses"),
        Counted::ScriptLines => ("lines", "make two scripts of it"),
        Counted::MemoryLines => ("lines", "give one line for each location of the sheet"),
        Counted::Words => ("words", "give one location's value only"),
    };
    let whole = match what {
        Counted::TypeLines | Counted::Labels | Counted::Locations => "sheet",
        Counted::ScriptLines => "script",
        Counted::MemoryLines => "memory",
        Counted::Words => "line of a memory",
    };
    let among = match what {
        Counted::ScriptLines => ", a `b` line among them",
        Counted::TypeLines => " together",
        _ => "",
    };
    let fact = format!("this is more than {most} {things}");
    told(fact, advice, format!("a {whole} has at most {most} {things}{among}"))
}

/// Numbers that name nothing.
pub fn missing(thing: Thing, number: usize, count: usize) -> Told {
    let known = match (thing, count) {
        (Thing::Binding, 0) => {
            "use `v` only in the two commands of a `c`, not in its expression".to_string()
        }
        (Thing::Label, 0) => "put an `L` line into the sheet, before the `X` lines".to_string(),
        (_, 0) => "put a line for it into the sheet".to_string(),
        (_, 1) => "name 0, the only one".to_string(),
        _ => format!("name 0 to {}", count - 1),
    };
    let (name, rule) = match thing {
        Thing::Principal => ("principal", "`P n` has principals 0 to n-1"),
        Thing::Type => ("type", "types 0 to 4 are given, each `T` or `Q` line makes one more"),
        Thing::EarlierType => ("type", "a `T` or `Q` line makes a type of two earlier ones"),
        Thing::Label => ("label", "each `L` line of the sheet makes a label, from 0 on"),
        Thing::Location => ("location", "each `X` line of the sheet makes a location, from 0 on"),
        Thing::Binding => (
            "value",
            "`v d` stands in the commands of a `c`: what the d-th around it has bound, innermost 0",
        ),
    };
    let fact = match thing {
        Thing::Binding => format!("no `c` binds `v {number}` here ({})", enclosing(count)),
        Thing::EarlierType => {
            format!("type {number} isn't there yet ({} before this line)", counted(count, name))
        }
        _ => format!("{name} {number} isn't on the sheet ({})", counted(count, name)),
    };
    told(fact, known, rule)
}

fn enclosing(count: usize) -> String {
    match count {
        0 => "there is none around this line".to_string(),
        1 => "there is 1 around this line".to_string(),
        _ => format!("there are {count} around this line"),
    }
}

/// A field in quotes, what can't be printed escaped, cut where it is long.
pub fn shown(field: &[u8]) -> String {
    let most = 24;
    let cut = if field.len() > most { ".." } else { "" };
    format!("`{}{cut}`", field[..field.len().min(most)].escape_ascii())
}

/// `1 line`, `2 lines`.
pub fn counted(count: usize, thing: &str) -> String {
    if count == 1 {
        format!("1 {thing}")
    } else {
        format!("{count} {thing}s")
    }
}

/// `1 smallest group reads`, `2 smallest groups read`.
pub fn groups_read(count: usize) -> String {
    let read = if count == 1 { "reads" } else { "read" };
    format!("{} {read}", counted(count, "smallest group"))
}
