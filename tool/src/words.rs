//! What stands on a sheet and in a memory, in words.

use crate::names::Names;
use reference::label::{Label, Reading};
use reference::principals::Principals;
use reference::sheet::{LabelId, LocationId, Sheet};
use reference::types::{Type, TypeId};
use reference::value::{Error, Value};

/// A sheet and the names for what stands on it.
#[derive(Clone, Copy)]
pub struct Words<'a> {
    pub sheet: &'a Sheet,
    pub names: &'a Names,
}

/// How deep types inside types are told.
const MOST_DEPTH: usize = 3;

/// One of the two things that a label is about.
#[derive(Clone, Copy, Debug, PartialEq, Eq)]
pub enum Right {
    Read,
    Write,
}

impl Right {
    /// The effective set of a label for an owner.
    pub fn set(self, label: &Label, owner: usize) -> Principals {
        match self {
            Right::Read => label.readers(owner),
            Right::Write => label.writers(owner),
        }
    }
}

/// Who may read what no one is a reader of for every owner, where the sheet has `R 1`.
pub const NOBODY: &str = "nobody by himself";

impl Words<'_> {
    /// A principal's name, or else its number.
    pub fn principal(&self, principal: usize) -> String {
        self.names.principal(principal).map_or_else(|| principal.to_string(), str::to_string)
    }

    /// `location 2`, with its name after it.
    pub fn location(&self, location: LocationId) -> String {
        named("location", location, self.names.location(location))
    }

    /// `label 1`, with its name after it.
    pub fn label(&self, label: LabelId) -> String {
        named("label", label, self.names.label(label))
    }

    /// A type by its number and its parts: `type 5 (int+error)`, of a pair `type 6 (int, int)`.
    pub fn ty(&self, ty: TypeId) -> String {
        let parts = self.parts(ty);
        match self.sheet.types[ty] {
            Type::Pair(..) => format!("type {ty} {parts}"),
            _ => format!("type {ty} ({parts})"),
        }
    }

    /// A type by its parts alone: `int+error`, a sum inside a sum in parentheses; `(int, int)`, a
    /// pair; and by its number where that goes deep, since types of types can double at each line
    /// of a sheet.
    pub fn parts(&self, ty: TypeId) -> String {
        self.parts_within(ty, MOST_DEPTH)
    }

    fn parts_within(&self, ty: TypeId, depth: usize) -> String {
        let inner = |ty: TypeId| match self.sheet.types[ty] {
            Type::Sum(..) | Type::Pair(..) if depth == 1 => format!("type {ty}"),
            Type::Sum(..) | Type::Pair(..) => self.parts_within(ty, depth - 1),
            _ => self.parts_within(ty, depth),
        };
        let side = |ty: TypeId| match self.sheet.types[ty] {
            Type::Sum(..) => format!("({})", inner(ty)),
            Type::Pair(..) if depth == 1 => format!("({})", inner(ty)),
            _ => inner(ty),
        };
        match self.sheet.types[ty] {
            Type::Int => "int".to_string(),
            Type::Error => "error".to_string(),
            Type::Package => "pkg".to_string(),
            Type::Sum(left, right) => format!("{}+{}", side(left), side(right)),
            Type::Pair(first, second) => format!("({}, {})", inner(first), inner(second)),
        }
    }

    /// A set of principals: `nobody`, `everyone`, `0, 1 and 3`.
    pub fn principals(&self, set: Principals) -> String {
        if set == Principals::first(self.sheet.principals) {
            return "everyone".to_string();
        }
        self.members(set)
    }

    /// The same by its members, all of them too.
    pub fn members(&self, set: Principals) -> String {
        listed(&set.members().map(|p| self.principal(p)).collect::<Vec<_>>(), "nobody")
    }

    /// The sets that a group must meet to read or write what has a label: one for each owner, or the
    /// one of those who read by themselves.
    pub fn sets(&self, right: Right, label: &Label) -> Vec<Principals> {
        match (right, self.sheet.reading) {
            (Right::Read, Reading::Alone) => vec![self.lone_readers(label)],
            _ => (0..label.principals()).map(|owner| right.set(label, owner)).collect(),
        }
    }

    fn lone_readers(&self, label: &Label) -> Principals {
        let each = (0..self.sheet.principals).map(Principals::only);
        let readers = each.filter(|one| label.read_by(self.sheet.reading, *one));
        readers.fold(Principals::first(0), Principals::union)
    }

    /// Who may read or write what has a label: `everyone`, `only 0 and 2`, `nobody by himself`, or
    /// who must be in a group that does.
    pub fn who(&self, right: Right, label: &Label) -> String {
        let needed = needed(self.sets(right, label), self.sheet.principals);
        match needed.as_slice() {
            [] => "everyone".to_string(),
            [none] if *none == Principals::first(0) => NOBODY.to_string(),
            [one] => self.only(*one),
            several => {
                let each = several.iter().map(|set| self.one_of(*set)).collect::<Vec<_>>();
                format!("only a group with {}", listed(&each, ""))
            }
        }
    }

    /// `everyone`, or `only` with the principals.
    pub fn only(&self, set: Principals) -> String {
        let who = self.principals(set);
        if set == Principals::first(self.sheet.principals) {
            who
        } else {
            format!("only {who}")
        }
    }

    fn one_of(&self, set: Principals) -> String {
        let members: Vec<String> = set.members().map(|p| self.principal(p)).collect();
        match members.as_slice() {
            [one] => one.clone(),
            _ => format!("one of {}", members.join("/")),
        }
    }

    /// A value: `5`, `left 5`, `a package of label 2 with 62`, `error 1 (insufficientAuth)`,
    /// `(5, left 62)`.
    pub fn value(&self, value: &Value) -> String {
        match value {
            Value::Integer(n) => n.to_string(),
            Value::Error(error) => format!("error {} ({})", *error as u32, error_name(*error)),
            Value::Left(value) => format!("left {}", self.value(value)),
            Value::Right(value) => format!("right {}", self.value(value)),
            Value::Package(label, content) => {
                format!("a package of {} with {}", self.label(*label), self.value(content))
            }
            Value::Pair(first, second) => pair(&self.value(first), &self.value(second)),
        }
    }
}

/// A kind of thing, its number, and its name if it has one.
pub fn named(kind: &str, number: usize, name: Option<&str>) -> String {
    match name {
        None => format!("{kind} {number}"),
        Some(name) => format!("{kind} {number} ({name})"),
    }
}

/// The two parts of a pair.
pub fn pair(first: &str, second: &str) -> String {
    format!("({first}, {second})")
}

pub fn error_name(error: Error) -> &'static str {
    match error {
        Error::InsufficientAuth => "insufficientAuth",
        Error::IllegalFlow => "illegalFlow",
        Error::TypeMismatch => "typeMismatch",
    }
}

/// The sets that a group must meet, each once, without those that a smaller one settles.
pub fn needed(sets: Vec<Principals>, n: usize) -> Vec<Principals> {
    let everyone = Principals::first(n);
    let mut needed: Vec<Principals> = Vec::new();
    for set in &sets {
        let settled = sets.iter().any(|other| set.contains(*other) && other != set);
        if *set != everyone && !settled && !needed.contains(set) {
            needed.push(*set);
        }
    }
    // with one principal its set is everyone
    needed
}

/// `a`, `a and b`, `a, b and c`.
pub fn listed(items: &[String], none: &str) -> String {
    match items {
        [] => none.to_string(),
        [one] => one.clone(),
        [most @ .., last] => format!("{} and {last}", most.join(", ")),
    }
}
