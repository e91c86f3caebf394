//! Types that don't fit.

use super::{told, Told};
use crate::words::Words;
use reference::shape::{Misfit, NoShape, Rule};
use reference::types::{Type, TypeId, ERROR, PACKAGE, PACKED};

const WITH_ERROR: &str =
    "name the type with the wanted type on its left and error on its right (`T wanted 1`)";

const OUT_FIRST: &str = "take the package out by `c` first, and open `v 0` in the command for left";

const UNPACKS: &str = "`u t label` makes the sum t of the wanted type and error";

pub fn told_of(words: &Words, fault: &NoShape) -> Told {
    let NoShape { line, rule, misfit } = *fault;
    match misfit {
        Misfit::Operand { operand, found, wanted } => {
            let there = There { words, line, operand, found, wanted };
            there.told(rule)
        }
        Misfit::CaseOf { operand, found } => told(
            format!(
                "`c` takes a sum apart, but its expression (line {operand}) is {}",
                words.ty(found)
            ),
            match words.sheet.types[found] {
                Type::Pair(..) => "take the parts of a pair by `f` and `g`, without `c`",
                _ => "give it an expression of a sum type",
            },
            "the expression of `c` has a sum type",
        ),
        Misfit::PartOf { operand, found } => part_of(words, rule, operand, found),
        Misfit::NoSum(ty) => no_sum(words, rule, ty),
        Misfit::NoPair(ty) => told(
            format!("`p` makes a pair, and {} isn't one", words.ty(ty)),
            pair_to_name(words, ty),
            "`p t` names the pair type that it makes",
        ),
        Misfit::NoError(ty) => told(
            format!("{} may fail, and {} has no error on its right", kind(rule), words.ty(ty)),
            WITH_ERROR,
            UNPACKS,
        ),
    }
}

/// A line that makes a sum and names another type.
fn no_sum(words: &Words, rule: Rule, ty: TypeId) -> Told {
    if let Rule::Unpack(_) = rule {
        return told(
            format!("`u` may fail, so it makes a sum, and {} isn't one", words.ty(ty)),
            with_error(words, ty),
            UNPACKS,
        );
    }
    let sum = "name 3, 4 or a type that a `T` line makes";
    told(
        format!("{} makes a value of a sum, and {} isn't one", kind(rule), words.ty(ty)),
        match words.sheet.types[ty] {
            Type::Pair(..) => format!("{sum}; a pair of that type is made by `p {ty}`"),
            _ => sum.to_string(),
        },
        "`l`, `r` and `u` name the sum type that they make",
    )
}

/// Which sum an unpack names that is to leave this type.
fn with_error(words: &Words, wanted: TypeId) -> String {
    match words.sheet.types.iter().position(|ty| *ty == Type::Sum(wanted, ERROR)) {
        Some(sum) => format!("name {}, which has error on its right", words.ty(sum)),
        None => {
            format!(
                "put a line `T {wanted} 1` after the sheet's types, and name the type that it makes"
            )
        }
    }
}

/// Which pair a `p` may name instead of this type.
fn pair_to_name(words: &Words, ty: TypeId) -> String {
    let is_pair = |ty: &TypeId| words.sheet.pair_parts(*ty).is_some();
    if let Some((left, right)) = words.sheet.parts(ty) {
        if let Some(side) = [left, right].into_iter().find(is_pair) {
            return format!("name {}, a side of that sum", words.ty(side));
        }
    }
    let pairs: Vec<TypeId> = (0..words.sheet.types.len()).filter(is_pair).collect();
    match pairs[..] {
        [] => "put a line `Q a b` after the sheet's types, a and b the types of the operands, and \
               name the type that it makes"
            .to_string(),
        [only] => format!("name {}, the only pair", words.ty(only)),
        _ => "name a type that a `Q` line makes".to_string(),
    }
}

/// An operand of `f` or `g` that isn't a pair.
fn part_of(words: &Words, rule: Rule, operand: usize, found: TypeId) -> Told {
    let which = if rule == Rule::First { "first" } else { "second" };
    let kind = kind(rule);
    let is_pair = |ty: TypeId| words.sheet.pair_parts(ty).is_some();
    let out = |side| {
        format!(
            "take the pair out by `c` first, and give {kind} the `v 0` in the command for {side}"
        )
    };
    let advice = match words.sheet.parts(found) {
        Some((left, _)) if is_pair(left) => out("left"),
        Some((_, right)) if is_pair(right) => out("right"),
        Some(_) => "give it a pair; a sum is taken apart by `c`".to_string(),
        None if found == PACKAGE => {
            "open the package by `u` first, and take the pair out of that by `c`".to_string()
        }
        None => "give it a pair".to_string(),
    };
    told(
        format!(
            "{kind} takes the {which} part of a pair, but its operand (line {operand}) is {}",
            words.ty(found)
        ),
        advice,
        "the operand of `f` and of `g` is a pair",
    )
}

/// The type of an operand in a line, and the one that is wanted.
struct There<'a> {
    words: &'a Words<'a>,
    /// The line that has the operand.
    line: usize,
    /// The line that the operand starts in.
    operand: usize,
    found: TypeId,
    wanted: TypeId,
}

impl There<'_> {
    fn told(&self, rule: Rule) -> Told {
        let There { words, operand, found, wanted, .. } = *self;
        let there = words.ty(found);
        let due = words.ty(wanted);
        match rule {
            Rule::Assign(location) => told(
                format!(
                    "{} takes {due}, but the value (line {operand}) is {there}",
                    words.location(location)
                ),
                self.to_assign(),
                "a value has the type that the location is declared with",
            ),
            Rule::While => told(
                format!("the guard (line {operand}) is {there}, and {due} is wanted"),
                self.part().unwrap_or("make it by `l 3` to go on and `r 3` to stop".to_string()),
                "a guard of `w` is int+int, left to go on",
            ),
            Rule::Plus => told(
                format!("an operand of `+` (line {operand}) is {there}, and {due} is wanted"),
                self.to_add(),
                "`+` adds two integers",
            ),
            Rule::Unpack(_) => told(
                format!("`u` opens {due}, but its operand (line {operand}) is {there}"),
                self.to_open(),
                "the operand of `u` is a package",
            ),
            Rule::Left(ty) | Rule::Right(ty) => self.told_of_sum(kind(rule), ty),
            Rule::Pair(ty) => self.told_of_pair(ty),
            Rule::Case => unreachable!("any sum will do"),
            Rule::First | Rule::Second => unreachable!("any pair will do"),
        }
    }

    /// The operand of `l` or `r`.
    fn told_of_sum(&self, kind: &str, ty: TypeId) -> Told {
        let There { words, operand, found, wanted, .. } = *self;
        told(
            format!(
                "{kind} of {} takes {}, but its operand (line {operand}) is {}",
                words.ty(ty),
                words.ty(wanted),
                words.ty(found)
            ),
            self.part().or_else(|| self.paired()).unwrap_or_else(|| {
                "give it an operand of that type, or name another sum".to_string()
            }),
            "`l t` has the left part of t as its operand, `r t` the right part",
        )
    }

    /// An operand of `p`. The first starts in the next line.
    fn told_of_pair(&self, ty: TypeId) -> Told {
        let There { words, line, operand, found, wanted } = *self;
        let is_first = operand == line + 1;
        let which = if is_first { "first" } else { "second" };
        let (first, second) = words.sheet.pair_parts(ty).expect("`p` names a pair");
        let others = if is_first { second } else { first };
        let advice = match self.part().or_else(|| self.made()) {
            Some(advice) => advice,
            None if found == others => {
                "put the operands in the other order, or name a pair with its parts in this order"
                    .to_string()
            }
            None if self.is_side() => {
                "take it apart by `c` first, and pair `v 0` in one of its commands".to_string()
            }
            None => "give it an operand of that type, or name another pair".to_string(),
        };
        told(
            format!(
                "`p` of {} takes {} as its {which} part, but its {which} operand (line {operand}) \
                 is {}",
                words.ty(ty),
                words.ty(wanted),
                words.ty(found)
            ),
            advice,
            "`p t` has the first part of t as its first operand, and the second as its second",
        )
    }

    fn to_open(&self) -> String {
        match self.found {
            PACKED => OUT_FIRST.to_string(),
            _ => self.part().unwrap_or("give it a package".to_string()),
        }
    }

    fn to_add(&self) -> String {
        match (self.part(), self.words.sheet.types[self.found]) {
            (Some(advice), _) => format!("add integers: {advice}"),
            (None, Type::Pair(..)) => {
                "add integers; take the parts of a pair by `f` and `g` first".to_string()
            }
            _ => "add integers; take a sum apart by `c` first".to_string(),
        }
    }

    fn to_assign(&self) -> String {
        if self.is_side() {
            return "take it apart by `c` first, and assign `v 0` in one of its commands"
                .to_string();
        }
        if self.is_part_of_side() {
            return "take the pair out by `c` first, and assign a part of `v 0`, by `f` or `g`, in \
                    one of its commands"
                .to_string();
        }
        match self.part().or_else(|| self.made()) {
            Some(advice) => advice,
            None if self.wanted == PACKED => {
                "pack the value by `k label`, or assign to a location of the value's type"
                    .to_string()
            }
            None => "assign to a location of the value's type, or give a value of the location's"
                .to_string(),
        }
    }

    /// Whether what is there is a sum with a side that is wanted.
    fn is_side(&self) -> bool {
        let sides = self.words.sheet.parts(self.found);
        sides.is_some_and(|(left, right)| left == self.wanted || right == self.wanted)
    }

    /// Whether it is a sum with a side that is a pair with a part that is wanted.
    fn is_part_of_side(&self) -> bool {
        let sheet = self.words.sheet;
        let has_part = |ty: TypeId| {
            let parts = sheet.pair_parts(ty);
            parts.is_some_and(|(first, second)| first == self.wanted || second == self.wanted)
        };
        sheet.parts(self.found).is_some_and(|(left, right)| has_part(left) || has_part(right))
    }

    /// How to take what is wanted out of a pair.
    fn part(&self) -> Option<String> {
        let (first, second) = self.words.sheet.pair_parts(self.found)?;
        let before = format!("before line {}", self.operand);
        match (first == self.wanted, second == self.wanted) {
            (true, true) => Some(format!(
                "take one of its parts, by a line `f` (the first) or `g` (the second) {before}"
            )),
            (true, false) => Some(format!("take its first part, by a line `f` {before}")),
            (false, true) => Some(format!("take its second part, by a line `g` {before}")),
            (false, false) => None,
        }
    }

    /// How to make what is wanted, a sum or a pair, of what is there.
    fn made(&self) -> Option<String> {
        let There { words, operand, found, wanted, .. } = *self;
        match words.sheet.parts(wanted) {
            Some((left, _)) if left == found => Some(format!(
                "make it left of the sum, by a line `l {wanted}` before line {operand}"
            )),
            Some((_, right)) if right == found => Some(format!(
                "make it right of the sum, by a line `r {wanted}` before line {operand}"
            )),
            _ => self.paired(),
        }
    }

    /// How to make the pair that is wanted of what is there and another part.
    fn paired(&self) -> Option<String> {
        let There { words, operand, found, wanted, .. } = *self;
        let (first, second) = words.sheet.pair_parts(wanted)?;
        let line = format!("`p {wanted}` before line {operand}");
        if first == found {
            let second = words.ty(second);
            Some(format!("make the pair, by a line {line} and its second part, {second}, after it"))
        } else if second == found {
            let first = words.ty(first);
            Some(format!("make the pair, by a line {line} and its first part, {first}, after that"))
        } else {
            None
        }
    }
}

fn kind(rule: Rule) -> &'static str {
    match rule {
        Rule::Assign(_) => "`=`",
        Rule::While => "`w`",
        Rule::Case => "`c`",
        Rule::Plus => "`+`",
        Rule::Left(_) => "`l`",
        Rule::Right(_) => "`r`",
        Rule::Unpack(_) => "`u`",
        Rule::Pair(_) => "`p`",
        Rule::First => "`f`",
        Rule::Second => "`g`",
    }
}
