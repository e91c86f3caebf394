//! The generator reaches pairs: every answer that they can give, and every way in which sheets,
//! scripts, memories and views have to do with them.

use crate::common::has_pairs;
use compare::generate::case::{case, Case};
use compare::generate::round::round_case;
use reference::calls::read_sheet;
use reference::flow::{NoFlow, Through};
use reference::machine::Stopped;
use reference::memory::{decode, BadMemory, BadValue};
use reference::script::{Command, Expression, Phrase, Term};
use reference::shape::{Misfit, NoShape, Rule};
use reference::sheet::{Repeat, Sheet};
use reference::text::{Cause, Counted, Fault, Thing};
use reference::types::{Type, TypeId, ERROR, INT};
use reference::value::{BadWords, Value, MOST_WORDS};
use reference::{parts, round, script_text, try_run, try_view, Reason, DONE};
use std::collections::BTreeMap;

type Counts = BTreeMap<&'static str, u64>;

/// The number of generated cases, whatever the others are: some ends come in few of them.
const CASES: u64 = 20_000;
const ROUNDS: u64 = CASES / 4;

/// Every one of the ends comes at least so often.
fn assert_reached(what: &str, counts: &Counts, ends: &[&str], least: u64) {
    println!("{what}: {counts:?}");
    let often = |end: &&&str| counts.get(**end).is_some_and(|&count| count >= least);
    let missing: Vec<&&str> = ends.iter().filter(|end| !often(end)).collect();
    assert!(missing.is_empty(), "{what}: {missing:?} of {counts:?}");
}

/// A line of a text, counted from 1.
fn line_of(text: &[u8], line: usize) -> &[u8] {
    text.split(|&byte| byte == b'\n').nth(line - 1).unwrap_or_default()
}

/// What a sheet that isn't of the form has to do with pairs.
fn of_form(text: &[u8], Fault { line, cause }: &Fault) -> Option<&'static str> {
    let lines = |kind: &[u8]| text.split(|&b| b == b'\n').any(|line| line.starts_with(kind));
    let at_pair = line_of(text, *line).starts_with(b"Q");
    match cause {
        Cause::TooMany { what: Counted::TypeLines, .. } if lines(b"T") && lines(b"Q") => {
            Some("1, 28 lines of both kinds")
        }
        Cause::Missing { thing: Thing::EarlierType, .. } if at_pair => Some("1, no earlier type"),
        Cause::FieldCount { .. } if at_pair => Some("1, its fields"),
        Cause::LineKind { found, .. } if found == b"Q" => Some("1, too late"),
        _ => None,
    }
}

/// What a sheet of the form has to do with pairs.
fn of_sheet(sheet: &Sheet) -> Vec<&'static str> {
    let types = &sheet.types;
    let flipped = |ty: &Type| match *ty {
        Type::Sum(a, b) => types.contains(&Type::Pair(a, b)),
        _ => false,
    };
    let pairs = types.iter().filter(|ty| matches!(ty, Type::Pair(..))).count();
    let inside = |ty: &Type| match *ty {
        Type::Pair(a, b) | Type::Sum(a, b) => [a, b].iter().any(|&part| pair_type(sheet, part)),
        _ => false,
    };
    let ends = [
        (types.len() == 32 && (1..27).contains(&pairs), "27 lines of both kinds"),
        (types[5..].iter().any(flipped), "a sum beside a pair of its parts"),
        (types.contains(&Type::Pair(INT, INT)), "a pair of integers"),
        (types.iter().any(inside), "pairs in other types"),
        (pairs > 0, "a pair"),
        (pairs == 0, "none"),
    ];
    ends.into_iter().filter(|(is, _)| *is).map(|(_, end)| end).collect()
}

fn pair_type(sheet: &Sheet, ty: TypeId) -> bool {
    sheet.pair_parts(ty).is_some()
}

/// What a sheet that repeats something has to do with pairs.
fn of_repeat(text: &[u8], line: usize, repeat: &Repeat) -> Option<&'static str> {
    let of_pair = matches!(repeat, Repeat::Type { .. }) && line_of(text, line).starts_with(b"Q");
    of_pair.then_some("2, a pair")
}

/// What a script that isn't of the form has to do with pairs.
fn of_script(text: &[u8], Fault { line, cause }: &Fault) -> Option<&'static str> {
    let kind = line_of(text, *line).split(|&b| b == b'\t').next().unwrap_or_default();
    match cause {
        Cause::Ends(operand) if operand.kind == "p" && operand.place == 1 => {
            Some("4, no second operand")
        }
        Cause::Missing { thing: Thing::Type, .. } if kind == b"p" => Some("4, not on the sheet"),
        Cause::FieldCount { kind, .. } if matches!(&kind[..], b"p" | b"f" | b"g") => {
            Some("4, its fields")
        }
        _ => None,
    }
}

/// What a script without a type has to do with pairs.
fn of_shape(sheet: &Sheet, NoShape { rule, misfit, .. }: &NoShape) -> Option<&'static str> {
    match (*rule, *misfit) {
        (_, Misfit::NoPair(ty)) if sheet.parts(ty).is_some() => Some("5, p with a sum"),
        (Rule::Unpack(_), Misfit::NoSum(ty)) if pair_type(sheet, ty) => Some("5, u with a pair"),
        (_, Misfit::NoSum(ty)) if pair_type(sheet, ty) => Some("5, l or r with a pair"),
        (_, Misfit::CaseOf { found, .. }) if pair_type(sheet, found) => Some("5, c on a pair"),
        (Rule::While, Misfit::Operand { found, .. }) if pair_type(sheet, found) => {
            Some("5, w on a pair")
        }
        (_, Misfit::PartOf { found, .. }) if sheet.parts(found).is_some() => {
            Some("5, a part of a sum")
        }
        (Rule::Pair(_), Misfit::Operand { .. }) => Some("5, an operand of p"),
        _ => None,
    }
}

/// Every expression of a command, those inside others too.
fn expressions(c: &Command) -> Vec<&Expression> {
    match &c.phrase {
        Phrase::Skip => Vec::new(),
        Phrase::Seq(first, second) => [expressions(first), expressions(second)].concat(),
        Phrase::Assign(_, e) => with_parts(e),
        Phrase::While(e, body) => [with_parts(e), expressions(body)].concat(),
        Phrase::Case(e, on_left, on_right) => {
            [with_parts(e), expressions(on_left), expressions(on_right)].concat()
        }
    }
}

/// An expression and those inside it.
fn with_parts(e: &Expression) -> Vec<&Expression> {
    let inside = match &e.term {
        Term::Integer(_) | Term::Location(_) | Term::Bound(_) | Term::Value(_) => Vec::new(),
        Term::Plus(e1, e2) | Term::Pair(_, e1, e2) => [with_parts(e1), with_parts(e2)].concat(),
        Term::Left(_, e) | Term::Right(_, e) | Term::Pack(_, e) | Term::Unpack(_, _, e) => {
            with_parts(e)
        }
        Term::First(e) | Term::Second(e) => with_parts(e),
    };
    [vec![e], inside].concat()
}

/// What a script whose labels don't pass has to do with pairs: where the value stands that flows.
fn of_flow(c: &Command, NoFlow { source, through, .. }: &NoFlow) -> Vec<&'static str> {
    let holds = |e: &Expression| with_parts(e).iter().any(|part| part.line == source.line);
    let place = |e: &Expression| match &e.term {
        Term::Pair(_, e1, _) if holds(e1) => Some("6, by a first operand"),
        Term::Pair(_, _, e2) if holds(e2) => Some("6, by a second operand"),
        Term::First(whole) => match &whole.term {
            Term::Pair(_, _, e2) if holds(e2) => Some("6, by a second part that is dropped"),
            _ => None,
        },
        Term::Second(whole) => match &whole.term {
            Term::Pair(_, e1, _) if holds(e1) => Some("6, by a first part that is dropped"),
            _ => None,
        },
        _ => None,
    };
    let mut places: Vec<&str> = expressions(c).into_iter().filter_map(place).collect();
    if !places.is_empty() && matches!(through, Through::Guard(_)) {
        places.push("6, by a pair in a guard");
    }
    places
}

/// What a memory that isn't well-formed has to do with pairs, where the location is to be one.
fn of_memory(
    sheet: &Sheet,
    words: &[u32],
    BadMemory { location, cause }: &BadMemory,
) -> Option<&'static str> {
    let (first, _) = sheet.pair_parts(sheet.locations[*location].ty)?;
    let starts = words[location * MOST_WORDS] == 6;
    match cause {
        BadValue::Words(BadWords::Start(0)) if starts => Some("8, a part is missing"),
        BadValue::Words(BadWords::Cut) if starts => Some("8, 17 words"),
        BadValue::Words(BadWords::Label(_)) if starts => Some("8, a label that isn't on the sheet"),
        BadValue::Words(_) => None,
        BadValue::Type(Value::Pair(v1, v2)) if v1.has_type(sheet, first) => match **v2 {
            Value::Integer(_) | Value::Error(_) | Value::Package(..) => {
                Some("8, a second part of another type")
            }
            _ => Some("8, a second part with a leaf of another type"),
        },
        BadValue::Type(Value::Pair(..)) => Some("8, a first part of another type"),
        BadValue::Type(_) => Some("8, no pair"),
    }
}

/// What the refusal of a run has to do with pairs.
fn of_refusal(case: &Case, reason: &Reason) -> Vec<&'static str> {
    let sheet = || read_sheet(&case.sheet).expect("a sheet");
    let command = || script_text::parse(&sheet(), &case.script).expect("a script").command;
    let end = match reason {
        Reason::Sheet(fault) => of_form(&case.sheet, fault),
        Reason::Repeats { line, repeat } => of_repeat(&case.sheet, *line, repeat),
        Reason::Script(fault) => of_script(&case.script, fault),
        Reason::Types(fault) => of_shape(&sheet(), fault),
        Reason::Labels(fault) => return of_flow(&command(), fault),
        Reason::SliceLength { .. } => {
            let sheet = sheet();
            let paired = sheet.locations.iter().any(|location| pair_type(&sheet, location.ty));
            paired.then_some("7, a location is a pair")
        }
        Reason::Memory(fault) => of_memory(&sheet(), &case.memory, fault),
        Reason::Stopped(Stopped::Spent { .. }) => has_pairs(&case.script).then_some("9"),
        Reason::Stopped(Stopped::TooLong { at, .. }) => {
            let pair = line_of(&case.script, at.line).starts_with(b"p");
            let part = matches!(line_of(&case.script, at.line - 1), b"f" | b"g");
            match (pair, part) {
                (true, true) => Some("10, a pair of which a part is wanted"),
                (true, false) => Some("10, a pair by itself"),
                (false, _) => has_pairs(&case.script).then_some("10, beside pairs"),
            }
        }
        _ => None,
    };
    end.into_iter().collect()
}

/// What the value of a location has to do with pairs.
fn of_value(value: &Value) -> Vec<&'static str> {
    let (words, pairs) = (value.length(), pairs_in(value));
    let inner: &Value = match value {
        Value::Left(inner) | Value::Right(inner) => inner,
        _ => value,
    };
    let ends = [
        (pairs > 0 && words == MOST_WORDS, "a value of 16 words with pairs"),
        (pairs > 2, "three pairs and more"),
        (matches!(value, Value::Pair(..)), "a pair"),
        (!matches!(value, Value::Pair(..)) && matches!(inner, Value::Pair(..)), "in a sum"),
        (matches!(inner, Value::Package(..)) && pairs > 0, "in a package"),
        (matches!(inner, Value::Pair(v1, _) if has_package(v1)), "a package in a first part"),
        (matches!(inner, Value::Pair(_, v2) if has_package(v2)), "a package in a second part"),
    ];
    ends.into_iter().filter(|(is, _)| *is).map(|(_, end)| end).collect()
}

fn pairs_in(value: &Value) -> usize {
    match value {
        Value::Integer(_) | Value::Error(_) => 0,
        Value::Left(inner) | Value::Right(inner) | Value::Package(_, inner) => pairs_in(inner),
        Value::Pair(first, second) => 1 + pairs_in(first) + pairs_in(second),
    }
}

fn has_package(value: &Value) -> bool {
    match value {
        Value::Integer(_) | Value::Error(_) => false,
        Value::Left(inner) | Value::Right(inner) => has_package(inner),
        Value::Package(..) => true,
        Value::Pair(first, second) => has_package(first) || has_package(second),
    }
}

/// What a location that a run has written has to do with pairs.
fn of_written(sheet: &Sheet, ty: TypeId, words: &[u32]) -> Vec<&'static str> {
    let opens_pair =
        sheet.parts(ty).is_some_and(|(left, right)| right == ERROR && pair_type(sheet, left));
    let ends = [
        (words[0] == 6, "a pair"),
        (opens_pair && words[0] == 3, "unpacked to a pair"),
        (opens_pair && words[..3] == [4, 2, 3], "error 3 in place of a pair"),
        (words[..2] == [3, 5] && words[3] == 6, "a pair in a package"),
    ];
    ends.into_iter().filter(|(is, _)| *is).map(|(_, end)| end).collect()
}

/// Whether something follows a hidden content: the view then has other words than the location and
/// no zeros after it.
fn follows_hidden(held: &[u32], shown: &[u32]) -> bool {
    held.iter().zip(shown).any(|(held, shown)| *shown != 0 && held != shown)
}

fn count(counts: &mut Counts, ends: impl IntoIterator<Item = &'static str>) {
    for end in ends {
        *counts.entry(end).or_default() += 1;
    }
}

/// What generated cases have to do with pairs.
#[derive(Default)]
struct Reached {
    refused: Counts,
    sheets: Counts,
    /// By the scripts that are done,
    runs: Counts,
    /// the locations that they write,
    written: Counts,
    /// and those that are there before.
    held: Counts,
}

impl Reached {
    fn case(&mut self, case: &Case) {
        let mut memory = case.memory.clone();
        let ran = try_run(&case.sheet, &case.script, &mut memory, case.authority, case.budget);
        let mut shown = vec![0; case.view_length];
        let viewed = try_view(&case.sheet, &case.memory, case.group, &mut shown);
        let reasons = [ran.clone().err(), viewed.clone().err()].into_iter().flatten();
        let mut ends: Vec<&str> = reasons.flat_map(|reason| of_refusal(case, &reason)).collect();
        ends.dedup();
        count(&mut self.refused, ends);
        let Ok(sheet) = read_sheet(&case.sheet) else {
            return;
        };
        count(&mut self.sheets, of_sheet(&sheet));
        if let Ok(steps) = ran {
            self.run(&sheet, case, steps, &memory);
        }
        if viewed.is_ok() {
            let values = decode(&sheet, &case.memory).expect("a well-formed memory");
            count(&mut self.held, values.iter().flat_map(of_value));
            let mut views = case.memory.chunks(MOST_WORDS).zip(shown.chunks(MOST_WORDS));
            let follows = views.any(|(held, shown)| follows_hidden(held, shown));
            count(&mut self.held, follows.then_some("a view with more after a hidden content"));
        }
    }

    fn run(&mut self, sheet: &Sheet, case: &Case, steps: u32, memory: &[u32]) {
        if has_pairs(&case.script) {
            let lines = case.script.split(|&byte| byte == b'\n').count();
            count(&mut self.runs, ["done"]);
            count(&mut self.runs, (steps > 5).then_some("more than five steps"));
            count(&mut self.runs, (lines > 500).then_some("more than 500 lines"));
        }
        let words = memory.chunks(MOST_WORDS).zip(case.memory.chunks(MOST_WORDS));
        for ((after, before), location) in words.zip(&sheet.locations) {
            if after != before {
                count(&mut self.written, of_written(sheet, location.ty, after));
            }
        }
    }
}

const REFUSED: &[&str] = &[
    "1, 28 lines of both kinds",
    "1, its fields",
    "1, no earlier type",
    "1, too late",
    "2, a pair",
    "4, its fields",
    "4, no second operand",
    "4, not on the sheet",
    "5, a part of a sum",
    "5, an operand of p",
    "5, c on a pair",
    "5, l or r with a pair",
    "5, p with a sum",
    "5, u with a pair",
    "5, w on a pair",
    "6, by a first operand",
    "6, by a first part that is dropped",
    "6, by a pair in a guard",
    "6, by a second operand",
    "6, by a second part that is dropped",
    "7, a location is a pair",
    "8, 17 words",
    "8, a first part of another type",
    "8, a label that isn't on the sheet",
    "8, a part is missing",
    "8, a second part of another type",
    "8, a second part with a leaf of another type",
    "8, no pair",
    "9",
    "10, a pair by itself",
    "10, a pair of which a part is wanted",
    "10, beside pairs",
];

#[test]
fn generated_cases_reach_every_answer_with_pairs() {
    let mut reached = Reached::default();
    for seed in 0..CASES {
        reached.case(&case(seed));
    }
    let Reached { refused, sheets, runs, written, held } = reached;
    assert_reached("refused", &refused, REFUSED, 5);
    let tens = ["10, a pair by itself", "10, a pair of which a part is wanted", "10, beside pairs"];
    assert_reached("refused", &refused, &[&tens[..], &["2, a pair", "9"]].concat(), 50);
    let kinds = ["a pair", "none", "a sum beside a pair of its parts", "a pair of integers"];
    assert_reached("sheets", &sheets, &[&kinds[..], &["pairs in other types"]].concat(), 2000);
    assert_reached("sheets", &sheets, &["27 lines of both kinds"], 400);
    assert_reached("runs", &runs, &["done", "more than five steps"], 500);
    assert_reached("runs", &runs, &["more than 500 lines"], 20);
    let unpacked = ["unpacked to a pair", "error 3 in place of a pair", "a pair in a package"];
    assert_reached("written", &written, &["a pair"], 500);
    assert_reached("written", &written, &unpacked, 20);
    let values = ["a package in a first part", "a package in a second part", "in a package"];
    let sizes = ["a value of 16 words with pairs", "three pairs and more", "in a sum", "a pair"];
    assert_reached("held", &held, &[&values[..], &sizes].concat(), 2000);
    assert_reached("held", &held, &["a view with more after a hidden content"], 300);
}

#[test]
fn generated_rounds_reach_every_answer_with_pairs() {
    let (mut answers, mut places) = (BTreeMap::<u8, u64>::new(), BTreeMap::<u8, u64>::new());
    for case in (0..ROUNDS).map(round_case).filter(|case| has_pairs(&case.scripts)) {
        let mut memory = case.memory.clone();
        let played = round(&case.sheet, &case.scripts, &mut memory, case.authority, case.budget);
        *answers.entry(played.answer).or_default() += 1;
        for (script, answer) in parts(&case.scripts).iter().zip(played.answers) {
            if played.answer == DONE && has_pairs(script.text) {
                *places.entry(answer).or_default() += 1;
            }
        }
    }
    println!("rounds: {answers:?}, their scripts: {places:?}");
    let reached = |counts: &BTreeMap<u8, u64>| counts.keys().copied().collect::<Vec<u8>>();
    assert_eq!(reached(&answers), [0, 1, 2, 3, 4, 5, 6, 7, 8, 11], "{answers:?}");
    assert_eq!(reached(&places), [0, 9, 10], "{places:?}");
    assert!(answers.values().chain(places.values()).all(|&count| count >= 20));
}
