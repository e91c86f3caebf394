//! The generator reaches every answer of every call that can give it.

use crate::common::{
    case_count, groups_count, has_pairs, other, round_count, trust_count, under, without_start,
};
use compare::generate::case::{case, Case};
use compare::generate::groups::{groups_case, GroupsCase};
use compare::generate::pool::{pools, writes};
use compare::generate::program_input::sheet_and_scripts;
use compare::generate::round::{round_case, RoundCase};
use compare::generate::trust::trust_case;
use reference::calls::{
    accepted_script, known_group, known_label, read_memory, read_sheet, require_length,
};
use reference::label::Reading;
use reference::principals::Principals;
use reference::script::{Command, Expression, Phrase, Term};
use reference::sheet::Sheet;
use reference::text::{Cause, Counted, Fault, Thing, MOST_BYTES};
use reference::{
    check, groups, parts, round, run, sheet_text, smallest_groups, try_check, try_groups,
    try_round, try_trust, view, Reason, DONE, SCRIPTS,
};
use std::collections::{BTreeMap, BTreeSet};

type Counts = BTreeMap<u8, u64>;

/// The same by the rule of reading that a sheet names: pooled, and alone.
type ByRule = [Counts; 2];

/// Every one of the answers, and no other, comes at least once in `rare` cases.
fn assert_reached(call: &str, counts: &Counts, answers: &[u8], cases: u64, rare: u64) {
    println!("{call}: {counts:?}");
    assert_eq!(counts.keys().copied().collect::<Vec<u8>>(), answers, "{call}: {counts:?}");
    assert!(counts.values().all(|&count| count * rare >= cases), "{call}: {counts:?}");
}

/// The same under both rules.
fn assert_reached_by_rule(call: &str, counts: &ByRule, answers: &[u8], cases: u64, rare: u64) {
    for (rule, counts) in ["pooled", "alone"].into_iter().zip(counts) {
        assert_reached(&format!("{call}, {rule}"), counts, answers, cases, rare);
    }
}

/// The place of the rule that a sheet names, whether or not it is of the form.
fn rule(sheet: &[u8]) -> usize {
    usize::from(sheet.split(|&byte| byte == b'\n').nth(1) == Some(b"R\t1"))
}

/// What is written to a location. The errors tell which way packs and unpacks went.
fn kind(words: &[u32]) -> &'static str {
    match words {
        [1, ..] => "integer",
        [5, ..] | [3, 5, ..] => "package",
        [4, 2, 1, ..] => "error 1",
        [4, 2, 2, ..] => "error 2",
        [4, 2, 3, ..] => "error 3",
        [3, ..] => "left",
        [4, ..] => "right",
        [6, ..] => "pair",
        _ => "other",
    }
}

#[test]
fn generated_cases_reach_every_answer() {
    let cases = case_count().min(20_000);
    let (mut checks, mut runs, mut views) =
        (ByRule::default(), ByRule::default(), ByRule::default());
    let (mut steps, mut written) = (0, 0);
    let mut values = BTreeMap::new();
    for seed in 0..cases {
        let case = case(seed);
        let rule = rule(&case.sheet);
        *checks[rule].entry(check(&case.sheet, &case.script)).or_default() += 1;
        let mut memory = case.memory.clone();
        let outcome = run(&case.sheet, &case.script, &mut memory, case.authority, case.budget);
        *runs[rule].entry(outcome.answer).or_default() += 1;
        steps += u64::from(outcome.steps);
        written += u64::from(memory != case.memory);
        for (after, before) in memory.chunks(16).zip(case.memory.chunks(16)) {
            if after != before {
                *values.entry(kind(after)).or_default() += 1;
            }
        }
        let mut lent = vec![0; case.view_length];
        let viewed = view(&case.sheet, &case.memory, case.group, &mut lent);
        *views[rule].entry(viewed).or_default() += 1;
    }
    assert_reached_by_rule("check", &checks, &[0, 1, 2, 4, 5, 6], cases, 200);
    assert_reached_by_rule("run", &runs, &[0, 1, 2, 3, 4, 5, 6, 7, 8, 9, 10], cases, 400);
    assert_reached_by_rule("view", &views, &[0, 1, 2, 3, 7, 8], cases, 200);
    println!("{steps} steps, {written} memories written, of {cases} cases");
    assert!(steps > cases && written * 5 > cases, "{steps} steps, {written} written");
    println!("values written: {values:?}");
    let rare = |kind| values.get(kind).is_none_or(|&count: &u64| count * 200 < cases);
    let kinds = ["integer", "package", "error 1", "error 2", "error 3", "left", "right", "pair"];
    assert!(!kinds.into_iter().any(rare), "{values:?}");
}

/// What becomes of a script by a `b` line, or of one that opens with `b` by what follows; nothing
/// of other scripts.
fn by_its_start(sheet: &Sheet, script: &[u8]) -> Option<&'static str> {
    let bare = without_start(script);
    let opens = bare.is_some();
    let alone = || bare.is_some_and(|bare| accepted_script(sheet, bare).is_ok());
    match accepted_script(sheet, script) {
        Ok(_) => opens.then_some("accepted"),
        Err(Reason::Script(fault)) => match fault.cause {
            Cause::NoCommand => Some("4, nothing after it"),
            Cause::LateStart { ended: true, .. } => Some("4, after the command"),
            Cause::LateStart { again: true, .. } => Some("4, again"),
            Cause::LateStart { .. } => Some("4, further down"),
            Cause::FieldCount { kind, .. } if kind == b"b" => Some("4, its fields"),
            Cause::Number(_) if opens && fault.line == 1 => Some("4, its fields"),
            Cause::Missing { thing: Thing::Label, .. } if opens && fault.line == 1 => {
                Some("4, not on the sheet")
            }
            Cause::TooMany { what: Counted::ScriptLines, .. } if alone() => {
                Some("4, a line too many")
            }
            _ => None,
        },
        Err(Reason::Types(_)) => opens.then_some("5"),
        Err(_) if alone() => Some("6, for the start alone"),
        Err(_) => opens.then_some("6"),
    }
}

/// Every end comes at least once in `rare` scripts, each with its sheet.
fn assert_starts(what: &str, scripts: &[(Vec<u8>, Vec<u8>)], rare: usize) {
    let mut counts: BTreeMap<&str, usize> = BTreeMap::new();
    for (sheet, script) in scripts {
        let end = read_sheet(sheet).ok().and_then(|sheet| by_its_start(&sheet, script));
        *counts.entry(end.unwrap_or("another")).or_default() += 1;
    }
    println!("{what}: {counts:?}");
    let ends = [
        "accepted",
        "4, nothing after it",
        "4, after the command",
        "4, again",
        "4, further down",
        "4, its fields",
        "4, not on the sheet",
        "4, a line too many",
        "5",
        "6, for the start alone",
        "6",
    ];
    let often = |end: &str, rare| counts.get(end).is_some_and(|n| n * rare >= scripts.len());
    let missing: Vec<&str> = ends.into_iter().filter(|end| !often(end, rare)).collect();
    assert!(missing.is_empty(), "{what}: {missing:?} of {counts:?}");
    assert!(often("accepted", 8) && often("6, for the start alone", 200), "{what}: {counts:?}");
}

/// The sheet of a round, and the script that it is refused for, or else the first that opens with
/// `b`.
fn deciding(case: RoundCase) -> Option<(Vec<u8>, Vec<u8>)> {
    let RoundCase { sheet, scripts, mut memory, authority, budget, .. } = case;
    let parts = parts(&scripts);
    let script = match try_round(&sheet, &scripts, &mut memory, authority, budget) {
        Ok(_) => parts.iter().find(|part| without_start(part.text).is_some())?,
        Err(refused) => &parts[refused.script?.number],
    };
    let script = script.text.to_vec();
    Some((sheet, script))
}

#[test]
fn generated_scripts_reach_every_end_of_a_start() {
    let cases = case_count().min(20_000);
    let single = (0..cases).map(case).map(|case| (case.sheet, case.script));
    assert_starts("cases", &single.collect::<Vec<_>>(), 2000);
    let inputs = (0..cases / 4).map(sheet_and_scripts);
    let apart = inputs.flat_map(|(sheet, scripts)| {
        scripts.into_iter().map(move |script| (sheet.clone(), script))
    });
    assert_starts("inputs of the tool", &apart.collect::<Vec<_>>(), 1000);
    let in_rounds = (0..cases / 2).map(round_case).filter_map(deciding);
    assert_starts("rounds", &in_rounds.collect::<Vec<_>>(), 1000);
}

/// The order in which the numbers that refuse a round are judged.
const ORDER: [u8; 9] = [1, 2, 3, 11, 4, 5, 6, 7, 8];

/// Every number that applies to a round, in their order; where the sheet is unformed, 1 and 11 alone
/// can be told.
fn applying(case: &RoundCase) -> Vec<u8> {
    let scripts = parts(&case.scripts);
    let mut numbers = BTreeSet::new();
    numbers.extend((scripts.len() > SCRIPTS).then_some(11));
    match sheet_text::parse(&case.sheet) {
        Err(_) => numbers.extend([1]),
        Ok(sheet) => {
            numbers.extend(sheet.repeat().map(|_| 2));
            let memory = require_length(&sheet, &case.memory)
                .and_then(|()| read_memory(&sheet, &case.memory).map(|_| ()));
            let known = known_group(&sheet, case.authority).map(|_| ());
            let checks = scripts.iter().map(|script| accepted_script(&sheet, script.text));
            let results = checks.map(|check| check.map(|_| ())).chain([memory, known]);
            numbers.extend(results.filter_map(Result::err).map(|reason: Reason| reason.number()));
        }
    }
    ORDER.into_iter().filter(|number| numbers.contains(number)).collect()
}

/// What a generated round that isn't refused has to show.
#[derive(Debug, Default)]
struct Shown {
    /// By number of scripts.
    sizes: BTreeMap<usize, u64>,
    /// By answer, the rounds in which a script has it.
    places: Counts,
    /// A script is done, and steps, after one that stopped.
    goes_on: u64,
    /// The whole text is longer than a script may be.
    long: u64,
    written: u64,
}

impl Shown {
    fn count(&mut self, case: &RoundCase, answers: &[u8], steps: &[u32], written: bool) {
        *self.sizes.entry(answers.len()).or_default() += 1;
        for answer in answers.iter().copied().collect::<BTreeSet<u8>>() {
            *self.places.entry(answer).or_default() += 1;
        }
        let after = answers.iter().zip(steps).skip_while(|(&answer, _)| answer == DONE);
        let goes_on = after.into_iter().any(|(&answer, &steps)| answer == DONE && steps > 0);
        self.goes_on += u64::from(goes_on);
        self.long += u64::from(case.scripts.len() > MOST_BYTES);
        self.written += u64::from(written);
    }
}

#[test]
fn generated_rounds_reach_every_answer() {
    let rounds = round_count().min(10_000);
    let (mut answers, mut among_others, mut shown) =
        (ByRule::default(), Counts::new(), Shown::default());
    for seed in 0..rounds {
        let case = round_case(seed);
        let mut memory = case.memory.clone();
        let round = round(&case.sheet, &case.scripts, &mut memory, case.authority, case.budget);
        *answers[rule(&case.sheet)].entry(round.answer).or_default() += 1;
        let applying = applying(&case);
        assert_eq!(round.answer, applying.first().copied().unwrap_or(DONE), "seed {seed}");
        if applying.len() > 1 {
            *among_others.entry(round.answer).or_default() += 1;
        }
        if round.answer == DONE {
            let count = parts(&case.scripts).len();
            let written = memory != case.memory;
            shown.count(&case, &round.answers[..count], &round.steps[..count], written);
        }
    }
    assert_reached_by_rule("round", &answers, &[0, 1, 2, 3, 4, 5, 6, 7, 8, 11], rounds, 400);
    // 7 and 8 never apply together
    assert_reached("round, among others", &among_others, &[1, 2, 3, 4, 5, 6, 11], rounds, 1500);
    assert_reached("scripts of a round", &shown.places, &[0, 9, 10], rounds, 50);
    println!("{shown:?}");
    let sizes = [1, 2, 3, 4, 5, 31, 32];
    assert!(sizes.iter().all(|size| shown.sizes.contains_key(size)), "{shown:?}");
    assert!(shown.sizes.keys().all(|size| (1..=SCRIPTS).contains(size)), "{shown:?}");
    assert!(shown.goes_on * 20 > rounds && shown.written * 5 > rounds, "{shown:?}");
    assert!(shown.long * 1000 > rounds, "{shown:?}");
}

/// The number of policies of a label: of the `O` lines between its `L` line and the next.
fn policies(sheet: &[u8], label: usize) -> usize {
    let mut labels = sheet.split(|&byte| byte == b'L').skip(1);
    let lines = labels.nth(label).expect("a label of the sheet");
    lines.iter().filter(|&&byte| byte == b'O').count()
}

/// What generated calls for groups have to show.
#[derive(Debug, Default)]
struct Asked {
    /// By number of principals, the calls that are done.
    principals: BTreeMap<usize, u64>,
    /// By number of owners that the label lists, the calls that are done.
    policies: BTreeMap<usize, u64>,
    /// By number of groups, the calls that are done.
    groups: BTreeMap<usize, u64>,
    /// The same where one reads alone.
    singles: BTreeMap<usize, u64>,
    /// By how many places are lent beside the groups that there are.
    places: BTreeMap<&'static str, u64>,
    /// By what label is asked for that isn't on the sheet.
    labels: BTreeMap<&'static str, u64>,
}

impl Asked {
    fn count(&mut self, case: &GroupsCase, sheet: &Sheet) {
        let (label, count) = (case.label as usize, sheet.labels.len());
        if label >= count {
            let chosen = match label {
                _ if count == 0 => "none on the sheet",
                _ if label == count => "the count",
                _ if case.label == u32::MAX => "the largest",
                _ if label % (1 << 8) < count => "one of more bits",
                _ => "another",
            };
            *self.labels.entry(chosen).or_default() += 1;
            return;
        }
        let (found, wanted) = (case.places.len(), smallest_groups(sheet, label).len());
        let length = match found {
            0 => "empty",
            _ if found + 1 == wanted => "one short",
            _ if found < wanted => "short",
            _ if found == wanted => "exact",
            _ if found < wanted + 100 => "longer",
            _ => "far longer",
        };
        *self.places.entry(length).or_default() += 1;
        if found >= wanted {
            *self.principals.entry(sheet.principals).or_default() += 1;
            *self.policies.entry(policies(&case.sheet, label)).or_default() += 1;
            *self.groups.entry(wanted).or_default() += 1;
            if sheet.reading == Reading::Alone {
                *self.singles.entry(wanted).or_default() += 1;
            }
        }
    }
}

/// Every number that applies to a call for groups, in their order; where the sheet is unformed, 12
/// can be told of a label that no sheet has and of no places.
fn applying_to_groups(case: &GroupsCase) -> Vec<u8> {
    let length = case.places.len();
    let (refused, unlisted) = match sheet_text::parse(&case.sheet) {
        Err(_) => (Some(1), case.label >= 32 || length == 0),
        Ok(sheet) => {
            let label = known_label(&sheet, case.label).ok();
            let wanted = label.map(|label| smallest_groups(&sheet, label).len());
            (sheet.repeat().map(|_| 2), wanted.is_none_or(|wanted| length < wanted))
        }
    };
    refused.into_iter().chain(unlisted.then_some(12)).collect()
}

#[test]
fn generated_calls_for_groups_reach_every_answer() {
    let calls = groups_count().min(10_000);
    let (mut answers, mut among_others) = (ByRule::default(), Counts::new());
    // by rule, for the label and for the places
    let (mut twelve, mut asked) = ([[0; 2]; 2], Asked::default());
    for seed in 0..calls {
        let case = groups_case(seed);
        let refused = try_groups(&case.sheet, case.label, &mut case.places.clone()).err();
        let answer = refused.as_ref().map_or(DONE, Reason::number);
        *answers[rule(&case.sheet)].entry(answer).or_default() += 1;
        let applying = applying_to_groups(&case);
        assert_eq!(answer, applying.first().copied().unwrap_or(DONE), "seed {seed}");
        if applying.len() > 1 {
            *among_others.entry(answer).or_default() += 1;
        }
        match refused {
            Some(Reason::UnknownLabel { .. }) => twelve[rule(&case.sheet)][0] += 1,
            Some(Reason::Places { .. }) => twelve[rule(&case.sheet)][1] += 1,
            _ => (),
        }
        if let (DONE | 12, Ok(sheet)) = (answer, sheet_text::parse(&case.sheet)) {
            asked.count(&case, &sheet);
        }
    }
    assert_reached_by_rule("groups", &answers, &[0, 1, 2, 12], calls, 100);
    assert_reached("groups, among others", &among_others, &[1, 2], calls, 200);
    println!("{twelve:?} {asked:?}");
    let often = |count: Option<&u64>, rare| count.is_some_and(|&count| count * rare >= calls);
    assert!(twelve.iter().flatten().all(|count| often(Some(count), 100)), "{twelve:?}");
    assert!((1..=16).all(|n| often(asked.principals.get(&n), 500)), "{asked:?}");
    assert!((0..=16).all(|n| often(asked.policies.get(&n), 1000)), "{asked:?}");
    assert!(asked.groups.keys().any(|&count| count >= 200), "{asked:?}");
    assert!((0..=8).all(|count| often(asked.singles.get(&count), 2000)), "{asked:?}");
    assert!(asked.singles.keys().all(|&count| count <= 16), "{asked:?}");
    let lengths = ["empty", "one short", "short", "exact", "longer", "far longer"];
    assert!(lengths.iter().all(|length| often(asked.places.get(length), 200)), "{asked:?}");
    let labels = ["none on the sheet", "the count", "the largest", "one of more bits"];
    assert!(labels.iter().all(|label| often(asked.labels.get(label), 2000)), "{asked:?}");
}

/// The unpacks of a command, each with its line and what it stands in.
#[derive(Default)]
struct Unpacks {
    found: Vec<(usize, Vec<&'static str>)>,
    around: Vec<&'static str>,
}

impl Unpacks {
    fn command(&mut self, c: &Command) {
        match &c.phrase {
            Phrase::Skip => (),
            Phrase::Seq(first, second) => {
                self.command(first);
                self.command(second);
            }
            Phrase::Assign(_, e) => self.expression(e),
            Phrase::While(guard, body) => {
                self.expression(guard);
                self.within("a loop", |unpacks| unpacks.command(body));
            }
            Phrase::Case(e, on_left, on_right) => {
                self.within("a case's expression", |unpacks| unpacks.expression(e));
                self.within("a left branch", |unpacks| unpacks.command(on_left));
                self.within("a right branch", |unpacks| unpacks.command(on_right));
            }
        }
    }

    fn within(&mut self, what: &'static str, walk: impl FnOnce(&mut Self)) {
        self.around.push(what);
        walk(self);
        self.around.pop();
    }

    fn expression(&mut self, e: &Expression) {
        match &e.term {
            Term::Integer(_) | Term::Location(_) | Term::Bound(_) | Term::Value(_) => (),
            Term::Plus(e1, e2) => [e1, e2].into_iter().for_each(|e| self.expression(e)),
            Term::Pair(_, e1, e2) => {
                self.within("a first operand", |unpacks| unpacks.expression(e1));
                self.within("a second operand", |unpacks| unpacks.expression(e2));
            }
            Term::Left(_, operand) | Term::Right(_, operand) => self.expression(operand),
            Term::First(operand) | Term::Second(operand) => self.expression(operand),
            Term::Pack(_, operand) => self.within("a pack", |unpacks| unpacks.expression(operand)),
            Term::Unpack(_, _, operand) => {
                let bound = matches!(operand.term, Term::Bound(_));
                let of_bound = bound.then_some("of a bound value");
                let around = self.around.iter().copied().chain(of_bound).collect();
                self.found.push((e.line, around));
            }
        }
    }
}

/// What becomes of an accepted script by its unpacks, in the lines `endorsing` of which it isn't
/// trust-keeping; and where one of several is at fault, what that one stands in.
fn by_its_unpacks(command: &Command, endorsing: &[usize]) -> Vec<&'static str> {
    let mut unpacks = Unpacks::default();
    unpacks.command(command);
    let found = unpacks.found;
    let [line] = endorsing else {
        return vec![match (endorsing.len(), found.len()) {
            (0, 0) => "keeping, no unpack",
            (0, 1) => "keeping, one unpack",
            (0, _) => "keeping, several unpacks",
            _ => "not keeping by several",
        }];
    };
    let place = found.iter().position(|(unpack, _)| unpack == line).expect("an unpack");
    if found.len() == 1 {
        return vec!["not keeping by the only one"];
    }
    let order = match place {
        0 => "the first",
        _ if place + 1 == found.len() => "the last",
        _ => "one between",
    };
    let around: BTreeSet<&str> = found[place].1.iter().copied().chain([order]).collect();
    around.into_iter().chain(["not keeping by one of several"]).collect()
}

#[test]
fn generated_calls_for_trust_reach_every_answer() {
    let calls = trust_count().min(20_000);
    let (mut answers, mut paired) = (ByRule::default(), Counts::new());
    let mut ends = BTreeMap::<&str, u64>::new();
    for seed in 0..calls {
        let case = trust_case(seed);
        let trust = try_trust(&case.sheet, &case.script);
        let answer = trust.as_ref().err().map_or(DONE, Reason::number);
        *answers[rule(&case.sheet)].entry(answer).or_default() += 1;
        *paired.entry(answer).or_default() += u64::from(has_pairs(&case.script));
        let Ok(endorsements) = trust else {
            continue;
        };
        let lines: Vec<usize> = endorsements.iter().map(|unpack| unpack.line).collect();
        let script = try_check(&case.sheet, &case.script).expect("it is accepted");
        for end in by_its_unpacks(&script.command, &lines) {
            *ends.entry(end).or_default() += 1;
        }
    }
    assert_reached_by_rule("trust", &answers, &[0, 1, 2, 4, 5, 6], calls, 200);
    assert_reached("trust, with pairs", &paired, &[0, 1, 2, 4, 5, 6], calls, 400);
    println!("{ends:?}");
    let often = |end: &str, rare| ends.get(end).is_some_and(|&count| count * rare >= calls);
    let main = ["keeping, several unpacks", "not keeping by one of several"];
    assert!(main.iter().all(|end| often(end, 8)), "{ends:?}");
    let others = ["keeping, no unpack", "keeping, one unpack", "not keeping by several"];
    let order = ["the first", "the last", "one between", "not keeping by the only one"];
    let places = ["a case's expression", "a left branch", "a right branch", "a loop", "a pack"];
    let all = others.iter().chain(&order).chain(&places).chain(&["of a bound value"]);
    assert!(all.into_iter().all(|end| often(end, 80)), "{ends:?}");
    let in_pairs = ["a first operand", "a second operand"];
    assert!(in_pairs.iter().all(|end| often(end, 500)), "{ends:?}");
}

/// A line of a text, counted from 1.
fn line_of(text: &[u8], line: usize) -> &[u8] {
    text.split(|&byte| byte == b'\n').nth(line - 1).unwrap_or_default()
}

/// What becomes of a sheet by its rule of reading; nothing of one with another fault.
fn by_its_rule(text: &[u8]) -> Option<&'static str> {
    let Fault { line, cause } = match sheet_text::parse(text) {
        Ok(sheet) if sheet.reading == Reading::Alone => return Some("alone"),
        Ok(_) => return Some("pooled"),
        Err(fault) => fault,
    };
    let before = if line == 1 { None } else { line_of(text, line - 1).first() };
    match (cause, line_of(text, line)) {
        (Cause::ReadingRule { found }, _) => Some(match &found[..] {
            b"0" => "1, R 0",
            b"2" => "1, R 2",
            b"01" => "1, R 01",
            _ => "1, R with another field",
        }),
        (Cause::FieldCount { kind, found, .. }, _) if kind == b"R" => {
            Some(if found == 0 { "1, R without a field" } else { "1, R with two fields" })
        }
        (Cause::Blank, [b'R', b' ', ..]) => Some("1, a blank for its tab"),
        (Cause::LooseTab | Cause::CarriageReturn, [b'R', ..]) => Some("1, a byte after it"),
        (Cause::LineKind { found, .. }, _) if found == b"r" => Some("1, lower case"),
        (Cause::LineKind { found, .. }, _) if found == b"R" => Some(match before {
            None => "1, before P",
            Some(b'R') => "1, twice",
            Some(b'T') => "1, after T",
            Some(b'Q') => "1, after Q",
            Some(b'L') => "1, after L",
            Some(b'O') => "1, after O",
            _ => "1, after X",
        }),
        _ => None,
    }
}

const ENDS_OF_A_RULE: [&str; 18] = [
    "pooled",
    "alone",
    "1, R 0",
    "1, R 2",
    "1, R 01",
    "1, R with another field",
    "1, R without a field",
    "1, R with two fields",
    "1, a blank for its tab",
    "1, a byte after it",
    "1, lower case",
    "1, before P",
    "1, twice",
    "1, after T",
    "1, after Q",
    "1, after L",
    "1, after O",
    "1, after X",
];

/// Every end comes more than once among so many sheets of a kind of call, whatever the number of
/// cases: some are rare. Both rules come in a third of the sheets.
#[test]
fn generated_sheets_reach_every_end_of_a_rule() {
    const SHEETS: u64 = 20_000;
    type SheetOf = fn(u64) -> Vec<u8>;
    let kinds: [(&str, SheetOf); 5] = [
        ("cases", |seed| case(seed).sheet),
        ("rounds", |seed| round_case(seed).sheet),
        ("groups", |seed| groups_case(seed).sheet),
        ("trust", |seed| trust_case(seed).sheet),
        ("inputs of the tool", |seed| sheet_and_scripts(seed).0),
    ];
    for (kind, sheet) in kinds {
        let mut counts = BTreeMap::<&str, u64>::new();
        for end in (0..SHEETS).map(|seed| by_its_rule(&sheet(seed))) {
            *counts.entry(end.unwrap_or("another")).or_default() += 1;
        }
        println!("{kind}: {counts:?}");
        let often = |end: &str, least| counts.get(end).is_some_and(|&count| count >= least);
        let missing: Vec<&str> = ENDS_OF_A_RULE.into_iter().filter(|end| !often(end, 2)).collect();
        assert!(missing.is_empty(), "{kind}: {missing:?} of {counts:?}");
        assert!(["pooled", "alone"].iter().all(|rule| often(rule, SHEETS / 3)), "{counts:?}");
    }
}

/// Whether a call hands back something else on the same sheet under the other rule of reading.
fn turns<T: PartialEq>(sheet: &[u8], call: impl Fn(&[u8]) -> T) -> bool {
    let read = sheet_text::parse(sheet);
    read.is_ok_and(|read| call(sheet) != call(&under(other(read.reading), sheet)))
}

/// Whether a run that left this memory packed under `R 1` with a label that the authority writes
/// together and none of its members alone.
fn packs_together(case: &Case, left: &[u32]) -> bool {
    let Ok(sheet) = read_sheet(&case.sheet) else {
        return false;
    };
    let authority = Principals::from_bits(case.authority);
    let together = |words: &[u32]| match *words {
        [3, 5, label, ..] => pools(&sheet.labels[label as usize], authority, writes),
        _ => false,
    };
    let mut locations = left.chunks(16).zip(case.memory.chunks(16));
    sheet.reading == Reading::Alone
        && locations.any(|(after, before)| after != before && together(after))
}

#[test]
fn generated_calls_turn_on_the_rule() {
    let calls = case_count().min(20_000) / 2;
    let [mut runs, mut views, mut rounds, mut listed, mut packs] = [0; 5];
    for seed in 0..calls {
        let case = case(seed);
        let ran = |sheet: &[u8]| {
            let mut memory = case.memory.clone();
            (run(sheet, &case.script, &mut memory, case.authority, case.budget), memory)
        };
        let seen = |sheet: &[u8]| {
            let mut lent = vec![0; case.view_length];
            (view(sheet, &case.memory, case.group, &mut lent), lent)
        };
        runs += u64::from(turns(&case.sheet, ran));
        views += u64::from(turns(&case.sheet, seen));
        packs += u64::from(packs_together(&case, &ran(&case.sheet).1));
        let case = round_case(seed);
        rounds += u64::from(turns(&case.sheet, |sheet| {
            let mut memory = case.memory.clone();
            (round(sheet, &case.scripts, &mut memory, case.authority, case.budget), memory)
        }));
        let case = groups_case(seed);
        listed += u64::from(turns(&case.sheet, |sheet| {
            let mut places = case.places.clone();
            (groups(sheet, case.label, &mut places), places)
        }));
    }
    println!("{runs} runs, {views} views, {rounds} rounds and {listed} lists of groups turn");
    println!("{packs} pack together under the rule of one reader");
    let often = |count: u64, rare| count * rare > calls;
    assert!(often(runs, 150) && often(rounds, 150), "{runs}, {rounds} of {calls}");
    assert!(often(views, 5) && often(listed, 3), "{views}, {listed} of {calls}");
    assert!(often(packs, 300), "{packs} of {calls}");
}
