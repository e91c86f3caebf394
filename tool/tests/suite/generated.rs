//! Generated sheets and scripts: the tool's verdict is the library's, and what is told of it has the
//! same number.

use crate::folder::Folder;
use crate::tool::simp;
use compare::generate::groups::groups_case;
use compare::generate::program_input::sheet_and_scripts;
use compare::generate::round::round_case;
use reference::flow::{Into, Origin};
use reference::memory_text;
use reference::principals::Principals;
use reference::round::Refused;
use reference::round_text::Part;
use reference::sheet::Sheet;
use reference::{Reason, MOST_GROUPS};
use simp::message::{message, Message, Scripts, Unpack};
use simp::names::Names;
use simp::words::{Right, Words};
use std::collections::{BTreeMap, BTreeSet};

/// Each reason that the reference gives has the library's number, and can be told.
#[test]
fn every_reason_has_the_library_s_number_and_is_told() {
    let mut numbers = BTreeSet::new();
    for seed in 0..3000 {
        let (text, scripts) = sheet_and_scripts(seed);
        let sheet = reference::calls::read_sheet(&text).ok();
        for script in &scripts {
            let answer = bindings::check(&text, script);
            let told = reference::try_check(&text, script)
                .err()
                .map(|reason| message(&reason, sheet.as_ref(), &Names::default()));
            assert_eq!(told.as_ref().map_or(0, |message| message.number), answer, "seed {seed}");
            if let Some(message) = told {
                let parts = [&message.fact, &message.advice, &message.rule];
                assert!(parts.iter().all(|part| !part.is_empty() && !part.contains('\n')));
                assert!(message.line.is_some(), "seed {seed}: {message}");
            }
            numbers.insert(answer);
        }
    }
    assert_eq!(numbers.into_iter().collect::<Vec<u8>>(), [0, 1, 2, 4, 5, 6]);
}

/// A text whose lines, where it names them, are this many further down.
fn moved(text: &str, by: usize) -> String {
    let mut parts = text.split("line ");
    let mut moved = parts.next().unwrap_or_default().to_string();
    for part in parts {
        let digits = part.find(|c: char| !c.is_ascii_digit()).unwrap_or(part.len());
        let (number, rest) = part.split_at(digits);
        let number = number.parse().map_or(String::new(), |line: usize| (line + by).to_string());
        moved += &format!("line {number}{rest}");
    }
    moved
}

/// How what is told of a script in a round differs from what is told of it alone.
#[derive(Clone, Copy, Debug, PartialEq, Eq, PartialOrd, Ord)]
enum Differs {
    /// Only the lines do, which are the file's.
    Lines,
    /// The line, or all of the script, has nothing but blanks and tabs.
    Empty,
    /// A line after its end may start another, where an empty line is missing.
    LeftOver,
    /// The same of a `b` line. What is told of it alone says how the file becomes a round.
    LateStart,
}

/// By the script, and what is told of it alone.
fn differs(script: &[u8], alone: &Message) -> Differs {
    let mut lines = script.split(|&byte| byte == b'\n');
    let line = alone.line.and_then(|line| lines.nth(line - 1)).expect("a line of the script");
    let kind = line.split(|&byte| byte == b'\t').next().unwrap_or_default();
    let starts_expression = kind.len() == 1 && b"ixv+lrkupfg".contains(&kind[0]);
    if line.iter().all(|byte| b" \t".contains(byte)) {
        Differs::Empty
    } else if alone.fact.ends_with("left over") && !starts_expression {
        Differs::LeftOver
    } else if alone.fact.ends_with("and `b` opens a script") {
        Differs::LateStart
    } else {
        Differs::Lines
    }
}

/// What is told of a script in a round is what is told of it alone, but for the lines, which are
/// the file's, and where an empty line is the matter.
#[test]
fn lines_of_a_script_in_a_round_are_the_file_s() {
    let (before, by) = (b"s\n\n;\ns\ns\n\n", 6);
    let names = Names::default();
    let (mut numbers, mut counts) = (BTreeSet::new(), BTreeMap::new());
    for seed in 10_000..16_000 {
        let (text, scripts) = sheet_and_scripts(seed);
        let Ok(sheet) = reference::calls::read_sheet(&text) else {
            continue;
        };
        for script in scripts.iter().filter(|script| reference::parts(script).len() == 1) {
            let Err(reason) = reference::try_check(&text, script) else {
                continue;
            };
            let alone = message(&reason, Some(&sheet), &names).with_pair(&reason, script, &sheet);
            let file = [&before[..], script].concat();
            let told = Scripts::new(&file).message(2, reason, &sheet, &names);
            assert_eq!(told.script.map(|which| (which.script, which.of)), Some((3, 3)));
            numbers.insert(alone.number);
            let differs = differs(script, &alone);
            *counts.entry(differs).or_insert(0) += 1;
            is_the_same_but_for(differs, told, alone, by);
        }
    }
    assert_eq!(numbers.into_iter().collect::<Vec<u8>>(), [4, 5, 6]);
    let enough = [
        (Differs::Lines, 4000),
        (Differs::Empty, 40),
        (Differs::LeftOver, 70),
        (Differs::LateStart, 70),
    ];
    assert!(enough.iter().all(|(differs, least)| counts.get(differs) >= Some(least)), "{counts:?}");
}

fn is_the_same_but_for(differs: Differs, told: Message, alone: Message, by: usize) {
    assert_eq!(told.rule == alone.rule, differs != Differs::Empty, "{alone}\n{told}");
    let line = alone.line.map(|line| line + by);
    let (fact, advice) = (moved(&alone.fact, by), moved(&alone.advice, by));
    let parting = "put an empty line before it if another script starts there; or ";
    assert_eq!(told.fact == fact, differs != Differs::Empty, "{alone}\n{told}");
    match differs {
        Differs::Lines => assert_eq!((told.line, told.advice), (line, advice)),
        Differs::LeftOver => {
            assert_eq!((told.line, told.advice), (line, format!("{parting}{advice}")));
        }
        Differs::LateStart => {
            let end = "; or put an empty line before it and give the file to `simp round` if \
                       another script starts there";
            let advice = advice.strip_suffix(end).expect("how it becomes a round");
            assert_eq!((told.line, told.advice), (line, format!("{parting}{advice}")));
        }
        Differs::Empty => {}
    }
}

/// A script with another label in its `b` line, which is the first.
fn started_at(script: &[u8], label: usize) -> Vec<u8> {
    let end = script.iter().position(|&byte| byte == b'\n').expect("a first line");
    [format!("b\t{label}").as_bytes(), &script[end..]].concat()
}

/// Where the start is the reason of a refusal, it is told with its label, and what is advised
/// mends that line: with the location's own label the start isn't its fault.
#[test]
fn starts_are_told_and_can_be_mended() {
    let (mut found, mut accepted) = (0, 0);
    for seed in 40_000..43_000 {
        let (text, scripts) = sheet_and_scripts(seed);
        let Ok(sheet) = reference::calls::read_sheet(&text) else {
            continue;
        };
        for script in &scripts {
            let Err(reason @ Reason::Labels(fault)) = &reference::try_check(&text, script) else {
                continue;
            };
            let (Origin::Start(start), Into::Location(location)) =
                (fault.source.origin, fault.into)
            else {
                continue;
            };
            let told = message(reason, Some(&sheet), &Names::default());
            let starts = format!("and the script starts at label {start} (`b` in line 1), which ");
            assert!(told.fact.contains(&starts), "seed {seed}: {told}");
            let own = sheet.locations[location].label;
            let advised = format!(", or start at the location's own label {own} if ");
            assert!(told.advice.contains(&advised), "seed {seed}: {told}");
            let mended = started_at(script, own);
            let again = reference::try_check(&text, &mended).err();
            assert_eq!(bindings::check(&text, &mended), again.as_ref().map_or(0, Reason::number));
            let line =
                again.as_ref().map(|reason| message(reason, Some(&sheet), &Names::default()));
            assert_ne!(line.and_then(|told| told.line), told.line, "seed {seed}: {told}");
            found += 1;
            accepted += usize::from(again.is_none());
        }
    }
    assert!(found > 150 && accepted > 80, "{found} found, {accepted} accepted");
}

/// The starts that `--json` prints, by the scripts' first lines.
fn starts(scripts: &[u8], sheet: &Sheet) -> Vec<String> {
    let parts = reference::parts(scripts);
    let words = Words { sheet, names: &Names::default() };
    let start = |(place, part): (usize, &Part)| {
        let first = part.text.split(|&byte| byte == b'\n').next().unwrap_or_default();
        let label = first.strip_prefix(b"b\t").map(|label| String::from_utf8_lossy(label));
        let number = label.and_then(|label| label.parse::<usize>().ok());
        let label = number.map_or("null".to_string(), |label| label.to_string());
        let read = number
            .map_or("everyone".to_string(), |label| words.who(Right::Read, &sheet.labels[label]));
        let (script, first_line) = (place + 1, part.first_line);
        let at = format!(r#""first_line":{first_line},"label":{label},"name":null"#);
        format!(r#"{{"script":{script},{at},"read":"{read}","write":"#)
    };
    parts.iter().enumerate().map(start).collect()
}

#[test]
fn the_tool_s_starts_are_the_scripts() {
    let folder = Folder::new("generated-starts");
    let (mut numbers, mut started) = (BTreeSet::new(), 0);
    for seed in 50_000..50_400 {
        let case = round_case(seed);
        folder.write("sheet", &case.sheet);
        folder.write("scripts", &case.scripts);
        let ran = simp(&folder, &["explain", "sheet", "scripts", "--json"]);
        // without a memory what isn't refused for the scripts is 7
        let answer = match bindings::round(&case.sheet, &case.scripts, &mut [], 0, 0).answer {
            7 => 0,
            answer => answer,
        };
        assert_eq!((ran.status, ran.err.as_str()), (i32::from(answer != 0), ""), "seed {seed}");
        let blamed = if [1, 2].contains(&answer) { "sheet" } else { "scripts" };
        let verdict = format!(r#""{blamed}":{{"name":"{blamed}","answer":{answer},"accepted":"#);
        assert!(ran.out.contains(&verdict), "seed {seed}: {}", ran.out);
        numbers.insert(answer);
        if answer == 0 {
            let sheet = reference::calls::read_sheet(&case.sheet).expect("a sheet");
            let starts = starts(&case.scripts, &sheet);
            assert_eq!(ran.out.matches(r#"{"script":"#).count(), starts.len(), "seed {seed}");
            assert!(starts.iter().all(|start| ran.out.contains(start)), "{starts:?} {}", ran.out);
            started += starts.iter().filter(|start| !start.contains("null,\"name\"")).count();
        }
    }
    assert_eq!(numbers.into_iter().collect::<Vec<u8>>(), [0, 1, 2, 4, 5, 6, 11]);
    assert!(started > 100, "{started}");
}

/// Each refusal of a round has the library's number and is told with a line of the file.
#[test]
fn every_refusal_of_a_round_is_told() {
    let mut numbers = BTreeSet::new();
    for seed in 0..4000 {
        let case = round_case(seed);
        let (mut first, mut second) = (case.memory.clone(), case.memory.clone());
        let arguments = (case.authority, case.budget.min(1000));
        let answer =
            bindings::round(&case.sheet, &case.scripts, &mut first, arguments.0, arguments.1)
                .answer;
        let told =
            reference::try_round(&case.sheet, &case.scripts, &mut second, arguments.0, arguments.1);
        numbers.insert(answer);
        let Err(Refused { script, reason }) = told else {
            assert_eq!(answer, 0, "seed {seed}");
            continue;
        };
        let (sheet, names) = (reference::calls::read_sheet(&case.sheet).ok(), Names::default());
        let scripts = Scripts::new(&case.scripts);
        let message = match (script, answer) {
            (Some(place), _) => {
                let sheet = sheet.as_ref().expect("a sheet");
                scripts.message(place.number, reason, sheet, &names)
            }
            (None, 11) => scripts.too_many(&reason),
            (None, _) => message(&reason, sheet.as_ref(), &names),
        };
        assert_eq!(message.number, answer, "seed {seed}");
        let parts = [&message.fact, &message.advice, &message.rule];
        assert!(parts.iter().all(|part| !part.is_empty() && !part.contains('\n')), "{message}");
        if [4, 5, 6, 11].contains(&answer) {
            let lines = case.scripts.split_inclusive(|&byte| byte == b'\n').count().max(1);
            let line = message.line.expect("a line");
            assert!((1..=lines).contains(&line), "seed {seed}: {line} of {lines}: {message}");
        }
    }
    assert_eq!(numbers.into_iter().collect::<Vec<u8>>(), [0, 1, 2, 3, 4, 5, 6, 7, 8, 11]);
}

/// What `--plain` prints where the library answers so.
fn plain(round: &bindings::Round, scripts: usize, memory: &[u32]) -> String {
    let ran = if round.answer == 0 { scripts } else { 0 };
    let mut text = format!("{}\t{ran}\n", round.answer);
    for place in 0..ran {
        text += &format!("{}\t{}\n", round.answers[place], round.steps[place]);
    }
    // how many locations there are is unknown where the sheet is refused
    if ![1, 2].contains(&round.answer) {
        text += &String::from_utf8_lossy(&memory_text::print(memory));
    }
    text
}

#[test]
fn the_tool_s_rounds_are_the_library_s() {
    let folder = Folder::new("generated-rounds");
    let mut numbers = BTreeSet::new();
    for seed in 20_000..20_400 {
        let case = round_case(seed);
        let locations = reference::calls::read_sheet(&case.sheet).map(|s| s.locations.len());
        // a memory of another length has no text
        if locations.is_ok_and(|locations| locations * 16 != case.memory.len()) {
            continue;
        }
        let (mut memory, budget) = (case.memory.clone(), case.budget.min(1000));
        let round =
            bindings::round(&case.sheet, &case.scripts, &mut memory, case.authority, budget);
        folder.write("sheet", &case.sheet);
        folder.write("scripts", &case.scripts);
        folder.write("memory", &memory_text::print(&case.memory));
        let members = (0..16).filter(|p| case.authority >> p & 1 == 1).map(|p| p.to_string());
        let authority = format!("--as={}", members.collect::<Vec<_>>().join(","));
        let budget = format!("--budget={budget}");
        let ran =
            simp(&folder, &["round", "sheet", "scripts", "memory", &authority, &budget, "--plain"]);
        let scripts = reference::parts(&case.scripts).len();
        assert_eq!(ran.out, plain(&round, scripts, &memory), "seed {seed}: {}", ran.err);
        let done = round.answer == 0 && round.answers == [0; 32];
        assert_eq!(ran.status, i32::from(!done), "seed {seed}");
        assert_eq!(ran.err.is_empty(), done, "seed {seed}");
        numbers.extend(round.answers.iter().chain([&round.answer]).copied());
    }
    assert_eq!(numbers.into_iter().collect::<Vec<u8>>(), [0, 1, 2, 3, 4, 5, 6, 8, 9, 10, 11]);
}

/// The answers of a list of scripts in the tool's JSON, in order.
fn answers(json: &str) -> Vec<u8> {
    let scripts = json.split("\"scripts\":").nth(1).expect("a list of scripts");
    let numbers = scripts.split("\"answer\":").skip(1);
    numbers
        .map(|rest| {
            rest.split([',', '}']).next().expect("a number").trim().parse().expect("a number")
        })
        .collect()
}

#[test]
fn the_tool_s_verdicts_are_the_library_s() {
    let folder = Folder::new("generated");
    for seed in 5000..5150 {
        let (sheet, scripts) = sheet_and_scripts(seed);
        folder.write("sheet", &sheet);
        for (place, script) in scripts.iter().enumerate() {
            folder.write(place.to_string(), script);
        }
        let ran = simp(folder.as_ref(), &["check", "--json", "sheet", "0", "1", "2", "3"]);
        let expected: Vec<u8> =
            scripts.iter().map(|script| bindings::check(&sheet, script)).collect();
        assert_eq!(ran.err, "", "seed {seed}");
        assert_eq!(
            ran.status,
            i32::from(expected.iter().any(|&answer| answer != 0)),
            "seed {seed}"
        );
        if !expected.iter().any(|answer| [1, 2].contains(answer)) {
            assert_eq!(answers(&ran.out), expected, "seed {seed}");
        }
    }
}

/// Whether each script of a list in the tool's JSON is trust-keeping, in order. The sum is no such.
fn keepings(json: &str) -> Vec<bool> {
    let kept = json.split("\"keeping\":").skip(1);
    kept.filter_map(|rest| rest.split([',', '}']).next()?.parse().ok()).collect()
}

/// Of a script that isn't trust-keeping each unpack is told, with its line and label.
#[test]
fn the_tool_s_trust_is_the_library_s() {
    let folder = Folder::new("generated-trust");
    let mut found = BTreeMap::new();
    for seed in 60_000..60_600 {
        let (sheet, scripts) = sheet_and_scripts(seed);
        if reference::calls::read_sheet(&sheet).is_err() {
            continue;
        }
        folder.write("sheet", &sheet);
        for (place, script) in scripts.iter().enumerate() {
            folder.write(place.to_string(), script);
        }
        let ran = simp(folder.as_ref(), &["check", "--json", "sheet", "0", "1", "2", "3"]);
        let expected: Vec<bindings::Trust> =
            scripts.iter().map(|script| bindings::trust(&sheet, script)).collect();
        let kept: Vec<bool> = expected.iter().map(|trust| trust.keeping == 1).collect();
        assert_eq!((keepings(&ran.out), ran.err.as_str()), (kept, ""), "seed {seed}");
        for (script, trust) in scripts.iter().zip(&expected) {
            *found.entry((trust.answer, trust.keeping)).or_insert(0) += 1;
            for unpack in reference::try_trust(&sheet, script).unwrap_or_default() {
                let told = format!("{{\"line\":{},\"label\":{},", unpack.line, unpack.wanted);
                let fact = format!("what is opened as label {}", unpack.wanted);
                assert!(ran.out.contains(&told) && ran.out.contains(&fact), "seed {seed}");
            }
        }
    }
    assert!(found[&(0, 0)] > 20 && found[&(0, 1)] > 400, "{found:?}");
}

/// In a round the lines that are told of an unpack are the file's.
#[test]
fn unpacks_of_a_round_are_told_by_the_file_s_lines() {
    let mut found = 0;
    for seed in 61_000..63_000 {
        let (text, scripts) = sheet_and_scripts(seed);
        let Ok(sheet) = reference::calls::read_sheet(&text) else {
            continue;
        };
        let words = Words { sheet: &sheet, names: &Names::default() };
        for script in &scripts {
            let joined = [b"s\n\n", &script[..]].concat();
            for unpack in reference::try_trust(&text, script).unwrap_or_default() {
                let alone = Unpack::new(&unpack, script, &words);
                let told = Scripts::new(&joined).unpack(1, unpack, &words);
                assert_eq!((told.line, &told.fact), (alone.line + 2, &moved(&alone.fact, 2)));
                assert_eq!(
                    told.to_string(),
                    format!("script 2 of 2: {}", moved(&alone.to_string(), 2))
                );
                found += 1;
            }
        }
    }
    assert!(found > 80, "{found}");
}

/// The library's answer, and its groups.
fn listed(sheet: &[u8], label: u32) -> (u8, Vec<Principals>) {
    let mut places = vec![0; MOST_GROUPS];
    let listed = bindings::groups(sheet, label, &mut places);
    places.truncate(listed.count as usize);
    (listed.answer, places.into_iter().map(Principals::from_bits).collect())
}

/// The groups of a label as `--json` prints them.
fn list(label: usize, groups: &[Principals]) -> String {
    let group = |group: &Principals| {
        let members: Vec<String> = group.members().map(|p| p.to_string()).collect();
        format!("[{}]", members.join(","))
    };
    let count = groups.len();
    let groups = groups.iter().map(group).collect::<Vec<_>>().join(",");
    format!(r#"{{"label":{label},"name":null,"count":{count},"groups":[{groups}]}}"#)
}

/// One label is held against the library, all labels of the sheet against the reference.
#[test]
fn the_tool_s_groups_are_the_library_s() {
    let folder = Folder::new("generated-groups");
    let (mut numbers, mut most) = (BTreeSet::new(), 0);
    for seed in 30_000..30_400 {
        let case = groups_case(seed);
        folder.write("sheet", &case.sheet);
        let (answer, groups) = listed(&case.sheet, case.label);
        let ran = simp(&folder, &["readers", "sheet", &case.label.to_string(), "--json"]);
        let (listed, then) = (answer == 0, if answer == 0 { "reading" } else { "blamed" });
        let start = format!("{{\"answer\":{answer},\"listed\":{listed},\"{then}\":");
        assert!(ran.out.starts_with(&start), "seed {seed}: {}", ran.out);
        let end = format!(",\"labels\":[{}]}}\n", list(case.label as usize, &groups));
        assert_eq!(ran.out.ends_with(&end), listed, "seed {seed}: {}", ran.out);
        assert_eq!((ran.status, ran.err.as_str()), (i32::from(answer != 0), ""), "seed {seed}");
        numbers.insert(answer);
        most = most.max(groups.len());
        if let Ok(sheet) = reference::calls::read_sheet(&case.sheet) {
            let each = |label| list(label, &reference::smallest_groups(&sheet, label));
            let lists: Vec<String> = (0..sheet.labels.len()).map(each).collect();
            let all = simp(&folder, &["readers", "sheet", "--json"]);
            let end = format!("\"labels\":[{}]}}\n", lists.join(","));
            assert!(all.status == 0 && all.out.ends_with(&end), "seed {seed}: {}", all.out);
        }
    }
    assert_eq!(numbers.into_iter().collect::<Vec<u8>>(), [0, 1, 2, 12]);
    assert!(most > 100, "{most}");
}
