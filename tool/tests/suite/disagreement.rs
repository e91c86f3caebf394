//! A library that lies: the tool notices, says so and writes nothing. And streams that fail.

use crate::desk::{desk, tabbed, MEMORY};
use crate::folder::Folder;
use reference::evaluate::ValueTooLong;
use reference::machine::Stopped;
use reference::{Reason, MOST_GROUPS};
use simp::calls::{Calls, Groups, Library, Outcome, Reference, Round, Trust, CALLS};
use simp::main_with;
use simp::streams::Streams;
use std::ffi::OsString;
use std::fs;
use std::io::{self, Write};

/// The status, standard output and standard error of the tool on calls of our own. Arguments with a
/// dot in them are files of the folder.
fn told(folder: &Folder, calls: &Calls, arguments: &str) -> (i32, String, String) {
    let mut out = Vec::new();
    let (status, err) = told_onto(folder, calls, arguments, &mut out);
    (status, String::from_utf8(out).expect("UTF-8"), err)
}

fn told_onto(
    folder: &Folder,
    calls: &Calls,
    arguments: &str,
    out: &mut dyn Write,
) -> (i32, String) {
    let place = |argument: &str| match argument.contains('.') {
        true => folder.as_ref().join(argument).into_os_string(),
        false => OsString::from(argument),
    };
    let args = arguments.split(' ').map(place).collect();
    let mut err = Vec::new();
    let input = &mut io::empty();
    let mut streams = Streams { input, out, err: &mut err, colour: false, progress: false };
    let status = main_with(args, calls, &mut streams);
    (status, String::from_utf8(err).expect("UTF-8"))
}

type RoundCall = fn(&[u8], &[u8], &mut [u32], u16, u32) -> Round;
type GroupsCall = fn(&[u8], u32, &mut [u16]) -> Groups;

fn lying(library: Library) -> Calls {
    Calls { library, ..CALLS }
}

/// That standard error says loudly that the two disagree, and how.
fn is_loud(err: &str, library: &str, reference: &str) {
    assert!(err.contains("simp: THE PROVED LIBRARY AND THE REFERENCE DISAGREE\n"), "{err}");
    assert!(err.contains(&format!("library:   {library}\n")), "{err}");
    assert!(err.contains(&format!("reference: {reference}\n")), "{err}");
    assert!(err.contains("The library's verdict counts. Nothing was written"), "{err}");
    assert!(err.contains("report it"), "{err}");
}

const RUN: &str = "run a.sheet pack.simp a.memory --as=1 --budget=9 --write";
const ROUND: &str = "round a.sheet pack.round a.memory --as=1 --budget=9 --write";

/// A run that lies: nothing is printed, and the memory file is as it was.
fn refused_run(test: &str, calls: &Calls, library: &str, reference: &str) {
    refused(test, RUN, calls, library, reference);
}

/// The same of a round.
fn refused_round(test: &str, library: Library, says: &str, reference: &str) {
    refused(test, ROUND, &lying(library), says, reference);
}

fn refused(test: &str, arguments: &str, calls: &Calls, library: &str, reference: &str) {
    let folder = desk(test);
    let (status, out, err) = told(&folder, calls, arguments);
    assert_eq!((status, out.as_str()), (4, ""));
    is_loud(&err, library, reference);
    let memory = fs::read(folder.as_ref().join("a.memory")).expect("the memory is there");
    assert_eq!(memory, tabbed(MEMORY));
}

/// Standard output has no answer: nothing, or a document that says why.
fn says_nothing_else(arguments: &str, out: &str) {
    let start =
        if arguments.contains("--json") { "{\"answer\":null,\"error\":\"simp: THE" } else { "" };
    assert!(out.starts_with(start) && out.is_empty() == start.is_empty(), "{arguments}: {out}");
}

#[test]
fn the_calls_as_they_are_agree() {
    let folder = desk("agree");
    for arguments in [ROUND, RUN] {
        let (status, out, err) = told(&folder, &CALLS, arguments);
        assert_eq!((status, err.as_str()), (0, ""), "{out}");
    }
}

/// Accepts every script, and says of all that they are trust-keeping.
fn accepting() -> Calls {
    lying(Library { trust: |_, _| Trust { answer: 0, keeping: 1 }, ..CALLS.library })
}

#[test]
fn a_check_that_accepts_everything() {
    let folder = desk("lying-check");
    let calls = accepting();
    let arguments = "check a.sheet copy.simp leak.simp missing.simp mistyped.simp";
    let (status, out, err) = told(&folder, &calls, arguments);
    assert_eq!(status, 4);
    is_loud(&err, "answer 0, keeping 1", "answer 6, keeping 0");
    is_loud(&err, "answer 0, keeping 1", "answer 5, keeping 0");
    assert!(out.contains("leak.simp: accepted by the library alone\n"), "{out}");
    let sum = "4 scripts: 3 accepted (3 trust-keeping), 0 refused, 1 can't be read\n";
    assert!(out.ends_with(sum), "{out}");
    let (status, out, _) = told(&folder, &calls, &format!("{arguments} --json"));
    assert!(status == 4 && out.contains("\"disagreement\":true"), "{out}");
}

#[test]
fn a_check_that_refuses_a_script() {
    let folder = desk("lying-refusal");
    let calls = lying(Library { trust: |_, _| Trust { answer: 5, keeping: 0 }, ..CALLS.library });
    let (status, out, err) = told(&folder, &calls, "check a.sheet copy.simp");
    assert_eq!(status, 4);
    is_loud(&err, "answer 5, keeping 0", "answer 0, keeping 1");
    assert!(out.starts_with(&format!("{}/copy.simp: refused", folder.as_ref().display())), "{out}");
}

/// An unpack as a label that fewer may have written.
const OPENS: &str = "c\nx 2\n= 3\nu 5 1\nv 0\ns\n";

/// Both accept the script, and only one says that it is trust-keeping.
#[test]
fn a_check_that_lies_of_trust() {
    let folder = desk("lying-trust");
    folder.write("open.simp", &tabbed(OPENS));
    let none = lying(Library { trust: |_, _| Trust { answer: 0, keeping: 0 }, ..CALLS.library });
    let name = |name: &str| format!("{}/{name}: accepted", folder.as_ref().display());
    for (calls, script, keeping, by) in [
        (accepting(), "open.simp", [1, 0], "the library"),
        (none, "copy.simp", [0, 1], "the reference"),
    ] {
        let (status, out, err) = told(&folder, &calls, &format!("check a.sheet {script}"));
        let line = format!("{}, trust-keeping by {by} alone\n", name(script));
        let sum = format!("1 script: 1 accepted ({} trust-keeping), 0 refused\n", keeping[0]);
        assert_eq!((status, out), (4, line + &sum));
        let [library, reference] = keeping.map(|keeping| format!("answer 0, keeping {keeping}"));
        is_loud(&err, &library, &reference);
        let asked = format!("{script} accepted on ");
        assert!(err.contains(&asked) && err.contains("a.sheet, and trust-keeping\n"), "{err}");
        let (status, out, _) = told(&folder, &calls, &format!("check a.sheet {script} --json"));
        let kept = format!("\"disagreement\":true,\"keeping\":{}}}", keeping[0] == 1);
        assert!(status == 4 && out.contains(&kept), "{out}");
    }
}

/// Beside a refusal nothing is trust-keeping.
#[test]
fn a_refusal_that_keeps() {
    let folder = desk("lying-refused-trust");
    let trust =
        |sheet: &[u8], script: &[u8]| Trust { keeping: 1, ..bindings::trust(sheet, script) };
    let calls = lying(Library { trust, ..CALLS.library });
    let (status, out, err) = told(&folder, &calls, "check a.sheet copy.simp leak.simp");
    assert_eq!(status, 4);
    is_loud(&err, "answer 6, keeping 1", "answer 6, keeping 0");
    assert!(out.contains("copy.simp: accepted, trust-keeping\n"), "{out}");
    let sum = "2 scripts: 1 accepted (1 trust-keeping), 1 refused\n";
    assert!(out.ends_with(sum), "{out}");
}

/// Of the scripts of a round the one is named that they disagree on.
#[test]
fn an_explanation_that_lies_of_trust() {
    let folder = desk("lying-trusts");
    folder.write("open.round", &tabbed(&format!("s\n\n{OPENS}")));
    let refusing = |_: &[u8], script: &[u8]| match script {
        b"s\n" => Trust { answer: 0, keeping: 1 },
        _ => Trust { answer: 6, keeping: 0 },
    };
    let refused = Reference {
        trust: |_, script| reference::try_trust(b"P\t1\n", script).map(|_| vec![]),
        ..CALLS.reference
    };
    let alone = Library { trust: |_, script| bindings::trust(b"P\t1\n", script), ..CALLS.library };
    for (calls, says) in [
        (accepting(), ["script 2: answer 0, keeping 1", "script 2: answer 0, keeping 0"]),
        (
            lying(Library { trust: refusing, ..CALLS.library }),
            ["script 2: answer 6, keeping 0", "script 2: answer 0, keeping 0"],
        ),
        (Calls { library: alone, reference: refused }, ["answer 0", "script 2 alone: answer 4"]),
    ] {
        for arguments in ["explain a.sheet open.round", "explain a.sheet open.round --json"] {
            let (status, out, err) = told(&folder, &calls, arguments);
            assert_eq!(status, 4, "{out}");
            says_nothing_else(arguments, &out);
            is_loud(&err, says[0], says[1]);
            assert!(err.contains("asked:     is every script of "), "{err}");
            assert!(err.contains("open.round trust-keeping on "), "{err}");
        }
    }
}

#[test]
fn a_verdict_on_a_sheet() {
    let folder = desk("lying-sheet");
    let calls = lying(Library { check: |_, _| 1, ..CALLS.library });
    for arguments in [
        "check a.sheet copy.simp",
        RUN,
        ROUND,
        "show a.sheet a.memory --to=0",
        "readers a.sheet",
        "readers a.sheet 0 --json",
        "explain a.sheet",
        "explain a.sheet --json",
    ] {
        let (status, out, err) = told(&folder, &calls, arguments);
        assert_eq!(status, 4, "{arguments}");
        says_nothing_else(arguments, &out);
        is_loud(&err, "answer 1", "answer 0");
    }
}

#[test]
fn a_run_that_does_nothing() {
    let run = |_: &[u8], _: &[u8], _: &mut [u32], _, _| Outcome { answer: 0, steps: 1 };
    let calls = lying(Library { run, ..CALLS.library });
    let words = ["answer 0, location 2 is `4 2 1`", "answer 0, location 2 is `3 5 2 1 62`"];
    refused_run("lying-nothing", &calls, words[0], words[1]);
}

#[test]
fn a_run_with_other_steps() {
    let run = |sheet: &[u8], script: &[u8], memory: &mut [u32], authority, budget| {
        let outcome = bindings::run(sheet, script, memory, authority, budget);
        Outcome { steps: outcome.steps + 1, ..outcome }
    };
    let calls = lying(Library { run, ..CALLS.library });
    refused_run("lying-steps", &calls, "answer 0, steps 2", "answer 0, steps 1");
}

#[test]
fn a_run_that_changes_more() {
    let run = |sheet: &[u8], script: &[u8], memory: &mut [u32], authority, budget| {
        let outcome = bindings::run(sheet, script, memory, authority, budget);
        memory[1] += 1;
        outcome
    };
    let calls = lying(Library { run, ..CALLS.library });
    let words = ["answer 0, location 0 is `1 6`", "answer 0, location 0 is `1 5`"];
    refused_run("lying-more", &calls, words[0], words[1]);
}

#[test]
fn a_refused_run_that_changes_something() {
    let folder = desk("lying-refused-run");
    let run = |sheet: &[u8], script: &[u8], memory: &mut [u32], authority, budget| {
        memory[1] = 0;
        bindings::run(sheet, script, memory, authority, budget)
    };
    let calls = lying(Library { run, ..CALLS.library });
    let arguments = "run a.sheet leak.simp a.memory --as=1 --budget=9";
    let (status, out, err) = told(&folder, &calls, arguments);
    assert_eq!((status, out.as_str()), (4, ""));
    is_loud(&err, "answer 6, location 0 is `1`", "answer 6, location 0 is `1 5`");
}

#[test]
fn a_memory_that_is_not_of_its_form_is_no_excuse() {
    let folder = desk("lying-memory");
    folder.write("a.memory", b"no memory");
    let run = |_: &[u8], _: &[u8], _: &mut [u32], _, _| Outcome { answer: 0, steps: 0 };
    let (status, _, err) = told(&folder, &lying(Library { run, ..CALLS.library }), RUN);
    assert_eq!(status, 4);
    is_loud(&err, "answer 0, steps 0", "answer 8, steps 0");
}

/// Of a long run the reference says only whether it may start, and its steps are held against the
/// budget.
#[test]
fn a_long_run() {
    let folder = desk("lying-late");
    let run = |_: &[u8], _: &[u8], memory: &mut [u32], _, _| {
        memory[1] = 7;
        Outcome { answer: 0, steps: 1_000_001 }
    };
    let calls = lying(Library { run, ..CALLS.library });
    let (status, out, _) =
        told(&folder, &calls, "run a.sheet loop.simp a.memory --as=1 --budget=1000001");
    assert_eq!((status, out.lines().next()), (0, Some("done, 1000001 steps")));
    let (status, _, err) =
        told(&folder, &calls, "run a.sheet loop.simp a.memory --as=1 --budget=1000000");
    assert_eq!(status, 4);
    is_loud(&err, "answer 0, steps 1000001", "no such answer with a budget of 1000000");
    let (status, out, err) =
        told(&folder, &calls, "run a.sheet leak.simp a.memory --as=1 --budget=9");
    assert_eq!((status, out.as_str()), (4, ""));
    is_loud(&err, "answer 0, steps 1000001", "answer 6, steps 0");
}

/// It is told without a line.
#[test]
fn a_long_run_that_stops() {
    let folder = desk("late");
    let spent = Library { run: |_, _, _, _, _| stopped(9), ..CALLS.library };
    let too_long = Library { run: |_, _, _, _, _| stopped(10), ..CALLS.library };
    let arguments =
        |budget: u32| format!("run a.sheet loop.simp a.memory --as=1 --budget={budget} --json");
    let cases = [(spent, 9, 1_000_001, 1_000_002), (too_long, 10, 1_000_002, 1_000_001)];
    for (library, answer, budget, wrong) in cases {
        let (status, _, err) = told(&folder, &lying(library), &arguments(wrong));
        assert!(status == 4 && err.contains("no such answer with a budget of"), "{err}");
        let (status, out, _) = told(&folder, &lying(library), &arguments(budget));
        assert_eq!(status, 1);
        assert!(out.starts_with(&format!("{{\"answer\":{answer},")), "{out}");
        assert!(out.contains("\"steps\":1000001,") && out.contains("\"line\":null"), "{out}");
    }
}

/// A long run that stopped leaves the memory.
#[test]
fn a_long_run_that_stops_and_writes() {
    let folder = desk("late-write");
    let run = |_: &[u8], _: &[u8], memory: &mut [u32], _, _| {
        memory[1] = 7;
        stopped(9)
    };
    let arguments = "run a.sheet loop.simp a.memory --as=1 --budget=1000001";
    let (status, _, err) = told(&folder, &lying(Library { run, ..CALLS.library }), arguments);
    assert_eq!(status, 4);
    is_loud(&err, "answer 9, location 0 is `1 7`", "answer 9, location 0 is `1 5`");
}

fn stopped(answer: u8) -> Outcome {
    Outcome { answer, steps: 1_000_001 }
}

/// A round whose scripts end so, in the places from the first.
fn ended(answer: u8, ends: &[(u8, u32)]) -> Round {
    let mut round = Round { answer, answers: [0; 32], steps: [0; 32] };
    for (place, (answer, steps)) in ends.iter().enumerate() {
        (round.answers[place], round.steps[place]) = (*answer, *steps);
    }
    round
}

#[test]
fn a_round_that_does_nothing() {
    let library = Library { round: |_, _, _, _, _| ended(0, &[(0, 0), (0, 1)]), ..CALLS.library };
    let words = ["answer 0, location 2 is `4 2 1`", "answer 0, location 2 is `3 5 2 1 62`"];
    refused_round("round-nothing", library, words[0], words[1]);
}

/// The script is named as people count.
#[test]
fn a_round_with_other_answers() {
    let steps = Library { round: |_, _, _, _, _| ended(0, &[(0, 0), (0, 2)]), ..CALLS.library };
    let script = "answer 0, script 2: answer 0, steps 1";
    refused_round("round-steps", steps, "answer 0, script 2: answer 0, steps 2", script);
    let stops = Library { round: |_, _, _, _, _| ended(0, &[(10, 0), (0, 1)]), ..CALLS.library };
    let first = "answer 0, script 1: answer 0, steps 0";
    refused_round("round-stops", stops, "answer 0, script 1: answer 10, steps 0", first);
    let refused = Library { round: |_, _, _, _, _| ended(6, &[]), ..CALLS.library };
    refused_round("round-refused", refused, "answer 6", "answer 0");
}

/// Past the last script all places are zero, and beside a refusal every place is.
#[test]
fn a_round_with_answers_where_none_are() {
    let more = |sheet: &[u8], scripts: &[u8], memory: &mut [u32], authority, budget| {
        let mut round = bindings::round(sheet, scripts, memory, authority, budget);
        round.steps[31] = 1;
        round
    };
    let library = Library { round: more, ..CALLS.library };
    let words =
        ["answer 0, script 32: answer 0, steps 1", "answer 0, script 32: answer 0, steps 0"];
    refused_round("round-more", library, words[0], words[1]);
    let folder = desk("round-more-refused");
    let arguments = "round a.sheet leak.simp a.memory --as=1 --budget=9";
    let (status, out, err) = told(&folder, &lying(library), arguments);
    assert_eq!((status, out.as_str()), (4, ""));
    is_loud(
        &err,
        "answer 6, script 32: answer 0, steps 1",
        "answer 6, script 32: answer 0, steps 0",
    );
}

#[test]
fn a_refused_round_that_changes_something() {
    let folder = desk("round-refused-write");
    let round = |sheet: &[u8], scripts: &[u8], memory: &mut [u32], authority, budget| {
        memory[1] = 0;
        bindings::round(sheet, scripts, memory, authority, budget)
    };
    let calls = lying(Library { round, ..CALLS.library });
    let arguments = "round a.sheet leak.simp a.memory --as=1 --budget=9 --json";
    let (status, out, err) = told(&folder, &calls, arguments);
    assert_eq!(status, 4);
    says_nothing_else(arguments, &out);
    is_loud(&err, "answer 6, location 0 is `1`", "answer 6, location 0 is `1 5`");
}

#[test]
fn a_reference_that_accepts_every_round() {
    let folder = desk("round-reference");
    let reference = Reference { round: |_, _, _, _, _| Ok(Vec::new()), ..CALLS.reference };
    let calls = Calls { reference, ..CALLS };
    let (status, _, err) = told(&folder, &calls, &ROUND.replace("pack.round", "leak.simp"));
    assert_eq!(status, 4);
    is_loud(&err, "answer 6", "answer 0");
}

/// Scripts are explained by the verdict on a round of them.
#[test]
fn scripts_that_are_explained() {
    let folder = desk("lying-scripts");
    let library = Library { round: |_, _, _, _, _| ended(6, &[]), ..CALLS.library };
    let accepts = Reference { round: |_, _, _, _, _| Ok(Vec::new()), ..CALLS.reference };
    let both = Library { round: |_, _, _, _, _| ended(0, &[]), ..CALLS.library };
    for (calls, script, says) in [
        (lying(library), "pack.round", ["answer 6", "answer 7"]),
        (Calls { reference: accepts, ..CALLS }, "leak.simp", ["answer 6", "answer 0"]),
        (Calls { reference: accepts, library: both }, "leak.simp", ["answer 0", "answer 6"]),
    ] {
        for arguments in
            [format!("explain a.sheet {script}"), format!("explain a.sheet {script} --json")]
        {
            let (status, out, err) = told(&folder, &calls, &arguments);
            assert_eq!(status, 4, "{out}");
            says_nothing_else(&arguments, &out);
            is_loud(&err, says[0], says[1]);
            assert!(err.contains("asked:     is every script of "), "{err}");
        }
    }
}

const LONG: &str = "round a.sheet stops.round a.memory --as=1 --budget=";

/// Of a round of many steps the reference says only whether it may start, and its steps are held
/// against the budget. A script that stopped is told with its first line.
#[test]
fn a_long_round() {
    let folder = desk("round-late");
    let ends: RoundCall = |_, _, _, _, _| ended(0, &[(9, 600_000), (0, 1), (10, 599_999)]);
    let calls = lying(Library { round: ends, ..CALLS.library });
    let (status, out, err) = told(&folder, &calls, &format!("{LONG}600000"));
    assert_eq!((status, err.as_str()), (1, ""));
    let lines: Vec<&str> = out.lines().collect();
    for (line, start) in lines.iter().zip([
        "1: script 1 of 3: the budget of 600000 steps was used up",
        "6: script 2 of 3: done, 1 step",
        "10: script 3 of 3: in step 600000 a value takes more than 16 words",
        "",
    ]) {
        assert!(line.contains(&format!("stops.round:{start}")) || start.is_empty(), "{line}");
    }
    assert_eq!(lines[3], "3 scripts: 1 done, 2 stopped and changed nothing");
    let note = "not compared with the reference: more than 1000000 steps";
    assert_eq!(lines.last(), Some(&note));
    let (_, json, _) = told(&folder, &calls, &format!("{LONG}600000 --json"));
    assert!(json.contains("\"compared\":false,") && json.contains("\"steps\":599999,"), "{json}");
    let (status, out, err) = told(&folder, &calls, &format!("{LONG}600001"));
    assert_eq!((status, out.as_str()), (4, ""));
    let unfit = "no such answer with a budget of 600001";
    is_loud(&err, "answer 0, script 1: answer 9, steps 600000", unfit);
}

#[test]
fn a_long_round_that_lies() {
    let folder = desk("round-late-lies");
    let long: RoundCall = |_, _, memory, _, _| {
        memory[1] = 7;
        ended(0, &[(9, 1_000_001), (9, 1_000_001), (9, 1_000_001)])
    };
    let calls = lying(Library { round: long, ..CALLS.library });
    let budget = "--as=1 --budget=1000001";
    for (arguments, says, reference) in [
        (
            format!("{LONG}1000001"),
            "answer 0, location 0 is `1 7`",
            "answer 0, location 0 is `1 5`",
        ),
        (format!("round a.sheet leak.simp a.memory {budget}"), "answer 0", "answer 6"),
        (
            format!("round a.sheet pack.round a.memory {budget}"),
            "answer 0, script 3: answer 9, steps 1000001",
            "no such answer with a budget of 1000001",
        ),
    ] {
        let (status, out, err) = told(&folder, &calls, &arguments);
        assert_eq!((status, out.as_str()), (4, ""), "{arguments}");
        is_loud(&err, says, reference);
    }
}

/// What a script with a value that is too long comes to after so many steps as are retraced.
fn just_retraced(budget: u32) -> Stopped {
    let steps = 1_000_000;
    match budget > steps {
        true => Stopped::TooLong { at: ValueTooLong { line: 4, words: 17 }, steps },
        false => Stopped::Spent { line: 1, steps: budget },
    }
}

/// The longest run and round that are retraced are so to their end, and what the reference says of
/// it is told.
#[test]
fn a_value_that_is_too_long_after_a_million_steps() {
    let folder = desk("just-retraced");
    let library = Library {
        run: |_, _, _, _, _| Outcome { answer: 10, steps: 1_000_000 },
        round: |_, _, _, _, _| ended(0, &[(10, 1_000_000), (0, 0), (0, 0)]),
        ..CALLS.library
    };
    let reference = Reference {
        run: |_, _, _, _, budget| Err(Reason::Stopped(just_retraced(budget))),
        round: |_, _, _, _, budget| Ok(vec![Err(just_retraced(budget)), Ok(0), Ok(0)]),
        ..CALLS.reference
    };
    let calls = Calls { library, reference };
    let told_of = |arguments: &str| {
        let (status, out, err) = told(&folder, &calls, &format!("{arguments} --as=1 --json"));
        assert_eq!((status, err.as_str()), (1, ""), "{out}");
        assert!(out.contains("\"compared\":true,") && out.contains("\"line\":4,"), "{out}");
        assert!(out.contains("in step 1000001 a value takes 17 words"), "{out}");
    };
    for budget in [1_000_001, 4_000_000_000_u32] {
        told_of(&format!("run a.sheet grow.simp a.memory --budget={budget}"));
        told_of(&format!("round a.sheet stops.round a.memory --budget={budget}"));
    }
}

#[test]
fn a_view_of_other_words() {
    let folder = desk("lying-view");
    let view = |sheet: &[u8], memory: &[u32], group, view: &mut [u32]| {
        let answer = bindings::view(sheet, memory, group, view);
        view.copy_from_slice(memory);
        answer
    };
    let calls = lying(Library { view, ..CALLS.library });
    for more in ["", " --plain", " --json"] {
        let arguments = format!("show a.sheet a.memory --to=1{more}");
        let (status, out, err) = told(&folder, &calls, &arguments);
        assert_eq!(status, 4);
        says_nothing_else(&arguments, &out);
        is_loud(&err, "answer 0, location 1 is `1 62`", "answer 0, location 1 is ``");
    }
}

/// Readers by a library that lies: nothing else is printed. Label 0 is read by each of 3 alone.
fn refused_list(test: &str, groups: GroupsCall, library: &str, reference: &str) {
    let folder = desk(test);
    let calls = lying(Library { groups, ..CALLS.library });
    for arguments in ["readers a.sheet 0", "readers a.sheet", "readers a.sheet 0 --json"] {
        let (status, out, err) = told(&folder, &calls, arguments);
        assert_eq!(status, 4, "{arguments}");
        says_nothing_else(arguments, &out);
        is_loud(&err, library, reference);
        assert!(err.contains("asked:     readers of label 0 on "), "{err}");
    }
}

/// A sheet without its line `R 1`.
fn pooled(sheet: &[u8]) -> Vec<u8> {
    String::from_utf8_lossy(sheet).replacen("R\t1\n", "", 1).into_bytes()
}

/// Has parties read together where the sheet wants one reader by himself.
#[test]
fn a_library_that_forgets_the_rule_of_reading() {
    let folder = Folder::new("lying-rule");
    let label = "L\nO 0 0004 000f\nO 1 0008 000f\n";
    folder.write("a.sheet", &tabbed(&format!("P 4\nR 1\nT 0 1\nL\n{label}X 4 0\nX 5 1\n")));
    folder.write("a.memory", &tabbed("3 5 1 1 9\n4 2 2\n"));
    folder.write("open.simp", &tabbed("c\nx 0\n= 1\nu 5 1\nv 0\ns\n"));
    let calls = lying(Library {
        run: |sheet, script, memory, authority, budget| {
            bindings::run(&pooled(sheet), script, memory, authority, budget)
        },
        view: |sheet, memory, group, view| bindings::view(&pooled(sheet), memory, group, view),
        groups: |sheet, label, places| bindings::groups(&pooled(sheet), label, places),
        ..CALLS.library
    });
    let words = |location, words: &str| format!("answer 0, location {location} is `{words}`");
    for (arguments, library, reference) in [
        ("show a.sheet a.memory --to=2,3", words(0, "3 5 1 1 9"), words(0, "3 5 1")),
        ("readers a.sheet 1", "answer 0, count 4".into(), "answer 0, count 0".into()),
        (
            "run a.sheet open.simp a.memory --as=2,3 --budget=9 --write",
            words(1, "3 1 9"),
            words(1, "4 2 1"),
        ),
    ] {
        let (status, out, err) = told(&folder, &calls, arguments);
        assert_eq!((status, out.as_str()), (4, ""), "{arguments}");
        is_loud(&err, &library, &reference);
    }
}

#[test]
fn a_list_of_other_groups() {
    const MANY: u32 = MOST_GROUPS as u32 + 1;
    let counts = [2, 3, MANY].map(|count| format!("answer 0, count {count}"));
    refused_list("few", |_, _, _| Groups { answer: 0, count: 2 }, &counts[0], &counts[1]);
    refused_list("many", |_, _, _| Groups { answer: 0, count: MANY }, &counts[2], &counts[1]);
    let place = |place: usize, group: &str| format!("{}, place {place} is `{group}`", counts[1]);
    let swapped = |sheet: &[u8], label, places: &mut [u16]| {
        let listed = bindings::groups(sheet, label, places);
        places.swap(1, 2);
        listed
    };
    refused_list("swapped", swapped, &place(1, "0004"), &place(1, "0002"));
    let unlisted = |_: &[u8], _, _: &mut [u16]| Groups { answer: 0, count: 3 };
    refused_list("unlisted", unlisted, &place(0, "ffff"), &place(0, "0001"));
}

/// Places after the count keep their content, whatever is written there.
#[test]
fn a_list_with_more_places_written() {
    const LAST: usize = MOST_GROUPS - 1;
    let counted = "answer 0, count 3";
    let cleared = |sheet: &[u8], label, places: &mut [u16]| {
        places.fill(0);
        bindings::groups(sheet, label, places)
    };
    let [mine, theirs] = ["0000", "ffff"].map(|group| format!("{counted}, place 3 is `{group}`"));
    refused_list("cleared", cleared, &mine, &theirs);
    let last = |sheet: &[u8], label, places: &mut [u16]| {
        places[LAST] = 7;
        bindings::groups(sheet, label, places)
    };
    let [mine, theirs] =
        ["0007", "ffff"].map(|group| format!("{counted}, place {LAST} is `{group}`"));
    refused_list("last-place", last, &mine, &theirs);
}

#[test]
fn a_list_that_is_refused() {
    let answers = ["answer 12, count 0", "answer 0, count 3"];
    let refused = |_: &[u8], _, _: &mut [u16]| Groups { answer: 12, count: 0 };
    refused_list("refused-list", refused, answers[0], answers[1]);
    let folder = desk("refused-lists");
    let needed = |_: &[u8], _, _: &mut [u16]| Groups { answer: 12, count: 3 };
    let written = |sheet: &[u8], label, places: &mut [u16]| {
        places[0] = 1;
        bindings::groups(sheet, label, places)
    };
    let place = |group: &str| format!("answer 12, count 0, place 0 is `{group}`");
    for (groups, library, reference) in [
        (needed as GroupsCall, "answer 12, count 3", "answer 12, count 0"),
        (written, &place("0001"), &place("ffff")),
    ] {
        let calls = lying(Library { groups, ..CALLS.library });
        let (status, out, err) = told(&folder, &calls, "readers a.sheet 3");
        assert_eq!((status, out.as_str()), (4, ""));
        is_loud(&err, library, reference);
    }
}

#[test]
fn a_reference_that_lists_nothing() {
    let folder = desk("reference-list");
    let reference = Reference { groups: |_, _, _| Ok(0), ..CALLS.reference };
    let (status, out, err) = told(&folder, &Calls { reference, ..CALLS }, "readers a.sheet 0");
    assert_eq!((status, out.as_str()), (4, ""));
    is_loud(&err, "answer 0, count 3", "answer 0, count 0");
}

#[test]
fn a_reference_that_lies() {
    let folder = desk("lying-reference");
    let reference = Reference { view: |_, _, _, _| Ok(()), ..CALLS.reference };
    let calls = Calls { reference, ..CALLS };
    let (status, _, err) = told(&folder, &calls, "show a.sheet a.memory --to=5");
    assert_eq!(status, 4);
    is_loud(&err, "answer 3", "answer 0");
}

/// A stream that takes so many bytes and then fails.
struct Short(usize);

impl Write for Short {
    fn write(&mut self, bytes: &[u8]) -> io::Result<usize> {
        match self.0.min(bytes.len()) {
            0 => Err(io::Error::other("no room")),
            taken => {
                self.0 -= taken;
                Ok(taken)
            }
        }
    }

    fn flush(&mut self) -> io::Result<()> {
        Ok(())
    }
}

/// Where several statuses apply, the greatest is given.
#[test]
fn an_output_that_fails_beside_other_ends() {
    let folder = desk("failing-output");
    let calls = accepting();
    for (calls, arguments, status) in [
        (&CALLS, "check a.sheet copy.simp", 3),
        (&CALLS, "check a.sheet leak.simp", 3),
        (&calls, "check a.sheet leak.simp", 4),
    ] {
        for room in [0, 5] {
            let ended = told_onto(&folder, calls, arguments, &mut Short(room));
            assert_eq!(ended.0, status, "{arguments}");
            assert!(ended.1.ends_with("simp: standard output: no room\n"), "{}", ended.1);
        }
    }
}

/// The last line is printed after the memory is replaced: if that fails, it is said.
#[test]
fn an_output_that_fails_after_the_memory_is_replaced() {
    let folder = desk("failing-end");
    let arguments = format!("{RUN} --plain");
    let (_, plain, _) = told(&folder, &CALLS, &arguments);
    folder.write("a.memory", &tabbed(MEMORY));
    // the plain form has no last line
    assert_eq!(told_onto(&folder, &CALLS, &arguments, &mut Short(plain.len())).0, 0);
    folder.write("a.memory", &tabbed(MEMORY));
    let (_, json, _) = told(&folder, &CALLS, &format!("{RUN} --json"));
    folder.write("a.memory", &tabbed(MEMORY));
    let mut short = Short(json.len() - 3);
    let (status, err) = told_onto(&folder, &CALLS, &format!("{RUN} --json"), &mut short);
    assert!(status == 3 && err.ends_with("a.memory is replaced\n"), "{err}");
}
