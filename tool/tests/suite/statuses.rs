//! How the tool ends, for every command.

use crate::desk::{desk, tabbed, MEMORY, SHEET};
use crate::folder::Folder;
use crate::tool::{command, shell, simp, simp_reading, Ran};
use std::ffi::OsStr;
use std::fs;
use std::os::unix::ffi::OsStrExt;

fn run(folder: &Folder, script: &str, more: &[&str]) -> Ran {
    let arguments = ["run", "a.sheet", script, "a.memory", "--as", "1", "--budget", "100"];
    simp(folder, &[&arguments[..], more].concat())
}

/// That the tool turned its arguments down, said why, and printed nothing.
fn misused(ran: &Ran, says: &str) {
    assert_eq!((ran.status, ran.out.as_str()), (2, ""), "{}", ran.err);
    assert!(ran.err.starts_with("simp: ") && ran.err.contains(says), "{}", ran.err);
    assert!(ran.err.contains("usage: simp "), "{}", ran.err);
}

#[test]
fn checks() {
    let folder = desk("checks");
    let ran = simp(&folder, &["check", "a.sheet", "copy.simp", "./pack.simp"]);
    let lines = "copy.simp: accepted, trust-keeping\n./pack.simp: accepted, trust-keeping\n\
                 2 scripts: 2 accepted (2 trust-keeping), 0 refused\n";
    assert_eq!((ran.status, ran.out.as_str(), ran.err.as_str()), (0, lines, ""));
    let scripts = ["copy.simp", "leak.simp", "malformed.simp", "mistyped.simp"];
    let ran = simp(&folder, &[&["check", "a.sheet"][..], &scripts].concat());
    let starts = ["copy.simp: ", "leak.simp:1: ", "malformed.simp:1: ", "mistyped.simp:1: "];
    assert_eq!((ran.status, ran.err.as_str()), (1, ""));
    for (line, start) in ran.out.lines().zip(starts) {
        assert!(line.starts_with(start), "{line}");
    }
    assert_eq!(ran.out.lines().last(), Some("4 scripts: 1 accepted (1 trust-keeping), 3 refused"));
}

#[test]
fn a_refused_sheet_is_blamed_once() {
    let folder = desk("refused-sheet");
    for sheet in ["P 3\nQ 1\n", "P 3\nT 0 0\n"] {
        folder.write("a.sheet", &tabbed(sheet));
        let ran = simp(&folder, &["check", "a.sheet", "copy.simp", "missing.simp", "leak.simp"]);
        assert_eq!((ran.status, ran.err.as_str()), (1, ""));
        let lines: Vec<&str> = ran.out.lines().collect();
        assert!(lines[0].starts_with("a.sheet:2: "), "{}", ran.out);
        assert_eq!(lines[1..], ["no script was checked: the sheet is refused"]);
        let others = [
            run(&folder, "copy.simp", &[]),
            simp(&folder, &["round", "a.sheet", "pack.round", "a.memory", "--as=1", "--budget=1"]),
            simp(&folder, &["show", "a.sheet", "a.memory", "--to", "0"]),
            simp(&folder, &["readers", "a.sheet"]),
            simp(&folder, &["readers", "a.sheet", "9"]),
            simp(&folder, &["explain", "a.sheet"]),
        ];
        for ran in others {
            assert!(ran.status == 1 && ran.out.starts_with("a.sheet:2: "), "{}", ran.out);
        }
    }
}

#[test]
fn files_that_cannot_be_read() {
    let folder = desk("unread");
    let ran = simp(&folder, &["check", "a.sheet", "copy.simp", "missing.simp", "leak.simp", "."]);
    assert_eq!(ran.status, 3);
    let errors = "simp: missing.simp: No such file or directory\nsimp: .: Is a directory\n";
    assert_eq!(ran.err, errors);
    assert!(ran.out.contains("missing.simp: can't be read\n"), "{}", ran.out);
    let sum = "4 scripts: 1 accepted (1 trust-keeping), 1 refused, 2 can't be read";
    assert_eq!(ran.out.lines().last(), Some(sum));
    let ran = simp(&folder, &["check", "no.sheet", "copy.simp"]);
    assert_eq!(ran.status, 3);
    assert!(ran.out.starts_with("no.sheet: can't be read\n"), "{}", ran.out);
    for arguments in [
        &["run", "a.sheet", "copy.simp", "no.memory", "--as", "0", "--budget", "1"][..],
        &["round", "a.sheet", "no.round", "a.memory", "--as", "0", "--budget", "1"],
        &["show", "no.sheet", "a.memory", "--to", "0"],
        &["readers", "no.sheet"],
        &["readers", "a.sheet", "0", "--names", "no.names"],
        &["explain", "no.sheet"],
        &["explain", "a.sheet", "--names", "no.names"],
        &["explain", "a.sheet/"],
        &["explain", ""],
    ] {
        let ran = simp(&folder, arguments);
        assert_eq!((ran.status, ran.out.as_str()), (3, ""), "{arguments:?}");
        assert!(ran.err.starts_with("simp: ") && ran.err.lines().count() == 1, "{}", ran.err);
    }
}

/// A pipe without a writer would be waited for.
#[test]
fn a_pipe_is_not_opened() {
    let folder = desk("pipe");
    assert_eq!(shell(&folder, "mkfifo pipe").status, 0);
    let ran = simp(&folder, &["check", "a.sheet", "pipe"]);
    assert_eq!(ran.status, 3);
    assert!(ran.err.starts_with("simp: pipe: it is a pipe"), "{}", ran.err);
    // one that the system gives a name has a writer
    let ran = shell(&folder, "cat copy.simp | \"$SIMP\" check a.sheet /dev/stdin");
    assert_eq!((ran.status, ran.err.as_str()), (0, ""), "{}", ran.out);
}

#[test]
fn a_closed_standard_input() {
    let folder = desk("closed-input");
    let ran = shell(&folder, "\"$SIMP\" explain - <&-");
    let err = "simp: standard input: it is closed\n";
    assert_eq!((ran.status, ran.err.as_str()), (3, err), "{}", ran.out);
}

#[test]
fn runs() {
    let folder = desk("runs");
    let ran = run(&folder, "pack.simp", &[]);
    assert_eq!((ran.status, ran.err.as_str()), (0, ""));
    let lines: Vec<&str> = ran.out.lines().collect();
    assert_eq!(lines[0], "done, 1 step");
    assert_eq!(lines[1].split_whitespace().collect::<Vec<_>>(), ["0", "1", "5", "5"]);
    assert!(lines[3].trim_start().starts_with("*   2  3 5 2 1 62  "), "{}", lines[3]);
    assert_eq!(lines[5], "1 of 4 locations changed");
    assert_eq!(lines.len(), 6);
    let plain = run(&folder, "pack.simp", &["--plain"]);
    assert_eq!(plain.out, "0\t1\n1\t5\n1\t62\n3\t5\t2\t1\t62\n4\t2\t1\n");
}

#[test]
fn refused_runs() {
    let folder = desk("refused-runs");
    for (script, more, start, plain) in [
        ("malformed.simp", &[][..], "malformed.simp:1: ", "4\t0\n"),
        ("mistyped.simp", &[], "mistyped.simp:1: ", "5\t0\n"),
        ("leak.simp", &[], "leak.simp:1: ", "6\t0\n"),
        ("loop.simp", &[], "loop.simp:1: ", "9\t100\n"),
        ("grow.simp", &["--names", "a.names"], "grow.simp:5: ", "10\t"),
    ] {
        folder.write("a.names", b"P\t0\tfarm\n");
        let ran = run(&folder, script, more);
        assert_eq!((ran.status, ran.err.as_str()), (1, ""), "{script}");
        assert!(ran.out.starts_with(start), "{}", ran.out);
        assert!(ran.out.ends_with("\nthe memory is as it was\n"), "{}", ran.out);
        let ran = run(&folder, script, &[more, &["--plain"]].concat());
        assert!(ran.out.starts_with(plain), "{}", ran.out);
        assert!(ran.out.ends_with(&format!("\n{}", MEMORY.replace(' ', "\t"))), "{}", ran.out);
        assert!(ran.status == 1 && ran.err.starts_with(start), "{}", ran.err);
    }
}

#[test]
fn a_principal_that_is_not_on_the_sheet_is_refused() {
    let folder = desk("stranger");
    let start = ["run", "a.sheet", "leak.simp", "a.memory", "--budget", "1"];
    for (authority, begin) in [("3", "--as: "), ("0,15", "--as: "), ("", "leak.simp:1: ")] {
        let ran = simp(&folder, &[&start[..], &["--as", authority]].concat());
        assert!(ran.status == 1 && ran.out.starts_with(begin), "{authority}: {}", ran.out);
    }
    let ran = simp(&folder, &["show", "a.sheet", "a.memory", "--to=3"]);
    assert!(ran.status == 1 && ran.out.starts_with("--to: "), "{}", ran.out);
    misused(&simp(&folder, &["show", "a.sheet", "a.memory", "--to=16"]), "--to: ");
    misused(&simp(&folder, &["show", "a.sheet", "a.memory", "--to=farm"]), "`farm`");
}

/// A memory that isn't of its form is blamed, but what comes before it is judged first.
#[test]
fn memories_that_do_not_fit() {
    let folder = desk("memories");
    for (memory, line) in
        [("1 5\n1 x\n", 2), ("1 5\n", 1), ("", 1), ("1 5\n\n\n\n", 2), ("1 0\n", 1)]
    {
        folder.write("a.memory", &tabbed(memory));
        let start = format!("a.memory:{line}: ");
        let ran = run(&folder, "copy.simp", &[]);
        assert!(ran.status == 1 && ran.out.starts_with(&start), "{memory:?}: {}", ran.out);
        let ran = simp(&folder, &["show", "a.sheet", "a.memory", "--to", "0"]);
        assert!(ran.status == 1 && ran.out.starts_with(&start), "{memory:?}: {}", ran.out);
        assert!(run(&folder, "leak.simp", &[]).out.starts_with("leak.simp:1: "));
        let ran = simp(&folder, &["show", "a.sheet", "a.memory", "--to", "3"]);
        assert!(ran.status == 1 && ran.out.starts_with("--to: "), "{}", ran.out);
    }
    let plain = run(&folder, "copy.simp", &["--plain"]);
    assert_eq!((plain.status, plain.out.as_str()), (1, "8\t0\n"));
}

#[test]
fn a_sheet_without_locations_has_an_empty_memory() {
    let folder = desk("no-locations");
    folder.write("a.sheet", b"P\t1\n");
    folder.write("skip.simp", b"s\n");
    folder.write("a.memory", b"");
    let arguments = ["run", "a.sheet", "skip.simp", "a.memory", "--as=0", "--budget=0"];
    let ran = simp(&folder, &arguments);
    assert_eq!((ran.status, ran.out.lines().next()), (0, Some("done, 0 steps")));
    assert_eq!(simp(&folder, &["show", "a.sheet", "a.memory", "--to=0"]).status, 0);
    assert_eq!(simp(&folder, &["explain", "a.sheet"]).status, 0);
    folder.write("a.memory", b"1\n");
    let ran = simp(&folder, &arguments);
    assert!(ran.status == 1 && ran.out.starts_with("a.memory:1: "), "{}", ran.out);
}

#[test]
fn views() {
    let folder = desk("views");
    folder.write("a.memory", &tabbed("1 5\n1 62\n3 5 2 1 62\n4 2 1\n"));
    let show = |group: &str, more: &[&str]| {
        simp(&folder, &[&["show", "a.sheet", "a.memory", "--to", group][..], more].concat())
    };
    let ran = show("1", &["--plain"]);
    assert_eq!((ran.status, ran.out.as_str()), (0, "1\t5\n\n3\t5\t2\n\n"));
    let ran = show("1", &[]);
    let lines: Vec<&str> = ran.out.lines().collect();
    assert_eq!((ran.status, lines.len()), (0, 6));
    assert!(lines[2].ends_with("  hidden"), "{}", lines[2]);
    assert!(lines[3].ends_with("  left a package of label 2 with hidden content"), "{}", lines[3]);
    assert_eq!(ran.out.lines().last(), Some("2 of 4 locations hidden"));
    assert_eq!(show("0", &["--plain"]).out, "1\t5\n1\t62\n3\t5\t2\t1\t62\n4\t2\t1\n");
    assert_eq!(show("", &["--plain"]).out, "\n\n\n\n");
}

#[test]
fn explanations() {
    let folder = desk("explanations");
    let ran = simp(&folder, &["explain", "a.sheet"]);
    assert_eq!((ran.status, ran.err.as_str()), (0, ""));
    let heads = ["a.sheet: accepted", "3 principals", "6 types", "3 labels", "4 locations"];
    for head in heads {
        assert!(ran.out.lines().any(|line| line == head), "{head}: {}", ran.out);
    }
}

#[test]
fn misuse() {
    let folder = desk("misuse");
    for (arguments, says) in [
        (&[][..], "a command is missing"),
        (&["chek", "a.sheet"], "`chek`"),
        (&["check", "a.sheet"], "SCRIPT is missing"),
        (&["check", "a.sheet", "copy.simp", "--jsn"], "`--jsn`"),
        (&["check", "a.sheet", "copy.simp", "--json", "--json"], "--json stands twice"),
        (&["check", "-", "-"], "`-`"),
        (&["run", "a.sheet", "copy.simp", "a.memory", "--as", "0"], "--budget is missing"),
        (&["run", "a.sheet", "copy.simp", "-", "--as=", "--budget=1", "--write"], "--write"),
        (&["show", "a.sheet", "a.memory"], "--to is missing"),
        (&["readers", "a.sheet", "0", "1"], "`1`"),
        (&["explain", "a.sheet", "b.simp", "c.simp"], "`c.simp` is one file too many"),
    ] {
        misused(&simp(&folder, arguments), says);
    }
    // what is wrong with the arguments comes before what is wrong with the files
    misused(&simp(&folder, &["check", "no.sheet", "copy.simp", "--x"]), "`--x`");
}

#[test]
fn help_and_version() {
    let folder = desk("help");
    let general = simp(&folder, &["--help"]);
    let statuses = "exit status: 0 accepted, done, shown or listed ";
    assert!(general.status == 0 && general.out.contains(statuses), "{}", general.out);
    assert!(general.out.lines().all(|line| line.len() <= 100), "{}", general.out);
    assert_eq!(simp(&folder, &["help"]), general);
    for name in ["check", "run", "round", "show", "readers", "explain"] {
        let ran = simp(&folder, &[name, "--help"]);
        let usage = format!("usage: simp {name} ");
        assert!(ran.status == 0 && ran.out.starts_with(&usage), "{}", ran.out);
        assert!(ran.out.lines().all(|line| line.len() <= 100), "{}", ran.out);
        assert_eq!(simp(&folder, &["help", name]), ran);
    }
    let ran = simp(&folder, &["--version"]);
    let starts: Vec<&str> = ran.out.lines().filter_map(|line| line.split(" (").next()).collect();
    let version = env!("CARGO_PKG_VERSION");
    let expected = [
        format!("simp {version}"),
        format!("logic {}", bindings::LOGIC),
        format!("libsimp.a {}", bindings::ARCHIVE),
    ];
    assert_eq!((ran.status, starts), (0, expected.iter().map(String::as_str).collect()));
}

#[test]
fn one_file_is_standard_input() {
    let folder = desk("input");
    let copy = tabbed("= 1\nx 0\n");
    let ran = simp_reading(&folder, &["check", "a.sheet", "-", "leak.simp"], &copy);
    assert!(
        ran.status == 1 && ran.out.starts_with("standard input: accepted, trust-keeping\n"),
        "{}",
        ran.out
    );
    let leak = tabbed("= 0\nx 1\n");
    let ran = simp_reading(&folder, &["check", "a.sheet", "-"], &leak);
    assert!(ran.status == 1 && ran.out.starts_with("standard input:1: "), "{}", ran.out);
    let ran = simp_reading(&folder, &["check", "-", "copy.simp"], &tabbed(SHEET));
    assert_eq!(ran.status, 0, "{}", ran.out);
    let arguments = ["run", "a.sheet", "copy.simp", "-", "--as=", "--budget=1"];
    assert_eq!(simp_reading(&folder, &arguments, &tabbed(MEMORY)).status, 0);
    let arguments = ["explain", "a.sheet", "--names", "-"];
    assert!(simp_reading(&folder, &arguments, b"P\t0\tfarm\n").out.contains("farm"));
    let ran = simp_reading(&folder, &["check", "a.sheet", "-"], b"");
    assert!(ran.status == 1 && ran.out.starts_with("standard input:1: "), "{}", ran.out);
    let ran = shell(&folder, "\"$SIMP\" check a.sheet - < .");
    assert_eq!((ran.status, ran.err.as_str()), (3, "simp: standard input: Is a directory\n"));
}

#[test]
fn texts_longer_than_a_text_may_be() {
    let folder = desk("long");
    for length in [16_385, 1 << 21] {
        folder.write("long.simp", &vec![b's'; length]);
        let ran = simp(&folder, &["check", "a.sheet", "long.simp"]);
        assert!(ran.status == 1 && ran.out.contains(&length.to_string()), "{}", ran.out);
        let sheet = simp(&folder, &["explain", "long.simp"]);
        assert!(sheet.status == 1 && sheet.out.contains(&length.to_string()), "{}", sheet.out);
    }
    let arguments = ["run", "a.sheet", "copy.simp", "long.simp", "--as=", "--budget=1"];
    let ran = simp(&folder, &arguments);
    assert!(ran.status == 1 && ran.out.starts_with("long.simp:1: "), "{}", ran.out);
    // a text without end
    let ran = simp(&folder, &["check", "a.sheet", "/dev/zero"]);
    assert!(ran.status == 1 && ran.out.starts_with("/dev/zero:1: "), "{}", ran.out);
}

/// The reference doesn't follow a run for so long, so there is no line.
#[test]
fn a_long_run_is_told_without_a_line() {
    let folder = desk("long-run");
    let arguments = ["run", "a.sheet", "loop.simp", "a.memory", "--as=", "--budget"];
    let ran = simp(&folder, &[&arguments[..], &["1000000"]].concat());
    assert!(ran.status == 1 && ran.out.starts_with("loop.simp:1: "), "{}", ran.out);
    let ran = simp(&folder, &[&arguments[..], &["1000001"]].concat());
    assert!(ran.status == 1 && ran.out.starts_with("loop.simp: "), "{}", ran.out);
    let note = "not compared with the reference: more than 1000000 steps";
    assert_eq!(ran.out.lines().last(), Some(note));
}

#[test]
fn many_scripts_at_once() {
    let folder = desk("many");
    let mut names: Vec<String> = (0..140).map(|number| format!("{number}.simp")).collect();
    for (number, name) in names.iter().enumerate() {
        let bad = number == 17 || number == 139;
        folder.write(name, &tabbed(if bad { "= 0\nx 1\n" } else { "= 1\nx 0\n" }));
    }
    let check = |names: &[String]| {
        let mut arguments = vec!["check", "a.sheet"];
        arguments.extend(names.iter().map(String::as_str));
        simp(&folder, &arguments)
    };
    let ran = check(&names);
    assert_eq!((ran.status, ran.out.lines().count()), (1, 141));
    assert!(
        ran.out.ends_with("\n140 scripts: 138 accepted (138 trust-keeping), 2 refused\n"),
        "{}",
        ran.out
    );
    names.push("140.simp".to_string());
    let ran = check(&names);
    let sum = "\n141 scripts: 138 accepted (138 trust-keeping), 2 refused, 1 can't be read\n";
    assert!(ran.status == 3 && ran.out.ends_with(sum), "{}", ran.out);
}

#[test]
fn names_of_files_may_be_any_bytes() {
    let folder = desk("bytes");
    let name = OsStr::from_bytes(b"\xff\n\x1b.simp");
    fs::write(folder.as_ref().join(name), tabbed("= 1\nx 0\n")).expect("a file is written");
    let missing = OsStr::from_bytes(b"\xfe");
    let mut tool = command(&folder, &["check", "a.sheet"]);
    let ran: Ran = tool.args([name, missing]).output().expect("the tool starts").into();
    assert_eq!(ran.status, 3);
    assert!(
        ran.out.starts_with("\u{fffd}\\n\\u{1b}.simp: accepted, trust-keeping\n"),
        "{}",
        ran.out
    );
    assert_eq!(ran.err, "simp: \u{fffd}: No such file or directory\n");
}
