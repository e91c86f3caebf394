//! Scripts that open with `b`, word for word: what is told of their refusals, and where they start.

use crate::desk::{desk, tabbed, MEMORY};
use crate::folder::Folder;
use crate::json::Json;
use crate::tool::{simp, simp_reading, Ran};

/// Location 0 is open, 1 is principal 0's alone, 2 only principal 0 may have written. Label 4 has
/// the readers of label 3, by another owner.
const SHEET: &str = "P 3\nL\nL\nO 0 0000 0007\nL\nO 0 0007 0000\nL\nO 0 0002 0007\n\
                     L\nO 1 0001 0007\nX 0 0\nX 0 1\nX 0 2\nX 0 3\n";

const NAMES: &[u8] =
    b"P\t0\tfarm\nP\t1\tstation\nL\t0\topen\nL\t1\tfarm only\nX\t0\ttray\nX\t1\ttotal\n";

const PREFIX: &str = "[4: a script is one command, the operands of each line following it]";
const OPENED: &str = "[4: a script is one command, which a line `b label` may open]";
const FIRST: &str = "[4: only the first line of a script may be `b label`]";
const FIELDS: &str =
    "[4: each kind of line has its own fields, and its operands follow on lines of their own]";
const COMMAND: &str = "a command, `s`, `;`, `= loc`, `w` or `c`";
const EXPRESSION: &str =
    "an expression, `i n`, `x loc`, `v d`, `+`, `l t`, `r t`, `k label`, `u t label`, `p t`, `f` \
     or `g`";

fn folder(test: &str) -> Folder {
    let folder = Folder::new(test);
    folder.write("a.sheet", &tabbed(SHEET));
    folder.write("a.memory", &tabbed("1 5\n1 62\n1 7\n1 8\n"));
    folder.write("a.names", NAMES);
    folder
}

/// The line that a check prints of a refused script; blanks stand for tabs.
fn said(folder: &Folder, script: &str, more: &[&str]) -> String {
    folder.write("a.simp", &tabbed(script));
    let ran = simp(folder, &[&["check", "a.sheet", "a.simp"], more].concat());
    assert_eq!((ran.status, ran.err.as_str()), (1, ""), "{}", ran.out);
    ran.out.lines().next().expect("a line").to_string()
}

/// The same of a round.
fn said_of_round(folder: &Folder, scripts: &str) -> String {
    folder.write("a.round", &tabbed(scripts));
    let ran = simp(folder, &["round", "a.sheet", "a.round", "a.memory", "--as=0", "--budget=9"]);
    assert_eq!((ran.status, ran.err.as_str()), (1, ""), "{}", ran.out);
    ran.out.lines().next().expect("a line").to_string()
}

#[test]
fn a_start_that_a_reader_of_the_location_cannot_read() {
    let folder = folder("button-leak");
    let advice = "assign to a location that no one else may read, or start at the location's own";
    let rule =
        "[6: who may read a location may read the label that a script assigning to it starts at]";
    assert_eq!(
        said(&folder, "b 1\n;\n= 1\ni 1\n= 0\ni 1\n", &[]),
        format!(
            "a.simp:5: location 0 may be read by everyone, but it would tell that the script was \
             run, and the script starts at label 1 (`b` in line 1), which only 0 may read: \
             {advice} label 0 if its readers may know that the script is run {rule}"
        )
    );
    assert_eq!(
        said(&folder, "b 1\n;\n= 1\ni 1\n= 0\ni 1\n", &["--names", "a.names"]),
        format!(
            "a.simp:5: location 0 (tray) may be read by everyone, but it would tell that the \
             script was run, and the script starts at label 1 (farm only, `b` in line 1), which \
             only farm may read: {advice} label 0 (open) if its readers may know that the script \
             is run {rule}"
        )
    );
    assert_eq!(
        said_of_round(&folder, "s\n\nb 1\n= 0\ni 1\n\ns\n"),
        format!(
            "a.round:4: script 2 of 3: location 0 may be read by everyone, but it would tell that \
             the script was run, and the script starts at label 1 (`b` in line 3), which only 0 \
             may read: {advice} label 0 if its readers may know that the script is run {rule}"
        )
    );
}

#[test]
fn a_start_whose_writers_may_not_have_written_the_location() {
    let folder = folder("button-untrusted");
    assert_eq!(
        said(&folder, "b 0\n= 2\ni 1\n", &["--names", "a.names"]),
        "a.simp:2: location 2 may have been written only by farm, but whoever had the script run \
         would have written it, and the script starts at label 0 (open, `b` in line 1), which \
         everyone may have written: assign to a location that they may have written too, or start \
         at the location's own label 2 if no one but its writers has the script run [6: who may \
         have written the label that a script starts at may have written each location that it \
         assigns to]"
    );
}

#[test]
fn a_start_that_one_owner_s_policy_forbids() {
    let folder = folder("button-owner");
    assert_eq!(
        said(&folder, "b 4\n= 3\ni 1\n", &["--names", "a.names"]),
        "a.simp:2: owner station lets everyone read location 3, but it would tell that the script \
         was run, and the script starts at label 4 (`b` in line 1), which owner station lets only \
         farm and station read: assign to a location on whose label owner station lets no one else \
         read, or start at the location's own label 3 if its readers may know that the script is \
         run [6: for each owner: who may read a location may read the label that a script \
         assigning to it starts at]"
    );
}

/// What is advised is accepted.
#[test]
fn starts_that_are_accepted() {
    let folder = folder("button-accepted");
    for script in ["b 0\n= 0\ni 1\n", "b 2\n= 2\ni 1\n", "b 3\n= 3\ni 1\n", "b 1\n= 1\ni 1\n"] {
        folder.write("a.simp", &tabbed(script));
        let ran = simp(&folder, &["check", "a.sheet", "a.simp"]);
        let sum = "1 script: 1 accepted (1 trust-keeping), 0 refused";
        assert_eq!(ran.out, format!("a.simp: accepted, trust-keeping\n{sum}\n"), "{script}");
    }
}

#[test]
fn lines_that_are_nearly_right() {
    let folder = folder("button-nearly");
    let starts = "and a script starts with `b label` or a command";
    for (script, told) in [
        ("B 0\ns\n", format!("`B` is no kind of line, {starts}: write `b` in lower case {OPENED}")),
        ("b0\ns\n", format!("`b0` is no kind of line, {starts}: put a tab after `b` {OPENED}")),
        (
            "q\ns\n",
            format!(
                "`q` is no kind of line, {starts}: start it with `s`, `;`, `= loc`, `w` or `c`; \
                 `b label` may stand before it {OPENED}"
            ),
        ),
        (
            "b 0\n",
            format!(
                "the script has no command after `b`: write one, such as `s`, which does nothing \
                 {OPENED}"
            ),
        ),
    ] {
        assert_eq!(said(&folder, script, &[]), format!("a.simp:1: {told}"), "{script}");
    }
}

#[test]
fn labels_that_are_none() {
    let folder = folder("button-labels");
    for (script, told) in [
        (
            "b\ns\n",
            format!(
                "`b` has 0 fields after it, not 1: write it as `b label`, or take it out: without \
                 it a script starts at bottom, which everyone reads {FIELDS}"
            ),
        ),
        (
            "b 0 1\ns\n",
            format!(
                "`b` has 2 fields after it, not 1: write it as `b label`: a script starts at one \
                 label {FIELDS}"
            ),
        ),
        (
            "b 5\ns\n",
            "label 5 isn't on the sheet (5 labels): name 0 to 4 [4: each `L` line of the sheet \
             makes a label, from 0 on]"
                .to_string(),
        ),
        (
            "b open\ns\n",
            "`open` isn't a number: write its number in digits: names stand in a names file [4: \
             numbers are decimal, 0 to 4294967295, without needless zeros]"
                .to_string(),
        ),
    ] {
        assert_eq!(said(&folder, script, &[]), format!("a.simp:1: {told}"), "{script}");
    }
}

#[test]
fn lines_after_a_start() {
    let folder = folder("button-after");
    let due = "and the command is due here, after `b`";
    let only = "`b label` can only be the first line of a script";
    for (script, told) in [
        ("b 0\nx 0\n", format!("`x` starts an expression, {due}: write {COMMAND} {OPENED}")),
        ("b 0\nS\n", format!("`S` is no kind of line, {due}: write `s` in lower case {OPENED}")),
        (
            "b 0\nB 0\ns\n",
            format!("`B` is no kind of line, {due}: write {COMMAND}; {only} {OPENED}"),
        ),
        (
            "= 0\nb0\n",
            format!(
                "`b0` is no kind of line, and the value of `=` (line 1) is due here: write \
                 {EXPRESSION}; {only} {PREFIX}"
            ),
        ),
    ] {
        assert_eq!(said(&folder, script, &[]), format!("a.simp:2: {told}"), "{script}");
    }
}

#[test]
fn starts_that_are_not_first() {
    let folder = folder("button-late");
    let twice = "the script opens with `b` in line 1, and here is another";
    let inside = "`b` stands inside the command, which starts in line 1: move it up, before line 1";
    let stays = "take it out: the `b` in line 1 says where the script starts";
    let parting =
        "put an empty line before it and give the file to `simp round` if another script \
                   starts there";
    for (script, told) in [
        ("b 0\nb 1\ns\n", format!("2: {twice}: take one of the two out")),
        ("b 0\n;\ns\nb 0\ns\n", format!("4: {twice}: {stays}")),
        (";\nb 0\ns\ns\n", format!("2: {inside}")),
        ("= 0\nb 0\ni 1\n", format!("2: {inside}")),
        // whatever its fields
        (";\ns\nb\ns\n", format!("3: {inside}")),
        (
            "s\nb 0\n",
            format!(
                "2: the command ends in line 1, and `b` opens a script: move it up, before line 1; \
                 or {parting}"
            ),
        ),
        (
            "b 0\ns\nb 0\ns\n",
            format!("3: the command ends in line 2, and `b` opens a script: {stays}; or {parting}"),
        ),
    ] {
        assert_eq!(said(&folder, script, &[]), format!("a.simp:{told} {FIRST}"), "{script}");
    }
}

#[test]
fn starts_of_scripts_that_are_not_parted() {
    let folder = folder("button-not-parted");
    let parting = "put an empty line before it if another script starts there; or";
    let opens = "and `b` opens a script";
    for (scripts, told) in [
        (
            "s\n\n= 0\ni 1\nb 0\ns\n",
            format!(
                "5: script 2 of 2: the command ends in line 4, {opens}: {parting} move it up, \
                 before line 3 {FIRST}"
            ),
        ),
        (
            "b 0\ns\nb 1\ns\n\ns\n",
            format!(
                "3: script 1 of 2: the command ends in line 2, {opens}: {parting} take it out: the \
                 `b` in line 1 says where the script starts {FIRST}"
            ),
        ),
    ] {
        assert_eq!(said_of_round(&folder, scripts), format!("a.round:{told}"), "{scripts}");
    }
}

#[test]
fn starts_in_a_round() {
    let folder = folder("button-round");
    for (scripts, told) in [
        (
            "s\n\n;\nb 0\ns\ns\n",
            format!(
                "4: script 2 of 2: `b` stands inside the command, which starts in line 3: move it \
                 up, before line 3 {FIRST}"
            ),
        ),
        (
            "s\n\nb 0\nb 0\ns\n",
            format!(
                "4: script 2 of 2: the script opens with `b` in line 3, and here is another: take \
                 one of the two out {FIRST}"
            ),
        ),
        (
            "s\n\nB 0\ns\n",
            format!(
                "3: script 2 of 2: `B` is no kind of line, and a script starts with `b label` or a \
                 command: write `b` in lower case {OPENED}"
            ),
        ),
    ] {
        assert_eq!(said_of_round(&folder, scripts), format!("a.round:{told}"), "{scripts}");
    }
}

#[test]
fn a_start_without_its_command_in_a_round() {
    let folder = folder("button-round-alone");
    let alone = "the script has no command after `b`: write one, such as `s`, which does nothing";
    for (scripts, told) in [
        (
            "s\n\nb 0\nx 0\n",
            format!(
                "4: script 2 of 2: `x` starts an expression, and the command is due here, after \
                 `b`: write {COMMAND} {OPENED}"
            ),
        ),
        (
            "s\n\nb 0\n\ns\n",
            format!(
                "3: script 2 of 3: {alone}; or take out line 4, which is empty, if the script goes \
                 on after it {OPENED}"
            ),
        ),
        ("s\n\nb 0\n\n\ns\n", format!("3: script 2 of 4: {alone} {OPENED}")),
        ("s\n\nb 0\n", format!("3: script 2 of 2: {alone} {OPENED}")),
    ] {
        assert_eq!(said_of_round(&folder, scripts), format!("a.round:{told}"), "{scripts}");
    }
}

/// `b` is one of the 512 lines and takes no step.
#[test]
fn lines_and_steps() {
    let folder = folder("button-limits");
    let lines = |pairs: usize, last: &str| format!("b 0\n{}{last}", ";\ns\n".repeat(pairs));
    folder.write("a.simp", &tabbed(&lines(255, "s\n")));
    let ran = simp(&folder, &["run", "a.sheet", "a.simp", "a.memory", "--as=0", "--budget=255"]);
    assert!(ran.status == 0 && ran.out.starts_with("done, 255 steps\n"), "{}", ran.out);
    assert_eq!(
        said(&folder, &lines(254, "= 0\n+\ni 1\ni 1\n"), &[]),
        "a.simp:513: this is more than 512 lines: make two scripts of it [4: a script has at most \
         512 lines, a `b` line among them]"
    );
}

fn text(text: impl Into<String>) -> Json {
    Json::Text(text.into())
}

#[test]
fn refusals_in_json() {
    let folder = folder("button-json");
    folder.write("a.simp", &tabbed("b 1\n= 0\ni 1\n"));
    let ran =
        simp(&folder, &["check", "a.sheet", "a.simp", "a.simp", "--names", "a.names", "--json"]);
    assert_eq!(ran.status, 1, "{}", ran.out);
    let json = Json::read(&ran.out);
    assert_eq!(json.at("refused"), &Json::Number(2));
    let Json::List(scripts) = json.at("scripts") else { panic!("{json:?}") };
    let script = &scripts[0];
    assert_eq!((script.at("answer"), script.at("line")), (&Json::Number(6), &Json::Number(2)));
    assert_eq!(script.at("blamed"), &text("script"));
    let fact = "location 0 (tray) may be read by everyone, but it would tell that the script was \
                run, and the script starts at label 1 (farm only, `b` in line 1), which only farm \
                may read";
    assert_eq!(script.at("fact"), &text(fact));
    let advice = "assign to a location that no one else may read, or start at the location's own \
                  label 0 (open) if its readers may know that the script is run";
    assert_eq!(script.at("advice"), &text(advice));
    let rule = "who may read a location may read the label that a script assigning to it starts at";
    assert_eq!(script.at("rule"), &text(rule));
}

const MEANING: &str =
    "parties read together (no line `R 1`): a group needs a reader for each owner, not \
     necessarily the same\n\
     a group that can't read a script's starting label is shown no difference when that script is \
     run\nwhat a group can write makes no difference to the rest after a trust-keeping script is \
     done";

fn explained(folder: &Folder, scripts: &str, more: &[&str]) -> Ran {
    folder.write("b.simp", &tabbed(scripts));
    simp(folder, &[&["explain", "a.sheet", "b.simp"], more].concat())
}

#[test]
fn where_a_script_starts() {
    let folder = folder("button-explained");
    let one = |row: &str| {
        format!("b.simp: accepted\n\n1 script\n   1  line 1  {row}  trust-keeping\n\n{MEANING}\n")
    };
    for (script, more, row) in [
        ("b 1\n= 1\ni 1\n", &[][..], "starts at label 1  read: only 0"),
        ("b 0\ns\n", &[], "starts at label 0  read: everyone"),
        ("s\n", &[], "starts at bottom, without `b`  read: everyone"),
        ("b 1\ns\n", &["--names", "a.names"], "starts at label 1 (farm only)  read: only farm"),
        ("b 3\ns\n", &["--names", "a.names"], "starts at label 3  read: only farm and station"),
    ] {
        let ran = explained(&folder, script, more);
        assert_eq!((ran.status, ran.out, ran.err.as_str()), (0, one(row), ""), "{script}");
    }
}

#[test]
fn where_the_scripts_of_a_round_start() {
    let folder = folder("button-explained-round");
    let ran = explained(&folder, "b 1\ns\n\n= 0\ni 1\n\nb 4\ns\n", &["--names", "a.names"]);
    let rows = "   1  line 1  starts at label 1 (farm only)  read: only farm              \
                trust-keeping\n   \
                2  line 4  starts at bottom, without `b`  read: everyone               \
                trust-keeping\n   \
                3  line 7  starts at label 4              read: only farm and station  \
                trust-keeping\n";
    let out = format!("b.simp: accepted\n\n3 scripts\n{rows}\n{MEANING}\n");
    assert_eq!((ran.status, ran.out, ran.err.as_str()), (0, out, ""));
    let most = vec!["b 1\ns\n"; 32].join("\n");
    let ran = explained(&folder, &most, &[]);
    let last = "\n  32  line 94  starts at label 1  read: only 0  trust-keeping\n";
    assert!(ran.status == 0 && ran.out.contains(last), "{}", ran.out);
}

/// A sheet of no locations has a memory of no words, so that nothing refuses a round without one.
#[test]
fn starts_on_a_sheet_without_locations() {
    let folder = folder("button-explained-few");
    folder.write("a.sheet", &tabbed("P 1\nL\n"));
    for (script, row) in [("b 0\ns\n", "label 0"), (";\ns\ns\n", "bottom, without `b`")] {
        let ran = explained(&folder, script, &[]);
        let row = format!("   1  line 1  starts at {row}  read: everyone  trust-keeping\n");
        assert!(ran.status == 0 && ran.out.contains(&row), "{}", ran.out);
    }
}

#[test]
fn scripts_that_are_refused_have_no_start() {
    let folder = folder("button-explained-refused");
    for (scripts, told) in [
        ("s\n\nb 1\n= 0\ni 1\n", "4: script 2 of 2: location 0 may be read by everyone, but "),
        ("b 0\n", "1: script 1 of 1: the script has no command after `b`: "),
        ("= 0\nl 3\ni 1\n", "1: script 1 of 1: location 0 takes type 0 (int), but "),
        (&vec!["s\n"; 33].join("\n"), "65: the file has 33 scripts, and script 33 starts in "),
    ] {
        let ran = explained(&folder, scripts, &[]);
        assert_eq!((ran.status, ran.err.as_str()), (1, ""));
        assert!(ran.out.starts_with(&format!("b.simp:{told}")), "{}", ran.out);
        assert_eq!(ran.out.lines().count(), 1, "{}", ran.out);
    }
    folder.write("a.sheet", &tabbed("P 0\n"));
    let ran = explained(&folder, "s\n", &[]);
    assert!(ran.status == 1 && ran.out.starts_with("a.sheet:1: "), "{}", ran.out);
}

#[test]
fn starts_in_json() {
    let folder = folder("button-explained-json");
    let named = ["--json", "--names", "a.names"];
    let ran = explained(&folder, "b 1\ns\n\ns\n", &named);
    let sheet = r#"{"sheet":{"name":"a.sheet","answer":0,"accepted":true}"#;
    let reading =
        r#""reading":{"kind":"pooled","line":null,"words":"parties read together (no line"#;
    let starts = [
        r#"{"script":1,"first_line":1,"label":1,"name":"farm only""#,
        r#""read":"only farm","write":"everyone","keeping":true,"unpacks":[]}"#,
        r#"{"script":2,"first_line":4,"label":null,"name":null,"read":"everyone""#,
        r#""write":"only a group with farm, station and 2","keeping":true,"unpacks":[]}"#,
    ];
    let accepted = r#""scripts":{"name":"b.simp","answer":0,"accepted":true}"#;
    let start = format!("{sheet},{reading} `R 1`): ");
    let end = format!("\"}},{accepted},\"starts\":[{}]}}\n", starts.join(","));
    assert_eq!((ran.status, ran.err.as_str()), (0, ""));
    assert!(ran.out.starts_with(&start) && ran.out.ends_with(&end), "{}", ran.out);
    let ran = explained(&folder, "s\n\nb 1\n= 0\ni 1\n", &named);
    let json = Json::read(&ran.out);
    let scripts = json.at("scripts");
    assert_eq!((ran.status, json.at("starts")), (1, &Json::List(vec![])));
    assert_eq!((scripts.at("answer"), scripts.at("script")), (&Json::Number(6), &Json::Number(2)));
    assert_eq!(scripts.at("accepted"), &Json::Bool(false));
    assert_eq!((scripts.at("blamed"), scripts.at("line")), (&text("script"), &Json::Number(4)));
    let ran = explained(&folder, &vec!["s\n"; 33].join("\n"), &named);
    let json = Json::read(&ran.out);
    let scripts = json.at("scripts");
    assert_eq!((scripts.at("answer"), scripts.at("script")), (&Json::Number(11), &Json::Null));
}

#[test]
fn scripts_that_cannot_be_explained() {
    let folder = folder("button-unread");
    let ran = simp(&folder, &["explain", "no.sheet", "no.simp"]);
    assert_eq!((ran.status, ran.out.as_str()), (3, ""));
    let missing = |name| format!("simp: {name}: No such file or directory\n");
    assert_eq!(ran.err, missing("no.sheet") + &missing("no.simp"));
    let ran = simp(&folder, &["explain", "a.sheet", "/dev/zero"]);
    let long = "simp: /dev/zero: it has 1 MiB or more, and 32 scripts have less: name a file of \
                scripts\n";
    assert_eq!((ran.status, ran.out.as_str(), ran.err.as_str()), (3, "", long));
    let ran = simp_reading(&folder, &["explain", "a.sheet", "-"], b"b\t1\ns\n");
    assert!(ran.out.starts_with("standard input: accepted\n\n1 script\n"), "{}", ran.out);
    let ran = simp(&folder, &["explain", "-", "-"]);
    assert!(ran.status == 2 && ran.err.contains("`-` can stand for one file only"), "{}", ran.err);
}

#[test]
fn help_tells_of_starts() {
    let folder = folder("button-help");
    for command in ["check", "round", "explain"] {
        let ran = simp(&folder, &["help", command]);
        assert!(ran.out.contains("`b label`"), "{}", ran.out);
    }
    let ran = simp(&folder, &["help", "explain"]);
    assert!(ran.out.starts_with("usage: simp explain SHEET [SCRIPTS] "), "{}", ran.out);
}

/// The view of a group that can't read the starting label is the same after a run, done or stopped.
#[test]
fn who_cannot_read_the_start_is_shown_no_difference() {
    let folder = desk("button-view");
    let shown =
        |group: &str| simp(&folder, &["show", "a.sheet", "a.memory", "--plain", "--to", group]);
    let stops = "b 2\n;\n= 1\ni 9\nw\nl 3\ni 1\ns\n";
    for (script, status, changes) in [("b 2\n= 1\ni 9\n", 0, true), (stops, 1, false)] {
        folder.write("a.memory", &tabbed(MEMORY));
        folder.write("b.simp", &tabbed(script));
        let before = ["0", "1", "1,2"].map(shown);
        let run = ["run", "a.sheet", "b.simp", "a.memory", "--as=1", "--budget=50", "--write"];
        assert_eq!(simp(&folder, &run).status, status);
        let after = ["0", "1", "1,2"].map(shown);
        assert_eq!(before[0] != after[0], changes, "{script}");
        assert_eq!(before[1..], after[1..], "{script}");
    }
}
