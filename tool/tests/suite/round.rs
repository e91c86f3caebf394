//! `simp round`: how it ends, which script is told of, and in which line of the file.

use crate::desk::{desk, tabbed, MEMORY, PACKED};
use crate::folder::Folder;
use crate::tool::{simp, simp_reading, Ran};

/// A round under principal 1, 20 steps for each script.
fn round(folder: &Folder, scripts: &str, more: &[&str]) -> Ran {
    let arguments = ["round", "a.sheet", scripts, "a.memory", "--as", "1", "--budget", "20"];
    simp(folder, &[&arguments[..], more].concat())
}

/// The first line that is printed of a refused round; blanks stand for tabs. Nothing is run.
fn said(folder: &Folder, scripts: &str) -> String {
    folder.write("b.round", &tabbed(scripts));
    let ran = round(folder, "b.round", &[]);
    assert_eq!((ran.status, ran.err.as_str()), (1, ""), "{}", ran.out);
    let (first, rest) = ran.out.split_once('\n').expect("a line");
    assert_eq!(rest, "no script was run, and the memory is as it was\n");
    first.to_string()
}

fn starts(said: &str, start: &str) {
    assert!(said.starts_with(start), "{said}");
}

/// So many scripts, each of one line.
fn many(scripts: usize) -> String {
    vec!["s\n"; scripts].join("\n")
}

#[test]
fn a_round_that_is_done() {
    let folder = desk("round");
    let ran = round(&folder, "pack.round", &[]);
    assert_eq!((ran.status, ran.err.as_str()), (0, ""));
    let lines: Vec<&str> = ran.out.lines().collect();
    assert_eq!(
        lines[..3],
        [
            "pack.round:1: script 1 of 2: done, 0 steps",
            "pack.round:3: script 2 of 2: done, 1 step",
            "2 scripts: 2 done, 0 stopped",
        ]
    );
    // then what a run prints of the memory
    let run = simp(&folder, &["run", "a.sheet", "pack.simp", "a.memory", "--as=1", "--budget=1"]);
    assert_eq!(lines[3..], run.out.lines().skip(1).collect::<Vec<_>>());
    let plain = round(&folder, "pack.round", &["--plain"]);
    let expected = format!("0\t2\n0\t0\n0\t1\n{}", PACKED.replace(' ', "\t"));
    assert_eq!((plain.status, plain.out, plain.err.as_str()), (0, expected, ""));
}

#[test]
fn scripts_that_stop_in_the_middle() {
    let folder = desk("round-stops");
    let stops = [
        "stops.round:1: script 1 of 3: the budget of 20 steps was used up before the script ended; \
         the run had come to this line: give a larger budget, or see whether its loop ends \
         [9: a run that isn't done within its budget changes nothing]",
        "stops.round:14: script 3 of 3: in step 11 a value takes 17 words: pack, wrap and pair \
         less: `l`, `r` and `p` add a word, `k` adds three [10: a value has at most 16 words, and \
         a run that meets a longer one changes nothing]",
    ];
    let ran = round(&folder, "stops.round", &[]);
    assert_eq!((ran.status, ran.err.as_str()), (1, ""));
    let lines: Vec<&str> = ran.out.lines().collect();
    let done = "stops.round:6: script 2 of 3: done, 1 step";
    let sums = "3 scripts: 1 done, 2 stopped and changed nothing";
    assert_eq!(lines[..4], [stops[0], done, stops[1], sums]);
    assert_eq!(lines.last(), Some(&"1 of 4 locations changed"));
    let plain = round(&folder, "stops.round", &["--plain"]);
    let expected = format!("0\t3\n9\t20\n0\t1\n10\t10\n{}", PACKED.replace(' ', "\t"));
    assert_eq!((plain.status, plain.out), (1, expected));
    assert_eq!(plain.err, format!("{}\n{}\n", stops[0], stops[1]));
}

/// Each script has the whole budget, and goes on from what the last done one left.
#[test]
fn the_budget_is_anew_for_each_script() {
    let folder = desk("round-budget");
    let add = ";\n= 0\n+\nx 0\ni 1\n= 0\n+\nx 0\ni 1\n";
    let stops = format!(";\n{add}= 0\ni 70\n");
    folder.write("b.round", &tabbed(&[add, &stops, add].join("\n")));
    let ran = simp(
        &folder,
        &["round", "a.sheet", "b.round", "a.memory", "--as=", "--budget=3", "--plain"],
    );
    assert_eq!(ran.status, 1);
    starts(&ran.out, "0\t3\n0\t3\n9\t3\n0\t3\n1\t9\n");
}

#[test]
fn each_number_is_told() {
    let folder = desk("round-numbers");
    for (scripts, start, number) in [
        ("s\n\n= 9\nx 0\n", "b.round:3: script 2 of 2: location 9 isn't on the sheet", 4),
        (
            "s\n\ns\n\n= 0\nx 2\n",
            "b.round:5: script 3 of 3: location 0 takes type 0 (int), but the value (line 6)",
            5,
        ),
        (
            "s\n\n= 0\nx 1\n\ns\n",
            "b.round:3: script 2 of 3: location 0 may be read by everyone, but the value comes \
             from location 1 (line 4), which only 0 may read",
            6,
        ),
        (
            &many(33),
            "b.round:65: the file has 33 scripts, and script 33 starts in this line: make several \
             files of it, each of at most 32",
            11,
        ),
    ] {
        let line = said(&folder, scripts);
        starts(&line, start);
        assert!(line.contains(&format!(" [{number}: ")), "{line}");
        let plain = round(&folder, "b.round", &["--plain"]);
        assert_eq!(plain.out, format!("{number}\t0\n{}", MEMORY.replace(' ', "\t")));
        assert_eq!((plain.status, plain.err), (1, format!("{line}\n")));
    }
}

#[test]
fn numbers_that_are_no_script_s() {
    let folder = desk("round-others");
    let said = |scripts: &str, more: &[&str], start: &str, number: u8| {
        let arguments = ["round", "a.sheet", scripts, "a.memory", "--budget", "20"];
        let ran = simp(&folder, &[&arguments[..], more].concat());
        assert_eq!((ran.status, ran.err.as_str()), (1, ""), "{}", ran.out);
        starts(&ran.out, start);
        assert!(ran.out.contains(&format!(" [{number}: ")), "{}", ran.out);
        assert!(ran.out.ends_with("\nno script was run, and the memory is as it was\n"));
    };
    said("pack.round", &["--as=3"], "--as: principal 3 isn't on the sheet", 3);
    folder.write("a.memory", &tabbed("1 5\n1 62\n4 2 1\n4 2 7\n"));
    said("pack.round", &["--as=1"], "a.memory:4: location 3: there is no error 7", 8);
    folder.write("a.memory", b"no memory");
    said("pack.round", &["--as=1"], "a.memory:1: ", 8);
    said("leak.simp", &["--as=1"], "leak.simp:1: script 1 of 1: location 0", 6);
    folder.write("a.sheet", &tabbed("P 3\nT 0 0\n"));
    said("pack.round", &["--as=1"], "a.sheet:2: type 5 has the kind and the parts of type 3", 2);
    folder.write("a.sheet", &tabbed("P 0\n"));
    said("pack.round", &["--as=1"], "a.sheet:1: the sheet has 0 principals", 1);
    // the call's answer is 7, and it is the memory's text that isn't of its form
    folder.write("a.sheet", &tabbed("P 1\n"));
    folder.write("skip.round", b"s\n\ns\n");
    said("skip.round", &["--as=0"], "a.memory:1: ", 8);
}

#[test]
fn the_first_number_that_applies_is_told() {
    let folder = desk("round-order");
    let (unformed, mistyped, leak) = ("q\n", "= 0\nx 2\n", "= 0\nx 1\n");
    let join = |scripts: &[&str]| scripts.join("\n");
    for (scripts, start) in [
        (join(&[leak, "s\n", unformed]), "b.round:6: script 3 of 3: `q` is no kind of line"),
        (join(&[leak, mistyped, leak]), "b.round:4: script 2 of 3: location 0 takes type 0"),
        (join(&[leak, leak]), "b.round:1: script 1 of 2: location 0 may be read by everyone"),
        (join(&[unformed; 33]), "b.round:65: the file has 33 scripts"),
        (join(&[mistyped, ""]), "b.round:3: script 2 of 2: the script is empty"),
    ] {
        starts(&said(&folder, &scripts), start);
    }
    folder.write("b.round", &tabbed(&many(33)));
    let arguments = ["round", "a.sheet", "b.round", "a.memory", "--budget=1", "--as=3"];
    starts(&simp(&folder, &arguments).out, "--as: ");
    folder.write("a.memory", b"no memory");
    starts(&said(&folder, &many(33)), "b.round:65: ");
    starts(&said(&folder, &join(&["s\n", leak])), "b.round:3: ");
}

#[test]
fn lines_inside_a_message_are_the_file_s() {
    let folder = desk("round-lines");
    folder.write("a.sheet", &tabbed("P 3\nL\nL\nO 0 0000 0007\nX 0 0\nX 3 1\n"));
    folder.write("a.memory", &tabbed("1\n3 1\n"));
    let before = ";\ns\ns\n\ns\n\n";
    for (script, start) in [
        (
            "c\nx 1\n= 0\ni 1\ns\n",
            "b.round:9: script 3 of 3: location 0 may be read by everyone, but whether this line \
             is reached is decided in line 7 by location 1 (line 8), which only 0 may read",
        ),
        (
            "c\nx 1\n= 0\nv 0\ns\n",
            "b.round:9: script 3 of 3: location 0 may be read by everyone, but the value comes \
             from location 1 (line 8, bound by the `c` in line 7), which only 0 may read",
        ),
        (
            "w\nx 0\ns\n",
            "b.round:7: script 3 of 3: the guard (line 8) is type 0 (int), and type 3 (int+int) is \
             wanted",
        ),
        (
            "= 0\n+\ni 1\n",
            "b.round:8: script 3 of 3: the script ends before the second operand of `+` (line 8): \
             add it at the end: an expression",
        ),
        (
            "= 0\ns\n",
            "b.round:8: script 3 of 3: `s` starts a command, and the value of `=` (line 7) is due \
             here",
        ),
        (
            "s\ns\n",
            "b.round:8: script 3 of 3: the command ends in line 7, and this line is left over",
        ),
        ("= 0\ni 1", "b.round:8: script 3 of 3: the last line has no end"),
    ] {
        starts(&said(&folder, &format!("{before}{script}")), start);
    }
}

#[test]
fn a_script_that_is_empty() {
    let folder = desk("round-empty");
    starts(&said(&folder, ""), "b.round:1: script 1 of 1: the script is empty: write a command");
    for (scripts, place, why) in [
        ("\ns\n", "1: script 1 of 2", "the file starts with an empty line: take that line out"),
        ("\n\ns\n", "1: script 1 of 3", "the file starts with 2 empty lines: take these lines out"),
        ("s\n\n", "2: script 2 of 2", "the file ends in an empty line: take that line out"),
        ("s\n\n\n", "2: script 2 of 3", "the file ends in 2 empty lines: take these lines out"),
        ("s\n\n\ns\n", "3: script 2 of 3", "lines 2 and 3 are both empty: take one of them out"),
        (
            "s\n\n\n\ns\n",
            "3: script 2 of 4",
            "lines 2 to 4 are empty: take all of them but one out",
        ),
        ("\n", "1: script 1 of 2", "the file has only empty lines: write scripts"),
    ] {
        let line = said(&folder, scripts);
        starts(&line, &format!("b.round:{place}: the script is empty, since {why}"));
        let rule = " [4: every empty line parts two scripts, and none of them is empty]";
        assert!(line.ends_with(rule), "{line}");
    }
}

/// An empty line is one without a byte.
#[test]
fn a_line_that_looks_empty() {
    let folder = desk("round-looks");
    for (text, place) in [
        ("s\n\ns\n\t\ns\n", "4: script 2 of 2"),
        ("s\n\ns\n\t\t\ns\n", "4: script 2 of 2"),
        ("s\n\ns\n \ns\n", "4: script 2 of 2"),
        (";\ns\n \ns\n\ns\n", "3: script 1 of 2"),
        ("s\n \n\n", "2: script 1 of 2"),
        ("s\n\n \n\ns\n", "3: script 2 of 3"),
        ("s\n\n\t", "3: script 2 of 2"),
    ] {
        folder.write("b.round", text.as_bytes());
        let ran = round(&folder, "b.round", &[]);
        let message = format!(
            "b.round:{place}: the line has only blanks or tabs, so it isn't empty and parts \
             nothing: take the line out, or only its blanks and tabs if it is to part two scripts \
             [4: every empty line parts two scripts, and none of them is empty]\n"
        );
        starts(&ran.out, &message);
    }
    folder.write("b.round", b"s\n\r\ns\n");
    let ran = round(&folder, "b.round", &[]);
    starts(&ran.out, "b.round:2: script 1 of 1: line ends in byte 13: save with Unix line ends");
}

/// Only what stands alone in its line looks empty.
#[test]
fn a_blank_or_a_tab_beside_something_else() {
    let folder = desk("round-beside");
    for (text, fact) in [
        ("s\n\n= 0\nx\t0\n", "3: script 2 of 2: fields are parted by a tab, found a blank: put "),
        ("s\n\n s\n", "3: script 2 of 2: fields are parted by a tab, found a blank: put "),
        ("s\n\n;\ns\ns\t\n", "5: script 2 of 2: there is a tab too many: put "),
    ] {
        folder.write("b.round", text.as_bytes());
        starts(&round(&folder, "b.round", &[]).out, &format!("b.round:{fact}"));
    }
}

#[test]
fn a_byte_order_mark() {
    let folder = desk("round-mark");
    for (text, told) in [
        (
            "\u{feff}s\n\ns\n",
            "1: script 1 of 2: the text starts with a byte order mark: save it as plain text, \
             UTF-8 without a mark [4: ",
        ),
        (
            "s\n\n\u{feff}s\n",
            "3: script 2 of 2: the script starts with a byte order mark: save each script without \
             a mark before you join them [4: ",
        ),
    ] {
        starts(&said(&folder, text), &format!("b.round:{told}"));
    }
}

/// A line that can start a script may be one that an empty line is missing before.
#[test]
fn scripts_that_are_not_parted() {
    let folder = desk("round-not-parted");
    let advice = "take it out, or put a line `;` before the first of two commands [4: ";
    let parting = "put an empty line before it if another script starts there; or ";
    for (scripts, place, parting) in [
        ("s\ns\n", "2: script 1 of 1: the command ends in line 1", parting),
        ("s\n\n= 0\ni 1\n= 0\ni 2\n", "5: script 2 of 2: the command ends in line 4", parting),
        ("s\n;\ns\ns\n\ns\n", "2: script 1 of 2: the command ends in line 1", parting),
        ("s\nS\n", "2: script 1 of 1: the command ends in line 1", parting),
        ("s\ni 1\n", "2: script 1 of 1: the command ends in line 1", ""),
        ("s\n\ns\n+\ni 1\ni 1\n", "4: script 2 of 2: the command ends in line 3", ""),
    ] {
        let told = format!("b.round:{place}, and this line is left over: {parting}{advice}");
        starts(&said(&folder, scripts), &told);
    }
}

/// An empty line may stand inside a script where another follows it.
#[test]
fn an_empty_line_inside_a_script() {
    let folder = desk("round-cut");
    let command = "a command, `s`, `;`, `= loc`, `w` or `c`";
    for (scripts, place, line, after, advice) in [
        (
            "s\n\n;\ns\n\ns\n",
            "3: script 2 of 3",
            3,
            "after line 4",
            "; or take out line 5, which is empty, if the script goes on after it",
        ),
        (";\ns\n\n", "1: script 1 of 2", 1, "after line 2", ""),
        (";\ns\n\n\ns\n", "1: script 1 of 3", 1, "after line 2", ""),
        ("s\n\n;\ns\n", "3: script 2 of 2", 3, "at the end", ""),
    ] {
        let fact =
            format!("{place}: the script ends before the second command of `;` (line {line})");
        let told = format!("b.round:{fact}: add it {after}: {command}{advice} [4: ");
        starts(&said(&folder, scripts), &told);
    }
    // and in a file for one script it is said what such a file is
    folder.write("b.round", b"s\n\n;\ns\n\ns\n");
    let ran = simp(&folder, &["check", "a.sheet", "b.round"]);
    starts(&ran.out, "b.round:2: the line is empty: take it out, or give the file to `simp round`");
}

#[test]
fn scripts_at_the_limit() {
    let folder = desk("round-limit");
    folder.write("b.round", many(32).as_bytes());
    let ran = round(&folder, "b.round", &[]);
    assert_eq!(ran.status, 0, "{}", ran.out);
    assert!(ran.out.contains("b.round:63: script 32 of 32: done, 0 steps\n32 scripts: 32 done"));
    starts(
        &said(&folder, &format!("{}\n", many(32))),
        "b.round:64: the file has 33 scripts, 1 of them empty, since the file ends in an empty \
         line: take that line out [11: ",
    );
    starts(
        &said(&folder, &many(20).replace("\n\n", "\n\n\n")),
        "b.round:3: the file has 39 scripts, 19 of them empty, the first since lines 2 and 3 are \
         both empty: take one of them out, and do likewise with the others [11: ",
    );
    starts(
        &said(&folder, &format!("{}\n", many(33))),
        "b.round:65: the file has 34 scripts, 1 of them empty, and script 33 starts in this line: \
         make several files of it",
    );
}

#[test]
fn the_byte_limit_is_for_each_script() {
    let folder = desk("round-bytes");
    let long = format!("{}i 1\n", "+\n".repeat(255));
    let script = format!("= 0\n{long}{}", "i 4294967295\n".repeat(255));
    folder.write("b.round", &tabbed(&vec![script; 32].join("\n")));
    let ran = round(&folder, "b.round", &["--plain"]);
    starts(&ran.out, "0\t32\n0\t1\n");
    assert_eq!(ran.status, 0);
    let line = said(&folder, &format!("s\n\n{}", "s\n".repeat(8193)));
    starts(&line, "b.round:8195: script 2 of 2: the script has 16386 bytes, and byte 16385 is in");
}

/// What number its whole has can't be known from its start.
#[test]
fn a_file_longer_than_any_round() {
    let folder = desk("round-long");
    folder.write("b.round", &vec![b's'; 1 << 21]);
    for scripts in ["b.round", "/dev/zero"] {
        let ran = round(&folder, scripts, &[]);
        assert_eq!((ran.status, ran.out.as_str()), (3, ""));
        starts(
            &ran.err,
            &format!("simp: {scripts}: it has 1 MiB or more, and 32 scripts have less: "),
        );
    }
    let ran = round(&folder, "b.round", &["--json"]);
    assert!(ran.status == 3 && ran.out.starts_with("{\"answer\":null,"), "{}", ran.out);
}

#[test]
fn scripts_on_standard_input() {
    let folder = desk("round-input");
    let arguments = ["round", "a.sheet", "-", "a.memory", "--as=", "--budget=1"];
    let ran = simp_reading(&folder, &arguments, b"s\n\ns\n");
    starts(&ran.out, "standard input:1: script 1 of 2: done, 0 steps\n");
    assert_eq!(ran.status, 0);
    let ran = simp_reading(&folder, &arguments, b"s\n\n");
    starts(&ran.out, "standard input:2: script 2 of 2: the script is empty");
    assert_eq!(ran.status, 1);
}

#[test]
fn names_stand_in_messages() {
    let folder = desk("round-names");
    folder.write("a.names", b"P\t0\tfarm\nP\t1\tgrading line\nX\t0\ttray\n");
    folder.write("b.round", &tabbed("s\n\n= 0\nx 1\n"));
    let arguments = ["round", "a.sheet", "b.round", "a.memory", "--budget=1", "--names", "a.names"];
    let ran = simp(&folder, &[&arguments[..], &["--as", "grading line"]].concat());
    starts(&ran.out, "b.round:3: script 2 of 2: location 0 (tray) may be read by everyone");
    assert!(ran.status == 1 && ran.out.contains("only farm may read"), "{}", ran.out);
}
