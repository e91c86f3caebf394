//! What `--help` and `--version` print.

use crate::args::Command;

const GENERAL: &str = "\
simp checks, runs, shows and explains SImp scripts, by a library that is proved.

usage: simp check SHEET SCRIPT..           which scripts are accepted on a sheet, and why not;
                                           which of them are trust-keeping
       simp run SHEET SCRIPT MEMORY ..     a run: how it ends, and the memory after it
       simp round SHEET SCRIPTS MEMORY ..  several scripts of a file, run in order on one memory
       simp show SHEET MEMORY ..           what a group may see of a memory
       simp readers SHEET [LABEL]          who reads a label, together or each by himself
       simp explain SHEET [SCRIPTS]        who may read and write what is on a sheet; where scripts
                                           start, who may know that they are run, and which
                                           are trust-keeping
       simp help COMMAND                   all that a command takes
       simp --version                      which tool, which logic, which library

A file named - is standard input, for one of the files. Options stand after the command,
anywhere; -- ends them.

exit status: 0 accepted, done, shown or listed  3 a file or a stream can't be read or written
             1 refused or stopped               4 the library and the reference disagree: report it
             2 wrong arguments or names         the greatest is given where several apply
";

const NAMES: &str = r"
  --names FILE   names for principals, labels and locations, for what is printed and for the
                 arguments; its lines are P, L or X, a number and a name, parted by tabs, such as
                 `P 0 farm`; empty lines and lines that start with # are skipped
";

const JSON: &str = r#"  --json         one JSON document instead of words, as below; where the command can't go on
                 it is {"answer": null, "error": ".."}
"#;

const USAGES: [(&str, &str); 6] = [
    ("check", "usage: simp check SHEET SCRIPT.. [--names FILE] [--json]\n"),
    (
        "run",
        "usage: simp run SHEET SCRIPT MEMORY --as LIST --budget N [--write] [--names FILE]
                [--plain | --json]\n",
    ),
    (
        "round",
        "usage: simp round SHEET SCRIPTS MEMORY --as LIST --budget N [--write] [--names FILE]
                  [--plain | --json]\n",
    ),
    ("show", "usage: simp show SHEET MEMORY --to LIST [--names FILE] [--plain | --json]\n"),
    ("readers", "usage: simp readers SHEET [LABEL] [--names FILE] [--json]\n"),
    ("explain", "usage: simp explain SHEET [SCRIPTS] [--names FILE] [--json]\n"),
];

const CHECK: &str = "
Says of each script on a line of its own that it is accepted, or in which line what is wrong, by
which rule and what to do. Then come the sums. If the sheet itself is refused, no script is checked.

An accepted script is trust-keeping if of each `u t label`, for each owner, whoever may have written
what the package comes from may have written that label too. After such a script is done, what a
group can write has made no difference to the rest. A script that isn't trust-keeping is accepted
all the same, and a line for each `u` by which it isn't follows the verdict.

A script may open with a line `b label`: it starts at that label, and assigns only to locations
whose readers may read it and that its writers may have written. Without `b` it starts at bottom.
";

const CHECK_JSON: &str = r#"
                   {"sheet": {"name", "answer", "accepted"},
                    "scripts": [{"name", "answer", "accepted", "keeping", "unpacks":
                                 [{"line": 4, "label": 8, "fact", "advice", "rule"}]}],
                    "accepted": 0, "refused": 0, "unread": 0, "keeping": 0}
                 "keeping" is whether the script is trust-keeping, and "unpacks" has each `u` by
                 which an accepted one isn't; what is refused has "blamed", "line", "fact", "advice"
                 and "rule" instead of "unpacks"; what can't be read has "answer" null and an
                 "error"; where the library and the reference disagree, "disagreement" is true
"#;

const RUN: &str = "
Checks the script and runs it on the memory. Prints how it ended and each location with its words
and its value, a pair as (first, second); * marks what the run changed. A refused run changes
nothing.

  --as LIST      the authority: numbers or names of principals, parted by commas; '' is nobody
  --budget N     the most steps, 0 to 4294967295; a large one can take hours
  --write        replace the MEMORY file by the memory after the run, if that is done: whole or not
                 at all, and only after the rest is printed
  --plain        the answer, a tab and the steps, then the memory text; why it is refused goes to
                 standard error";

const RUN_JSON: &str = r#"
                   {"answer": 0, "done": true, "steps": 1, "memory": [[1, 30], [4, 2, 1]],
                    "compared": true, "changed": [0], "written": false}
                 "memory" has the words of each location without the zeros at the end, or is null
                 if its text isn't of its form; what is refused has "blamed", "name", "line",
                 "fact", "advice" and "rule" too; "compared" is whether the reference took the run
                 too; a memory that can't be written has an "error"
"#;

const ROUND: &str = "
SCRIPTS has 1 to 32 scripts, and every empty line parts two: none stands at the start or the end.
Each may open with a line `b label` of its own. Checks them all, then runs them in order, each on
the memory that the one before left. Prints of each where it starts and that it is done, or where
and why it stopped; then each location, and * marks what the round changed. A script that stops (9
or 10) changes nothing, and the round goes on. If one is refused, none is run. Scripts are counted
from 1, and lines from the file's first.

  --as LIST      the authority: numbers or names of principals, parted by commas; '' is nobody
  --budget N     the most steps of each script, 0 to 4294967295; a large one can take hours
  --write        replace the MEMORY file by the memory after the round, if that isn't refused: whole
                 or not at all, and only after the rest is printed. A round with a script that
                 stopped is written too, and exits with 1
  --plain        the answer, a tab and the number of scripts run; for each its answer, a tab and its
                 steps; then the memory text; why one stopped or is refused goes to standard error";

const ROUND_JSON: &str = r#"
                   {"answer": 0, "done": true, "scripts":
                    [{"script": 1, "first_line": 1, "answer": 0, "done": true, "steps": 1}],
                    "compared": true, "memory": [[1, 30], [4, 2, 1]], "changed": [0],
                    "written": false}
                 "script" counts from 1, as in words; "done" is whether every script is; a script
                 that stopped has "blamed", "line", "fact", "advice" and "rule" too. A refused round
                 has no scripts in its list, and "blamed", "name", "script" (null where no script
                 is at fault), "line", "fact", "advice" and "rule"; the rest is as in simp run
"#;

const SHOW: &str = "
Prints each location as a group of principals may see it. What it can't read is hidden: whole
locations, and the contents of packages, also of those that are part of a pair. On a sheet with the
line `R 1`, where one member must be a reader for every owner, what the group would read if parties
read together is marked so.

  --to LIST      the group: numbers or names of principals, parted by commas; '' is nobody
  --plain        the view as a memory text; why it is refused goes to standard error";

const SHOW_JSON: &str = r#"
                   {"answer": 0, "shown": true, "group": [2], "reading": {"kind", "line", "words"},
                    "locations":
                    [{"location": 0, "name", "hidden": false, "content_hidden": false,
                      "only_together": false, "words": [1, 30], "value": "30"}]}
                 "reading" is as in simp explain; "only_together" is whether the group would read
                 what is hidden if parties read together; what is refused has "blamed", "name",
                 "line", "fact", "advice" and "rule"
"#;

const READERS: &str = "
Prints every smallest group that reads a label: one that reads it while none of its proper subsets
does. A group reads the label exactly if it has all members of one of these. LABEL is a number or a
name; without it every label of the sheet is told of in turn. Groups rise as numbers, in which
principal p counts 2 to the power of p.

On a sheet with the line `R 1` each of these is one principal, who is a reader for every owner and
reads the label by himself. There may be none; then it says what to do.
";

const READERS_JSON: &str = r#"
                   {"answer": 0, "listed": true, "reading": {"kind", "line", "words"}, "labels":
                    [{"label": 0, "name", "count": 2, "groups": [[0], [1, 2]]}]}
                 a group is the numbers of its members; "reading" is as in simp explain; what is
                 refused has "blamed", "name", "line", "fact", "advice" and "rule"
"#;

const EXPLAIN: &str = "
Prints the principals, types, labels and locations of a sheet, and who may read and write what. A
sum type (`T a b`) is told as a+b, a pair type (`Q a b`) as (a, b). It names the sheet's rule of
reading: parties read together, or with the line `R 1` one reader by himself.

With SCRIPTS, a file of one script or of a round, it prints of each script instead at which label it
starts, and who reads that: the label that a line `b label` at its start names, else bottom, which
everyone reads. A group that can't read it is shown no difference when the script is run. It also
prints whether the script is trust-keeping, and each `u` by which it isn't, as simp check does.
";

const EXPLAIN_JSON: &str = r#"
                   {"sheet": {"name", "answer", "accepted"},
                    "principals": [{"principal": 0, "name"}],
                    "reading": {"kind": "alone", "line": 2, "words"},
                    "types": [{"type": 5, "kind": "sum", "parts": [0, 1], "words": "int+error"}],
                    "labels": [{"label": 0, "name", "read", "write",
                                "owners": [{"owner": 0, "readers": [0], "writers": [0, 1]}]}],
                    "locations": [{"location": 0, "name", "type": 0, "label": 0, "read", "write"}]}
                 "kind" of a type is "int", "error", "pkg", "sum" or "pair", and "parts" is null but
                 for the last two; "kind" of "reading" is "pooled" or "alone", and "line" that of
                 `R 1` or null; a sheet that is refused has "blamed", "line", "fact", "advice" and
                 "rule", and nothing stands beside it. With SCRIPTS it is
                   {"sheet": {"name", "answer", "accepted"}, "reading": {"kind", "line", "words"},
                    "scripts": {"name", "answer", "accepted"},
                    "starts": [{"script": 1, "first_line": 1, "label": 0, "name", "read", "write",
                                "keeping": true, "unpacks": []}]}
                 without `b` a script has "label" and "name" null; "keeping" and "unpacks" are as in
                 simp check; scripts that are refused have "script" (null where no script is at
                 fault), "blamed", "line", "fact", "advice" and "rule" too, and no starts
"#;

/// All that is said of a command, or of the tool.
pub fn help(command: Option<&Command>) -> String {
    let Some(command) = command else {
        return GENERAL.to_string();
    };
    let (about, json) = match command.name {
        "check" => (CHECK, CHECK_JSON),
        "run" => (RUN, RUN_JSON),
        "round" => (ROUND, ROUND_JSON),
        "show" => (SHOW, SHOW_JSON),
        "readers" => (READERS, READERS_JSON),
        _ => (EXPLAIN, EXPLAIN_JSON),
    };
    [usage(Some(command)), about, NAMES, JSON, json].concat()
}

/// How a command is called, or how the tool is.
pub fn usage(command: Option<&Command>) -> &'static str {
    let of = |command: &Command| USAGES.iter().find(|(name, _)| *name == command.name);
    command.and_then(of).map_or(GENERAL, |(_, usage)| usage)
}

/// The tool, the logic and the library, each by what tells it from others.
pub fn version() -> String {
    format!(
        "simp {} (this tool)\nlogic {} (the sum of the logic that the library is proved in)\n\
         libsimp.a {} (the SHA-256 of the library that is linked in)\n",
        env!("CARGO_PKG_VERSION"),
        bindings::LOGIC,
        bindings::ARCHIVE
    )
}
