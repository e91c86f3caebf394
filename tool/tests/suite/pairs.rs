//! Pairs, word for word: what is told of types, labels and values that have them.

use crate::desk::tabbed;
use crate::folder::Folder;
use crate::json::Json;
use crate::tool::{simp, Ran};

/// Types 5 (int, int), 6 (int, int)+error, 7 (pkg+error, int), 8 int+error and 9 ((int, int), pkg).
/// Principals 0 and 1 read label 1, everyone label 0; only 0 may have written label 2. Location 0 is
/// theirs, 1 is open. The others: 2 takes what a pack leaves, 3 a pair under label 1, 4 a package
/// with a number, 5 an open pair, 6 a package, 7 what an unpack leaves, 8 a choice, 9 a pair with a
/// pair and a package in it.
const SHEET: &str = "P 3\nQ 0 0\nT 5 1\nQ 4 0\nT 0 1\nQ 5 2\n\
                     L\nL\nO 0 0002 0007\nL\nO 0 0007 0000\n\
                     X 0 1\nX 0 0\nX 4 0\nX 5 1\nX 7 0\nX 5 0\nX 2 0\nX 6 1\nX 3 0\nX 9 0\n";

const MEMORY: &str = "1 390\n1 2\n3 5 1 6 1 8 1 9\n6 1 0 1 7\n6 3 5 1 6 1 7 1 8 1 2\n6 1 5 1\n\
                      5 0 6 1 4 3 1 5\n4 2 1\n3 1 5\n6 6 1 1 1 2 5 0 1 3\n";

const PREFIX: &str = "[4: a script is one command, the operands of each line following it]";
const FIELDS: &str =
    "[4: each kind of line has its own fields, and its operands follow on lines of their own]";
const EXPRESSION: &str = "an expression, `i n`, `x loc`, `v d`, `+`, `l t`, `r t`, `k label`, \
                          `u t label`, `p t`, `f` or `g`";
const ASSIGNED: &str = "[5: a value has the type that the location is declared with]";
const PAIRED: &str =
    "[5: `p t` has the first part of t as its first operand, and the second as its second]";
const PART: &str = "[5: the operand of `f` and of `g` is a pair]";
const READ: &str =
    "[6: who may read a location may read all that is assigned to it or decides whether]";
const ADDED: &str = "[5: `+` adds two integers]";
const DECLARED: &str = "[8: each location's value has its declared type]";
const ORDER: &str =
    "[1: a sheet is `P n`, perhaps `R 1`, then `T` and `Q` lines, labels (`L` and its `O` lines) \
     and `X` lines]";
const ONCE: &str =
    "[2: a sheet has each sum (`T`) and each pair (`Q`) once, and types 3 and 4 are the \
                    sums int+int and pkg+error]";
const LONG: &str = "pack, wrap and pair less: `l`, `r` and `p` add a word, `k` adds three [10: a \
                    value has at most 16 words, and a run that meets a longer one changes nothing]";
const VALUES: &str =
    "[8: a value is `1 n`, `2 e`, `3` or `4` and a value, `5 label` and a value, or \
                      `6` and two values]";

fn folder(test: &str) -> Folder {
    let folder = Folder::new(test);
    folder.write("a.sheet", &tabbed(SHEET));
    folder.write("a.memory", &tabbed(MEMORY));
    folder
}

/// The first line of what the tool prints, which refuses.
fn first(ran: Ran) -> String {
    assert_eq!((ran.status, ran.err.as_str()), (1, ""), "{}", ran.out);
    ran.out.lines().next().expect("a line").to_string()
}

/// What a check says of a script that is written with commas and blanks.
fn said(folder: &Folder, script: &str) -> String {
    folder.write("a.simp", &tabbed(&(script.replace(',', "\n") + "\n")));
    first(simp(folder, &["check", "a.sheet", "a.simp"]))
}

/// A script, what is told of it, and the rule.
type Said = (&'static str, &'static str, &'static str);

/// That it says this of each. `EXPRESSION` stands for the expressions that there are.
fn all_said(test: &str, expected: &[Said]) {
    let folder = folder(test);
    for (script, told, rule) in expected {
        let told = format!("a.simp:{told} {rule}").replace("EXPRESSION", EXPRESSION);
        assert_eq!(said(&folder, script), told, "{script}");
    }
}

/// A run under principal 0.
fn ran(folder: &Folder, script: &str, more: &[&str]) -> Ran {
    folder.write("a.simp", &tabbed(&(script.replace(',', "\n") + "\n")));
    let run = ["run", "a.sheet", "a.simp", "a.memory", "--as=0", "--budget=20"];
    simp(folder, &[&run[..], more].concat())
}

/// The lines that a run that is done marks as changed.
fn changed(folder: &Folder, script: &str) -> Vec<String> {
    let ran = ran(folder, script, &[]);
    assert_eq!((ran.status, ran.err.as_str()), (0, ""), "{}", ran.out);
    let marked = ran.out.lines().filter_map(|line| line.strip_prefix("  *  "));
    marked.map(|line| line.trim_start().to_string()).collect()
}

const FORMS: &[Said] = &[
    (
        "= 3,p 5,x 0",
        "2: the script ends before the second operand of `p` (line 2): add it at the end: EXPRESSION",
        PREFIX,
    ),
    (
        "= 3,p 5",
        "2: the script ends before the first operand of `p` (line 2): add it at the end: EXPRESSION",
        PREFIX,
    ),
    (
        "= 1,f",
        "2: the script ends before the operand of `f` (line 2): add it at the end: EXPRESSION",
        PREFIX,
    ),
    (
        "= 3,p 5,x 0,s",
        "4: `s` starts a command, and the second operand of `p` (line 2) is due here: write \
         EXPRESSION",
        PREFIX,
    ),
    ("= 3,p,x 0,x 0", "2: `p` has 0 fields after it, not 1: write it as `p t`", FIELDS),
    ("= 1,g 5,x 3", "2: `g` has 1 field after it, not 0: write it as `g`", FIELDS),
    (
        "= 3,P 5,x 0,x 0",
        "2: `P` is no kind of line, and the value of `=` (line 1) is due here: write `p` in lower \
         case",
        PREFIX,
    ),
    (
        "= 3,p5,x 0,x 0",
        "2: `p5` is no kind of line, and the value of `=` (line 1) is due here: put a tab after `p`",
        PREFIX,
    ),
    (
        "= 1,f5,x 3",
        "2: `f5` is no kind of line, and the value of `=` (line 1) is due here: write EXPRESSION",
        PREFIX,
    ),
    (
        "= 3,p 10,x 0,x 0",
        "2: type 10 isn't on the sheet (10 types): name 0 to 9",
        "[4: types 0 to 4 are given, each `T` or `Q` line makes one more]",
    ),
];

#[test]
fn lines_of_their_form() {
    all_said("pairs-form", FORMS);
}

const NAMES_PAIR: &str = "[5: `p t` names the pair type that it makes]";
const UNPACKS: &str = "[5: `u t label` makes the sum t of the wanted type and error]";

const KINDS: &[Said] = &[
    (
        "= 3,p 6,x 0,x 1",
        "2: `p` makes a pair, and type 6 ((int, int)+error) isn't one: name type 5 (int, int), a \
         side of that sum",
        NAMES_PAIR,
    ),
    (
        "= 3,p 3,x 0,x 1",
        "2: `p` makes a pair, and type 3 (int+int) isn't one: name a type that a `Q` line makes",
        NAMES_PAIR,
    ),
    (
        "= 7,l 5,x 0",
        "2: `l` makes a value of a sum, and type 5 (int, int) isn't one: name 3, 4 or a type that a \
         `T` line makes; a pair of that type is made by `p 5`",
        "[5: `l`, `r` and `u` name the sum type that they make]",
    ),
    (
        "= 7,u 5 1,x 6",
        "2: `u` may fail, so it makes a sum, and type 5 (int, int) isn't one: name type 6 ((int, \
         int)+error), which has error on its right",
        UNPACKS,
    ),
    (
        "= 7,u 7 1,x 6",
        "2: `u` may fail, so it makes a sum, and type 7 (pkg+error, int) isn't one: put a line `T 7 \
         1` after the sheet's types, and name the type that it makes",
        UNPACKS,
    ),
    (
        "c,x 3,s,s",
        "1: `c` takes a sum apart, but its expression (line 2) is type 5 (int, int): take the parts \
         of a pair by `f` and `g`, without `c`",
        "[5: the expression of `c` has a sum type]",
    ),
    (
        "w,x 3,s",
        "1: the guard (line 2) is type 5 (int, int), and type 3 (int+int) is wanted: make it by `l \
         3` to go on and `r 3` to stop",
        "[5: a guard of `w` is int+int, left to go on]",
    ),
];

#[test]
fn types_of_the_wrong_kind() {
    all_said("pairs-kinds", KINDS);
}

/// What `p` is told to name where the sheet has no pair, or one.
#[test]
fn pairs_that_a_sheet_has() {
    let folder = folder("pairs-on-sheet");
    for (types, told) in [
        (
            "T 0 1\n",
            "put a line `Q a b` after the sheet's types, a and b the types of the operands, and \
             name the type that it makes",
        ),
        ("T 0 1\nQ 0 0\n", "name type 6 (int, int), the only pair"),
    ] {
        folder.write("a.sheet", &tabbed(&format!("P 1\n{types}L\nX 0 0\n")));
        let start = "a.simp:2: `p` makes a pair, and type 5 (int+error) isn't one";
        let rule = "[5: `p t` names the pair type that it makes]";
        assert_eq!(said(&folder, "= 0,p 5,x 0,x 0"), format!("{start}: {told} {rule}"));
    }
}

const OPERANDS: &[Said] = &[
    (
        "= 3,p 5,x 2,x 1",
        "2: `p` of type 5 (int, int) takes type 0 (int) as its first part, but its first operand \
         (line 3) is type 4 (pkg+error): give it an operand of that type, or name another pair",
        PAIRED,
    ),
    (
        "= 3,p 5,+,x 1,x 1,x 3",
        "2: `p` of type 5 (int, int) takes type 0 (int) as its second part, but its second operand \
         (line 6) is type 5 (int, int): take one of its parts, by a line `f` (the first) or `g` \
         (the second) before line 6",
        PAIRED,
    ),
    (
        "= 3,p 5,x 1,x 8",
        "2: `p` of type 5 (int, int) takes type 0 (int) as its second part, but its second operand \
         (line 4) is type 3 (int+int): take it apart by `c` first, and pair `v 0` in one of its \
         commands",
        PAIRED,
    ),
    (
        "= 4,p 7,x 1,x 2",
        "2: `p` of type 7 (pkg+error, int) takes type 4 (pkg+error) as its first part, but its \
         first operand (line 3) is type 0 (int): put the operands in the other order, or name a \
         pair with its parts in this order",
        PAIRED,
    ),
    (
        "= 4,p 7,x 6,x 1",
        "2: `p` of type 7 (pkg+error, int) takes type 4 (pkg+error) as its first part, but its \
         first operand (line 3) is type 2 (pkg): make it left of the sum, by a line `l 4` before \
         line 3",
        PAIRED,
    ),
    (
        "= 9,p 9,x 1,x 6",
        "2: `p` of type 9 ((int, int), pkg) takes type 5 (int, int) as its first part, but its \
         first operand (line 3) is type 0 (int): make the pair, by a line `p 5` before line 3 and \
         its second part, type 0 (int), after it",
        PAIRED,
    ),
];

#[test]
fn operands_of_a_pair() {
    all_said("pairs-operands", OPERANDS);
}

const PARTS: &[Said] = &[
    (
        "= 0,f,x 7",
        "2: `f` takes the first part of a pair, but its operand (line 3) is type 6 ((int, \
         int)+error): take the pair out by `c` first, and give `f` the `v 0` in the command for left",
        PART,
    ),
    (
        "= 0,g,x 8",
        "2: `g` takes the second part of a pair, but its operand (line 3) is type 3 (int+int): give \
         it a pair; a sum is taken apart by `c`",
        PART,
    ),
    (
        "= 0,f,x 6",
        "2: `f` takes the first part of a pair, but its operand (line 3) is type 2 (pkg): open the \
         package by `u` first, and take the pair out of that by `c`",
        PART,
    ),
    (
        "= 0,g,i 1",
        "2: `g` takes the second part of a pair, but its operand (line 3) is type 0 (int): give it \
         a pair",
        PART,
    ),
];

#[test]
fn parts_of_what_is_no_pair() {
    all_said("pairs-parts", PARTS);
}

const WANTED: &[Said] = &[
    (
        "= 0,x 3",
        "1: location 0 takes type 0 (int), but the value (line 2) is type 5 (int, int): take one of \
         its parts, by a line `f` (the first) or `g` (the second) before line 2",
        ASSIGNED,
    ),
    (
        "= 3,x 9",
        "1: location 3 takes type 5 (int, int), but the value (line 2) is type 9 ((int, int), pkg): \
         take its first part, by a line `f` before line 2",
        ASSIGNED,
    ),
    (
        "= 3,x 0",
        "1: location 3 takes type 5 (int, int), but the value (line 2) is type 0 (int): make the \
         pair, by a line `p 5` before line 2 and its second part, type 0 (int), after it",
        ASSIGNED,
    ),
    (
        "= 9,x 6",
        "1: location 9 takes type 9 ((int, int), pkg), but the value (line 2) is type 2 (pkg): make \
         the pair, by a line `p 9` before line 2 and its first part, type 5 (int, int), after that",
        ASSIGNED,
    ),
    (
        "= 0,u 6 1,x 6",
        "1: location 0 takes type 0 (int), but the value (line 2) is type 6 ((int, int)+error): take \
         the pair out by `c` first, and assign a part of `v 0`, by `f` or `g`, in one of its commands",
        ASSIGNED,
    ),
    (
        "= 0,+,x 3,i 1",
        "2: an operand of `+` (line 3) is type 5 (int, int), and type 0 (int) is wanted: add \
         integers: take one of its parts, by a line `f` (the first) or `g` (the second) before line \
         3",
        ADDED,
    ),
    (
        "= 0,+,x 9,i 1",
        "2: an operand of `+` (line 3) is type 9 ((int, int), pkg), and type 0 (int) is wanted: add \
         integers; take the parts of a pair by `f` and `g` first",
        ADDED,
    ),
    (
        "= 7,u 6 1,x 9",
        "2: `u` opens type 2 (pkg), but its operand (line 3) is type 9 ((int, int), pkg): take its \
         second part, by a line `g` before line 3",
        "[5: the operand of `u` is a package]",
    ),
    (
        "= 7,l 6,x 0",
        "2: `l` of type 6 ((int, int)+error) takes type 5 (int, int), but its operand (line 3) is \
         type 0 (int): make the pair, by a line `p 5` before line 3 and its second part, type 0 \
         (int), after it",
        "[5: `l t` has the left part of t as its operand, `r t` the right part]",
    ),
];

#[test]
fn pairs_where_others_are_wanted() {
    all_said("pairs-wanted", WANTED);
}

const LABELS: &[Said] = &[
    (
        "= 5,p 5,x 1,x 0",
        "1: location 5 may be read by everyone, but the value comes from location 0 (line 4), which \
         only 0 and 1 may read; it goes into the second part of the pair made in line 2, and a pair \
         has the labels of both its parts: assign to a location that no one else may read, or pack \
         it by `k` into one of type 4",
        READ,
    ),
    (
        "= 1,f,p 5,x 1,+,i 1,x 0",
        "1: location 1 may be read by everyone, but the value comes from location 0 (line 7), which \
         only 0 and 1 may read; it goes into the second part of the pair made in line 3, and the \
         first part, which `f` takes in line 2, has the label of the whole: assign to a location \
         that no one else may read, or pack it by `k` into one of type 4; or use the first operand \
         of that `p` without the pair",
        READ,
    ),
    (
        "c,l 6,p 5,x 0,x 1,= 1,g,v 0,s",
        "6: location 1 may be read by everyone, but the value comes from location 0 (line 4, bound \
         by the `c` in line 1), which only 0 and 1 may read; it goes into the first part of the \
         pair made in line 3, and the second part, which `g` takes in line 7, has the label of the \
         whole: assign to a location that no one else may read, or pack it by `k` into one of type \
         4; or use the second operand of that `p` without the pair",
        READ,
    ),
    (
        "w,l 3,f,p 5,x 1,x 0,= 1,i 1",
        "7: location 1 may be read by everyone, but whether this line is reached is decided in line \
         1 by location 0 (line 6), which only 0 and 1 may read; it goes into the second part of the \
         pair made in line 4, and the first part, which `f` takes in line 3, has the label of the \
         whole: move it out of the `c` or `w`, or assign to a location whose readers may all read \
         what decides; or use the first operand of that `p` without the pair",
        READ,
    ),
    (
        "= 1,g,x 3",
        "1: location 1 may be read by everyone, but the value comes from location 3 (line 3), which \
         only 0 and 1 may read; the part that `g` takes in line 2 has the label of the whole pair: \
         assign to a location that no one else may read, or pack it by `k` into one of type 4",
        READ,
    ),
    (
        "= 2,k 0,p 5,x 1,x 0",
        "2: a package of label 0 may be read by everyone, but what is packed comes from location 0 \
         (line 5), which only 0 and 1 may read; it goes into the second part of the pair made in \
         line 3, and a pair has the labels of both its parts: pack with a label that lets no one \
         else read",
        "[6: who may read a package may read what is packed]",
    ),
];

/// A secret part makes the pair secret, and the other part with it.
#[test]
fn labels_of_the_whole() {
    all_said("pairs-labels", LABELS);
}

/// A part that is taken out again isn't told of.
#[test]
fn pairs_that_are_none_of_the_matter() {
    let folder = folder("pairs-apart");
    for script in ["= 1,f,p 5,x 0,x 1", "= 1,+,g,p 5,x 1,x 0,f,x 5", "= 1,+,f,x 5,x 0"] {
        let told = said(&folder, script);
        let start = "a.simp:1: location 1 may be read by everyone, but the value comes from \
                     location 0 (line ";
        let end =
            "), which only 0 and 1 may read: assign to a location that no one else may read, \
                   or pack it by `k` into one of type 4 ";
        assert!(told.starts_with(start) && told.contains(end), "{script}: {told}");
    }
}

/// Eight cases inside one another, each over a sum of 24 times a part of what the one around it
/// binds, but for the last, by which the value is secret.
#[test]
fn parts_that_are_joined_over_and_over() {
    let folder = folder("pairs-joined");
    let sum = |leaf: &str, last: &str| "+,".repeat(23) + &leaf.repeat(23) + last;
    let mut script = format!("c,l 3,{}", sum("x 1,", "x 1,"));
    script += &format!("c,l 3,{}", sum("v 0,", "v 0,")).repeat(6);
    script += &format!("c,l 3,{}", sum("v 0,", "f,p 5,v 0,x 0,"));
    script += "= 1,v 0,";
    script += &"s,".repeat(8);
    let told = said(&folder, script.trim_end_matches(','));
    let note = "; it goes into the second part of the pair made in line 393, and the first part, \
                which `f` takes in line 392, has the label of the whole: ";
    assert!(told.contains(note), "{told}");
}

#[test]
fn a_package_out_of_a_pair_may_not_be_trust_keeping() {
    let folder = folder("pairs-trust");
    folder
        .write("a.sheet", &tabbed("P 2\nT 0 1\nQ 2 2\nL\nL\nO 0 0003 0000\nX 2 1\nX 2 0\nX 5 1\n"));
    folder.write("a.simp", &tabbed("= 2\nu 5 1\nf\np 6\nx 0\nx 1\n"));
    let ran = simp(&folder, &["check", "a.sheet", "a.simp"]);
    let told = "a.simp:2: not trust-keeping: what is opened as label 1 may have been written only by \
                0, but the package comes from location 1 (line 6), which everyone may have written; \
                it goes into the second part of the pair made in line 4, and the first part, which \
                `f` takes in line 3, has the label of the whole: open with a label whose writers \
                include them, or take the package from a location that only 0 may have written; or \
                use the first operand of that `p` without the pair [";
    assert!(ran.status == 0 && ran.out.contains(told), "{}", ran.out);
    folder.write("a.simp", &tabbed("s\n\n= 2\nu 5 1\nf\np 6\nx 0\nx 1\n"));
    let explained = simp(&folder, &["explain", "a.sheet", "a.simp"]).out;
    let moved = told.replace("a.simp:2:", "a.simp:4: script 2 of 2:").replace("line 6", "line 8");
    let moved = moved.replace("line 4", "line 6").replace("line 3", "line 5");
    assert!(explained.contains(&moved), "{explained}");
}

/// In a round the lines are the file's.
#[test]
fn lines_of_a_round() {
    let folder = folder("pairs-round");
    let round = |scripts: &str| {
        folder.write("a.round", &tabbed(scripts));
        let ran =
            simp(&folder, &["round", "a.sheet", "a.round", "a.memory", "--as=0", "--budget=9"]);
        first(ran)
    };
    let told = round("s\n\n= 1\nf\np 5\nx 1\nx 0\n");
    let note = "(line 7), which only 0 and 1 may read; it goes into the second part of the pair \
                made in line 5, and the first part, which `f` takes in line 4, has the label";
    let start = "a.round:3: script 2 of 2: location 1 ";
    assert!(told.starts_with(start) && told.contains(note), "{told}");
    let told = round("s\n\n= 0\nf\nx 7\n");
    let start = "a.round:4: script 2 of 2: `f` takes the first part of a pair, but its operand \
                 (line 5) is type 6 ((int, int)+error): ";
    assert!(told.starts_with(start), "{told}");
}

#[test]
fn values_of_pairs() {
    let folder = folder("pairs-values");
    assert_eq!(
        changed(&folder, "= 5,p 5,i 12,i 3"),
        ["5  6 1 12 1 3             (12, 3) (was (5, 0))"]
    );
    let shorter = changed(&folder, "= 3,p 5,f,x 5,i 0");
    assert!(shorter[0].ends_with("  (5, 0) (was (0, 7))"), "{shorter:?}");
    let packed = changed(&folder, "= 2,k 1,p 9,p 5,i 1,i 2,g,x 9");
    let left = "  left a package of label 1 with ((1, 2), a package of label 0 with 3) (was ";
    assert!(packed[0].contains(left), "{packed:?}");
    let opened = changed(&folder, "c,x 2,= 7,u 6 1,v 0,s");
    assert!(
        opened[0].ends_with("  left (8, 9) (was right error 1 (insufficientAuth))"),
        "{opened:?}"
    );
    let json = Json::read(&ran(&folder, "= 5,p 5,i 12,i 3", &["--json"]).out);
    let Json::List(memory) = json.at("memory") else { panic!("{json:?}") };
    assert_eq!(memory[5], Json::List([6, 1, 12, 1, 3].map(Json::Number).to_vec()));
}

/// The content of the package is a pair whose second part has another type.
#[test]
fn an_unpack_looks_at_both_parts() {
    let folder = folder("pairs-unpack");
    let opened = changed(&folder, "= 7,u 6 1,x 6");
    assert_eq!(opened.len(), 1);
    assert!(opened[0].starts_with("7  4 2 3 "), "{opened:?}");
    assert!(opened[0].contains("  right error 3 (typeMismatch) (was "), "{opened:?}");
}

/// A hidden content is one zero word, and the next part follows it.
#[test]
fn what_is_shown_of_pairs() {
    let folder = folder("pairs-shown");
    let show =
        |more: &[&str]| simp(&folder, &[&["show", "a.sheet", "a.memory"], more].concat()).out;
    let lines = |group: &str| show(&[group]).lines().map(str::to_string).collect::<Vec<_>>();
    let all = lines("--to=1");
    assert_eq!(all[4], "   3  6 1 0 1 7              (0, 7)");
    assert_eq!(all[5], "   4  6 3 5 1 6 1 7 1 8 1 2  (left a package of label 1 with (7, 8), 2)");
    assert_eq!(all[10], "   9  6 6 1 1 1 2 5 0 1 3    ((1, 2), a package of label 0 with 3)");
    let few = lines("--to=2");
    assert_eq!(few[4], "   3                       hidden");
    assert_eq!(
        few[5],
        "   4  6 3 5 1 0 1 2        (left a package of label 1 with hidden content, 2)"
    );
    assert_eq!(few[6], "   5  6 1 5 1              (5, 0)");
    let json = Json::read(&show(&["--to=2", "--json"]));
    let Json::List(locations) = json.at("locations") else { panic!("{json:?}") };
    let [hidden, whole] = [4, 9].map(|place: usize| locations[place].at("content_hidden"));
    assert_eq!((hidden, whole), (&Json::Bool(true), &Json::Bool(false)));
    let words = [6, 3, 5, 1, 0, 1, 2].map(Json::Number).to_vec();
    assert_eq!(locations[4].at("words"), &Json::List(words));
}

/// What is packed has 16 words, and a number more makes it a pair of 19.
#[test]
fn pairs_that_are_too_long() {
    let folder = folder("pairs-long");
    folder.write("a.memory", &tabbed(&MEMORY.replace("5 0 6 1 4 3 1 5", "5 0 6 1 4 1 5")));
    let tag = "p 7,k 1,p 9,p 5,i 1,i 2,x 6,i 1";
    let told = "a value takes 19 words; it is a pair, with 16 of them in its first part, 2 in its \
                second and 1 of its own";
    for (before, line, step) in
        [("= 4,", 2, 1), (";,= 1,i 5,= 4,", 5, 3), ("= 1,g,", 3, 1), ("w,l 3,i 1,= 4,", 5, 2)]
    {
        let said = first(ran(&folder, &format!("{before}{tag}"), &[]));
        assert_eq!(said, format!("a.simp:{line}: in step {step} {told}: {LONG}"), "{before}");
    }
}

/// What an earlier script of the round left is in the pair.
#[test]
fn a_pair_that_grows_in_a_round() {
    let folder = folder("pairs-grow");
    let script = "= 4\np 7\nk 1\nx 4\ni 1\n";
    folder.write("a.memory", &tabbed(&MEMORY.replace("6 3 5 1 6 1 7 1 8 1 2", "6 4 2 1 1 2")));
    folder.write("a.round", &tabbed(&[script, "s\n", script].join("\n")));
    let ran = simp(&folder, &["round", "a.sheet", "a.round", "a.memory", "--as=0", "--budget=9"]);
    let lines: Vec<&str> = ran.out.lines().collect();
    let told = "a value takes 18 words; it is a pair, with 15 of them in its first part, 2 in its \
                second and 1 of its own";
    assert_eq!(lines[0], "a.round:1: script 1 of 3: done, 1 step");
    assert_eq!(lines[2], format!("a.round:10: script 3 of 3: in step 1 {told}: {LONG}"));
}

/// The words of location 3, what is told of them, and the rule.
const MEMORIES: &[Said] = &[
    (
        "6 1 390",
        "location 3: a 0, or the end of the line, stands where a value should start: give the whole \
         value, with the zeros inside it",
        VALUES,
    ),
    (
        "7 1 390 1 2",
        "location 3: no value starts with word 7: start a value with a word from 1 to 6",
        VALUES,
    ),
    (
        "6 1 390 1 2 1",
        "location 3: word 1 stands after its value: end the line after the value",
        VALUES,
    ),
    (
        "6 1 390 3 1 2",
        "location 3 takes type 5 (int, int), but its value is (390, left 2): give it a value of its \
         type",
        DECLARED,
    ),
    (
        "3 1 390",
        "location 3 takes type 5 (int, int), but its value is left 390: give it a value of its type",
        DECLARED,
    ),
];

#[test]
fn memories_with_pairs() {
    let folder = folder("pairs-memory");
    folder.write("a.simp", b"s\n");
    for (words, told, rule) in MEMORIES {
        folder.write("a.memory", &tabbed(&MEMORY.replace("6 1 0 1 7", words)));
        let run = ["run", "a.sheet", "a.simp", "a.memory", "--as=0", "--budget=9"];
        assert_eq!(first(simp(&folder, &run)), format!("a.memory:4: {told} {rule}"), "{words}");
    }
}

/// The lines after `P`, what is told of them, and the rule. `CHAIN` stands for 28 types.
const SHEETS: &[Said] = &[
    (
        "Q 0 5\n",
        "2: type 5 isn't there yet (5 types before this line): name 0 to 4",
        "[1: a `T` or `Q` line makes a type of two earlier ones]",
    ),
    ("L\nQ 0 0\n", "3: `Q` can't stand here: move it up, before the first `L` and `X`", ORDER),
    (
        "q 0 0\n",
        "2: `q` is no kind of line: put `R 1`, `T a b`, `Q a b`, `L` or `X type label` here",
        ORDER,
    ),
    (
        "Q 0 1\nT 0 1\nQ 0 1\n",
        "4: type 7 has the kind and the parts of type 5: take this line out, use type 5, and lower \
         the number of each later type",
        ONCE,
    ),
    (
        "Q 0 0\nT 0 0\n",
        "3: type 6 has the kind and the parts of type 3: take this line out, use type 3, and lower \
         the number of each later type",
        ONCE,
    ),
    (
        "CHAIN",
        "29: this is more than 27 `T` and `Q` lines: take out types that nothing uses",
        "[1: a sheet has at most 27 `T` and `Q` lines together]",
    ),
    (
        "Q 0\n",
        "2: `Q` has 1 field after it, not 2: write it as `Q a b`",
        "[1: each kind of line has its own fields]",
    ),
];

#[test]
fn sheets_with_pairs() {
    let folder = folder("pairs-sheets");
    folder.write("a.simp", b"s\n");
    let chain: String = (4..32).map(|ty| format!("{} {ty} 0\n", ["T", "Q"][ty % 2])).collect();
    for (lines, told, rule) in SHEETS {
        let lines = lines.replace("CHAIN", &chain);
        folder.write("a.sheet", &tabbed(&format!("P 1\n{lines}")));
        let refused = first(simp(&folder, &["check", "a.sheet", "a.simp"]));
        assert_eq!(refused, format!("a.sheet:{told} {rule}"), "{lines}");
    }
}

#[test]
fn pair_types_are_explained() {
    let folder = folder("pairs-explained");
    let explained = simp(&folder, &["explain", "a.sheet"]).out;
    let types =
        "   5  (int, int)\n   6  (int, int)+error\n   7  (pkg+error, int)\n   8  int+error\n   \
                 9  ((int, int), pkg)\n";
    assert!(explained.contains(types), "{explained}");
    assert!(explained.contains("   4  (pkg+error, int)   label 0  read and write: everyone\n"));
    let json = Json::read(&simp(&folder, &["explain", "a.sheet", "--json"]).out);
    let Json::List(types) = json.at("types") else { panic!("{json:?}") };
    let parts = |first, second| Json::List(vec![Json::Number(first), Json::Number(second)]);
    for (ty, kind, parts, words) in [
        (2, "pkg", Json::Null, "pkg"),
        (6, "sum", parts(5, 1), "(int, int)+error"),
        (7, "pair", parts(4, 0), "(pkg+error, int)"),
    ] {
        let text = |text: &str| Json::Text(text.to_string());
        let told = ["kind", "parts", "words"].map(|field| types[ty].at(field));
        assert_eq!(told, [&text(kind), &parts, &text(words)]);
    }
}

/// 27 types, each the pair of the one before it with itself.
#[test]
fn pairs_that_double() {
    let folder = folder("pairs-double");
    let pairs: String = (4..31).map(|ty| format!("Q {ty} {ty}\n")).collect();
    folder.write("a.sheet", &tabbed(&format!("P 1\n{pairs}L\nX 31 0\n")));
    let told = said(&folder, "= 0,i 1");
    assert!(told.starts_with("a.simp:1: location 0 takes type 31 (((type 28, type 28), (type 28, "));
    assert!(told.len() < 500, "{told}");
    let explained = simp(&folder, &["explain", "a.sheet"]);
    assert!(explained.status == 0 && explained.out.len() < 10_000, "{}", explained.out.len());
}

#[test]
fn help_tells_of_them() {
    let folder = folder("pairs-help");
    for (command, told) in
        [("run", "a pair as (first, second)"), ("show", "part of a pair"), ("explain", "`Q a b`")]
    {
        let ran = simp(&folder, &["help", command]);
        assert!(ran.out.contains(told), "{}", ran.out);
    }
}
