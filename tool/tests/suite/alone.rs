//! The sheet's rule of reading: what is told on a sheet with the line `R 1`, by which one reader
//! must read by himself, and on the same sheet without it.

use crate::desk::tabbed;
use crate::folder::Folder;
use crate::json::Json;
use crate::tool::{simp, Ran};
use compare::generate::groups::groups_case;
use reference::calls::read_sheet;
use reference::principals::Principals;
use simp::names::Names;
use simp::words::{Right, Words};

/// Everyone reads label 0. Owner 0 lets 2 read label 1 and owner 1 lets 3, so that no one reads it
/// by himself; 3 reads label 2, and 0 and 1 read label 3. Label 4 is read by everyone, and 2 and 3
/// write it together. Locations 0 to 2 are integers of labels 0 to 2, 3 takes what a pack leaves,
/// and 4 what an unpack leaves under label 1.
const SHEET: &str = "P 4\nR 1\nT 0 1\nL\nL\nO 0 0004 000f\nO 1 0008 000f\n\
                     L\nO 0 000c 000f\nO 1 0008 000f\nL\nO 0 0002 000f\n\
                     L\nO 0 000f 0004\nO 1 000f 0008\n\
                     X 0 0\nX 0 1\nX 0 2\nX 4 0\nX 5 1\n";

const MEMORY: &str = "1 5\n1 62\n1 7\n3 5 1 1 9\n4 2 2\n";

const ALONE: &str =
    "one reader by himself (line 2, `R 1`): a group needs one member who is a reader for every \
     owner";
const POOLED: &str =
    "parties read together (no line `R 1`): a group needs a reader for each owner, not \
     necessarily the same";

/// A folder with the sheet, the same without its rule, and a memory.
fn folder(test: &str) -> Folder {
    let folder = Folder::new(test);
    folder.write("alone.sheet", &tabbed(SHEET));
    folder.write("pooled.sheet", &tabbed(&SHEET.replace("R 1\n", "")));
    folder.write("a.memory", &tabbed(MEMORY));
    folder
}

/// What the tool prints, which isn't refused.
fn printed(ran: Ran) -> String {
    assert_eq!((ran.status, ran.err.as_str()), (0, ""), "{}", ran.out);
    ran.out
}

/// The first line of what the tool prints, which refuses.
fn first(ran: Ran) -> String {
    assert_eq!((ran.status, ran.err.as_str()), (1, ""), "{}", ran.out);
    ran.out.lines().next().expect("a line").to_string()
}

const ORDER: &str = "[1: a sheet is `P n`, perhaps `R 1`, then `T` and `Q` lines, labels (`L` and \
                     its `O` lines) and `X` lines]";
const FIELDS: &str = "[1: each kind of line has its own fields]";
const RULE: &str = "[1: the only `R` line is `R 1`, for one reader by himself]";
const MOVED: &str = "`R` can't stand here: move it up to line 2, right after `P n`";
const TWICE: &str = "`R` can't stand here: take it out, line 2 is `R 1` already";
const OTHER: &str =
    "write `R 1` if one reader must read by himself, or take the line out: without \
                     it parties read together";

/// The lines of a sheet, the line that is at fault, what is told of it, and the rule. `OTHER`
/// stands for what to do with another number.
const SHEETS: &[(&str, usize, &str, &str)] = &[
    (
        "P 2,R 0",
        2,
        "`R` has `0` after it, not `1`: take the line out: without it parties read together; write \
         `R 1` if one reader must read by himself",
        RULE,
    ),
    ("P 2,R 2", 2, "`R` has `2` after it, not `1`: OTHER", RULE),
    ("P 2,R one", 2, "`R` has `one` after it, not `1`: OTHER", RULE),
    ("P 2,R 11", 2, "`R` has `11` after it, not `1`: OTHER", RULE),
    ("P 2,R 01", 2, "`01` has a needless zero: OTHER", RULE),
    ("P 2,R 0001", 2, "`0001` has a needless zero: OTHER", RULE),
    ("P 2,R 00", 2, "`R` has `00` after it, not `1`: OTHER", RULE),
    (
        "P 2,R",
        2,
        "`R` has 0 fields after it, not 1: write it as `R 1`, or take the line out: without it \
         parties read together",
        FIELDS,
    ),
    ("P 2,R 1 1", 2, "`R` has 2 fields after it, not 1: write it as `R 1`", FIELDS),
    ("P 2,R 1,R 1", 3, TWICE, ORDER),
    ("P 2,R 1,T 0 1,R 1", 4, TWICE, ORDER),
    ("P 2,R 1,L,X 0 0,R 0", 5, TWICE, ORDER),
    ("P 2,T 0 1,R 1", 3, MOVED, ORDER),
    ("P 2,Q 0 1,R 1", 3, MOVED, ORDER),
    ("P 2,L,R 1", 3, MOVED, ORDER),
    ("P 2,L,O 0 0000 0000,R 1", 4, MOVED, ORDER),
    ("P 2,L,X 0 0,R 1", 4, MOVED, ORDER),
    (
        "R 1,P 2",
        1,
        "`R` can't stand here: start the sheet with `P n`, and put `R 1` right after it",
        ORDER,
    ),
    ("P 2,R1", 2, "`R1` is no kind of line: put a tab after `R`", ORDER),
    ("P 2,r 1", 2, "`r` is no kind of line: write `R` in upper case", ORDER),
    (
        "P 2,L,r 1",
        3,
        "`r` is no kind of line: put `O owner readers writers`, `L` or `X type label` here",
        ORDER,
    ),
];

#[test]
fn sheets_whose_rule_is_wrong() {
    let folder = folder("alone-sheets");
    folder.write("a.simp", b"s\n");
    let said = |sheet: &[u8]| {
        folder.write("a.sheet", sheet);
        first(simp(&folder, &["check", "a.sheet", "a.simp"]))
    };
    for (lines, line, told, rule) in SHEETS {
        let told = format!("a.sheet:{line}: {told} {rule}").replace("OTHER", OTHER);
        assert_eq!(said(&tabbed(&(lines.replace(',', "\n") + "\n"))), told, "{lines}");
    }
    let blank =
        "a.sheet:2: fields are parted by a tab, found a blank: put one tab between fields, \
                 and nothing after the last [1: no text has blanks]";
    assert_eq!(said(b"P\t2\nR 1\n"), blank);
}

/// What repeats is told with its line, which the rule's line comes before.
#[test]
fn lines_after_the_rule_are_counted_with_it() {
    let folder = folder("alone-lines");
    folder.write("a.simp", b"s\n");
    for (sheet, told) in [
        ("P 2\nR 1\nT 0 0\n", "a.sheet:3: type 5 has the kind and the parts of type 3: "),
        ("P 2\nR 1\nT 0 1\nL\nL\n", "a.sheet:5: label 1 lets the same principals read and "),
    ] {
        folder.write("a.sheet", &tabbed(sheet));
        let said = first(simp(&folder, &["check", "a.sheet", "a.simp"]));
        assert!(said.starts_with(told), "{said}");
    }
}

/// The part of what is explained that starts with this line.
fn part<'a>(explained: &'a str, title: &str) -> &'a str {
    let start = explained.find(&format!("\n{title}\n")).expect("the part is there") + 1;
    let rest = &explained[start..];
    &rest[..rest.find("\n\n").map_or(rest.len(), |end| end + 1)]
}

#[test]
fn the_rule_is_explained() {
    let folder = folder("alone-explained");
    let explained = |sheet: &str| printed(simp(&folder, &["explain", sheet]));
    let (alone, pooled) = (explained("alone.sheet"), explained("pooled.sheet"));
    assert_eq!(part(&alone, "rule of reading"), format!("rule of reading\n  {ALONE}\n"));
    assert_eq!(part(&pooled, "rule of reading"), format!("rule of reading\n  {POOLED}\n"));
    let owners = "        owner 0 lets 0 and 2 read and everyone write\n        \
                  owner 1 lets 1 and 3 read and everyone write\n";
    let label = |who: &str| format!("   1  read: {who}; write: everyone\n{owners}");
    assert!(part(&alone, "5 labels").contains(&label("nobody by himself")), "{alone}");
    let groups = "only a group with one of 0/2 and one of 1/3";
    assert!(part(&pooled, "5 labels").contains(&label(groups)), "{pooled}");
    for (sheet, two) in [(&alone, "only 3"), (&pooled, groups_of_two())] {
        assert!(
            sheet.contains(&format!("   2  int        label 2  read: {two}; write: ")),
            "{sheet}"
        );
        assert!(sheet.contains("   3  read: only 0 and 1; write: everyone\n"), "{sheet}");
        let written = "   4  read: everyone; write: only a group with one of 0/2 and one of 1/3\n";
        assert!(sheet.contains(written), "{sheet}");
    }
}

/// Who reads label 2 where parties read together.
fn groups_of_two() -> &'static str {
    "only a group with one of 0/2/3 and one of 1/3"
}

/// A script that starts at a label is told with who reads that, and by which rule.
#[test]
fn the_rule_is_explained_with_scripts() {
    let folder = folder("alone-starts");
    folder.write("a.simp", &tabbed("b 1\n= 1\ni 1\n"));
    for (sheet, who, rule) in [
        ("alone.sheet", "nobody by himself", ALONE),
        ("pooled.sheet", "only a group with one of 0/2 and one of 1/3", POOLED),
    ] {
        let out = printed(simp(&folder, &["explain", sheet, "a.simp"]));
        let start = format!(
            "a.simp: accepted\n\n1 script\n   1  line 1  starts at label 1  read: {who}  \
             trust-keeping\n\n{rule}\na group that can't read "
        );
        assert!(out.starts_with(&start), "{out}");
    }
}

fn text(text: &str) -> Json {
    Json::Text(text.to_string())
}

/// That a document names the rule.
fn names_rule(json: &Json, alone: bool) {
    let reading = ["kind", "line", "words"].map(|field| json.at("reading").at(field).clone());
    let expected = match alone {
        true => [text("alone"), Json::Number(2), text(ALONE)],
        false => [text("pooled"), Json::Null, text(POOLED)],
    };
    assert_eq!(reading, expected);
}

#[test]
fn the_rule_in_json() {
    let folder = folder("alone-json");
    folder.write("a.simp", b"s\n");
    folder.write("leak.simp", &tabbed("= 0\nx 1\n"));
    for (sheet, alone) in [("alone.sheet", true), ("pooled.sheet", false)] {
        let json = |arguments: &[&str], status: i32| {
            let ran = simp(&folder, &[arguments, &["--json"]].concat());
            assert_eq!((ran.status, ran.err.as_str()), (status, ""), "{}", ran.out);
            Json::read(&ran.out)
        };
        names_rule(&json(&["explain", sheet], 0), alone);
        names_rule(&json(&["explain", sheet, "a.simp"], 0), alone);
        names_rule(&json(&["explain", sheet, "leak.simp"], 1), alone);
        names_rule(&json(&["readers", sheet], 0), alone);
        names_rule(&json(&["show", sheet, "a.memory", "--to=2,3"], 0), alone);
    }
}

const NOBODY: &str = "nobody reads it by himself: let one principal read for every owner, in the \
                      `O` lines after its `L` (line 5); or take `R 1` (line 2) out if parties may \
                      read together";

#[test]
fn readers_are_listed_by_the_rule() {
    let folder = folder("alone-readers");
    let all = |sheet: &str| printed(simp(&folder, &["readers", sheet]));
    let each = "label 0: 4 principals read it, each by himself\n  0\n  1\n  2\n  3\n";
    let alone = format!(
        "{each}label 1: {NOBODY}\nlabel 2: 1 principal reads it by himself\n  3\n\
         label 3: 2 principals read it, each by himself\n  0\n  1\n{}",
        each.replace("label 0", "label 4")
    );
    assert_eq!(all("alone.sheet"), alone);
    assert_eq!(
        printed(simp(&folder, &["readers", "alone.sheet", "1"])),
        format!("label 1: {NOBODY}\n")
    );
    let pooled = all("pooled.sheet");
    let together =
        "label 1: 4 smallest groups read it\n  0 and 1\n  1 and 2\n  0 and 3\n  2 and 3\n\
                    label 2: 3 smallest groups read it\n  0 and 1\n  1 and 2\n  3\n\
                    label 3: 2 smallest groups read it\n  0\n  1\n";
    assert!(pooled.contains(together) && !pooled.contains("himself"), "{pooled}");
    folder.write("a.names", b"P\t3\tvet\nL\t1\tfinding\nL\t2\tbook\n");
    let named = |label: &str| {
        printed(simp(&folder, &["readers", "alone.sheet", label, "--names", "a.names"]))
    };
    assert_eq!(named("book"), "label 2 (book): 1 principal reads it by himself\n  vet\n");
    assert_eq!(named("finding"), format!("label 1 (finding): {NOBODY}\n"));
}

#[test]
fn a_label_without_readers_in_json() {
    let folder = folder("alone-readers-json");
    let json = Json::read(&printed(simp(&folder, &["readers", "alone.sheet", "1", "--json"])));
    assert_eq!((json.at("answer"), json.at("listed")), (&Json::Number(0), &Json::Bool(true)));
    let Json::List(labels) = json.at("labels") else { panic!("{json:?}") };
    let counts = ["label", "count", "groups"].map(|field| labels[0].at(field));
    assert_eq!(counts, [&Json::Number(1), &Json::Number(0), &Json::List(vec![])]);
    assert_eq!(labels.len(), 1);
}

/// What a group would read together is hidden where one must read by himself, and says so.
#[test]
fn views_follow_the_rule() {
    let folder = folder("alone-views");
    let shown = |sheet: &str, group: &str| {
        printed(simp(&folder, &["show", sheet, "a.memory", "--to", group]))
    };
    let alone = format!(
        "what a group of 2 and 3 may see\n   \
         0  1 5    5\n   \
         1         hidden (read only together)\n   \
         2  1 7    7\n   \
         3  3 5 1  left a package of label 1 with hidden content (read only together)\n   \
         4         hidden (read only together)\n\
         2 of 5 locations hidden\n{ALONE}\n"
    );
    assert_eq!(shown("alone.sheet", "2,3"), alone);
    let pooled = "what a group of 2 and 3 may see\n   \
                  0  1 5        5\n   \
                  1  1 62       62\n   \
                  2  1 7        7\n   \
                  3  3 5 1 1 9  left a package of label 1 with 9\n   \
                  4  4 2 2      right error 2 (illegalFlow)\n\
                  0 of 5 locations hidden\n";
    assert_eq!(shown("pooled.sheet", "2,3"), pooled);
    // one party, and none, are shown the same by both rules
    for group in ["", "0", "1", "2", "3"] {
        let view = shown("alone.sheet", group);
        assert_eq!(view, shown("pooled.sheet", group));
        assert!(!view.contains("together"), "{view}");
    }
}

#[test]
fn views_in_json() {
    let folder = folder("alone-views-json");
    let flags = |sheet: &str| {
        let show = ["show", sheet, "a.memory", "--to=2,3", "--json"];
        let json = Json::read(&printed(simp(&folder, &show)));
        let Json::List(locations) = json.at("locations").clone() else { panic!("{json:?}") };
        let is = |location: &Json, field| location.at(field) == &Json::Bool(true);
        let each = locations.iter().map(|location| {
            ["hidden", "content_hidden", "only_together"].map(|field| is(location, field))
        });
        each.collect::<Vec<_>>()
    };
    let (shown, hidden) = ([false; 3], [true, false, true]);
    assert_eq!(flags("alone.sheet"), [shown, hidden, shown, [false, true, true], hidden]);
    assert_eq!(flags("pooled.sheet"), [shown; 5]);
}

/// The words of a location after a run.
fn after(folder: &Folder, sheet: &str, script: &str, authority: &str, location: usize) -> String {
    folder.write("a.simp", &tabbed(&(script.replace(',', "\n") + "\n")));
    let run = ["run", sheet, "a.simp", "a.memory", "--budget=9", "--plain", "--as", authority];
    let out = printed(simp(folder, &run));
    out.lines().nth(location + 1).expect("a location").replace('\t', " ")
}

/// An unpack asks who reads, and a pack who writes, which the rule leaves.
#[test]
fn unpacks_follow_the_rule_and_packs_do_not_change() {
    let folder = folder("alone-runs");
    let opened =
        |sheet: &str, authority: &str| after(&folder, sheet, "c,x 3,= 4,u 5 1,v 0,s", authority, 4);
    for (authority, alone, pooled) in
        [("2,3", "4 2 1", "3 1 9"), ("0,1", "4 2 1", "3 1 9"), ("3", "4 2 1", "4 2 1")]
    {
        assert_eq!(opened("alone.sheet", authority), alone, "{authority}");
        assert_eq!(opened("pooled.sheet", authority), pooled, "{authority}");
    }
    for (authority, packed) in [("2,3", "3 5 4 1 1"), ("2", "4 2 1"), ("3", "4 2 1")] {
        for sheet in ["alone.sheet", "pooled.sheet"] {
            assert_eq!(after(&folder, sheet, "= 3,k 4,i 1", authority, 3), packed, "{sheet}");
        }
    }
}

/// A script, what is told of it on the sheet, and on the same without its rule.
const FLOWS: &[[&str; 3]] = &[
    [
        "= 0,x 1",
        "1: location 0 may be read by everyone, but the value comes from location 1 (line 2), \
         which nobody by himself may read: assign to a location that nobody by himself may read, \
         or pack it by `k` into one of type 4",
        "1: location 0 may be read by everyone, but the value comes from location 1 (line 2), \
         which only a group with one of 0/2 and one of 1/3 may read: assign to a location that no \
         one else may read, or pack it by `k` into one of type 4",
    ],
    [
        "= 2,x 1",
        "1: location 2 may be read only by 3, but the value comes from location 1 (line 2), which \
         nobody by himself may read: assign to a location that nobody by himself may read, or pack \
         it by `k` into one of type 4",
        "1: location 2 may be read only by a group with one of 0/2/3 and one of 1/3, but the value \
         comes from location 1 (line 2), which only a group with one of 0/2 and one of 1/3 may \
         read: assign to a location that no one else may read, or pack it by `k` into one of type \
         4",
    ],
    [
        "= 3,k 2,x 1",
        "2: a package of label 2 may be read only by 3, but what is packed comes from location 1 \
         (line 3), which nobody by himself may read: pack with a label that lets nobody by himself \
         read",
        "2: a package of label 2 may be read only by a group with one of 0/2/3 and one of 1/3, but \
         what is packed comes from location 1 (line 3), which only a group with one of 0/2 and one \
         of 1/3 may read: pack with a label that lets no one else read",
    ],
    [
        "= 0,x 2",
        "1: location 0 may be read by everyone, but the value comes from location 2 (line 2), \
         which only 3 may read: assign to a location that no one else may read, or pack it by `k` \
         into one of type 4",
        "1: location 0 may be read by everyone, but the value comes from location 2 (line 2), \
         which only a group with one of 0/2/3 and one of 1/3 may read: assign to a location that \
         no one else may read, or pack it by `k` into one of type 4",
    ],
];

#[test]
fn refused_flows_tell_who_reads_by_the_rule() {
    let folder = folder("alone-flows");
    for [script, alone, pooled] in FLOWS {
        folder.write("a.simp", &tabbed(&(script.replace(',', "\n") + "\n")));
        for (sheet, told) in [("alone.sheet", alone), ("pooled.sheet", pooled)] {
            let said = first(simp(&folder, &["check", sheet, "a.simp"]));
            let said = said.split(" [6: ").next().expect("what is told").to_string();
            assert_eq!(said, format!("a.simp:{told}"));
        }
    }
}

/// Where those who read by themselves are the same, an owner's readers are told.
#[test]
fn labels_with_the_same_lone_readers() {
    let folder = folder("alone-owners");
    // 2 alone reads both labels by himself, and owner 0 lets 3 read the second too
    let labels = "L\nO 0 0004 000f\nO 1 0004 000f\nL\nO 0 000c 000f\nO 1 0004 000f\n";
    folder.write("a.sheet", &tabbed(&format!("P 4\nR 1\n{labels}X 0 0\nX 0 1\n")));
    folder.write("a.simp", &tabbed("= 1\nx 0\n"));
    let said = first(simp(&folder, &["check", "a.sheet", "a.simp"]));
    let told = "a.simp:1: owner 0 lets only 0, 2 and 3 read location 1, but the value comes from \
                location 0 (line 2), which owner 0 lets only 0 and 2 read: assign to a location on \
                whose label owner 0 lets no one else read, or pack it by `k` into one of type 4 \
                [6: for each owner: who may read a location may read all that is assigned to it or \
                decides whether]";
    assert_eq!(said, told);
}

/// A sheet with its rule put in, where it isn't there yet.
fn with_rule(sheet: &[u8]) -> Vec<u8> {
    let end = sheet.iter().position(|&byte| byte == b'\n').map_or(sheet.len(), |end| end + 1);
    let (first, rest) = sheet.split_at(end);
    let rule: &[u8] = if rest.starts_with(b"R") { b"" } else { b"R\t1\n" };
    [first, rule, rest].concat()
}

/// The library's single readers are those that the tool tells of, in its lists and in words.
#[test]
fn generated_labels_are_told_with_who_reads_them() {
    let folder = Folder::new("alone-generated");
    let names = Names::default();
    let (mut lists, mut unread) = (0, 0);
    for seed in 70_000..70_300 {
        let text = with_rule(&groups_case(seed).sheet);
        let Ok(sheet) = read_sheet(&text) else { continue };
        folder.write("sheet", &text);
        let words = Words { sheet: &sheet, names: &names };
        let told = printed(simp(&folder, &["readers", "sheet"]));
        let mut told = told.split("label ").skip(1);
        for label in 0..sheet.labels.len() {
            let mut places = [0; 16];
            let listed = bindings::groups(&text, label as u32, &mut places);
            let groups = &places[..listed.count as usize];
            assert!(groups.iter().all(|group| group.count_ones() == 1), "seed {seed}");
            let readers = Principals::from_bits(groups.iter().fold(0, |all, group| all | group));
            let lines: String = readers.members().map(|p| format!("  {p}\n")).collect();
            let (_, list) = told.next().and_then(|list| list.split_once('\n')).expect("a list");
            assert_eq!(list, lines, "seed {seed}");
            let who = words.who(Right::Read, &sheet.labels[label]);
            let everyone = readers == Principals::first(sheet.principals);
            match (groups.len(), everyone) {
                (0, _) => assert_eq!(who, "nobody by himself", "seed {seed}"),
                (_, true) => assert_eq!(who, "everyone", "seed {seed}"),
                _ => assert_eq!(who, format!("only {}", words.members(readers)), "seed {seed}"),
            }
            lists += 1;
            unread += usize::from(groups.is_empty());
        }
    }
    assert!(lists > 300 && unread > 30, "{lists} lists, {unread} empty");
}

#[test]
fn help_tells_of_the_rule() {
    let folder = folder("alone-help");
    for (command, told) in [
        ("readers", "On a sheet with the line `R 1` each of these is one principal"),
        ("show", "On a sheet with the\nline `R 1`"),
        ("explain", "or with the line `R 1` one reader by himself"),
    ] {
        let help = printed(simp(&folder, &["help", command]));
        assert!(help.contains(told) && help.contains("\"reading\""), "{help}");
    }
}
