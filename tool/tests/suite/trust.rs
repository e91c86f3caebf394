//! Whether accepted scripts are trust-keeping, word for word: what is told of each unpack by which
//! one isn't, by `check` and by `explain`.

use crate::desk::tabbed;
use crate::folder::Folder;
use crate::json::Json;
use crate::tool::{simp, Ran};

/// Everyone may have written label 0, only principal 0 label 1. Labels 2 and 3 only 0 and 1 may have
/// written, by another owner each. Location 0 holds a package and 2 what a pack leaves, both under
/// label 0; 4 and 5 hold packages under labels 1 and 2. The others take what an unpack leaves.
const SHEET: &str = "P 3\nT 0 1\nL\nL\nO 0 0007 0000\nL\nO 0 0007 0002\nL\nO 1 0007 0001\n\
                     X 2 0\nX 5 1\nX 4 0\nX 5 0\nX 2 1\nX 2 2\nX 5 3\n";

const NAMES: &[u8] =
    b"P\t0\tfarm\nP\t1\tstation\nL\t0\topen\nL\t1\tfarm wrote\nX\t0\tcrate\nX\t2\tpackage\n";

const RULE: &str =
    "who may have written what a package comes from may have written what is opened, or what they \
     put there would pass for another's";

/// An unpack by which it isn't.
const ONE: &str = "= 1\nu 5 1\nx 0\n";

/// Two of them, and one between them by which it is.
const TWO: &str = ";\n= 1\nu 5 1\nx 0\n;\n= 3\nu 5 0\nx 0\n= 1\nu 5 1\nx 0\n";

/// One in a branch.
const BRANCH: &str = "c\nx 2\n= 3\nu 5 1\nv 0\ns\n";

fn folder(test: &str) -> Folder {
    let folder = Folder::new(test);
    folder.write("a.sheet", &tabbed(SHEET));
    folder.write("a.names", NAMES);
    folder
}

fn asked(folder: &Folder, command: &str, script: &str, more: &[&str]) -> Ran {
    folder.write("a.simp", &tabbed(script));
    simp(folder, &[&[command, "a.sheet", "a.simp"], more].concat())
}

/// What a check says of an accepted script between its verdict and the sum. Blanks stand for tabs.
fn said(folder: &Folder, script: &str, more: &[&str]) -> Vec<String> {
    let ran = asked(folder, "check", script, more);
    assert_eq!((ran.status, ran.err.as_str()), (0, ""), "{}", ran.out);
    let mut lines: Vec<String> = ran.out.lines().map(str::to_string).collect();
    let sum = lines.pop().expect("a sum");
    let verdict = lines.remove(0);
    let (keeps, count) = if lines.is_empty() { (", trust-keeping", 1) } else { ("", 0) };
    assert_eq!(verdict, format!("a.simp: accepted{keeps}"));
    assert_eq!(sum, format!("1 script: 1 accepted ({count} trust-keeping), 0 refused"));
    lines
}

/// The line that is told of an unpack.
fn line(place: &str, fact: &str, advice: &str) -> String {
    format!("{place} not trust-keeping: {fact}: {advice} [trust-keeping: {RULE}]")
}

#[test]
fn scripts_that_are() {
    let folder = folder("trust-keeping");
    for script in ["s\n", "= 1\nu 5 1\nx 4\n", "= 3\nu 5 0\nx 0\n", "= 3\nu 5 0\nx 4\n", "b 0\ns\n"]
    {
        assert_eq!(said(&folder, script, &[]), [""; 0], "{script}");
    }
}

#[test]
fn an_unpack_as_what_fewer_may_have_written() {
    let folder = folder("trust-one");
    let advice = "open with a label whose writers include them, or take the package from a \
                  location that only";
    assert_eq!(
        said(&folder, ONE, &[]),
        [line(
            "a.simp:2:",
            "what is opened as label 1 may have been written only by 0, but the package comes from \
             location 0 (line 3), which everyone may have written",
            &format!("{advice} 0 may have written")
        )]
    );
    assert_eq!(
        said(&folder, ONE, &["--names", "a.names"]),
        [line(
            "a.simp:2:",
            "what is opened as label 1 (farm wrote) may have been written only by farm, but the \
             package comes from location 0 (crate, line 3), which everyone may have written",
            &format!("{advice} farm may have written")
        )]
    );
    let bound = "location 2 (package, line 2, bound by the `c` in line 1), which everyone ";
    let [branch] = &said(&folder, BRANCH, &["--names", "a.names"])[..] else { panic!("one") };
    assert!(branch.starts_with("a.simp:4: ") && branch.contains(bound), "{branch}");
}

#[test]
fn several_unpacks() {
    let folder = folder("trust-several");
    let lines = said(&folder, TWO, &[]);
    for (line, at, from) in [(&lines[0], 3, 4), (&lines[1], 10, 11)] {
        assert!(line.starts_with(&format!("a.simp:{at}: not trust-keeping: ")), "{line}");
        assert!(line.contains(&format!("comes from location 0 (line {from}), which")), "{line}");
    }
    assert_eq!(lines.len(), 2);
}

/// A package that the script itself makes, or takes out of another.
#[test]
fn packages_that_are_in_no_location() {
    let folder = folder("trust-made");
    let what = "what is opened as label 1 may have been written only by 0, but the package comes \
                from";
    let bound = "(bound by the `c` in line 1), which everyone may have written";
    let open = "open with a label whose writers include them, or";
    let only = "that only 0 may have written";
    assert_eq!(
        said(&folder, "c\nk 0\ni 7\n= 3\nu 5 1\nv 0\ns\n", &[]),
        [line(
            "a.simp:5:",
            &format!("{what} the package of label 0 made in line 2 {bound}"),
            &format!("{open} pack it with a label {only}")
        )]
    );
    assert_eq!(
        said(&folder, "c\nu 4 0\nx 0\n= 3\nu 5 1\nv 0\ns\n", &[]),
        [line(
            "a.simp:5:",
            &format!("{what} what is opened as label 0 in line 2 {bound}"),
            &format!("{open} open what it comes from with a label {only}")
        )]
    );
}

#[test]
fn an_unpack_that_one_owner_s_policy_forbids() {
    let folder = folder("trust-owner");
    let [told] = &said(&folder, "= 6\nu 5 3\nx 5\n", &["--names", "a.names"])[..] else {
        panic!("one line");
    };
    let expected = line(
        "a.simp:2:",
        "owner station lets only farm and station have written what is opened as label 3, but the \
         package comes from location 5 (line 3), which owner station lets everyone have written",
        "open with a label on which owner station lets them have written too, or take the package \
         from a location on whose label owner station lets no one else have written",
    );
    assert_eq!(*told, expected.replace("[trust-keeping: ", "[trust-keeping: for each owner: "));
}

/// The line is none of a refusal, and the status is that of the others.
#[test]
fn beside_scripts_that_are_refused() {
    let folder = folder("trust-beside");
    for (name, script) in [("a.simp", ONE), ("b.simp", "= 1\nx 3\n"), ("c.simp", "s\n")] {
        folder.write(name, &tabbed(script));
    }
    let ran = simp(&folder, &["check", "a.sheet", "a.simp", "b.simp", "c.simp"]);
    assert_eq!((ran.status, ran.err.as_str()), (1, ""));
    let starts = [
        "a.simp: accepted",
        "a.simp:2: not trust-keeping: ",
        "b.simp:1: location 1 may have been written only by 0, but ",
        "c.simp: accepted, trust-keeping",
        "3 scripts: 2 accepted (1 trust-keeping), 1 refused",
    ];
    let lines: Vec<&str> = ran.out.lines().collect();
    assert!(lines.len() == 5 && lines[0] == starts[0], "{}", ran.out);
    assert!(lines.iter().zip(starts).all(|(line, start)| line.starts_with(start)), "{}", ran.out);
    let ran = simp(&folder, &["check", "a.sheet", "b.simp"]);
    assert!(ran.out.ends_with("\n1 script: 0 accepted, 1 refused\n"), "{}", ran.out);
}

/// Lines are counted from the file's first.
#[test]
fn scripts_of_a_round() {
    let folder = folder("trust-round");
    let ran = asked(&folder, "explain", &format!("{BRANCH}\ns\n\n{TWO}"), &["--names", "a.names"]);
    assert_eq!((ran.status, ran.err.as_str()), (0, ""));
    let rows = [
        "   1  line 1   starts at bottom, without `b`  read: everyone  not trust-keeping",
        "   2  line 8   starts at bottom, without `b`  read: everyone  trust-keeping",
        "   3  line 10  starts at bottom, without `b`  read: everyone  not trust-keeping",
    ];
    let lines: Vec<&str> = ran.out.lines().collect();
    assert_eq!(lines[..6], [&["a.simp: accepted", "", "3 scripts"][..], &rows].concat());
    for (line, place, from) in [
        (lines[7], "4: script 1 of 3", "2 (package, line 2, bound by the `c` in line 1)"),
        (lines[8], "12: script 3 of 3", "0 (crate, line 13)"),
        (lines[9], "19: script 3 of 3", "0 (crate, line 20)"),
    ] {
        let start = format!("a.simp:{place}: not trust-keeping: what is opened as label 1 (farm ");
        assert!(line.starts_with(&start), "{line}");
        assert!(line.contains(&format!("comes from location {from}, which ")), "{line}");
    }
    assert_eq!((lines[6], lines[10], lines.len()), ("", "", 14));
    let meaning =
        "what a group can write makes no difference to the rest after a trust-keeping script is done";
    assert_eq!(lines[13], meaning);
}

/// The unpacks of a script in a document, by line and label.
fn unpacks(script: &Json) -> Vec<(Json, Json)> {
    let Json::List(unpacks) = script.at("unpacks") else { panic!("{script:?}") };
    for part in ["fact", "advice", "rule"] {
        let told = |unpack: &Json| matches!(unpack.at(part), Json::Text(text) if !text.is_empty());
        assert!(unpacks.iter().all(told), "{script:?}");
    }
    unpacks.iter().map(|unpack| (unpack.at("line").clone(), unpack.at("label").clone())).collect()
}

#[test]
fn in_json() {
    let folder = folder("trust-json");
    let at = |lines: &[u64]| -> Vec<(Json, Json)> {
        lines.iter().map(|line| (Json::Number(*line), Json::Number(1))).collect()
    };
    let json = Json::read(&asked(&folder, "check", TWO, &["--json"]).out);
    let Json::List(scripts) = json.at("scripts") else { panic!("{json:?}") };
    let verdict = ["answer", "accepted", "keeping"].map(|field| scripts[0].at(field));
    assert_eq!(verdict, [&Json::Number(0), &Json::Bool(true), &Json::Bool(false)]);
    assert_eq!(unpacks(&scripts[0]), at(&[3, 10]));
    assert_eq!((json.at("accepted"), json.at("keeping")), (&Json::Number(1), &Json::Number(0)));
    let json = Json::read(&asked(&folder, "explain", &format!("s\n\n{TWO}"), &["--json"]).out);
    let Json::List(starts) = json.at("starts") else { panic!("{json:?}") };
    let keeping = [&starts[0], &starts[1]].map(|script| script.at("keeping"));
    assert_eq!(keeping, [&Json::Bool(true), &Json::Bool(false)]);
    assert_eq!((unpacks(&starts[0]), unpacks(&starts[1])), (at(&[]), at(&[5, 12])));
}

#[test]
fn help_tells_of_it() {
    let folder = folder("trust-help");
    for arguments in [&["help", "check"][..], &["help", "explain"], &["--help"]] {
        let ran = simp(&folder, arguments);
        assert!(ran.out.contains("trust-keeping"), "{}", ran.out);
    }
}

/// Whoever writes label 0 puts another package there, which principal 0 once packed. What only
/// principal 0 may have written is the same after the script that is trust-keeping.
#[test]
fn another_package_makes_no_difference_to_the_rest() {
    let folder = folder("trust-meaning");
    let left = |script: &str, package: &str| {
        let memory = format!("5 1 {package}\n4 2 1\n4 2 1\n4 2 1\n5 1 1 9\n5 0 1\n4 2 1\n");
        folder.write("a.memory", &tabbed(&memory));
        folder.write("a.simp", &tabbed(script));
        let run = ["run", "a.sheet", "a.simp", "a.memory", "--as=0", "--budget=1", "--plain"];
        let ran = simp(&folder, &run);
        assert_eq!(ran.status, 0, "{}{}", ran.out, ran.err);
        ran.out.lines().nth(2).expect("location 1").to_string()
    };
    let keeping = "= 1\nu 5 1\nx 4\n";
    assert_eq!(["1 7", "1 8"].map(|package| left(ONE, package)), ["3\t1\t7", "3\t1\t8"]);
    assert_eq!(["1 7", "1 8"].map(|package| left(keeping, package)), ["3\t1\t9", "3\t1\t9"]);
}
