//! Names files.

use crate::desk::{desk, tabbed};
use crate::tool::simp;

const NAMES: &[u8] =
    b"# who\r\n\r\nP\t0\tfarm\r\nP\t1\tgrading line\r\nL\t2\tfarm only\nX\t1\ttally";

#[test]
fn names_stand_in_what_is_printed_and_in_arguments() {
    let folder = desk("names");
    folder.write("a.names", NAMES);
    let files = ["a.sheet", "pack.simp", "a.memory"];
    let run = [&["run"][..], &files, &["--budget", "1", "--names", "a.names"]].concat();
    let ran = simp(&folder, &[&run[..], &["--as", "grading line"]].concat());
    assert_eq!(ran.status, 0, "{}{}", ran.out, ran.err);
    assert!(ran.out.contains("1  tally  1 62") && ran.out.contains("farm only"), "{}", ran.out);
    let show = ["show", "a.sheet", "a.memory", "--names", "a.names", "--plain", "--to"];
    let to = |group: &str| simp(&folder, &[&show[..], &[group]].concat()).out;
    assert_eq!(to("farm, 1"), to("0,grading line"));
    assert_ne!(to("farm"), to("grading line"));
    let ran = simp(&folder, &["explain", "a.sheet", "--names", "a.names"]);
    for name in ["farm", "grading line", "farm only", "tally"] {
        assert!(ran.out.contains(name), "{name}: {}", ran.out);
    }
}

#[test]
fn names_of_another_kind_are_no_principals() {
    let folder = desk("names-of-labels");
    folder.write("a.names", b"L\t2\tfarm\n");
    for names in [&[][..], &["--names", "a.names"]] {
        let ran = simp(&folder, &[&["show", "a.sheet", "a.memory", "--to=farm"], names].concat());
        assert_eq!((ran.status, ran.out.as_str()), (2, ""));
        let says = "simp: --to: `farm` is no principal's number, and no names of principals are \
                    given (`P` lines of --names FILE)\n";
        assert!(ran.err.starts_with(says), "{}", ran.err);
    }
}

#[test]
fn names_that_are_not_of_their_form() {
    let folder = desk("bad-names");
    for (text, line) in [
        ("P 0\n", 1),
        ("\nP 0 a b\n", 2),
        ("P x a\n", 1),
        ("Q 0 a\n", 1),
        ("P 0 12\n", 1),
        ("P 0 a,b\n", 1),
        ("P 0 a\nP 0 b\n", 2),
        ("P 0 a\nP 1 a\n", 2),
        // not on the sheet
        ("P 0 a\nP 3 b\n", 2),
        ("L 3 a\n", 1),
        ("X 4 a\n", 1),
    ] {
        folder.write("a.names", &tabbed(text));
        for arguments in [
            &["check", "a.sheet", "copy.simp"][..],
            &["run", "a.sheet", "copy.simp", "a.memory", "--as=0", "--budget=1"],
            &["round", "a.sheet", "pack.round", "a.memory", "--as=0", "--budget=1"],
            &["show", "a.sheet", "a.memory", "--to=0"],
            &["readers", "a.sheet", "0"],
            &["explain", "a.sheet"],
            &["explain", "a.sheet", "pack.round"],
        ] {
            let ran = simp(&folder, &[arguments, &["--names", "a.names"]].concat());
            assert_eq!((ran.status, ran.out.as_str()), (2, ""), "{text}");
            assert!(ran.err.starts_with(&format!("a.names:{line}: ")), "{text}: {}", ran.err);
        }
    }
}

#[test]
fn a_file_that_cannot_be_read_outweighs_bad_names() {
    let folder = desk("outweighed");
    folder.write("a.names", b"Q\n");
    let missing = ["explain", "no.sheet", "--names", "a.names"];
    assert_eq!(simp(&folder, &missing).status, 3);
    let missing = ["check", "a.sheet", "copy.simp", "--names", "no.names"];
    assert_eq!(simp(&folder, &missing).status, 3);
    let missing = ["check", "a.sheet", "copy.simp", "--names", "."];
    assert_eq!(simp(&folder, &missing).status, 3);
}

#[test]
fn a_names_file_without_end() {
    let folder = desk("endless-names");
    let ran = simp(&folder, &["explain", "a.sheet", "--names", "/dev/zero"]);
    assert_eq!((ran.status, ran.out.as_str()), (2, ""), "{}", ran.err);
}
