//! `simp readers`: which groups are listed, and what is said where none are.

use crate::desk::{desk, tabbed};
use crate::folder::{repository, Folder};
use crate::tool::{simp, simp_reading, Ran};
use compare::generate::groups::two_of_four;
use reference::Reason;
use simp::message::message;
use simp::names::Names;

/// Label 0 is open, all together read label 1, and label 2 is read by 1 or by 0 and 2.
const SHEET: &str = "P 3\nL\nL\nO 0 0000 0007\nO 1 0000 0007\nO 2 0000 0007\n\
                     L\nO 0 0002 0007\nO 2 0002 0007\n";

const NAMES: &[u8] = b"P\t0\tfarm\nP\t2\tfeed mill\nL\t2\tbills\nL\t1\t-\nL\t0\t-x\n";

/// A folder with the sheet and its names.
fn site(test: &str) -> Folder {
    let folder = Folder::new(test);
    folder.write("a.sheet", &tabbed(SHEET));
    folder.write("a.names", NAMES);
    folder
}

fn readers(folder: &Folder, more: &[&str]) -> Ran {
    simp(folder, &[&["readers", "a.sheet"][..], more].concat())
}

/// That all is listed, in these words.
fn lists(ran: &Ran, words: &str) {
    assert_eq!((ran.status, ran.out.as_str(), ran.err.as_str()), (0, words, ""));
}

#[test]
fn a_label_by_its_number() {
    let folder = site("readers-number");
    lists(&readers(&folder, &["2"]), "label 2: 2 smallest groups read it\n  1\n  0 and 2\n");
    let named = "label 2 (bills): 2 smallest groups read it\n  1\n  farm and feed mill\n";
    lists(&readers(&folder, &["2", "--names", "a.names"]), named);
}

#[test]
fn a_label_by_its_name() {
    let folder = site("readers-name");
    for label in ["0", "1", "2"] {
        let name = ["-x", "-", "bills"][label.parse::<usize>().expect("a number")];
        let by_number = readers(&folder, &["--names", "a.names", label]);
        assert_eq!(by_number.status, 0);
        assert_eq!(readers(&folder, &["--names", "a.names", "--", name]), by_number);
    }
    // `-` is standard input for a file only
    let ran = simp_reading(&folder, &["readers", "-", "-", "--names", "a.names"], &tabbed(SHEET));
    lists(&ran, "label 1 (-): 1 smallest group reads it\n  farm, 1 and feed mill\n");
}

/// A group of all is told by its members: `everyone` says of a label that each reads it alone.
#[test]
fn every_label_in_turn() {
    let folder = site("readers-all");
    let all = "label 0: 3 smallest groups read it\n  0\n  1\n  2\n\
               label 1: 1 smallest group reads it\n  0, 1 and 2\n\
               label 2: 2 smallest groups read it\n  1\n  0 and 2\n";
    lists(&readers(&folder, &[]), all);
    let each: String = ["0", "1", "2"].map(|label| readers(&folder, &[label]).out).concat();
    assert_eq!(each, all);
    lists(&simp_reading(&folder, &["readers", "-"], &tabbed(SHEET)), all);
}

#[test]
fn labels_of_the_samples() {
    let samples = repository().join("samples");
    let named = ["readers", "line.sheet", "--names", "line.names"];
    let bills = "label 7 (bills): 2 smallest groups read it\n  farm\n  station and feed\n";
    lists(&simp(&samples, &[&named[..], &["bills"]].concat()), bills);
    let all = simp(&samples, &named);
    assert!(all.status == 0 && all.out.contains(bills), "{}", all.out);
    let heads = all.out.lines().filter(|line| line.starts_with("label ")).count();
    assert_eq!((heads, all.out.lines().count()), (10, 33));
}

#[test]
fn a_label_that_is_not_on_the_sheet() {
    let folder = site("readers-unknown");
    for label in ["3", "32", "256", "4294967295"] {
        let ran = readers(&folder, &[label, "--names", "a.names"]);
        let line = format!(
            "LABEL: label {label} isn't on the sheet (3 labels): name 0 to 2 [12: each `L` line of \
             the sheet makes a label, from 0 on]\n"
        );
        assert_eq!((ran.status, ran.out, ran.err.as_str()), (1, line, ""));
    }
    folder.write("a.sheet", b"P\t1\nL\n");
    let ran = readers(&folder, &["1"]);
    let start = "LABEL: label 1 isn't on the sheet (1 label): name 0, the only one [12: ";
    assert!(ran.status == 1 && ran.out.starts_with(start), "{}", ran.out);
}

#[test]
fn a_sheet_without_labels() {
    let folder = site("readers-no-labels");
    folder.write("a.sheet", b"P\t3\n");
    lists(&readers(&folder, &[]), "a.sheet: the sheet has no labels\n");
    let ran = readers(&folder, &["0"]);
    let line = "a.sheet: label 0 isn't on the sheet (0 labels): put an `L` line into the sheet, \
                before the `X` lines [12: each `L` line of the sheet makes a label, from 0 on]\n";
    assert_eq!((ran.status, ran.out.as_str(), ran.err.as_str()), (1, line, ""));
}

#[test]
fn what_is_no_label() {
    let folder = site("readers-misuse");
    folder.write("p.names", b"P\t0\tfarm\n");
    for (more, says) in [
        (&["bills"][..], "LABEL: `bills` is no label's number, and no names of labels are given"),
        (&["bills", "--names", "p.names"], "and no names of labels are given (`L` lines of "),
        (&["4294967296"], "`4294967296` is no label's number, and no names of labels are given"),
        (&["02"], "`02` is no label's number, and no names of labels are given"),
        (&[""], "LABEL: it is empty: give a number or a name"),
        (&["Bills", "--names", "a.names"], "LABEL: `Bills` is no label's name or number"),
        (&["farm", "--names", "a.names"], "LABEL: `farm` is no label's name or number"),
        (&["-1"], "`-1` is no option of readers"),
        (&["0", "1"], "`1` is one argument too many"),
    ] {
        let ran = readers(&folder, more);
        assert_eq!((ran.status, ran.out.as_str()), (2, ""), "{more:?}");
        assert!(ran.err.starts_with("simp: ") && ran.err.contains(says), "{}", ran.err);
        assert!(ran.err.ends_with("usage: simp readers SHEET [LABEL] [--names FILE] [--json]\n"));
    }
}

/// The sheet is judged before the label.
#[test]
fn a_sheet_that_is_refused() {
    let folder = desk("readers-refused");
    for (sheet, number) in [("P 3\nQ 1\n", 1), ("P 3\nL\nL\n", 2)] {
        folder.write("a.sheet", &tabbed(sheet));
        for label in [&[][..], &["0"], &["9"]] {
            let ran = readers(&folder, label);
            assert_eq!((ran.status, ran.err.as_str()), (1, ""));
            let line = ran.out.strip_suffix("\n").expect("a line");
            assert!(line.starts_with("a.sheet:") && !line.contains('\n'), "{line}");
            assert!(line.contains(&format!(" [{number}: ")), "{line}");
        }
    }
}

/// Any two of each of four fours.
#[test]
fn more_than_a_thousand_groups() {
    let folder = Folder::new("readers-many");
    let policy = |owner| format!("O {owner} {:04x} ffff\n", two_of_four(owner));
    let policies: String = (0..16).map(policy).collect();
    folder.write("a.sheet", &tabbed(&format!("P 16\nL\n{policies}")));
    let ran = readers(&folder, &["0"]);
    let lines: Vec<&str> = ran.out.lines().collect();
    assert_eq!(lines.len(), 1297);
    assert_eq!(lines[0], "label 0: 1296 smallest groups read it");
    assert_eq!(lines[1], "  0, 1, 4, 5, 8, 9, 12 and 13");
    assert_eq!(lines[1296], "  2, 3, 6, 7, 10, 11, 14 and 15");
}

/// It can't come from the tool, which lends enough.
#[test]
fn too_few_places_are_told_too() {
    for (found, wanted, fact) in [
        (1, 3, "the slice has 1 place, and 3 smallest groups read the label"),
        (0, 1, "the slice has 0 places, and 1 smallest group reads the label"),
    ] {
        let told = message(&Reason::Places { found, wanted }, None, &Names::default());
        let line = format!(
            "{fact}: lend at least {wanted} [12: the groups are listed all or not at all, each in \
             a place of its own]"
        );
        assert_eq!(told.to_string(), line);
    }
}
