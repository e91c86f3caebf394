//! What the tool says of the mistakes that are made most, word for word.

use crate::folder::Folder;
use crate::tool::simp;

/// Locations 0 and 2 are open, 1 and 4 are principal 0's alone; 3 holds what a pack leaves, 4 a sum.
const SHEET: &str = "P 3\nL\nL\nO 0 0000 0007\nX 0 0\nX 0 1\nX 0 0\nX 4 0\nX 3 1\n";

/// The first line that the tool prints for a script; blanks stand for tabs.
fn said(script: &str) -> String {
    said_of_bytes(script.replace(' ', "\t").as_bytes())
}

fn said_of_bytes(script: &[u8]) -> String {
    let folder = Folder::new(&format!("message-{:016x}", seed(script)));
    folder.write("a.sheet", SHEET.replace(' ', "\t").as_bytes());
    folder.write("a.simp", script);
    let ran = simp(folder.as_ref(), &["check", "a.sheet", "a.simp"]);
    assert_eq!((ran.status, ran.err.as_str()), (1, ""), "{}", ran.out);
    ran.out.lines().next().expect("a line").to_string()
}

/// A number of its own for each text, for the folder's name.
fn seed(text: &[u8]) -> u64 {
    text.iter().fold(5381, |sum: u64, byte| sum.wrapping_mul(33) ^ u64::from(*byte))
}

fn starts(said: &str, start: &str) {
    assert!(said.starts_with(start), "{said}");
}

#[test]
fn a_leak_names_both_labels_and_where_the_value_comes_from() {
    starts(
        &said("= 2\nx 1\n"),
        "a.simp:1: location 2 may be read by everyone, but the value comes from location 1 \
         (line 2), which only 0 may read",
    );
}

#[test]
fn line_ends_tabs_and_the_last_line() {
    starts(
        &said_of_bytes(b"=\t2\r\nx\t0\r\n"),
        "a.simp:1: line ends in byte 13: save with Unix line ends",
    );
    starts(&said_of_bytes(b"=\t2\nx 0\n"), "a.simp:2: fields are parted by a tab, found a blank");
    starts(&said("= 2\nx 0"), "a.simp:2: the last line has no end");
    starts(&said(""), "a.simp:1: the script is empty");
}

#[test]
fn names_that_are_not_there() {
    starts(&said("= 0\nl 5\ni 1\n"), "a.simp:2: type 5 isn't on the sheet (5 types)");
    starts(&said("= 5\ni 1\n"), "a.simp:1: location 5 isn't on the sheet (5 locations)");
    starts(&said("= 3\nk 2\ni 1\n"), "a.simp:2: label 2 isn't on the sheet (2 labels)");
}

#[test]
fn types_that_are_there_and_that_are_wanted() {
    starts(
        &said("= 3\nx 0\n"),
        "a.simp:1: location 3 takes type 4 (pkg+error), but the value (line 2) is type 0 (int)",
    );
    starts(
        &said("w\nx 0\ns\n"),
        "a.simp:1: the guard (line 2) is type 0 (int), and type 3 (int+int) is wanted",
    );
}

#[test]
fn one_wrong_label_among_many_lines_is_found() {
    let mut script = ";\n= 0\ni 1\n".repeat(130);
    script += ";\n= 2\n+\ni 1\nx 1\n";
    script += &";\n= 1\nx 0\n".repeat(30);
    script += "s\n";
    starts(
        &said(&script),
        "a.simp:392: location 2 may be read by everyone, but the value comes from location 1 \
         (line 395), which only 0 may read",
    );
}

#[test]
fn what_decides_is_named_with_its_line() {
    starts(
        &said("c\nx 4\n= 2\ni 1\ns\n"),
        "a.simp:3: location 2 may be read by everyone, but whether this line is reached is \
         decided in line 1 by location 4 (line 2), which only 0 may read",
    );
    starts(
        &said("c\nx 4\n= 2\nv 0\ns\n"),
        "a.simp:3: location 2 may be read by everyone, but the value comes from location 4 \
         (line 2, bound by the `c` in line 1), which only 0 may read",
    );
}

/// Eight cases inside one another, each over a sum of 24 times what the one around it binds.
#[test]
fn labels_that_are_joined_over_and_over() {
    let sum = |leaf: &str| "+\n".repeat(23) + &leaf.repeat(24);
    let mut script = format!("c\nl 3\n{}", sum("x 1\n"));
    script += &format!("c\nl 3\n{}", sum("v 0\n")).repeat(7);
    script += "= 2\nv 0\n";
    script += &"s\n".repeat(8);
    starts(
        &said(&script),
        "a.simp:393: location 2 may be read by everyone, but the value comes from location 1 \
         (line 26, bound by the `c` in line 1), which only 0 may read",
    );
}

/// 27 types, each the sum of the one before it with itself.
#[test]
fn types_that_double() {
    let folder = Folder::new("doubling");
    let sums: String = (4..31).map(|ty| format!("T {ty} {ty}\n")).collect();
    folder.write("a.sheet", format!("P 1\n{sums}L\nX 31 0\n").replace(' ', "\t").as_bytes());
    folder.write("a.simp", b"=\t0\ni\t1\n");
    let ran = simp(folder.as_ref(), &["check", "a.sheet", "a.simp"]);
    starts(&ran.out, "a.simp:1: location 0 takes type 31 (");
    assert!(ran.out.len() < 500, "{}", ran.out);
    let explained = simp(folder.as_ref(), &["explain", "a.sheet"]);
    assert!(explained.status == 0 && explained.out.len() < 10_000, "{}", explained.out.len());
}
