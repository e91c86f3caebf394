//! A standard output that fails: status 3, a line on standard error, no panic.

use crate::desk::desk;
use crate::tool::{full, shell, simp_onto, unread};

/// A call of each kind that prints something.
const CALLS: &[&[&str]] = &[
    &["check", "a.sheet", "copy.simp"],
    &["check", "a.sheet", "copy.simp", "--json"],
    &["check", "a.sheet", "leak.simp"],
    &["check", "no.sheet", "leak.simp"],
    &["run", "a.sheet", "copy.simp", "a.memory", "--as=0", "--budget=1"],
    &["run", "a.sheet", "leak.simp", "a.memory", "--as=0", "--budget=1", "--json"],
    &["round", "a.sheet", "pack.round", "a.memory", "--as=1", "--budget=1"],
    &["round", "a.sheet", "stops.round", "a.memory", "--as=1", "--budget=1", "--json"],
    &["round", "a.sheet", "leak.simp", "a.memory", "--as=1", "--budget=1"],
    &["show", "a.sheet", "a.memory", "--to=0"],
    &["readers", "a.sheet"],
    &["readers", "a.sheet", "9"],
    &["readers", "a.sheet", "0", "--json"],
    &["explain", "a.sheet"],
    &["explain", "a.sheet", "pack.round"],
    &["explain", "a.sheet", "leak.simp", "--json"],
    &["--help"],
    &["help", "run"],
    &["--version"],
];

#[test]
fn a_full_disk() {
    let folder = desk("full");
    for arguments in CALLS {
        let ran = simp_onto(&folder, arguments, full());
        assert_eq!(ran.status, 3, "{arguments:?}");
        let last = ran.err.lines().last();
        assert_eq!(last, Some("simp: standard output: No space left on device"), "{arguments:?}");
    }
}

/// The reader is gone before the tool starts. It wants to hear nothing.
#[test]
fn a_closed_pipe() {
    let folder = desk("closed-pipe");
    for arguments in CALLS.iter().filter(|arguments| !arguments.contains(&"no.sheet")) {
        let ran = simp_onto(&folder, arguments, unread());
        assert_eq!((ran.status, ran.err.as_str()), (3, ""), "{arguments:?}");
    }
}

#[test]
fn a_closed_standard_output() {
    let folder = desk("closed");
    for arguments in CALLS {
        let ran = shell(&folder, &format!("exec \"$SIMP\" {} >&-", arguments.join(" ")));
        assert_eq!(ran.status, 3, "{arguments:?}");
        let last = ran.err.lines().last();
        assert_eq!(last, Some("simp: standard output: it is closed"), "{arguments:?}");
    }
}

#[test]
fn an_output_that_is_thrown_away_is_none_of_these() {
    let folder = desk("thrown-away");
    for redirection in [">/dev/null", "1<>/dev/null", "2>&-", "<&-"] {
        let ran = shell(&folder, &format!("\"$SIMP\" check a.sheet copy.simp {redirection}"));
        assert_eq!(ran.status, 0, "{redirection}");
    }
}

/// What the tool writes to a terminal, for which `script` makes one.
fn on_a_terminal(environment: &str) -> String {
    let folder = desk("terminal");
    let asked = "check a.sheet copy.simp leak.simp";
    let ran = shell(&folder, &format!("{environment} script -qec \"$SIMP {asked}\" /dev/null"));
    assert_eq!(ran.status, 1, "{}{}", ran.out, ran.err);
    ran.out.lines().next().expect("a line").trim_end().to_string()
}

#[test]
fn colours_are_for_terminals() {
    let plain = "copy.simp: accepted, trust-keeping";
    assert_eq!(
        on_a_terminal("NO_COLOR= TERM=xterm"),
        "\x1b[1mcopy.simp:\x1b[0m \x1b[32maccepted, trust-keeping\x1b[0m"
    );
    assert_eq!(on_a_terminal("NO_COLOR=1 TERM=xterm"), plain);
    assert_eq!(on_a_terminal("NO_COLOR= TERM=dumb"), plain);
    let folder = desk("no-terminal");
    let ran = shell(&folder, "TERM=xterm \"$SIMP\" check a.sheet copy.simp");
    assert_eq!(ran.out.lines().next(), Some(plain));
}
