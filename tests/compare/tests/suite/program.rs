//! The program show, in the folder that `SIMP_PROGRAMS` named when this was built.

use crate::common::{largest_sheet, sheet, text};
use compare::show::show;
use std::fs::File;
use std::io::Write;
use std::path::Path;
use std::process::{Child, Command, Stdio};
use std::time::Duration;

fn program() -> Command {
    Command::new(Path::new(env!("SIMP_PROGRAMS")).join("show"))
}

/// What show prints for a standard input. It reads it to its end, whatever it is.
pub fn printed(input: &[u8]) -> Vec<u8> {
    printed_for_pieces(&[input])
}

/// What show prints for a standard input that comes in pieces.
fn printed_for_pieces(pieces: &[&[u8]]) -> Vec<u8> {
    let mut child = started(program().stdin(Stdio::piped()));
    let mut stdin = child.stdin.take().expect("an input");
    for piece in pieces {
        stdin.write_all(piece).expect("the program reads its input to the end");
        if pieces.len() > 1 {
            std::thread::sleep(Duration::from_millis(1));
        }
    }
    drop(stdin);
    ended(child)
}

fn started(command: &mut Command) -> Child {
    command.stdout(Stdio::piped()).spawn().expect("the program starts")
}

/// What a program has printed when it ends, which it does by itself.
fn ended(child: Child) -> Vec<u8> {
    let output = child.wait_with_output().expect("the program ends");
    assert!(output.status.code().is_some(), "the program ends by itself: {}", output.status);
    output.stdout
}

#[test]
fn an_input_may_come_in_pieces() {
    let memory = text(&["1 5", "1 62", "3 5 2 1 62", "4 2 1"]);
    let small = [&sheet()[..], &memory, b"0002\n"].join(&b'\n');
    let large = [&largest_sheet()[..], &b"3\t5\t1\t1\t9\n".repeat(64), b"ffff\n"].join(&b'\n');
    assert_eq!(show(&small), text(&["1 5", "", "3 5 2", ""]));
    assert_eq!(show(&large), b"3\t5\t1\t1\t9\n".repeat(64));
    for (input, size) in [(&small, 1), (&small, 7), (&large, 500), (&large, 4095)] {
        let pieces: Vec<&[u8]> = input.chunks(size).collect();
        assert_eq!(printed_for_pieces(&pieces), show(input), "pieces of {size} bytes");
    }
}

#[test]
fn an_input_that_cannot_be_read_is_an_empty_one() {
    let folder = File::open(env!("CARGO_MANIFEST_DIR")).expect("a folder opens");
    assert_eq!(ended(started(program().stdin(folder))), show(b""));
}
