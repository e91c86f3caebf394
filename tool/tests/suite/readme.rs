//! The technician's walk of the repository's README: its commands print what stands below them.

use crate::folder::{repository, Folder};
use std::fs;
use std::os::unix::fs::symlink;
use std::process::{Command, Stdio};

/// A command and the text that stands below it.
#[derive(Debug, PartialEq, Eq)]
struct Step {
    command: String,
    output: String,
}

/// The commands of one part of a README, in indented blocks. An output goes on to the next text or
/// command, but for the empty line before that.
fn steps(readme: &str, part: &str) -> Vec<Step> {
    let mut steps: Vec<Step> = Vec::new();
    let mut inside = false;
    let lines = readme.lines().skip_while(|line| *line != part).skip(1);
    for line in lines.take_while(|line| !line.starts_with("## ")) {
        let indented = line.strip_prefix("    ");
        if let Some(command) = indented.and_then(|line| line.strip_prefix("$ ")) {
            close(&mut steps, inside);
            steps.push(Step { command: command.to_string(), output: String::new() });
            inside = true;
        } else if !line.is_empty() && indented.is_none() {
            close(&mut steps, inside);
            inside = false;
        } else if inside {
            let last = steps.last_mut().expect("a command");
            last.output += indented.unwrap_or(line);
            last.output.push('\n');
        }
    }
    close(&mut steps, inside);
    steps
}

/// Takes away the empty line that ends the block of the last output.
fn close(steps: &mut [Step], inside: bool) {
    if inside {
        let output = &mut steps.last_mut().expect("a command").output;
        assert_eq!(output.pop(), Some('\n'), "an empty line ends a block");
        assert!(output.is_empty() || output.ends_with('\n'), "an empty line ends a block");
    }
}

#[test]
fn steps_are_found() {
    let part = "text\n\n    $ one\n    1\t2\n\n    3\n\n\ntext\n\n    other\n\n    $ two\n";
    let readme = format!("## A\n\n    $ no\n\n## B\n\n{part}\n## C\n\n    $ no\n");
    let step = |command: &str, output: &str| Step {
        command: command.to_string(),
        output: output.to_string(),
    };
    assert_eq!(steps(&readme, "## B"), [step("one", "1\t2\n\n3\n\n"), step("two", "")]);
}

#[test]
fn the_technician_s_commands_print_what_stands_below_them() {
    let repository = repository();
    let readme = fs::read_to_string(repository.join("README.md")).expect("README.md is there");
    let steps = steps(&readme, "## For a service technician");
    let folder = Folder::new("readme");
    // the walk may write: it goes through a copy
    let copied =
        Command::new("cp").arg("-r").arg(repository.join("samples")).arg(folder.as_ref()).status();
    assert!(copied.expect("cp runs").success());
    fs::create_dir(folder.as_ref().join("bin")).expect("a folder");
    symlink(env!("CARGO_BIN_EXE_simp"), folder.as_ref().join("bin/simp")).expect("a link");
    let path =
        format!("{}/bin:{}", folder.as_ref().display(), std::env::var("PATH").expect("a path"));
    for Step { command, output } in &steps {
        let mut shell = Command::new("sh");
        shell.args(["-c", command]).env("LC_ALL", "C").env("PATH", &path).stdin(Stdio::null());
        let printed = shell.current_dir(&folder).output().expect("the command ends");
        let errors = String::from_utf8_lossy(&printed.stderr);
        assert_eq!(String::from_utf8_lossy(&printed.stdout), *output, "{command}: {errors}");
    }
    let said: String = steps.iter().map(|step| step.command.as_str()).collect();
    for command in [
        "simp check ",
        "simp run ",
        "simp round ",
        "simp show ",
        "simp readers ",
        "simp explain ",
        "--write",
        "--names ",
    ] {
        assert!(said.contains(command), "the walk has no {command}");
    }
}
