//! The tool as a program.

use std::fs::File;
use std::io::Write;
use std::net::Shutdown;
use std::os::fd::OwnedFd;
use std::os::unix::net::UnixStream;
use std::path::Path;
use std::process::{Command, Output, Stdio};

/// How the tool ended, and what it wrote.
#[derive(Clone, Debug, PartialEq, Eq)]
pub struct Ran {
    /// -1 if a signal ended it.
    pub status: i32,
    pub out: String,
    pub err: String,
}

impl From<Output> for Ran {
    fn from(output: Output) -> Ran {
        let text = |bytes: Vec<u8>| String::from_utf8(bytes).expect("the tool writes UTF-8");
        let status = output.status.code().unwrap_or(-1);
        Ran { status, out: text(output.stdout), err: text(output.stderr) }
    }
}

/// The tool with these arguments in a folder, its standard input empty.
pub fn simp(folder: impl AsRef<Path>, arguments: &[&str]) -> Ran {
    command(folder, arguments).output().expect("the tool starts").into()
}

/// The same, as a command that can still be changed.
pub fn command(folder: impl AsRef<Path>, arguments: &[&str]) -> Command {
    let mut command = Command::new(env!("CARGO_BIN_EXE_simp"));
    command.current_dir(folder).args(arguments).stdin(Stdio::null());
    command
}

/// The tool with a text on its standard input.
pub fn simp_reading(folder: impl AsRef<Path>, arguments: &[&str], input: &[u8]) -> Ran {
    let mut command = command(folder, arguments);
    command.stdin(Stdio::piped()).stdout(Stdio::piped()).stderr(Stdio::piped());
    let mut child = command.spawn().expect("the tool starts");
    // the tool may end without reading it all
    let _ = child.stdin.take().expect("its standard input").write_all(input);
    child.wait_with_output().expect("the tool ends").into()
}

/// The tool with standard output going to a file.
pub fn simp_onto(folder: impl AsRef<Path>, arguments: &[&str], out: impl Into<Stdio>) -> Ran {
    let child = command(folder, arguments).stdout(out).stderr(Stdio::piped()).spawn();
    child.expect("the tool starts").wait_with_output().expect("the tool ends").into()
}

/// A device that is always full.
pub fn full() -> File {
    File::options().write(true).open("/dev/full").expect("a full device")
}

/// A stream that no one reads any more. Its other end is shut, not only dropped: a process that
/// another test starts at that moment could hold that end open a little longer.
pub fn unread() -> OwnedFd {
    let (reader, writer) = UnixStream::pair().expect("a stream with two ends");
    reader.shutdown(Shutdown::Both).expect("an end is shut");
    writer.into()
}

/// A shell script in which `$SIMP` is the tool.
pub fn shell(folder: impl AsRef<Path>, script: &str) -> Ran {
    let mut command = Command::new("sh");
    command.current_dir(folder).args(["-c", script]).env("SIMP", env!("CARGO_BIN_EXE_simp"));
    command.stdin(Stdio::null()).output().expect("a shell starts").into()
}
