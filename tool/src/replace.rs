//! Replacing a file by another text, whole or not at all.

use std::ffi::OsString;
use std::fs::{self, File, Metadata, OpenOptions};
use std::io::{self, ErrorKind, Write};
use std::os::unix::fs::{fchown, MetadataExt, OpenOptionsExt};
use std::path::{Path, PathBuf};
use std::process;

/// How many names are tried for the file beside the old one.
const MOST_TRIES: u32 = 100;

/// Writes a file beside the old one and renames it over that, so that an interruption or a full
/// disk leaves the old one. A link stays, and what it leads to is replaced.
pub fn replace(path: &Path, text: &[u8]) -> io::Result<()> {
    let target = fs::canonicalize(path)?;
    let old = fs::metadata(&target)?;
    if !old.is_file() {
        return Err(io::Error::other("it isn't a regular file"));
    }
    // who may not write the old file may not replace it
    OpenOptions::new().append(true).open(&target)?;
    let (file, beside) = create_beside(&target)?;
    let replaced = fill(file, &old, text).and_then(|()| fs::rename(&beside, &target));
    if replaced.is_err() {
        // the first error is the one to tell
        let _ = fs::remove_file(&beside);
    }
    replaced?;
    // the new file is in place; not every file system syncs folders
    let _ = folder(&target).and_then(File::open).and_then(|folder| folder.sync_all());
    Ok(())
}

/// A new file in the target's folder that no one else may read yet.
fn create_beside(target: &Path) -> io::Result<(File, PathBuf)> {
    let mut options = OpenOptions::new();
    options.write(true).create_new(true).mode(0o600);
    let mut last = io::Error::from(ErrorKind::AlreadyExists);
    for number in 0..MOST_TRIES {
        let beside = beside(target, number)?;
        match options.open(&beside) {
            Ok(file) => return Ok((file, beside)),
            Err(error) if error.kind() == ErrorKind::AlreadyExists => last = error,
            Err(error) => return Err(error),
        }
    }
    Err(last)
}

/// The target's name with a mark, hidden, so that a file that an interruption left is known for
/// what it is.
fn beside(target: &Path, number: u32) -> io::Result<PathBuf> {
    let name = target.file_name().ok_or(ErrorKind::InvalidInput)?;
    let mut marked = OsString::from(".");
    marked.push(name);
    marked.push(format!(".simp-{}-{number}", process::id()));
    Ok(folder(target)?.join(marked))
}

fn folder(target: &Path) -> io::Result<&Path> {
    target.parent().ok_or_else(|| ErrorKind::InvalidInput.into())
}

/// Writes the new file, with the old one's permissions, down to the disk.
fn fill(mut file: File, old: &Metadata, text: &[u8]) -> io::Result<()> {
    file.write_all(text)?;
    let new = file.metadata()?;
    if new.gid() != old.gid() {
        // under another group the old permissions would let others read it
        fchown(&file, None, Some(old.gid()))?;
    }
    if new.uid() != old.uid() {
        // only root may give a file away; for others the new file is their own
        let _ = fchown(&file, Some(old.uid()), None);
    }
    file.set_permissions(old.permissions())?;
    file.sync_all()
}
