//! `--write`: the memory file is the old one or the new one, whole.

use crate::desk::{desk, tabbed, MEMORY, PACKED};
use crate::folder::Folder;
use crate::tool::{command, full, shell, simp, simp_onto, unread};
use std::fs::{self, Permissions};
use std::os::unix::fs::{chown, symlink, MetadataExt, PermissionsExt};
use std::path::Path;
use std::process::Stdio;

const PACK: [&str; 7] =
    ["run", "a.sheet", "pack.simp", "a.memory", "--as=1", "--budget=9", "--write"];

/// The same as a run and as a round.
const PACKS: [[&str; 7]; 2] =
    [PACK, ["round", "a.sheet", "pack.round", "a.memory", "--as=1", "--budget=9", "--write"]];

fn read(folder: &Folder, name: &str) -> Vec<u8> {
    fs::read(folder.as_ref().join(name)).expect("the file is there")
}

/// What else stands in the folder that the desk doesn't put there.
fn strangers(folder: impl AsRef<Path>) -> Vec<String> {
    let entries = fs::read_dir(folder).expect("a folder");
    let names = entries.map(|entry| entry.expect("an entry").file_name());
    let names = names.map(|name| name.into_string().expect("UTF-8"));
    names.filter(|name| name.starts_with('.')).collect()
}

#[test]
fn a_done_run_replaces_the_memory() {
    let folder = desk("replaced");
    for pack in PACKS {
        let ran = simp(&folder, &pack);
        assert_eq!((ran.status, ran.err.as_str()), (0, ""));
        assert_eq!(ran.out.lines().last(), Some("a.memory is replaced"));
        assert_eq!(read(&folder, "a.memory"), tabbed(PACKED));
        assert!(strangers(&folder).is_empty());
        // and without --write it stays
        folder.write("a.memory", &tabbed(MEMORY));
        assert_eq!(simp(&folder, &pack[..6]).status, 0);
        assert_eq!(read(&folder, "a.memory"), tabbed(MEMORY));
    }
}

/// A round isn't refused because a script of it stops: the memory is what the others left.
#[test]
fn a_round_with_scripts_that_stop_replaces_the_memory() {
    let folder = desk("replaced-stopped");
    let mut arguments = PACKS[1];
    arguments[2] = "stops.round";
    let ran = simp(&folder, &arguments);
    assert_eq!((ran.status, ran.err.as_str()), (1, ""));
    assert_eq!(ran.out.lines().last(), Some("a.memory is replaced"));
    assert_eq!(read(&folder, "a.memory"), tabbed(PACKED));
    folder.write("a.memory", &tabbed(MEMORY));
    let ran = simp_onto(&folder, &arguments, full());
    assert!(ran.status == 3 && ran.err.ends_with("; a.memory is as it was\n"), "{}", ran.err);
    assert_eq!(read(&folder, "a.memory"), tabbed(MEMORY));
}

#[test]
fn a_refused_run_leaves_the_file_alone() {
    let folder = desk("left-alone");
    let path = folder.as_ref().join("a.memory");
    let state = || {
        let about = fs::metadata(&path).expect("the file is there");
        (about.modified().expect("a time"), about.ino(), read(&folder, "a.memory"))
    };
    let before = state();
    folder.write("leak.round", &tabbed("= 2\nk 2\nx 1\n\n= 0\nx 1\n"));
    let refused = ["malformed.simp", "mistyped.simp", "leak.simp"];
    for (pack, more) in PACKS.into_iter().zip([&["loop.simp", "grow.simp"][..], &["leak.round"]]) {
        for script in refused.iter().chain(more) {
            let mut arguments = pack;
            arguments[2] = script;
            assert_eq!(simp(&folder, &arguments).status, 1, "{script}");
        }
        for authority in ["--as=3", "--as=15"] {
            let mut arguments = pack;
            arguments[4] = authority;
            assert_eq!(simp(&folder, &arguments).status, 1, "{authority}");
        }
        let mut arguments = pack;
        arguments[2] = "no.simp";
        assert_eq!(simp(&folder, &arguments).status, 3);
    }
    assert_eq!(state(), before);
    assert!(strangers(&folder).is_empty());
}

/// A memory whose run couldn't be shown is as it was.
#[test]
fn a_run_that_cannot_be_printed_is_not_written() {
    let folder = desk("unprinted");
    let said = |ran: &crate::tool::Ran| {
        assert_eq!(ran.status, 3);
        assert!(ran.err.ends_with("; a.memory is as it was\n"), "{}", ran.err);
        assert_eq!(read(&folder, "a.memory"), tabbed(MEMORY));
    };
    let forms = [&[][..], &["--json"], &["--plain"]];
    for (pack, more) in PACKS.iter().flat_map(|pack| forms.map(|form| (pack, form))) {
        let arguments = [&pack[..], more].concat();
        said(&simp_onto(&folder, &arguments, full()));
        said(&simp_onto(&folder, &arguments, unread()));
        said(&shell(&folder, &format!("exec \"$SIMP\" {} >&-", arguments.join(" "))));
    }
    assert!(strangers(&folder).is_empty());
}

/// Owner and group too, which only root can set to begin with.
#[test]
fn permissions_are_kept() {
    let folder = desk("permissions");
    let path = folder.as_ref().join("a.memory");
    for mode in [0o600, 0o640, 0o666, 0o604] {
        folder.write("a.memory", &tabbed(MEMORY));
        fs::set_permissions(&path, Permissions::from_mode(mode)).expect("the mode is set");
        let _ = chown(&path, Some(1001), Some(2000));
        let old = fs::metadata(&path).expect("the file is there");
        assert_eq!(simp(&folder, &PACK).status, 0);
        let about = fs::metadata(&path).expect("the file is there");
        assert_eq!(about.permissions().mode() & 0o7777, mode);
        assert_eq!((about.uid(), about.gid()), (old.uid(), old.gid()));
        assert_eq!(read(&folder, "a.memory"), tabbed(PACKED));
    }
}

#[test]
fn a_link_stays_and_its_target_is_replaced() {
    let folder = desk("link");
    let inner = folder.as_ref().join("inner");
    fs::create_dir(&inner).expect("a folder");
    fs::rename(folder.as_ref().join("a.memory"), inner.join("real")).expect("it is moved");
    symlink("inner/real", folder.as_ref().join("near")).expect("a link");
    symlink("near", folder.as_ref().join("a.memory")).expect("a link");
    assert_eq!(simp(&folder, &PACK).status, 0);
    for link in ["near", "a.memory"] {
        let about = fs::symlink_metadata(folder.as_ref().join(link)).expect("the link is there");
        assert!(about.is_symlink(), "{link}");
    }
    assert_eq!(fs::read(inner.join("real")).expect("the file is there"), tabbed(PACKED));
    assert!(strangers(&folder).is_empty() && strangers(&inner).is_empty());
}

/// The file beside the old one has a longer name, and none is longer than this.
#[test]
fn a_file_that_cannot_be_made_beside_the_old_one() {
    let folder = desk("long-name");
    let name = "m".repeat(255);
    folder.write(&name, &tabbed(MEMORY));
    let forms = [&[][..], &["--json"]];
    for (pack, more) in PACKS.into_iter().flat_map(|pack| forms.map(|form| (pack, form))) {
        let mut arguments = pack;
        arguments[3] = &name;
        let ran = simp(&folder, &[&arguments[..], more].concat());
        assert_eq!(ran.status, 3);
        assert!(ran.err.contains("File name too long; it is as it was"), "{}", ran.err);
        assert_eq!(read(&folder, &name), tabbed(MEMORY));
    }
}

/// A memory of 64 packages in packages, longer than the block that a file may have below.
fn large(folder: &Folder) -> (Vec<u8>, Vec<u8>) {
    let mut sheet = String::from("P 1\nL\nX 0 0\n");
    let mut memory = String::from("1 1\n");
    for _ in 1..64 {
        sheet += "X 4 0\n";
        memory += "3 5 0 3 5 0 3 5 0 3 5 0 1 4294967295\n";
    }
    folder.write("a.sheet", &tabbed(&sheet));
    folder.write("a.memory", &tabbed(&memory));
    folder.write("pack.simp", &tabbed("= 0\ni 2\n"));
    folder.write("pack.round", &tabbed("s\n\n= 0\ni 2\n"));
    let after = memory.replacen("1 1\n", "1 2\n", 1);
    (tabbed(&memory), tabbed(&after))
}

/// A file may have no byte, or one block, so that writing fails at its start or in its middle.
#[test]
fn a_disk_that_gets_full() {
    let folder = desk("full-disk");
    let (before, after) = large(&folder);
    for pack in PACKS {
        folder.write("a.memory", &before);
        let arguments = pack.join(" ").replace("--as=1", "--as=0");
        for blocks in [0, 1] {
            // with the signal ignored, the write fails
            let limit = format!("trap '' XFSZ; ulimit -f {blocks}; exec \"$SIMP\" {arguments}");
            let ran = shell(&folder, &limit);
            assert_eq!(ran.status, 3, "{}", ran.err);
            let said = ran.err.contains("simp: a.memory: ");
            assert!(said && ran.err.ends_with("; it is as it was\n"), "{}", ran.err);
            assert_eq!(read(&folder, "a.memory"), before);
            assert!(strangers(&folder).is_empty());
        }
        assert_eq!(shell(&folder, &format!("exec \"$SIMP\" {arguments}")).status, 0);
        assert_eq!(read(&folder, "a.memory"), after);
    }
}

/// The same with the signal, which ends the tool while it writes.
#[test]
fn a_signal_while_it_writes() {
    let folder = desk("signal");
    let (before, _) = large(&folder);
    for (pack, blocks) in PACKS.iter().flat_map(|pack| [(pack, 0), (pack, 1)]) {
        let arguments = pack.join(" ").replace("--as=1", "--as=0");
        let limit = format!("ulimit -c 0; ulimit -f {blocks}; exec \"$SIMP\" {arguments}");
        assert_eq!(shell(&folder, &limit).status, -1);
        assert_eq!(read(&folder, "a.memory"), before);
    }
    // what is left lies beside it under a name of its own
    let left = strangers(&folder);
    assert_eq!(left.len(), 4);
    assert!(left.iter().all(|name| name.starts_with(".a.memory.simp-")), "{left:?}");
}

/// Numbers that look random, from a seed.
fn random(state: &mut u64) -> u64 {
    *state ^= *state << 13;
    *state ^= *state >> 7;
    *state ^= *state << 17;
    *state
}

/// Killed at any moment, the tool leaves the old text or the new one. The moments gather around the
/// one where the file is replaced.
#[test]
fn a_kill_at_any_moment() {
    let folder = desk("killed");
    let (before, after) = large(&folder);
    let mut state = 0x9e37_79b9_7f4a_7c15;
    let mut most = 100_000;
    let mut replaced = 0;
    for turn in 0..400 {
        folder.write("a.memory", &before);
        let mut arguments = PACKS[turn % 2];
        arguments[4] = "--as=0";
        let mut tool = command(&folder, &arguments);
        let mut child = tool.stdout(Stdio::null()).spawn().expect("the tool starts");
        for _ in 0..most / 2 + random(&mut state) % most {
            std::hint::spin_loop();
        }
        child.kill().expect("it is killed, or was done");
        child.wait().expect("it ends");
        let found = read(&folder, "a.memory");
        assert!(found == before || found == after, "{}", String::from_utf8_lossy(&found));
        replaced += usize::from(found == after);
        most = if found == after { most * 9 / 10 + 1 } else { most * 10 / 9 + 1 };
    }
    let left = strangers(&folder).len();
    println!("replaced {replaced} times of 400, killed {left} times with a file beside it");
}
