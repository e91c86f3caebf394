//! A folder with a sheet, a memory and scripts on which the commands are tried.

use crate::folder::Folder;

/// Location 0 and 2 are open, 1 and 3 are principal 0's alone. Label 0 is open, label 2 only
/// principal 0 reads.
pub const SHEET: &str =
    "P 3\nT 0 1\nL\nL\nO 0 0000 0000\nL\nO 0 0000 0007\nX 0 0\nX 0 2\nX 4 0\nX 5 2\n";

pub const MEMORY: &str = "1 5\n1 62\n4 2 1\n4 2 1\n";

/// The memory after `pack.simp` under an authority that writes label 2.
pub const PACKED: &str = "1 5\n1 62\n3 5 2 1 62\n4 2 1\n";

const SCRIPTS: &[(&str, &str)] = &[
    ("copy.simp", "= 1\nx 0\n"),
    ("pack.simp", "= 2\nk 2\nx 1\n"),
    ("malformed.simp", "= 9\nx 0\n"),
    ("mistyped.simp", "= 0\nx 2\n"),
    ("leak.simp", "= 0\nx 1\n"),
    ("loop.simp", "w\nl 3\ni 1\ns\n"),
    ("grow.simp", "w\nl 3\ni 1\n= 2\nk 0\nx 2\n"),
    // what they leave is what `pack.simp` does
    ("pack.round", "s\n\n= 2\nk 2\nx 1\n"),
    ("stops.round", "w\nl 3\ni 1\ns\n\n= 2\nk 2\nx 1\n\nw\nl 3\ni 1\n= 2\nk 0\nx 2\n"),
];

/// The texts of the scope have tabs where these have blanks.
pub fn tabbed(text: &str) -> Vec<u8> {
    text.replace(' ', "\t").into_bytes()
}

pub fn desk(test: &str) -> Folder {
    let folder = Folder::new(test);
    folder.write("a.sheet", &tabbed(SHEET));
    folder.write("a.memory", &tabbed(MEMORY));
    for (name, text) in SCRIPTS {
        folder.write(name, &tabbed(text));
    }
    folder
}
