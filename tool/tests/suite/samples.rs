//! The samples: the good ones are accepted and do what they say, and each bad one gets its message.

use crate::folder::repository;
use crate::tool::{simp, Ran};
use std::collections::BTreeMap;
use std::fs;
use std::path::PathBuf;

fn samples() -> PathBuf {
    repository().join("samples")
}

/// The names of the files of a folder of samples that end in this.
fn files(folder: &str, ending: &str) -> Vec<String> {
    let entries = fs::read_dir(samples().join(folder)).expect("a folder of samples");
    let names =
        entries.map(|entry| entry.expect("a file").file_name().into_string().expect("text"));
    let mut names: Vec<String> = names.filter(|name| name.ends_with(ending)).collect();
    names.sort();
    names
}

fn at_samples(folder: &str, arguments: &[&str]) -> Ran {
    simp(samples().join(folder), arguments)
}

/// A folder of bad samples, with the good ones that each is tried with.
struct Bad {
    folder: &'static str,
    sheet: &'static str,
    script: &'static str,
}

const BAD: Bad = Bad { folder: "bad", sheet: "../line.sheet", script: "../tally.simp" };

/// Those with pairs.
const BAD_PAIRS: Bad = Bad { folder: "flock/bad", sheet: "../flock.sheet", script: "../pack.simp" };

/// Those with the rule that one reader must read by himself.
const BAD_RULES: Bad =
    Bad { folder: "house/bad", sheet: "../house.sheet", script: "../count.simp" };

/// What the tool says of a bad sample: the line that starts with its name.
fn said(bad: &Bad, name: &str) -> String {
    let (Bad { folder, sheet, script }, memory) = (bad, "../morning.memory");
    let run = |command, script, memory| {
        at_samples(folder, &[command, sheet, script, memory, "--as", "1", "--budget", "1000"])
    };
    let ran = if name.ends_with(".sheet") {
        let checked = at_samples(folder, &["check", name, script]);
        if checked.out.starts_with(name) {
            checked
        } else {
            at_samples(folder, &["readers", name, "0"])
        }
    } else if name.ends_with(".memory") {
        run("run", script, name)
    } else if name.ends_with(".round") {
        run("round", name, memory)
    } else {
        let checked = at_samples(folder, &["check", sheet, name]);
        if checked.status == 0 {
            run("run", name, memory)
        } else {
            checked
        }
    };
    assert_eq!(ran.status, 1, "{name}: {}{}", ran.out, ran.err);
    let blames = |line: &&str| line.starts_with(&format!("{name}:")) && !line.contains(": done, ");
    let mut lines = ran.out.lines().filter(blames);
    let line = lines.next().unwrap_or_else(|| panic!("{name} is not blamed: {}", ran.out));
    assert_eq!(lines.next(), None, "{name} is blamed once");
    line.to_string()
}

/// `messages.txt` in a folder of bad samples has a line for each file; the numbers there, each once.
fn numbers_of_messages(bad: &Bad) -> Vec<String> {
    let path = samples().join(bad.folder).join("messages.txt");
    let expected = fs::read_to_string(path).expect("the messages are there");
    let names =
        [".simp", ".sheet", ".memory", ".round"].map(|ending| files(bad.folder, ending)).concat();
    let said: Vec<String> = names.iter().map(|name| said(bad, name)).collect();
    for (said, expected) in said.iter().zip(expected.lines()) {
        assert_eq!(said, expected);
    }
    assert_eq!(said.len(), expected.lines().count());
    let mut numbers = BTreeMap::new();
    for line in &said {
        let (_, number) = line.rsplit_once(" [").expect("a number");
        *numbers.entry(number.split(':').next().expect("a number").to_string()).or_insert(0) += 1;
    }
    numbers.into_keys().collect()
}

#[test]
fn each_bad_one_gets_its_message() {
    let numbers = ["1", "10", "11", "12", "2", "4", "5", "6", "8", "9"];
    assert_eq!(numbers_of_messages(&BAD), numbers);
    assert_eq!(numbers_of_messages(&BAD_PAIRS), ["1", "10", "2", "4", "5", "6", "8"]);
    assert_eq!(numbers_of_messages(&BAD_RULES), ["1", "6"]);
}

#[test]
fn good_ones_are_accepted() {
    let scripts = files(".", ".simp");
    let mut arguments = vec!["check", "line.sheet"];
    arguments.extend(scripts.iter().map(String::as_str));
    let ran = at_samples(".", &arguments);
    assert_eq!((ran.status, ran.err.as_str()), (0, ""));
    let other = "restock-as-farm.simp";
    let (notes, said): (Vec<&str>, Vec<&str>) =
        ran.out.lines().partition(|line| line.contains(":4: "));
    let keeping = |name: &String| if name == other { "" } else { ", trust-keeping" };
    let mut lines: Vec<String> =
        scripts.iter().map(|name| format!("{name}: accepted{}", keeping(name))).collect();
    let (all, most) = (scripts.len(), scripts.len() - 1);
    lines.push(format!("{all} scripts: {all} accepted ({most} trust-keeping), 0 refused"));
    assert_eq!(said, lines);
    let note = format!("{other}:4: not trust-keeping: what is opened as label 8 may have been ");
    assert!(notes.len() == 1 && notes[0].starts_with(&note), "{notes:?}");
}

/// As one script, and as a round of several; and the same of the flock's and the house's.
#[test]
fn a_morning_leaves_noon() {
    let scratch = crate::folder::Folder::new("noon");
    for (folder, line, command, script, party, budget) in [
        (".", "line", "run", "morning.simp", "station", "54"),
        (".", "line", "round", "morning.round", "station", "21"),
        ("flock", "flock", "round", "morning.round", "station", "7"),
        ("house", "house", "round", "morning.round", "vet", "2"),
    ] {
        let read = |name: &str| fs::read(samples().join(folder).join(name)).expect("a sample");
        scratch.write("memory", &read("morning.memory"));
        let path = scratch.as_ref().join("memory");
        let memory = path.to_str().expect("a path in ASCII");
        let [sheet, names] = ["sheet", "names"].map(|ending| format!("{line}.{ending}"));
        let names = ["--names", &names, "--as", party, "--budget", budget, "--write"];
        let ran = at_samples(folder, &[&[command, &sheet, script, memory][..], &names].concat());
        assert_eq!(ran.status, 0, "{}{}", ran.out, ran.err);
        assert_eq!(fs::read(path).expect("the memory"), read("noon.memory"), "{folder}/{script}");
    }
}

/// The scripts with pairs are accepted, and all that is hidden of the tag is what is packed.
#[test]
fn a_tally_goes_with_its_flock_number() {
    let scripts = files("flock", ".simp");
    let mut arguments = vec!["check", "flock.sheet"];
    arguments.extend(scripts.iter().map(String::as_str));
    let ran = at_samples("flock", &arguments);
    let sum = "3 scripts: 3 accepted (3 trust-keeping), 0 refused\n";
    assert!(ran.status == 0 && ran.out.ends_with(sum), "{}", ran.out);
    let shown = |party: &str| {
        let names = ["--names", "flock.names"];
        let show = ["show", "flock.sheet", "noon.memory", "--plain", "--to", party];
        let ran = at_samples("flock", &[&show[..], &names].concat());
        ran.out.lines().nth(3).expect("the tag").to_string()
    };
    assert_eq!(shown("farm"), "6\t3\t5\t1\t1\t390\t1\t2");
    assert_eq!(shown("feed"), "6\t3\t5\t1\t0\t1\t2");
}

#[test]
fn a_round_is_made_of_the_samples() {
    let read = |name: &str| fs::read(samples().join(name)).expect("a sample");
    let round = read("morning.round");
    let parts: Vec<&[u8]> = reference::parts(&round).iter().map(|part| part.text).collect();
    for name in ["cracks", "cracks-three", "tally", "queue", "bills", "open-station", "pack"] {
        assert!(parts.contains(&&read(&format!("{name}.simp"))[..]), "{name}");
    }
    let scripts = ["pack", "open", "tag"].map(|name| read(&format!("flock/{name}.simp")));
    assert_eq!(read("flock/morning.round"), scripts.join(&b'\n'));
    let scripts =
        ["count", "total", "pack", "open"].map(|name| read(&format!("house/{name}.simp")));
    assert_eq!(read("house/morning.round"), scripts.join(&b'\n'));
}

/// The two sheets of the house differ in the line `R 1` alone, and so does what two parties do who
/// read the finding together.
#[test]
fn the_house_with_and_without_its_rule() {
    let read = |name: &str| fs::read_to_string(samples().join(name)).expect("a sample");
    assert_eq!(read("house/house.sheet").replacen("R\t1\n", "", 1), read("house/pooled.sheet"));
    let names = ["--names", "house.names"];
    for (sheet, finding, package, opened) in [
        ("house.sheet", "", "3\t5\t1", "right error 1 (insufficientAuth) (was left 7)"),
        ("pooled.sheet", "1\t7", "3\t5\t1\t1\t7", "left 7"),
    ] {
        let show = ["show", sheet, "noon.memory", "--plain", "--to", "station,feed"];
        let view = at_samples("house", &[&show[..], &names].concat()).out;
        let lines: Vec<&str> = view.lines().collect();
        assert_eq!((lines[2], lines[3]), (finding, package), "{sheet}");
        let run = ["run", sheet, "open.simp", "noon.memory", "--as", "station,feed"];
        let ran = at_samples("house", &[&run[..], &["--budget", "2"], &names].concat());
        let line = ran.out.lines().find(|line| line.contains("  opened  ")).expect("a location");
        assert!(line.ends_with(&format!("  {opened}")), "{line}");
    }
    let scripts = files("house", ".simp");
    let scripts: Vec<&str> = scripts.iter().map(String::as_str).collect();
    let checked = at_samples("house", &[&["check", "house.sheet"][..], &scripts].concat());
    let sum = "4 scripts: 4 accepted (4 trust-keeping), 0 refused\n";
    assert!(checked.status == 0 && checked.out.ends_with(sum), "{}", checked.out);
}

/// Each button's script is accepted in a round, and changes what its readers are shown alone.
#[test]
fn a_button_is_seen_by_who_reads_its_label() {
    let scratch = crate::folder::Folder::new("buttons");
    let path = scratch.as_ref().join("memory");
    let memory = path.to_str().expect("a path in ASCII");
    let read = |name: &str| fs::read(samples().join(name)).expect("a sample");
    let round = read("buttons.round");
    let parts: Vec<&[u8]> = reference::parts(&round).iter().map(|part| part.text).collect();
    let shown = |party: &str| {
        let view = ["show", "line.sheet", memory, "--names", "line.names", "--plain", "--to"];
        at_samples(".", &[&view[..], &[party]].concat()).out
    };
    let parties = ["farm", "station", "feed", "maker", "service"];
    for (script, authority, readers) in
        [("keep.simp", "station", &["station"][..]), ("visit.simp", "", &["maker", "service"])]
    {
        assert!(parts.contains(&&read(script)[..]), "{script}");
        scratch.write("memory", &read("morning.memory"));
        let before = parties.map(shown);
        let run = ["run", "line.sheet", script, memory, "--names", "line.names", "--write"];
        let ran = at_samples(".", &[&run[..], &["--as", authority, "--budget", "1"]].concat());
        assert_eq!(ran.status, 0, "{}{}", ran.out, ran.err);
        for (party, before) in parties.iter().zip(before) {
            assert_eq!(shown(party) != before, readers.contains(party), "{script}: {party}");
        }
    }
}

#[test]
fn starts_are_explained() {
    let ran = at_samples(".", &["explain", "line.sheet", "buttons.round", "--names", "line.names"]);
    let rows = "   1  line 1  starts at label 3 (station only)  read: only station            \
                trust-keeping\n   \
                2  line 5  starts at label 9 (service book)  read: only maker and service  \
                trust-keeping\n   \
                3  line 9  starts at bottom, without `b`     read: everyone                \
                trust-keeping\n";
    let start = format!("buttons.round: accepted\n\n3 scripts\n{rows}\nparties read together ");
    assert_eq!((ran.status, ran.err.as_str()), (0, ""));
    assert!(ran.out.starts_with(&start), "{}", ran.out);
}

#[test]
fn names_stand_in_messages() {
    let ran = at_samples(".", &["check", "line.sheet", "bad/leak.simp", "--names", "line.names"]);
    let fact = "bad/leak.simp:1: location 0 (last tray) may be read by everyone, but the value \
                comes from location 10 (farm total, line 2), which only farm may read: ";
    assert!(ran.out.starts_with(fact), "{}", ran.out);
}
