//! The named workloads of the benchmark: those of a script here, those of a label in `groups`.

pub mod groups;

use crate::implementation::Implementation;
use reference::answer::{Outcome, Refusal, Round, DONE, SCRIPTS};

/// The arguments of a run and of the view of the memory it leaves, and the outcome of the run.
pub struct Workload {
    pub name: String,
    sheet: String,
    script: String,
    memory: Vec<u32>,
    authority: u16,
    budget: u32,
    group: u16,
    outcome: Outcome,
    /// The outcome of a run in a memory that one has left already.
    again: Outcome,
}

pub fn all() -> Vec<Workload> {
    vec![
        small(),
        lines(25),
        lines(51),
        lines(102),
        started(51),
        long_numbers(),
        long_loop(4, 300),
        long_loop(6, 1468),
        long_loop(8, 6908),
        locations_64(),
        locations_64_alone(),
        unpacks(),
        pairs(),
        pairs_64(),
        unpacked_pairs(),
    ]
}

/// No line of a script.
const UNFORMED: &[u8] = b"?\n";

impl Workload {
    /// The number of words of the memory and of a view.
    pub fn words(&self) -> usize {
        self.memory.len()
    }

    pub fn sheet(&self, implementation: &Implementation) {
        read_sheet(implementation, &self.name, &self.sheet);
    }

    pub fn check(&self, implementation: &Implementation) {
        let answer = (implementation.check)(self.sheet.as_bytes(), self.script.as_bytes());
        assert_eq!(answer, DONE, "the check of {}", self.name);
    }

    /// Leaves the memory of the run in `memory`.
    pub fn run(&self, implementation: &Implementation, memory: &mut [u32]) {
        let (sheet, script) = (self.sheet.as_bytes(), self.script.as_bytes());
        memory.copy_from_slice(&self.memory);
        let outcome = (implementation.run)(sheet, script, memory, self.authority, self.budget);
        assert_eq!(outcome, self.outcome, "the run of {}", self.name);
    }

    /// The scripts of a round: the script 32 times.
    pub fn scripts(&self) -> String {
        vec![self.script.as_str(); SCRIPTS].join("\n")
    }

    /// Leaves the memory of the round of these scripts in `memory`.
    pub fn round(&self, implementation: &Implementation, scripts: &str, memory: &mut [u32]) {
        let (sheet, scripts) = (self.sheet.as_bytes(), scripts.as_bytes());
        memory.copy_from_slice(&self.memory);
        let round = (implementation.round)(sheet, scripts, memory, self.authority, self.budget);
        let mut expected = Round::empty(DONE);
        expected.steps = [self.again.steps; SCRIPTS];
        expected.steps[0] = self.outcome.steps;
        assert_eq!(round, expected, "the round of {}", self.name);
    }

    /// The same scripts, each by a run.
    pub fn runs(&self, implementation: &Implementation, memory: &mut [u32]) {
        let (sheet, script) = (self.sheet.as_bytes(), self.script.as_bytes());
        memory.copy_from_slice(&self.memory);
        for place in 0..SCRIPTS {
            let outcome = (implementation.run)(sheet, script, memory, self.authority, self.budget);
            let expected = if place == 0 { self.outcome } else { self.again };
            assert_eq!(outcome, expected, "run {place} of {}", self.name);
        }
    }

    pub fn view(&self, implementation: &Implementation, memory: &[u32], view: &mut [u32]) {
        let answer = (implementation.view)(self.sheet.as_bytes(), memory, self.group, view);
        assert_eq!(answer, DONE, "the view of {}", self.name);
    }
}

/// A check that ends where the sheet is read.
fn read_sheet(implementation: &Implementation, name: &str, sheet: &str) {
    let answer = (implementation.check)(sheet.as_bytes(), UNFORMED);
    assert_eq!(answer, Refusal::ScriptForm.number(), "the sheet of {name}");
}

/// The text of lines whose fields are parted by blanks.
fn text(lines: &[String]) -> String {
    lines.iter().map(|line| format!("{}\n", line.replace(' ', "\t"))).collect()
}

fn listed(lines: &[&str]) -> Vec<String> {
    lines.iter().map(|line| line.to_string()).collect()
}

/// The words of a location's value.
fn location(start: &[u32]) -> Vec<u32> {
    let mut words = start.to_vec();
    words.resize(16, 0);
    words
}

/// Commands one after the other: `;` before each but the last.
fn in_order(commands: Vec<Vec<String>>) -> Vec<String> {
    let last = commands.len() - 1;
    let mut lines = Vec::new();
    for (i, command) in commands.into_iter().enumerate() {
        if i < last {
            lines.push(";".to_string());
        }
        lines.extend(command);
    }
    lines
}

/// The scope's example: a pack, then a case with an unpack.
fn small() -> Workload {
    let sheet = [
        "P 3",
        "T 0 1",
        "L",
        "L",
        "O 0 0000 0000",
        "L",
        "O 0 0000 0007",
        "X 0 0",
        "X 0 2",
        "X 4 0",
        "X 5 2",
    ];
    let script = ["= 2", "k 2", "x 1", "c", "x 2", "= 3", "u 5 2", "v 0", "s"];
    let (pack, unpack) = script.split_at(3);
    Workload {
        name: "small".to_string(),
        sheet: text(&listed(&sheet)),
        script: text(&in_order(vec![listed(pack), listed(unpack)])),
        memory: [&[1, 5][..], &[1, 62], &[4, 2, 1], &[4, 2, 1]].map(location).concat(),
        authority: 1,
        budget: 100,
        group: 1,
        outcome: Outcome::done(4),
        again: Outcome::done(4),
    }
}

/// Assignments of a sum, so many, and one of an integer: 5 lines and 2 steps each, 2 lines and 1 step at the end.
fn lines(sums: usize) -> Workload {
    let mut commands = vec![listed(&["= 0", "+", "x 1", "i 7"]); sums];
    commands.push(listed(&["= 1", "i 9"]));
    let script = in_order(commands);
    Workload {
        name: format!("{}-lines", script.len()),
        sheet: text(&listed(&["P 4", "L", "O 1 0004 000f", "X 0 0", "X 0 0"])),
        script: text(&script),
        memory: [&[1, 5][..], &[1, 62]].map(location).concat(),
        authority: 1,
        budget: 1000,
        group: 2,
        outcome: Outcome::done(2 * sums as u32 + 1),
        again: Outcome::done(2 * sums as u32 + 1),
    }
}

/// The same behind a `b` line, with the label that every location has.
fn started(sums: usize) -> Workload {
    let plain = lines(sums);
    let (name, script) = (format!("b-{}", plain.name), format!("b\t0\n{}", plain.script));
    Workload { name, script, ..plain }
}

/// A sum of 256 numbers of ten digits: 512 lines, as long to read as they come.
fn long_numbers() -> Workload {
    let numbers = 256;
    let mut script = listed(&["= 0"]);
    script.extend(vec!["+".to_string(); numbers - 1]);
    script.extend(vec!["i 4294967295".to_string(); numbers]);
    Workload {
        name: "long-numbers".to_string(),
        sheet: text(&listed(&["P 4", "L", "O 1 0004 000f", "X 0 0"])),
        script: text(&script),
        memory: location(&[1, 5]),
        authority: 1,
        budget: 1000,
        group: 2,
        outcome: Outcome::done(1),
        again: Outcome::done(1),
    }
}

/// A counter of so many bits, up to eight, that runs through all its numbers. Left is 1. Location 8 is the
/// guard, location 9 the carry.
fn long_loop(bits: usize, steps: u32) -> Workload {
    let mut sheet = listed(&["P 2", "L"]);
    sheet.extend(vec!["X 3 0".to_string(); 10]);
    let mut body = vec![listed(&["= 9", "l 3", "i 0"])];
    for bit in 0..bits {
        let read = format!("x {bit}");
        let write = format!("= {bit}");
        let carry_on = listed(&[&write, "r 3", "i 0"]);
        let carry_ends = listed(&[";", &write, "l 3", "i 0", "= 9", "r 3", "i 0"]);
        let add = [listed(&["c", "x 9", "c", &read]), carry_on, carry_ends, listed(&["s"])];
        body.push(add.concat());
    }
    body.push(listed(&["c", "x 9", "= 8", "r 3", "i 0", "s"]));
    let script = [listed(&["w", "x 8"]), in_order(body)].concat();
    let mut memory = location(&[4, 1, 0]).repeat(10);
    memory[8 * 16] = 3;
    Workload {
        name: format!("{steps}-steps"),
        sheet: text(&sheet),
        script: text(&script),
        memory,
        authority: 1,
        budget: 100_000,
        group: 3,
        outcome: Outcome::done(steps),
        again: Outcome::done(1),
    }
}

/// A sheet of 16 principals, these types, 32 labels and 64 locations of a type.
fn sheet_64(first: &[&str], ty: usize) -> Vec<String> {
    let mut sheet = [listed(&["P 16"]), listed(first)].concat();
    for label in 0..32 {
        sheet.push("L".to_string());
        for owner in 0..16 {
            let writers = if label < 16 { 0x00ff } else { 0xffff };
            sheet.push(format!("O {owner} {:04x} {writers:04x}", 1 << (label % 16)));
        }
    }
    sheet.extend((0..64).map(|x| format!("X {ty} {}", x / 2)));
    sheet
}

/// 16 principals, 32 labels and 64 locations of packages, each packed anew.
fn locations_64() -> Workload {
    let packs = (0..64).map(|x| listed(&[&format!("= {x}"), &format!("k {}", x / 2), "i 1"]));
    Workload {
        name: "64-locations".to_string(),
        sheet: text(&sheet_64(&[], 4)),
        script: text(&in_order(packs.collect())),
        memory: location(&[3, 5, 3, 3, 5, 7, 1, 8]).repeat(64),
        authority: 0xffff,
        budget: 1000,
        group: 0x0101,
        outcome: Outcome::done(127),
        again: Outcome::done(127),
    }
}

/// The same where one reader reads by himself.
fn locations_64_alone() -> Workload {
    Workload {
        name: "64-locations-alone".to_string(),
        sheet: text(&sheet_64(&["R 1"], 4)),
        ..locations_64()
    }
}

/// 54 unpacks, each the guard of a case: of a stored package, and of one packed just before. 512 lines.
fn unpacks() -> Workload {
    let stored = listed(&["c", "x 0", "c", "u 5 1", "v 0", "s", "s", "s"]);
    let packed = listed(&["c", "k 0", "i 1", "c", "u 5 1", "v 0", "s", "s", "s"]);
    Workload {
        name: "unpacks".to_string(),
        sheet: text(&listed(&["P 4", "T 0 1", "L", "L", "O 1 0004 000f", "X 4 0"])),
        script: text(&in_order(vec![[stored, packed]; 27].concat())),
        memory: location(&[3, 5, 0, 1, 62]),
        authority: 1,
        budget: 1000,
        group: 2,
        outcome: Outcome::done(161),
        again: Outcome::done(161),
    }
}

/// A tally beside its number, counted up 57 times: 512 lines.
fn pairs() -> Workload {
    let count = listed(&["= 0", "p 5", "+", "f", "x 0", "i 1", "g", "x 0"]);
    Workload {
        name: "pairs".to_string(),
        sheet: text(&listed(&["P 4", "Q 0 0", "L", "O 1 0004 000f", "X 5 0"])),
        script: text(&in_order(vec![count; 57])),
        memory: location(&[6, 1, 5, 1, 62]),
        authority: 1,
        budget: 1000,
        group: 2,
        outcome: Outcome::done(113),
        again: Outcome::done(113),
    }
}

/// 16 principals, 32 labels and 64 locations of a package beside an integer, each made anew of its
/// parts. The group reads all but four, and in these the package but not the one inside it.
fn pairs_64() -> Workload {
    let remade = |x: usize| {
        let read = format!("x {x}");
        listed(&[&format!("= {x}"), "p 5", "f", &read, "g", &read])
    };
    Workload {
        name: "64-pairs".to_string(),
        sheet: text(&sheet_64(&["Q 2 0"], 5)),
        script: text(&in_order((0..64).map(remade).collect())),
        memory: location(&[6, 5, 3, 6, 5, 7, 3, 1, 8, 2, 3, 1, 62]).repeat(64),
        authority: 0xffff,
        budget: 1000,
        group: 0xff7f,
        outcome: Outcome::done(127),
        again: Outcome::done(127),
    }
}

/// 57 unpacks to a pair of pairs, each the guard of a case: 512 lines.
fn unpacked_pairs() -> Workload {
    let stored = listed(&["c", "x 0", "c", "u 7 1", "v 0", "s", "s", "s"]);
    let types = ["P 4", "Q 0 3", "Q 5 5", "T 6 1"];
    let rest = ["L", "L", "O 1 0004 000f", "X 4 0"];
    Workload {
        name: "unpacked-pairs".to_string(),
        sheet: text(&listed(&[&types[..], &rest].concat())),
        script: text(&in_order(vec![stored; 57])),
        memory: location(&[3, 5, 0, 6, 6, 1, 8, 3, 1, 9, 6, 1, 8, 4, 1, 9]),
        authority: 1,
        budget: 1000,
        group: 2,
        outcome: Outcome::done(170),
        again: Outcome::done(170),
    }
}
