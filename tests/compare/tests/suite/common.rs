//! Texts and memories written as in the scope: blanks for tabs, values without their zeros.

use compare::implementation::ALL;
use reference::label::Reading;
use reference::{Trust, DONE};

/// The text of lines whose fields are parted by blanks here.
pub fn text(lines: &[&str]) -> Vec<u8> {
    lines.iter().flat_map(|line| format!("{line}\n").replace(' ', "\t").into_bytes()).collect()
}

/// The words of a memory, 16 for each location.
pub fn memory(locations: &[&[u32]]) -> Vec<u32> {
    let mut words = Vec::new();
    for (location, start) in locations.iter().enumerate() {
        words.extend_from_slice(start);
        words.resize(16 * (location + 1), 0);
    }
    words
}

/// The sheet of the scope's cases.
pub fn sheet() -> Vec<u8> {
    text(&[
        "P 3",
        "T 0 1",
        "L",
        "L",
        "O 0 0000 0000",
        "L",
        "O 0 0000 0007",
        "X 0 0",
        "X 0 2",
        "X 4 0",
        "X 5 2",
    ])
}

/// The rules of reading, without the line `R 1` and with it.
pub const RULES: [Reading; 2] = [Reading::Pooled, Reading::Alone];

/// A sheet of the form under a rule of reading, whichever it had.
pub fn under(rule: Reading, sheet: &[u8]) -> Vec<u8> {
    const LINE: &[u8] = b"R\t1\n";
    let end = sheet.iter().position(|&byte| byte == b'\n').expect("a line");
    let (principals, rest) = sheet.split_at(end + 1);
    let rest = rest.strip_prefix(LINE).unwrap_or(rest);
    match rule {
        Reading::Pooled => [principals, rest].concat(),
        Reading::Alone => [principals, LINE, rest].concat(),
    }
}

/// The other rule of reading.
pub fn other(rule: Reading) -> Reading {
    match rule {
        Reading::Pooled => Reading::Alone,
        Reading::Alone => Reading::Pooled,
    }
}

/// A sheet with as many lines of each kind as there may be.
#[cfg(feature = "programs")]
pub fn largest_sheet() -> Vec<u8> {
    let mut sheet = lines(&["P 16", "R 1", "T 3 0"]);
    sheet.extend((5..31).map(|t| format!("T {t} 0")));
    for label in 0..32 {
        sheet.push("L".to_string());
        // principal 10 reads every label by himself
        let readers = label << 11 | 1 << 10;
        sheet.extend((0..16).map(|owner| format!("O {owner} {readers:04x} ffff")));
    }
    sheet.extend((0..64).map(|location| format!("X 4 {}", location / 2)));
    text_of(&[&sheet])
}

/// The memory of the scope's cases.
pub fn start() -> Vec<u32> {
    memory(&[&[1, 5], &[1, 62], &[4, 2, 1], &[4, 2, 1]])
}

/// The lines of a script that puts `count` lefts over integer 1, and of the sums it needs: at most 15.
pub fn lefts(count: usize) -> (Vec<String>, Vec<String>) {
    let mut sums = vec!["T 3 0".to_string()];
    sums.extend((5..18).map(|t| format!("T {t} 0")));
    let types: Vec<usize> = std::iter::once(3).chain(5..19).take(count).collect();
    let mut lefts: Vec<String> = types.iter().rev().map(|t| format!("l {t}")).collect();
    lefts.push("i 1".to_string());
    (sums, lefts)
}

/// The text of lines that are put together from parts.
pub fn text_of(parts: &[&[String]]) -> Vec<u8> {
    let lines = parts.concat();
    text(&lines.iter().map(String::as_str).collect::<Vec<&str>>())
}

/// Lines as strings.
pub fn lines(lines: &[&str]) -> Vec<String> {
    lines.iter().map(|line| line.to_string()).collect()
}

pub fn repeated(line: &str, count: usize) -> Vec<String> {
    vec![line.to_string(); count]
}

/// A command of `count` lines, which the sheet of the scope's cases accepts where its length is.
pub fn long(count: usize) -> Vec<String> {
    let (pairs, last) =
        if count % 2 == 1 { (count / 2, vec!["s"]) } else { (count / 2 - 1, vec!["= 0", "i 1"]) };
    [repeated(";", pairs), repeated("s", pairs), lines(&last)].concat()
}

/// A script without the `b` line that it opens with.
pub fn without_start(script: &[u8]) -> Option<&[u8]> {
    let rest = script.strip_prefix(b"b\t")?;
    let end = rest.iter().position(|&byte| byte == b'\n')?;
    Some(&rest[end + 1..])
}

/// Whether a script makes a pair or takes a part of one.
pub fn has_pairs(script: &[u8]) -> bool {
    let of_pairs = |line: &[u8]| matches!(line, [b'p', b'\t', ..] | [b'f'] | [b'g']);
    script.split(|&byte| byte == b'\n').any(of_pairs)
}

/// The lines before and after a command that stands in another.
pub type Context = (Vec<&'static str>, Vec<&'static str>);

/// Places of a command: in either part of `;`, in the body of `w`, in either branch of `c`, and
/// after a `w` or `c`. Every guard has label bottom.
const AROUND: [(&[&str], &[&str]); 7] = [
    (&[";"], &["s"]),
    (&[";", "s"], &[]),
    (&["w", "l 3", "i 1"], &[]),
    (&["c", "l 3", "i 1"], &["s"]),
    (&["c", "l 3", "i 1", "s"], &[]),
    (&[";", "w", "l 3", "i 1", "s"], &[]),
    (&[";", "c", "l 3", "i 1", "s", "s"], &[]),
];

/// Every way to stand at most `depth` deep in commands.
pub fn contexts(depth: usize) -> Vec<Context> {
    let mut all: Vec<Context> = vec![(vec![], vec![])];
    let mut last = all.clone();
    for _ in 0..depth {
        let within = |(before, after): &Context| {
            AROUND.map(|(open, close)| ([before, open].concat(), [close, after].concat()))
        };
        last = last.iter().flat_map(within).collect();
        all.extend(last.clone());
    }
    all
}

/// The check of a script on a sheet, the same from every implementation.
pub fn check(sheet: &[u8], script: &[u8]) -> u8 {
    trust(sheet, script).answer
}

/// The trust of a script on a sheet, the same from every implementation, whose check answers the
/// same.
pub fn trust(sheet: &[u8], script: &[u8]) -> Trust {
    let trusts = ALL.iter().map(|i| {
        let trust = (i.trust)(sheet, script);
        assert_eq!((i.check)(sheet, script), trust.answer, "{}", i.name);
        trust
    });
    let trusts: Vec<Trust> = trusts.collect();
    assert!(trusts.iter().all(|&trust| trust == trusts[0]), "{trusts:?}");
    trusts[0]
}

/// What an accepted script answers that is trust-keeping, and one that isn't.
pub const KEEPING: Trust = Trust { answer: DONE, keeping: 1 };
pub const ENDORSING: Trust = Trust { answer: DONE, keeping: 0 };

/// What a refused script answers.
pub fn untrusted(answer: u8) -> Trust {
    Trust { answer, keeping: 0 }
}

/// The number of generated cases: `SIMP_CASES`, or what the gate takes.
pub fn case_count() -> u64 {
    let count = match std::env::var("SIMP_CASES") {
        Ok(count) => count.parse().expect("SIMP_CASES is a number"),
        Err(_) => 20_000,
    };
    assert!(count >= 2000, "fewer than 2000 cases don't reach every answer");
    count
}

/// The number of generated rounds, each of which takes the time of several cases.
pub fn round_count() -> u64 {
    case_count() / 2
}

/// The number of generated calls for trust.
pub fn trust_count() -> u64 {
    case_count()
}

/// The number of generated calls for groups, of which those of many principals take their time.
pub fn groups_count() -> u64 {
    case_count() / 2
}
