//! The labels of an unpack's operand, on every implementation: C of each must be at or below C of
//! the wanted label, so for every owner its readers contain the wanted label's. The script is
//! trust-keeping where for every owner its writers lie within the wanted label's too.

use crate::common::{text, text_of, trust, untrusted, ENDORSING, KEEPING};

/// The effective readers and writers of a label, for each owner.
type Label = Vec<(u16, u16)>;

/// A sheet with these labels. Types 5 and 6 are int+package and int+error. Location a is an int
/// with label a, and after these there is a place for a package with each.
fn sheet_of(labels: &[Label]) -> Vec<u8> {
    let mut lines =
        vec![format!("P {}", labels[0].len()), "T 0 2".to_string(), "T 0 1".to_string()];
    for label in labels {
        lines.push("L".to_string());
        for (owner, (readers, writers)) in label.iter().enumerate() {
            lines.push(format!("O {owner} {readers:04x} {writers:04x}"));
        }
    }
    lines.extend((0..labels.len()).map(|a| format!("X 0 {a}")));
    lines.extend((0..labels.len()).map(|a| format!("X 4 {a}")));
    text_of(&[&lines])
}

/// Checks an unpack of the package that a case binds, in its first branch or its second.
/// Of its operand, the readers pass or don't, and the writers do or don't. Gives the place of what it
/// answers: keeping, not keeping, refused.
fn assert_unpack(
    sheet: &[u8],
    guard: &str,
    wanted: usize,
    bound_first: bool,
    (reads, writes): (bool, bool),
) -> usize {
    let unpack = format!("c,u 6 {wanted},v 0,s,s");
    let branches = if bound_first { format!("{unpack},s") } else { format!("s,{unpack}") };
    let script = format!("c,{guard},{branches}");
    let script = text(&script.split(',').collect::<Vec<&str>>());
    let (place, answer) = match (reads, writes) {
        (true, true) => (0, KEEPING),
        (true, false) => (1, ENDORSING),
        (false, _) => (2, untrusted(6)),
    };
    assert_eq!(trust(sheet, &script), answer, "{}", script.escape_ascii());
    place
}

/// Checks unpacks of operands with one label, with I of one, and with two: a guard that is a sum of
/// two locations, though never a package. Gives how many of these last are trust-keeping, how many
/// accepted and not, and how many refused.
fn assert_unpacks(labels: &[Label]) -> [usize; 3] {
    let sheet = sheet_of(labels);
    let count = labels.len();
    let reads = |a: usize, wanted: usize| {
        let mut owners = labels[a].iter().zip(&labels[wanted]);
        owners.all(|((readers, _), (wanted, _))| wanted & !readers == 0)
    };
    let writes = |a: usize, wanted: usize| {
        let mut owners = labels[a].iter().zip(&labels[wanted]);
        owners.all(|((_, writers), (_, wanted))| writers & !wanted == 0)
    };
    let mut told = [0; 3];
    for wanted in 0..count {
        for a in 0..count {
            let one = (reads(a, wanted), writes(a, wanted));
            assert_unpack(&sheet, &format!("x {}", count + a), wanted, true, one);
            assert_unpack(&sheet, &format!("k {a},i 1"), wanted, true, (true, one.1));
            for b in 0..count {
                let both = (one.0 && reads(b, wanted), one.1 && writes(b, wanted));
                let guard = format!("l 5,+,x {a},x {b}");
                told[assert_unpack(&sheet, &guard, wanted, false, both)] += 1;
            }
        }
    }
    told
}

/// All labels of two principals: each owner lets the other read or not, and write or not.
#[test]
fn every_label_of_two_principals() {
    let owner = |own: u16, bits: u16| {
        (if bits & 1 == 0 { own } else { 3 }, if bits & 2 == 0 { own } else { 3 })
    };
    let labels: Vec<Label> =
        (0..16).map(|bits| vec![owner(1, bits), owner(2, bits >> 2)]).collect();
    assert_eq!(assert_unpacks(&labels), [625, 975, 2496]);
}

/// An open label of 16 principals, and for each owner one that this owner alone reads, or writes.
#[test]
fn every_owner_counts() {
    let open = vec![vec![(0xffff, 0xffff); 16]; 17];
    let (mut readers, mut writers) = (open.clone(), open);
    for owner in 0..16 {
        readers[owner][owner].0 = 1 << owner;
        writers[owner][owner].1 = 1 << owner;
    }
    assert_eq!(assert_unpacks(&readers), [65, 0, 4848]);
    assert_eq!(assert_unpacks(&writers), [305, 4608, 0]);
}
