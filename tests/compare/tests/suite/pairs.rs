//! Pairs on sheets and in scripts: what makes them, their types, their labels and their trust. On
//! every implementation.

use crate::common::{check, contexts, lines, text, text_of, trust, untrusted, ENDORSING, KEEPING};
use reference::calls::read_sheet;
use reference::{Trust, DONE};

/// The check of `s` on a sheet of one principal and these lines.
fn check_sheet(made: &[&str]) -> u8 {
    check(&text(&[&["P 1"], made].concat()), b"s\n")
}

/// Lines that make types by these kinds, each of the type before it and int.
fn chain(kinds: &[char]) -> Vec<String> {
    kinds.iter().enumerate().map(|(i, kind)| format!("{kind} {} 0", 4 + i)).collect()
}

#[test]
fn sums_and_pairs_share_their_count() {
    for (count, answer) in [(1, 0), (26, 0), (27, 0), (28, 1), (29, 1), (54, 1), (55, 1)] {
        for pairs in 0..=count {
            let sums_first = [vec!['T'; count - pairs], vec!['Q'; pairs]].concat();
            let pairs_first = sums_first.iter().rev().copied().collect();
            // 17 shares no factor with these counts, so all lines are there and the kinds mingle
            let mingled = (0..count).map(|i| sums_first[i * 17 % count]).collect();
            for kinds in [sums_first, pairs_first, mingled] {
                let sheet = text_of(&[&lines(&["P 1"]), &chain(&kinds)]);
                assert_eq!(check(&sheet, b"s\n"), answer, "{kinds:?}");
            }
        }
    }
}

/// An expression of a type of the chain, whose type 4 is at location 0.
fn in_chain(kinds: &[char], ty: usize) -> Vec<String> {
    match (ty, kinds.get(ty.wrapping_sub(5))) {
        (4, _) => lines(&["x 0"]),
        (_, Some('Q')) => {
            [vec![format!("p {ty}")], in_chain(kinds, ty - 1), lines(&["i 1"])].concat()
        }
        _ => vec![format!("r {ty}"), "i 1".to_string()],
    }
}

#[test]
fn sums_and_pairs_share_their_numbers() {
    for bits in 0..1 << 6 {
        let kinds: Vec<char> = (0..6).map(|i| if bits >> i & 1 == 1 { 'Q' } else { 'T' }).collect();
        let with = |location: &str| {
            text_of(&[&lines(&["P 1"]), &chain(&kinds), &lines(&["L", "X 4 0", location])])
        };
        let sheet = with("X 10 0");
        assert_eq!((check(&sheet, b"s\n"), check(&with("X 11 0"), b"s\n")), (0, 1), "{kinds:?}");
        let packs = |operand: &[String]| {
            check(&sheet, &text_of(&[&lines(&["c", "k 0"]), operand, &lines(&["s", "s"])]))
        };
        for ty in 5..=10 {
            let mut other = kinds.clone();
            other[ty - 5] = if kinds[ty - 5] == 'Q' { 'T' } else { 'Q' };
            let answers = (packs(&in_chain(&kinds, ty)), packs(&in_chain(&other, ty)));
            assert_eq!(answers, (0, 5), "{ty} of {kinds:?}");
        }
        assert_eq!(packs(&lines(&["r 11", "i 1"])), 4, "{kinds:?}");
        assert_eq!(packs(&lines(&["p 11", "i 1", "i 1"])), 4, "{kinds:?}");
    }
}

#[test]
fn a_pair_is_of_two_earlier_types() {
    let table: &[(&[&str], u8)] = &[
        (&["Q 0 0"], 0),
        (&["Q 4 4"], 0),
        (&["Q 4 3", "Q 5 5", "T 6 5", "Q 7 6"], 0),
        (&["T 0 1", "Q 5 5", "Q 6 5", "T 7 6"], 0),
        (&["Q 5 0"], 1),
        (&["Q 0 5"], 1),
        (&["Q 0 0", "Q 0 6"], 1),
        (&["Q 0 0", "Q 6 0"], 1),
        (&["T 0 1", "Q 6 0"], 1),
        (&["Q 0 1", "T 6 0"], 1),
        (&["Q 6 0", "T 0 1"], 1),
        (&["Q 0 32"], 1),
        (&["Q 0 256"], 1),
        (&["Q 0 4294967296"], 1),
        (&["Q"], 1),
        (&["Q 0"], 1),
        (&["Q 0 0 0"], 1),
        (&["Q 0 00"], 1),
        (&["Q 0 +0"], 1),
        (&["Q 0 "], 1),
        (&["q 0 0"], 1),
        (&["QQ 0 0"], 1),
        (&["R 0 0"], 1),
        (&["L", "Q 0 0"], 1),
        (&["L", "X 0 0", "Q 0 0"], 1),
        (&["L", "O 0 0000 0000", "Q 0 0"], 1),
        (&["T 0 1", "", "Q 0 0"], 1),
    ];
    for (made, answer) in table {
        assert_eq!(check_sheet(made), *answer, "{made:?}");
    }
    assert_eq!(check(&text(&["Q 0 0", "P 1"]), b"s\n"), 1, "`P` comes first");
}

#[test]
fn each_kind_of_type_repeats_by_itself() {
    let table: &[(&[&str], u8)] = &[
        (&["Q 0 0"], 0),
        (&["Q 2 1"], 0),
        (&["T 0 1", "Q 0 1"], 0),
        (&["Q 0 1", "T 0 1"], 0),
        (&["Q 0 1", "Q 1 0"], 0),
        (&["Q 0 0", "Q 2 1", "T 0 1", "Q 0 1", "T 1 0", "Q 1 0"], 0),
        (&["Q 0 1", "Q 0 1"], 2),
        (&["Q 0 0", "Q 0 0"], 2),
        (&["Q 0 1", "T 0 1", "Q 0 1"], 2),
        (&["T 0 1", "Q 0 1", "T 0 1"], 2),
        (&["Q 0 0", "T 0 0"], 2),
        (&["Q 2 1", "T 2 1"], 2),
        (&["T 0 1", "Q 5 5", "T 5 5", "Q 5 5"], 2),
        (&["Q 0 1", "Q 5 5", "Q 5 6", "Q 5 5"], 2),
        // the form is judged first
        (&["Q 0 1", "Q 0 1", "Q 0 40"], 1),
        (&["Q 0 1", "Q 0 1", "L", "X 7 0"], 1),
        (&["Q 0 1", "Q 0 1", "L", "X 6 0"], 2),
    ];
    for (made, answer) in table {
        assert_eq!(check_sheet(made), *answer, "{made:?}");
    }
}

/// Types 5 to 9 are int*error, int+error, a pair of these, a sum of the first pair and error, and
/// a pair of int+int and int. The locations hold int, error, pkg, int+int and types 5 to 9, all at a
/// label that everyone reads and writes.
fn typed() -> Vec<u8> {
    let types = ["Q 0 1", "T 0 1", "Q 5 6", "T 5 1", "Q 3 0"];
    let locations = [0, 1, 2, 3, 5, 6, 7, 8, 9].map(|ty| format!("X {ty} 0"));
    text_of(&[&lines(&["P 1"]), &lines(&types), &lines(&["L"]), &locations])
}

/// The check on that sheet of a script whose lines are parted by commas here.
fn check_typed(script: &str) -> u8 {
    check(&typed(), &text(&script.split(',').collect::<Vec<&str>>()))
}

#[test]
fn pairs_are_made_and_taken_apart() {
    let accepted = [
        "= 4,p 5,x 0,x 1",
        "= 4,x 4",
        "= 4,p 5,f,x 4,g,x 4",
        "= 0,f,x 4",
        "= 1,g,x 4",
        "= 0,f,p 5,i 1,x 1",
        "= 1,g,p 5,i 1,x 1",
        "= 6,p 7,x 4,x 5",
        "= 6,p 7,p 5,+,i 1,f,x 4,g,x 4,r 6,g,f,x 6",
        "= 4,f,x 6",
        "= 0,f,f,x 6",
        "= 1,g,f,x 6",
        "= 5,g,x 6",
        "= 0,+,f,x 4,f,f,x 6",
        "w,f,x 8,s",
        "c,f,x 8,= 0,v 0,= 0,v 0",
        "c,g,x 6,= 0,v 0,= 1,v 0",
        "= 8,p 9,l 3,i 1,g,x 8",
        // sums of a pair, and a pair as what is bound, packed and unpacked
        "= 7,l 8,x 4",
        "= 7,r 8,g,x 4",
        "= 7,u 8 0,x 2",
        "c,x 7,= 4,v 0,= 1,v 0",
        "c,x 7,= 0,f,v 0,= 1,v 0",
        "c,x 7,= 4,p 5,f,v 0,g,v 0,s",
        "c,k 0,x 4,s,s",
        "c,k 0,p 7,x 4,x 5,c,u 8 0,v 0,= 4,v 0,s,s",
    ];
    for script in accepted {
        assert_eq!(check_typed(script), DONE, "{script}");
    }
}

#[test]
fn a_type_of_the_wrong_kind_is_five() {
    let refused = [
        // `p` of no pair
        "= 4,p 6,x 0,x 1",
        "= 5,p 6,x 0,x 1",
        "= 4,p 0,x 0,x 1",
        "= 4,p 1,x 0,x 1",
        "= 4,p 2,x 0,x 1",
        "= 3,p 3,i 1,i 1",
        "= 4,p 4,x 2,x 1",
        "= 4,p 8,x 4,x 1",
        // `l`, `r` and `u` of a pair
        "= 4,l 5,x 0",
        "= 4,r 5,x 1",
        "= 4,u 5 0,x 2",
        "= 6,l 7,x 4",
        "= 7,u 7 0,x 2",
        "c,l 5,x 0,s,s",
        "c,u 5 0,x 2,s,s",
        // `c` and `w` on a pair
        "c,x 4,s,s",
        "c,p 5,x 0,x 1,s,s",
        "c,x 8,s,s",
        "w,x 4,s",
        "w,x 8,s",
        "w,p 9,l 3,i 1,i 1,s",
        "w,g,x 8,s",
        // a part of no pair
        "= 0,f,x 0",
        "= 0,f,x 1",
        "= 0,f,x 2",
        "= 0,f,x 3",
        "= 0,g,x 3",
        "= 0,f,x 5",
        "= 1,g,x 5",
        "= 4,f,x 7",
        "= 0,f,i 1",
        "= 0,g,+,i 1,i 1",
        "= 0,f,l 6,x 0",
        "= 0,f,f,x 4",
        "= 0,g,g,x 6",
        "c,f,k 0,i 1,s,s",
        // parts of other types, and a pair where something else is wanted
        "= 4,p 5,x 1,x 0",
        "= 4,p 5,x 0,x 0",
        "= 4,p 5,x 1,x 1",
        "= 4,p 5,x 4,x 1",
        "= 6,p 7,x 5,x 4",
        "= 0,g,x 4",
        "= 1,f,x 4",
        "= 0,x 4",
        "= 5,x 4",
        "= 4,x 5",
        "= 4,x 0",
        "= 6,x 4",
        "= 4,x 6",
        "= 7,x 4",
        "= 7,l 8,x 0",
        "= 7,r 8,x 4",
        "= 7,u 8 0,x 4",
        "= 0,+,x 4,i 1",
        "= 0,+,i 1,x 4",
    ];
    for script in refused {
        assert_eq!(check_typed(script), 5, "{script}");
    }
    // equal parts don't make a pair of integers a guard
    let sheet = text(&["P 1", "Q 0 0", "L", "X 3 0", "X 5 0"]);
    assert_eq!(check(&sheet, &text(&["w", "p 5", "i 1", "i 1", "s"])), 5);
    assert_eq!(check(&sheet, &text(&["= 0", "x 1"])), 5);
    assert_eq!(check(&sheet, &text(&["= 1", "p 3", "i 1", "i 1"])), 5);
    assert_eq!(check(&sheet, &text(&["= 1", "l 5", "i 1"])), 5);
    assert_eq!(check(&sheet, &text(&["= 1", "p 5", "i 1", "i 1"])), 0);
}

#[test]
fn lines_of_pairs_have_their_form() {
    let unformed = [
        "= 4,p 10,x 0,x 1",
        "= 4,p 11,x 0,x 1",
        "= 4,p 32,x 0,x 1",
        "= 4,p 255,x 0,x 1",
        "= 4,p 261,x 0,x 1",
        "= 4,p 4294967295,x 0,x 1",
        "= 4,p 4294967296,x 0,x 1",
        "= 4,p 05,x 0,x 1",
        "= 4,p -5,x 0,x 1",
        "= 4,p,x 0,x 1",
        "= 4,p 5 5,x 0,x 1",
        "= 4,pp 5,x 0,x 1",
        "= 4,P 5,x 0,x 1",
        "= 4,p5,x 0,x 1",
        "= 4,p 5",
        "= 4,p 5,x 0",
        "= 4,p 5,x 0,x 1,x 1",
        "= 4,p 5,x 0,s",
        "= 4,p 5,s,x 1",
        "= 0,f",
        "= 0,g",
        "= 0,f 0,x 4",
        "= 1,g 1,x 4",
        "= 0,f 5,x 4",
        "= 0,ff,x 4",
        "= 0,F,x 4",
        "= 0,f,x 4,x 4",
        "= 0,f,s",
        "p 5,x 0,x 1",
        "f,x 4",
        "g,x 4",
        "s,p 5,x 0,x 1",
        ";,s,f,x 4",
        "c,p 5,x 0,x 1,s",
        "= 0,f,v 0",
        "= 4,p 5,v 0,x 1",
        "c,x 7,= 4,p 5,f,v 0,g,v 1,s",
        "c,p 9,l 3,v 0,i 1,s,s",
        // before 5, wherever it stands
        ";,= 4,p 6,x 0,x 1,= 4,p 10,x 0,x 1",
        "= 4,p 6,p 10,x 0,x 1,x 1",
        "= 0,f,p 10,x 0,x 0",
    ];
    for script in unformed {
        assert_eq!(check_typed(script), 4, "{script}");
    }
}

/// A sheet of six labels of three principals. Types 5 to 8 are int*int, (int+int)*int, a sum of the
/// first pair and int, and pkg*int. Location a is an int at label a; after these come an int+int, a
/// type 5, a pkg and a pkg+error at each.
fn labelled() -> Vec<u8> {
    let bottom = ["L", "O 0 0007 0000", "O 1 0007 0000", "O 2 0007 0000"];
    let open = ["L"];
    let one_writer = ["L", "O 0 0000 0000"];
    let one_reader = ["L", "O 0 0000 0007"];
    let beside = ["L", "O 1 0001 0002"];
    let another_writer = ["L", "O 1 0007 0000"];
    let labels = [&bottom[..], &open, &one_writer, &one_reader, &beside, &another_writer].concat();
    let types = ["P 3", "Q 0 0", "Q 3 0", "T 5 0", "Q 2 0"];
    let locations = [0, 3, 5, 2, 4].map(|ty| (0..LABELS).map(move |a| format!("X {ty} {a}")));
    text_of(&[
        &lines(&types),
        &lines(&labels),
        &locations.into_iter().flatten().collect::<Vec<_>>(),
    ])
}

const LABELS: usize = 6;

/// That sheet and its labels.
struct Labelled {
    text: Vec<u8>,
    labels: Vec<reference::label::Label>,
}

impl Labelled {
    fn new() -> Labelled {
        let text = labelled();
        let labels = read_sheet(&text).expect("a sheet").labels;
        Labelled { text, labels }
    }

    /// Whether each of some labels is at or below another.
    fn below(&self, operands: &[usize], target: usize) -> bool {
        operands.iter().all(|&a| self.labels[a].at_or_below(&self.labels[target]))
    }

    /// Whether C of each is at or below C of another.
    fn readable(&self, operands: &[usize], target: usize) -> bool {
        let c = |a: usize| self.labels[a].confidentiality();
        operands.iter().all(|&a| c(a).at_or_below(&c(target)))
    }

    /// The trust of a script, in whose lines (parted by commas) letters stand for locations: `a` and
    /// `b` for the ints at two labels, `A` and `B` for the choices, `P`, `K` and `M` for the pair, the
    /// package and the packed at the first; `t` for a third label and the int there, `T` for the pair.
    fn told(&self, script: &str, [a, b, t]: [usize; 3]) -> Trust {
        let named = |line: &str| {
            let at = |place: usize, label: usize| (place * LABELS + label).to_string();
            let lines = line.replace('a', &at(0, a)).replace('b', &at(0, b));
            let lines = lines.replace('A', &at(1, a)).replace('B', &at(1, b));
            let lines = lines.replace('P', &at(2, a)).replace('K', &at(3, a));
            lines.replace('M', &at(4, a)).replace("T", &at(2, t)).replace('t', &t.to_string())
        };
        let script: Vec<String> = script.split(',').map(named).collect();
        trust(&self.text, &text_of(&[&script]))
    }
}

/// Every choice of three labels.
fn triples() -> impl Iterator<Item = [usize; 3]> {
    (0..LABELS * LABELS * LABELS).map(|i| [i / LABELS / LABELS, i / LABELS % LABELS, i % LABELS])
}

fn accepted(passes: bool) -> Trust {
    if passes {
        KEEPING
    } else {
        untrusted(6)
    }
}

#[test]
fn the_label_of_a_pair_is_the_join() {
    let sheet = Labelled::new();
    for [a, b, t] in triples() {
        let both = accepted(sheet.below(&[a, b], t));
        let scripts = [
            "= T,p 5,x a,x b",
            "= T,p 5,x b,x a",
            "= t,f,p 5,x a,x b",
            "= t,g,p 5,x a,x b",
            "= t,f,p 5,x b,x a",
            "= t,+,i 1,g,p 5,x a,x b",
            "= t,f,p 5,f,p 5,x a,x b,i 1",
            "= t,g,p 5,i 1,f,p 5,x b,x a",
            "= T,p 5,f,x P,x b",
            "= T,p 5,x b,g,x P",
            "c,k t,p 5,x a,x b,s,s",
            "c,k t,f,p 5,x a,x b,s,s",
            "c,k t,p 6,x A,x b,s,s",
            "c,f,p 6,x A,x b,= t,i 1,s",
            "c,f,p 6,x A,x b,s,= t,i 1",
            "c,f,p 6,x B,x a,= t,v 0,s",
            "w,f,p 6,x A,x b,= t,i 1",
            "w,f,p 6,x B,x a,= t,i 1",
            "c,l 7,p 5,x a,x b,= t,i 1,s",
            "c,l 7,p 5,x b,x a,= t,f,v 0,s",
            "c,l 7,p 5,x a,x b,= t,g,v 0,s",
            "c,l 7,p 5,x a,x b,s,= t,v 0",
        ];
        for script in scripts {
            assert_eq!(sheet.told(script, [a, b, t]), both, "{script} {a} {b} {t}");
        }
    }
}

#[test]
fn a_pair_is_assigned_under_the_starting_label() {
    let sheet = Labelled::new();
    for [start, operand, t] in triples() {
        let lines = ["p 5", "i 1", &format!("x {operand}")].map(str::to_string);
        let started = format!("b {start}");
        for (target, part) in [(2 * LABELS + t, None), (t, Some("f".to_string()))] {
            let assign = [started.clone(), format!("= {target}")];
            let part: Vec<String> = part.into_iter().collect();
            let script = text_of(&[&assign, &part, &lines]);
            let expected = accepted(sheet.below(&[start, operand], t));
            assert_eq!(trust(&sheet.text, &script), expected, "{start} {operand} {t}");
        }
    }
}

#[test]
fn a_part_has_the_label_of_the_whole() {
    let sheet = Labelled::new();
    for [a, b, t] in triples() {
        let one = accepted(sheet.below(&[a], t));
        let scripts = ["= t,f,x P", "= t,g,x P", "= T,x P", "c,k t,f,x P,s,s", "= t,f,p 5,x a,i 1"];
        for script in scripts.into_iter().chain(["= t,g,p 5,x a,i 1", "= t,f,p 5,i 1,x a"]) {
            assert_eq!(sheet.told(script, [a, b, t]), one, "{script} {a} {t}");
        }
        // a package beside an int has the label of both
        let packed = sheet.told("c,k t,p 8,x K,x b,s,s", [a, b, t]);
        assert_eq!(packed, accepted(sheet.below(&[a, b], t)), "{a} {b} {t}");
    }
}

#[test]
fn a_package_out_of_a_pair_is_opened_under_the_label_of_the_pair() {
    let sheet = Labelled::new();
    for [a, b, t] in triples() {
        let expected = if !sheet.readable(&[a, b], t) {
            untrusted(6)
        } else if sheet.below(&[a, b], t) {
            KEEPING
        } else {
            ENDORSING
        };
        let scripts = ["c,u 4 t,f,p 8,x K,x b,s,s", "c,x M,c,u 4 t,f,p 8,v 0,x b,s,s,s"];
        for script in scripts {
            assert_eq!(sheet.told(script, [a, b, t]), expected, "{script} {a} {b} {t}");
        }
    }
}

/// Everyone writes label 0, and owner 0 lets itself alone write label 1. Type 5 is int+error, type 6
/// a pair of two, type 7 one of type 6 and int. Locations 0 and 1 hold packages under either label,
/// 2 and 3 a type 5 and a type 6 under the second.
fn packages() -> Vec<u8> {
    let types = ["P 2", "T 0 1", "Q 5 5", "Q 6 0"];
    let rest = ["L", "L", "O 0 0003 0000", "X 2 0", "X 2 1", "X 5 1", "X 6 1"];
    text(&[&types[..], &rest].concat())
}

/// An unpack that is trust-keeping, one that isn't, and a value of the same type.
const GOOD: &str = "u 5 1,x 1";
const BAD: &str = "u 5 1,x 0";
const PLAIN: &str = "x 2";

#[test]
fn an_unpack_in_either_operand_counts() {
    for (first, second) in (0..9).map(|i| (i / 3, i % 3)) {
        let [e1, e2] = [first, second].map(|kind| [GOOD, BAD, PLAIN][kind]);
        let expected = if first == 1 || second == 1 { ENDORSING } else { KEEPING };
        let scripts = [
            format!("= 3,p 6,{e1},{e2}"),
            format!("= 2,f,p 6,{e1},{e2}"),
            format!("= 2,g,p 6,{e1},{e2}"),
            format!("= 2,f,f,p 7,p 6,{e1},{e2},i 1"),
            format!("= 3,p 6,f,p 6,{e1},{e2},x 2"),
            format!("= 3,p 6,x 2,g,p 6,{e1},{e2}"),
            format!("c,k 1,p 6,{e1},{e2},s,s"),
            format!("c,f,p 6,{e1},{e2},s,s"),
            format!("w,r 3,i 1,= 3,p 6,{e1},{e2}"),
            format!("c,g,p 6,{e1},{e2},s,= 3,p 6,x 2,x 2"),
        ];
        for script in scripts {
            let lines: Vec<&str> = script.split(',').collect();
            assert_eq!(trust(&packages(), &text(&lines)), expected, "{script}");
        }
    }
}

#[test]
fn an_unpack_in_a_pair_counts_wherever_the_pair_stands() {
    for (before, after) in contexts(2) {
        for (second, expected) in [(GOOD, KEEPING), (BAD, ENDORSING), ("u 5 1,x 2", untrusted(5))] {
            let command = ["= 2", "f", "p 6", "x 2"];
            let unpack: Vec<&str> = second.split(',').collect();
            let script = text(&[&before[..], &command, &unpack, &after].concat());
            assert_eq!(trust(&packages(), &script), expected, "{before:?} {second}");
        }
    }
}
