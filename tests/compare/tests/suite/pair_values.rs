//! Pairs as values: what runs make of them, how long they may be, which memories hold them, what an
//! unpack takes for one and what a view shows. On every implementation.

use crate::common::{memory, text};
use crate::fenced::Fenced;
use crate::rounds::{joined, places, played};
use compare::implementation::{Implementation, ALL};
use reference::Round;

/// The text of a script whose lines are parted by commas here.
fn script(lines: &str) -> Vec<u8> {
    text(&lines.split(',').collect::<Vec<&str>>())
}

/// What every implementation hands back, which is the same.
fn same<T: PartialEq + std::fmt::Debug>(call: impl Fn(&Implementation) -> T) -> T {
    let mut results = ALL.iter().map(|i| (i.name, call(i)));
    let (first, result) = results.next().expect("an implementation");
    for (name, other) in results {
        assert_eq!(other, result, "{name}, then {first}");
    }
    result
}

/// The answer, the steps and the memory of a run.
fn ran(sheet: &[u8], script: &[u8], words: &[u32], who: u16, budget: u32) -> (u8, u32, Vec<u32>) {
    same(|i| {
        let mut lent = Fenced::new(words);
        let outcome = (i.run)(sheet, script, lent.words_mut(), who, budget);
        assert!(lent.is_intact(), "{}: written beside the memory", i.name);
        (outcome.answer, outcome.steps, lent.words().to_vec())
    })
}

/// The answer and the words of a view.
fn viewed(sheet: &[u8], words: &[u32], group: u16) -> (u8, Vec<u32>) {
    same(|i| {
        let (lent, mut view) = (Fenced::new(words), Fenced::blank(words.len()));
        let answer = (i.view)(sheet, lent.words(), group, view.words_mut());
        assert!(lent.is_intact() && view.is_intact(), "{}: written beside a slice", i.name);
        assert_eq!(lent.words(), words, "{}", i.name);
        (answer, view.words().to_vec())
    })
}

/// Types 5 to 8 are int*int, pkg*(int*int), a sum of the first pair and error, and (int+int)*int.
/// The locations hold an int, types 5, 6 and 7, a pkg+error and type 8, at an open label.
fn open_sheet() -> Vec<u8> {
    let types = ["P 2", "Q 0 0", "Q 2 5", "T 5 1", "Q 3 0"];
    text(&[&types[..], &["L", "X 0 0", "X 5 0", "X 6 0", "X 7 0", "X 4 0", "X 8 0"]].concat())
}

const OPEN: [&[u32]; 6] = [
    &[1, 7],
    &[6, 1, 1, 1, 2],
    &[6, 5, 0, 1, 9, 6, 1, 3, 1, 4],
    &[4, 2, 1],
    &[3, 5, 0, 6, 1, 5, 1, 6],
    &[6, 3, 1, 0, 1, 8],
];

#[test]
fn a_pair_is_word_six_and_two_values() {
    /// A script, its steps, the location that it writes and what that holds after it.
    type Row<'a> = (&'a str, u32, usize, &'a [u32]);
    let table: &[Row] = &[
        ("= 1,p 5,i 8,i 9", 1, 1, &[6, 1, 8, 1, 9]),
        ("= 1,p 5,i 0,i 0", 1, 1, &[6, 1, 0, 1, 0]),
        ("= 1,p 5,+,i 4294967295,i 1,+,i 4294967295,i 2", 1, 1, &[6, 1, 0, 1, 1]),
        ("= 1,p 5,g,x 1,f,x 1", 1, 1, &[6, 1, 2, 1, 1]),
        ("= 1,p 5,+,f,x 1,x 0,g,x 1", 1, 1, &[6, 1, 8, 1, 2]),
        ("= 0,f,x 1", 1, 0, &[1, 1]),
        ("= 0,g,x 1", 1, 0, &[1, 2]),
        ("= 0,f,p 5,i 8,i 9", 1, 0, &[1, 8]),
        ("= 0,g,p 5,i 8,i 9", 1, 0, &[1, 9]),
        ("= 0,f,g,x 2", 1, 0, &[1, 3]),
        ("= 0,g,g,x 2", 1, 0, &[1, 4]),
        ("= 0,+,f,x 1,g,g,x 2", 1, 0, &[1, 5]),
        ("= 0,+,+,f,x 1,g,p 5,i 0,g,x 1,i 10", 1, 0, &[1, 13]),
        ("= 1,g,x 2", 1, 1, &[6, 1, 3, 1, 4]),
        ("= 2,p 6,f,x 2,x 1", 1, 2, &[6, 5, 0, 1, 9, 6, 1, 1, 1, 2]),
        ("= 3,l 7,x 1", 1, 3, &[3, 6, 1, 1, 1, 2]),
        ("= 4,k 0,x 1", 1, 4, &[3, 5, 0, 6, 1, 1, 1, 2]),
        ("= 4,k 0,x 2", 1, 4, &[3, 5, 0, 6, 5, 0, 1, 9, 6, 1, 3, 1, 4]),
        ("= 4,l 4,f,x 2", 1, 4, &[3, 5, 0, 1, 9]),
        ("= 5,p 8,r 3,g,x 5,i 3", 1, 5, &[6, 4, 1, 8, 1, 3]),
        ("c,x 4,= 3,u 7 0,v 0,s", 2, 3, &[3, 6, 1, 5, 1, 6]),
        ("c,x 4,c,u 7 0,v 0,= 0,g,v 0,s,s", 3, 0, &[1, 6]),
        ("c,f,x 5,= 0,i 5,s", 2, 0, &[1, 5]),
        ("c,l 7,p 5,x 0,i 3,= 1,p 5,g,v 0,f,v 0,s", 2, 1, &[6, 1, 3, 1, 7]),
        // a guard out of a pair: left, the body and its `;`, then right
        ("w,f,x 5,= 5,p 8,r 3,i 0,g,x 5", 4, 5, &[6, 4, 1, 0, 1, 8]),
        (";,= 1,p 5,i 3,f,x 1,= 0,f,x 1", 3, 0, &[1, 3]),
    ];
    let (sheet, start) = (open_sheet(), memory(&OPEN));
    for (lines, steps, location, words) in table {
        let (answer, taken, left) = ran(&sheet, &script(lines), &start, 1, *steps);
        assert_eq!((answer, taken), (0, *steps), "{lines}");
        assert_eq!(left[16 * location..][..16], memory(&[words]), "{lines}");
        let short = ran(&sheet, &script(lines), &start, 1, steps - 1);
        assert_eq!(short, (9, steps - 1, start.clone()), "{lines}");
    }
}

/// Type 5 is pkg*int, 6 int*pkg and 7 (int+int)*pkg. Location 0 holds a package of so many words, 1
/// and 2 the first two pairs, 3 a pkg+error and 4 an int.
fn package_sheet() -> Vec<u8> {
    let types = ["P 2", "Q 2 0", "Q 0 2", "Q 3 2"];
    text(&[&types[..], &["L", "X 2 0", "X 5 0", "X 6 0", "X 4 0", "X 0 0"]].concat())
}

fn package_of(words: usize) -> Vec<u32> {
    [vec![5, 0], vec![3; words - 4], vec![1, 9]].concat()
}

#[test]
fn a_pair_has_at_most_sixteen_words() {
    for words in 4..=16 {
        let package = package_of(words);
        let held = |first: &[u32], second: &[u32], packed: &[u32], int: u32| {
            memory(&[&package, first, second, packed, &[1, int]])
        };
        let (one, two): (&[u32], &[u32]) = (&[6, 5, 0, 1, 2, 1, 3], &[6, 1, 2, 5, 0, 1, 3]);
        let start = held(one, two, &[4, 2, 3], 5);
        let expect = |lines: &str, who: u16, fits: bool, left: Vec<u32>| {
            let expected = if fits { (0, 1, left) } else { (10, 0, start.clone()) };
            let got = ran(&package_sheet(), &script(lines), &start, who, 1);
            assert_eq!(got, expected, "{lines} with {words} words");
            // with no step in the budget nothing is too long
            let spent = ran(&package_sheet(), &script(lines), &start, who, 0);
            assert_eq!(spent, (9, 0, start.clone()), "{lines} with {words} words");
        };
        // its own word, the package and an integer
        let fits = 1 + words + 2 <= 16;
        let (first, second) =
            ([&[6], &package[..], &[1, 7]].concat(), [&[6, 1, 7], &package[..]].concat());
        let [first, second] = [first, second].map(|pair| if fits { pair } else { vec![] });
        expect("= 1,p 5,x 0,i 7", 1, fits, held(&first, two, &[4, 2, 3], 5));
        expect("= 2,p 6,i 7,x 0", 1, fits, held(one, &second, &[4, 2, 3], 5));
        // also where only a part of it is wanted
        expect("= 0,f,p 5,x 0,i 7", 1, fits, start.clone());
        expect("= 4,g,p 5,x 0,i 7", 1, fits, held(one, two, &[4, 2, 3], 7));
        expect("= 4,f,p 6,i 7,x 0", 1, fits, held(one, two, &[4, 2, 3], 7));
        expect("= 0,g,p 6,i 7,x 0", 1, fits, start.clone());
        expect("= 4,+,i 1,f,p 6,i 7,x 0", 1, fits, held(one, two, &[4, 2, 3], 8));
        expect("= 4,+,g,p 5,x 0,i 7,i 1", 1, fits, held(one, two, &[4, 2, 3], 8));
        expect("= 1,p 5,f,p 5,x 0,i 7,g,p 5,x 0,i 8", 1, fits, {
            let pair = [&[6], &package[..], &[1, 8]].concat();
            held(if fits { &pair } else { &[] }, two, &[4, 2, 3], 5)
        });
        // and where a pack fails whatever it packs
        expect("= 3,k 0,p 5,x 0,i 7", 0, fits, held(one, two, &[4, 2, 1], 5));
        expect("= 3,k 0,f,p 5,x 0,i 7", 0, fits, held(one, two, &[4, 2, 1], 5));
        // a choice has three words
        expect("c,f,p 7,l 3,i 1,x 0,s,s", 1, words <= 12, start.clone());
        expect("w,f,p 7,r 3,i 1,x 0,s", 1, words <= 12, start.clone());
        // a package that is read and not paired may have them all
        expect("= 0,x 0", 1, true, start.clone());
    }
}

#[test]
fn nested_pairs_have_at_most_sixteen_words_together() {
    // types 5 and 6 have 5 and 11 words, 7 and 9 up to 4 and 5, so 8 has up to 16, and 10 and 11 to 17
    let types = ["P 1", "Q 0 0", "Q 5 5", "T 3 0", "Q 6 7", "T 7 0", "Q 6 9", "Q 9 6"];
    let locations = ["L", "X 8 0", "X 10 0", "X 6 0", "X 11 0"];
    let sheet = text(&[&types[..], &locations].concat());
    let six = "p 6,p 5,i 1,i 2,p 5,i 3,i 4";
    let words: &[u32] = &[6, 6, 1, 1, 1, 2, 6, 1, 3, 1, 4];
    let full = [&[6], words, &[3, 3, 1, 5]].concat();
    let shorter = [&[6], words, &[4, 1, 5]].concat();
    let start = memory(&[&full, &shorter, words, &[6, 4, 1, 5, 6, 6, 1, 1, 1, 2, 6, 1, 3, 1, 4]]);
    /// A script, and the location that it writes with its words; none where a pair is too long.
    type Row<'a> = (String, Option<(usize, &'a [u32])>);
    let table: &[Row] = &[
        (format!("= 0,p 8,{six},l 7,l 3,i 5"), Some((0, &full))),
        (format!("= 0,p 8,{six},r 7,i 5"), Some((0, &shorter))),
        (format!("= 1,p 10,{six},r 9,i 5"), Some((1, &shorter))),
        (
            format!("= 1,p 10,{six},l 9,r 7,i 5"),
            Some((1, &[6, 6, 6, 1, 1, 1, 2, 6, 1, 3, 1, 4, 3, 4, 1, 5])),
        ),
        (format!("= 1,p 10,{six},l 9,l 7,l 3,i 5"), None),
        (format!("= 2,f,p 10,{six},l 9,l 7,l 3,i 5"), None),
        (format!("= 3,p 11,l 9,l 7,l 3,i 5,{six}"), None),
        (format!("= 2,g,p 11,l 9,l 7,l 3,i 5,{six}"), None),
        (format!("= 2,g,p 11,l 9,r 7,i 5,{six}"), Some((2, words))),
        ("= 2,p 6,g,f,x 0,f,f,x 0".to_string(), Some((2, &[6, 6, 1, 3, 1, 4, 6, 1, 1, 1, 2]))),
    ];
    for (lines, written) in table {
        let got = ran(&sheet, &script(lines), &start, 1, 5);
        let mut left = start.clone();
        let expected = match written {
            None => (10, 0, left),
            Some((location, words)) => {
                left[16 * location..][..16].copy_from_slice(&memory(&[words]));
                (0, 1, left)
            }
        };
        assert_eq!(got, expected, "{lines}");
    }
}

#[test]
fn ten_in_a_pair_gives_the_steps_before_it() {
    let start = memory(&[
        &package_of(14),
        &[6, 5, 0, 1, 2, 1, 3],
        &[6, 1, 2, 5, 0, 1, 3],
        &[4, 2, 3],
        &[1, 5],
    ]);
    let lines = ";,= 4,i 9,;,= 2,p 6,i 1,f,x 1,= 4,f,p 6,i 7,x 0";
    for (budget, answer, steps) in [(0, 9, 0), (3, 9, 3), (4, 9, 4), (5, 10, 4), (999, 10, 4)] {
        let got = ran(&package_sheet(), &script(lines), &start, 1, budget);
        assert_eq!(got, (answer, steps, start.clone()), "{budget}");
    }
}

#[test]
fn an_unpack_tests_both_parts() {
    // type 5 is int*pkg, 7 is (int+int)*type 5, and 6 and 8 have these and error
    let sheet = text(&["P 2", "Q 0 2", "T 5 1", "Q 3 5", "T 7 1", "L", "X 4 0", "X 6 0", "X 8 0"]);
    let simple: &[(&[u32], bool)] = &[
        (&[6, 1, 7, 5, 0, 1, 9], true),
        (&[6, 1, 0, 5, 0, 2, 1], true),
        // what is in the package doesn't matter
        (&[6, 1, 7, 5, 0, 6, 2, 1, 2, 2], true),
        (&[6, 1, 7, 5, 0, 5, 0, 3, 2, 3], true),
        (&[6, 1, 7, 1, 9], false),
        (&[6, 1, 7, 2, 1], false),
        (&[6, 1, 7, 3, 5, 0, 1, 9], false),
        (&[6, 1, 7, 6, 1, 7, 5, 0, 1, 9], false),
        (&[6, 2, 1, 5, 0, 1, 9], false),
        (&[6, 2, 1, 1, 9], false),
        (&[6, 5, 0, 1, 9, 1, 7], false),
        (&[6, 5, 0, 1, 9, 5, 0, 1, 9], false),
        (&[1, 7], false),
        (&[2, 1], false),
        (&[3, 1, 7], false),
        (&[5, 0, 1, 9], false),
        (&[3, 6, 1, 7, 5, 0, 1, 9], false),
        (&[5, 0, 6, 1, 7, 5, 0, 1, 9], false),
    ];
    let nested: &[(&[u32], bool)] = &[
        (&[6, 3, 1, 2, 6, 1, 7, 5, 0, 1, 9], true),
        (&[6, 4, 1, 2, 6, 1, 7, 5, 0, 2, 3], true),
        // one leaf is of another type
        (&[6, 3, 2, 2, 6, 1, 7, 5, 0, 1, 9], false),
        (&[6, 4, 2, 2, 6, 1, 7, 5, 0, 1, 9], false),
        (&[6, 3, 1, 2, 6, 2, 3, 5, 0, 1, 9], false),
        (&[6, 3, 1, 2, 6, 1, 7, 1, 9], false),
        (&[6, 3, 1, 2, 6, 1, 7, 2, 1], false),
        (&[6, 3, 1, 2, 6, 1, 7, 4, 5, 0, 1, 9], false),
        (&[6, 1, 2, 6, 1, 7, 5, 0, 1, 9], false),
        (&[6, 3, 1, 2, 1, 7], false),
        (&[6, 3, 1, 2, 5, 0, 1, 9], false),
        (&[6, 6, 1, 7, 5, 0, 1, 9, 3, 1, 2], false),
        (&[6, 1, 7, 5, 0, 1, 9], false),
    ];
    for (place, table) in [simple, nested].into_iter().enumerate() {
        let lines = format!("c,x 0,= {},u {} 0,v 0,s", place + 1, 6 + 2 * place);
        for (content, passes) in table {
            let packed = [&[3, 5, 0], *content].concat();
            let mut cells: [&[u32]; 3] = [&packed, &[4, 2, 1], &[4, 2, 1]];
            let start = memory(&cells);
            let opened = [&[3], *content].concat();
            cells[place + 1] = if *passes { &opened } else { &[4, 2, 3] };
            let got = ran(&sheet, &script(&lines), &start, 1, 9);
            assert_eq!(got, (0, 2, memory(&cells)), "{lines} {content:?}");
        }
    }
}

#[test]
fn an_unpack_to_a_pair_tests_in_its_order() {
    let sheet = [
        "P 3",
        "Q 0 0",
        "T 5 1",
        "L",
        "L",
        "O 0 0000 0000",
        "L",
        "O 0 0000 0007",
        "X 4 0",
        "X 6 2",
    ];
    let (good, wrong): (&[u32], &[u32]) = (&[3, 5, 2, 6, 1, 4, 1, 5], &[3, 5, 2, 6, 1, 4, 2, 3]);
    let table: &[(&str, &[u32], u16, &[u32])] = &[
        ("u 6 1", wrong, 0b010, &[4, 2, 1]),
        ("u 6 1", wrong, 0b001, &[4, 2, 2]),
        ("u 6 2", wrong, 0b001, &[4, 2, 3]),
        ("u 6 1", good, 0b010, &[4, 2, 1]),
        ("u 6 1", good, 0b001, &[4, 2, 2]),
        ("u 6 2", good, 0b001, &[3, 6, 1, 4, 1, 5]),
        ("u 6 2", good, 0b000, &[4, 2, 1]),
    ];
    for (unpack, held, authority, after) in table {
        let lines = format!("c,x 0,= 1,{unpack},v 0,s");
        let got = ran(&text(&sheet), &script(&lines), &memory(&[held, &[4, 2, 3]]), *authority, 9);
        assert_eq!(got, (0, 2, memory(&[held, after])), "{unpack} {authority}");
    }
}

#[test]
fn a_memory_is_well_formed_in_both_parts() {
    // type 5 is int*pkg, 6 the sum of it and error, 7 the pair of that sum and int+int
    let sheet = |ty: usize| {
        let location = format!("X {ty} 0");
        text(&["P 1", "Q 0 2", "T 5 1", "Q 6 3", "L", "X 0 0", &location])
    };
    let long = |lefts: usize| [&[6, 1, 7, 5, 0][..], &vec![3; lefts], &[1, 9]].concat();
    let (full, cut) = (long(9), [&long(10)[..16]].concat());
    let after = [&[6, 1, 7, 5, 0, 1, 9][..], &[0; 8], &[1]].concat();
    let good: &[(usize, &[u32])] = &[
        (5, &[6, 1, 7, 5, 0, 1, 9]),
        (5, &[6, 1, 0, 5, 0, 1, 0]),
        (5, &[6, 1, 7, 5, 0, 6, 1, 1, 2, 3]),
        (5, &full),
        (6, &[3, 6, 1, 7, 5, 0, 1, 9]),
        (6, &[4, 2, 3]),
        (7, &[6, 3, 6, 1, 7, 5, 0, 1, 9, 4, 1, 2]),
        (7, &[6, 4, 2, 1, 3, 1, 2]),
    ];
    let bad: &[(usize, &[u32])] = &[
        (5, &[]),
        // a part or more is missing
        (5, &[6]),
        (5, &[6, 1, 7]),
        (5, &[6, 1, 7, 5]),
        (5, &[6, 1, 7, 5, 0]),
        (7, &[6, 3, 6, 1, 7, 5, 0, 1, 9]),
        (7, &[6, 4, 2, 1, 3]),
        // a label that isn't on the sheet, in the second part's package and inside it
        (5, &[6, 1, 7, 5, 1, 1, 9]),
        (5, &[6, 1, 7, 5, 32, 1, 9]),
        (5, &[6, 1, 7, 5, 0, 5, 1, 1, 9]),
        (5, &[6, 1, 7, 5, 0, 6, 1, 1, 5, 1, 1, 2]),
        (7, &[6, 3, 6, 1, 7, 5, 1, 1, 9, 4, 1, 2]),
        // no error of that number, in either part
        (5, &[6, 1, 7, 5, 0, 6, 1, 1, 2, 4]),
        (5, &[6, 1, 7, 5, 0, 6, 2, 0, 1, 1]),
        (7, &[6, 4, 2, 4, 3, 1, 2]),
        // parts of other types
        (5, &[6, 1, 7, 1, 9]),
        (5, &[6, 1, 7, 2, 1]),
        (5, &[6, 1, 7, 3, 5, 0, 1, 9]),
        (5, &[6, 2, 1, 5, 0, 1, 9]),
        (5, &[6, 5, 0, 1, 9, 1, 7]),
        (6, &[3, 6, 1, 7, 1, 9]),
        (6, &[4, 6, 1, 7, 5, 0, 1, 9]),
        (6, &[6, 1, 7, 5, 0, 1, 9]),
        (7, &[6, 4, 2, 1, 3, 2, 2]),
        (7, &[6, 4, 1, 1, 3, 1, 2]),
        (7, &[6, 3, 6, 1, 7, 1, 9, 4, 1, 2]),
        // no pair, or more than one
        (5, &[1, 7]),
        (5, &[3, 1, 7]),
        (5, &[5, 0, 1, 9]),
        (5, &[6, 6, 1, 7, 5, 0, 1, 9]),
        (5, &[6, 6, 1, 7, 5, 0, 1, 9, 1, 9]),
        (5, &[7, 1, 7, 5, 0, 1, 9]),
        // words after it, and more than there are
        (5, &[6, 1, 7, 5, 0, 1, 9, 1]),
        (5, &[6, 1, 7, 5, 0, 1, 9, 0, 6]),
        (5, &after),
        (5, &cut),
        (5, &[6; 16]),
    ];
    for (values, answer) in [(good, 0), (bad, 8)] {
        for (ty, words) in values {
            let start = memory(&[&[1, 0], words]);
            let sheet = sheet(*ty);
            assert_eq!(ran(&sheet, b"s\n", &start, 1, 9), (answer, 0, start.clone()), "{words:?}");
            // the only principal reads everything
            let shown = if answer == 0 { start.clone() } else { vec![0xdead_beef; 32] };
            assert_eq!(viewed(&sheet, &start, 1), (answer, shown), "{words:?}");
        }
    }
}

/// Principal 0 alone reads label 1, and 1 alone label 2. Types 5 and 6 are pkg*int and int*pkg, 7 is a
/// pair of type 5 twice, and 8 type 5 or error. The locations hold types 5 to 8 and a package at
/// label 0, which all read, and type 5 at label 1.
fn hiding_sheet() -> Vec<u8> {
    let types = ["P 3", "Q 2 0", "Q 0 2", "Q 5 5", "T 5 1"];
    let labels = ["L", "L", "O 0 0000 0007", "L", "O 1 0000 0007"];
    let locations = ["X 5 0", "X 6 0", "X 7 0", "X 8 0", "X 2 0", "X 5 1"];
    text(&[&types[..], &labels, &locations].concat())
}

const HELD: [&[u32]; 6] = [
    &[6, 5, 1, 1, 62, 1, 7],
    &[6, 1, 7, 5, 1, 1, 62],
    &[6, 6, 5, 1, 3, 1, 1, 1, 3, 6, 5, 2, 1, 4, 1, 5],
    &[3, 6, 5, 2, 6, 1, 0, 2, 1, 1, 0],
    &[5, 0, 6, 5, 1, 6, 1, 1, 1, 2, 5, 2, 2, 3],
    &[6, 5, 0, 1, 8, 1, 9],
];

#[test]
fn the_next_part_follows_a_hidden_content() {
    let hidden_one: [&[u32]; 6] = [
        &[6, 5, 1, 0, 1, 7],
        &[6, 1, 7, 5, 1, 0],
        &[6, 6, 5, 1, 0, 1, 3, 6, 5, 2, 1, 4, 1, 5],
        HELD[3],
        &[5, 0, 6, 5, 1, 0, 5, 2, 2, 3],
        &[],
    ];
    let hidden_two: [&[u32]; 6] = [
        HELD[0],
        HELD[1],
        &[6, 6, 5, 1, 3, 1, 1, 1, 3, 6, 5, 2, 0, 1, 5],
        &[3, 6, 5, 2, 0, 1, 0],
        &[5, 0, 6, 5, 1, 6, 1, 1, 1, 2, 5, 2, 0],
        HELD[5],
    ];
    let hidden_both: [&[u32]; 6] = [
        hidden_one[0],
        hidden_one[1],
        &[6, 6, 5, 1, 0, 1, 3, 6, 5, 2, 0, 1, 5],
        hidden_two[3],
        &[5, 0, 6, 5, 1, 0, 5, 2, 0],
        &[],
    ];
    let table = [
        (0b000, [&[][..]; 6]),
        (0b001, hidden_two),
        (0b010, hidden_one),
        (0b011, HELD),
        (0b100, hidden_both),
        (0b101, hidden_two),
        (0b110, hidden_one),
        (0b111, HELD),
    ];
    for (group, shown) in table {
        let view = viewed(&hiding_sheet(), &memory(&HELD), group);
        assert_eq!(view, (0, memory(&shown)), "{group:03b}");
    }
}

#[test]
fn a_hidden_content_shows_nothing_of_its_length() {
    let contents: [&[u32]; 6] = [
        &[1, 0],
        &[2, 3],
        &[3, 3, 1, 9],
        &[5, 0, 5, 2, 1, 9],
        &[6, 6, 1, 0, 1, 0, 6, 1, 0, 1, 0],
        &[3, 3, 3, 3, 3, 3, 3, 3, 3, 1, 9],
    ];
    for content in contents {
        let first = [&[6, 5, 1], content, &[1, 7]].concat();
        let second = [&[6, 1, 7, 5, 1], content].concat();
        let held: [&[u32]; 6] = [&first, &second, HELD[2], HELD[3], HELD[4], HELD[5]];
        let (answer, view) = viewed(&hiding_sheet(), &memory(&held), 0b110);
        assert_eq!(answer, 0, "{content:?}");
        assert_eq!(view[..32], memory(&[&[6, 5, 1, 0, 1, 7], &[6, 1, 7, 5, 1, 0]]), "{content:?}");
        assert_eq!(viewed(&hiding_sheet(), &memory(&held), 0b111), (0, memory(&held)));
    }
}

#[test]
fn the_scripts_of_a_round_hand_on_a_pair() {
    let pair: &[&str] = &["= 1", "p 5", "+", "f", "x 1", "i 1", "x 0"];
    let first: &[&str] = &["= 0", "+", "f", "x 1", "g", "x 1"];
    // four packs on a pair of five words need 17
    let long = [&["= 4"][..], &["k 0"; 4], &["x 1"]].concat();
    let wrong: &[&str] = &["= 1", "p 7", "x 0", "x 0"];
    let round = |scripts: &[&[&str]], budget| {
        played(&open_sheet(), &joined(scripts), &memory(&OPEN), 1, budget)
    };
    let with =
        |int: u32, pair: &[u32]| memory(&[&[1, int], pair, OPEN[2], OPEN[3], OPEN[4], OPEN[5]]);
    let all = [pair, &long, first, pair, &long];
    let answers = places(&[0, 10, 0, 0, 10], &[1, 0, 1, 1, 0]);
    assert_eq!(round(&all, 9), (answers, with(9, &[6, 1, 3, 1, 9])));
    assert_eq!(round(&all, 0), (places(&[9; 5], &[0; 5]), memory(&OPEN)));
    assert_eq!(round(&[pair, wrong, first], 9), (Round::empty(5), memory(&OPEN)));
    let missing: &[&str] = &["= 1", "p 9", "x 0", "x 0"];
    assert_eq!(round(&[wrong, pair, missing], 9), (Round::empty(4), memory(&OPEN)));
}

#[test]
fn a_refused_call_with_pairs_writes_nothing() {
    let good = open_sheet();
    let repeats = text(&["P 2", "Q 0 0", "Q 0 0", "L", "X 5 0"]);
    let secret = text(&["P 2", "Q 0 0", "L", "L", "O 0 0000 0003", "X 0 0", "X 0 1", "X 5 0"]);
    let secrets = memory(&[&[1, 1], &[1, 2], &[6, 1, 3, 1, 4]]);
    let start = memory(&OPEN);
    let mut damaged = start.clone();
    damaged[16..21].copy_from_slice(&[6, 1, 1, 2, 2]);
    /// A sheet, a script, a memory, an authority, a budget, the answer and the steps.
    type Row<'a> = (&'a [u8], &'a str, &'a [u32], u16, u32, u8, u32);
    let table: &[Row] = &[
        (b"P\t2\nQ\t5\t0\n", "= 1,p 5,i 1,i 1", &start, 1, 9, 1, 0),
        (&repeats, "= 0,p 5,i 1,i 1", &start[..16], 1, 9, 2, 0),
        (&good, "= 1,p 5,i 1,i 1", &start, 4, 9, 3, 0),
        (&good, "= 1,p 9,i 1,i 1", &start, 1, 9, 4, 0),
        (&good, "= 1,p 7,i 1,i 1", &start, 1, 9, 5, 0),
        (&secret, "= 0,f,p 5,x 0,x 1", &secrets, 1, 9, 6, 0),
        (&secret, "= 2,p 5,x 0,x 1", &secrets, 1, 9, 6, 0),
        (&good, "= 1,p 5,i 8,i 9", &start[..80], 1, 9, 7, 0),
        (&good, "= 1,p 5,i 8,i 9", &damaged, 1, 9, 8, 0),
        (&good, ";,= 1,p 5,i 8,i 9,= 0,f,x 1", &start, 1, 2, 9, 2),
        (&good, ";,= 1,p 5,i 8,i 9,= 4,k 0,k 0,k 0,k 0,x 1", &start, 1, 9, 10, 2),
    ];
    for (sheet, lines, words, authority, budget, answer, steps) in table {
        let got = ran(sheet, &script(lines), words, *authority, *budget);
        assert_eq!(got, (*answer, *steps, words.to_vec()), "{lines}");
    }
    assert_eq!(viewed(&good, &damaged, 1), (8, vec![0xdead_beef; 96]));
    assert_eq!(viewed(&repeats, &start[..16], 1), (2, vec![0xdead_beef; 16]));
}
