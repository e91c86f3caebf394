//! Texts that mean to mislead a reader, on every implementation.

use crate::common::{lines, memory, repeated, sheet, start, text, text_of, untrusted};
use compare::implementation::ALL;
use reference::text::{Cause, Fault};
use reference::{script_text, sheet_text, Groups, Outcome, Trust};

/// The line of a fault and its cause, without the particulars but for the thing that is missing and
/// where a `b` line is late.
fn told(fault: Option<Fault>) -> String {
    let Some(Fault { line, cause }) = fault else {
        return "no fault".to_string();
    };
    let cause = match cause {
        Cause::Missing { thing, .. } => format!("Missing {thing:?}"),
        Cause::LateStart { again, ended } => {
            let word = |is, word| if is { word } else { "" };
            format!("LateStart{}{}", word(again, " again"), word(ended, " ended"))
        }
        other => format!("{other:?}"),
    };
    let end = |c: char| !c.is_alphanumeric() && c != ' ';
    format!("{line}: {}", cause.split(end).next().expect("a name").trim())
}

#[test]
fn sheets_and_why_they_are_refused() {
    let table: &[(&[u8], usize, &str)] = &[
        (b"", 1, "NoLines"),
        (b"\n", 1, "EmptyLine"),
        (b"P\t3", 1, "UnendedLine"),
        (b"P 3\n", 1, "Blank"),
        (b"P\t3\r\n", 1, "CarriageReturn"),
        (b"P\t3\t\n", 1, "LooseTab"),
        (b"P\t\t3\n", 1, "LooseTab"),
        (b"P\n", 1, "FieldCount"),
        (b"p\t3\n", 1, "LineKind"),
        (b"PP\t3\n", 1, "LineKind"),
        (b"P\t3\n\n", 2, "EmptyLine"),
        (b"\nP\t3\n", 1, "EmptyLine"),
        (b"P\t3\nP\t3\n", 2, "LineKind"),
        (b"P\t+3\n", 1, "Number"),
        (b"P\t-1\n", 1, "Number"),
        (b"P\t3\x00\n", 1, "ZeroByte"),
        (b"P\t\xd9\xa3\n", 1, "Number"),
        (b"P\t0\n", 1, "PrincipalCount"),
        (b"P\t4294967297\n", 1, "Number"),
        (b"P\t18446744073709551617\n", 1, "Number"),
        (b"P\t3\nR\t0\n", 2, "ReadingRule"),
        (b"P\t3\nR\t2\n", 2, "ReadingRule"),
        (b"P\t3\nR\t01\n", 2, "ReadingRule"),
        (b"P\t3\nR\t4294967297\n", 2, "ReadingRule"),
        (b"P\t3\nR\t\xd9\xa1\n", 2, "ReadingRule"),
        (b"P\t3\nR\n", 2, "FieldCount"),
        (b"P\t3\nR\t1\t1\n", 2, "FieldCount"),
        (b"P\t3\nR\t1\t\n", 2, "LooseTab"),
        (b"P\t3\nR 1\n", 2, "Blank"),
        (b"P\t3\nR\t1\r\n", 2, "CarriageReturn"),
        (b"P\t3\nR\t1\x00\n", 2, "ZeroByte"),
        (b"P\t3\nR\t1", 2, "UnendedLine"),
        (b"P\t3\nR1\n", 2, "LineKind"),
        (b"P\t3\nr\t1\n", 2, "LineKind"),
        (b"R\t1\nP\t3\n", 1, "LineKind"),
        (b"P\t3\n\nR\t1\n", 2, "EmptyLine"),
        (b"P\t3\nR\t1\nR\t1\n", 3, "LineKind"),
        (b"P\t3\nR\t1\nP\t3\n", 3, "LineKind"),
        (b"P\t3\nT\t0\t1\nR\t1\n", 3, "LineKind"),
        (b"P\t3\nQ\t0\t1\nR\t1\n", 3, "LineKind"),
        (b"P\t3\nL\nR\t1\n", 3, "LineKind"),
        (b"P\t3\nL\nO\t0\t0000\t0000\nR\t1\n", 4, "LineKind"),
        (b"P\t3\nL\nX\t0\t0\nR\t1\n", 4, "LineKind"),
        (b"P\t3\nR\t1\nT\t5\t0\n", 3, "Missing EarlierType"),
        (b"P\t3\nT\t0\n", 2, "FieldCount"),
        (b"P\t3\nT\t0\t1\t2\n", 2, "FieldCount"),
        (b"P\t3\nT\t5\t0\n", 2, "Missing EarlierType"),
        (b"P\t3\nQ\t0\n", 2, "FieldCount"),
        (b"P\t3\nQ\t0\t1\t2\n", 2, "FieldCount"),
        (b"P\t3\nQ\t5\t0\n", 2, "Missing EarlierType"),
        (b"P\t3\nT\t0\t1\nQ\t0\t6\n", 3, "Missing EarlierType"),
        (b"P\t3\nQ\t0\t1\nT\t6\t0\n", 3, "Missing EarlierType"),
        (b"P\t3\nQ\t0\t01\n", 2, "Number"),
        (b"P\t3\nq\t0\t1\n", 2, "LineKind"),
        (b"P\t3\nL\nQ\t0\t1\n", 3, "LineKind"),
        (b"P\t3\nL\nX\t0\t0\nQ\t0\t1\n", 4, "LineKind"),
        (b"P\t3\nL\nT\t0\t1\n", 3, "LineKind"),
        (b"P\t3\nO\t0\t0000\t0000\n", 2, "LineKind"),
        (b"P\t3\nL\nX\t0\t0\nO\t0\t0000\t0000\n", 4, "LineKind"),
        (b"P\t3\nL\nX\t0\t0\nL\n", 4, "LineKind"),
        (b"P\t3\nL\t0\n", 2, "FieldCount"),
        (b"P\t3\nL\nO\t0\t0000\n", 3, "FieldCount"),
        (b"P\t3\nL\nO\t0\t000G\t0000\n", 3, "Set"),
        (b"P\t3\nL\nO\t0\t0x01\t0000\n", 3, "Set"),
        (b"P\t3\nL\nO\t0\t0000\t000A\n", 3, "Set"),
        (b"P\t3\nL\nO\t3\t0000\t0000\n", 3, "Missing Principal"),
        (b"P\t3\nL\nO\t0\t0008\t0000\n", 3, "Missing Principal"),
        (b"P\t3\nL\nO\t1\t0000\t0000\nO\t1\t0000\t0000\n", 4, "OwnerOrder"),
        (b"P\t3\nX\t0\t0\n", 2, "Missing Label"),
        (b"P\t3\nL\nX\t5\t0\n", 3, "Missing Type"),
        (b"P\t3\nL\nX\t0\t4294967296\n", 3, "Number"),
        (b"P\t3\nL\nX\t4294967295\t0\n", 3, "Missing Type"),
    ];
    for (sheet, line, cause) in table {
        let shown = sheet.escape_ascii();
        assert_eq!(told(sheet_text::parse(sheet).err()), format!("{line}: {cause}"), "{shown}");
        for i in ALL {
            assert_eq!((i.check)(sheet, b"s\n"), 1, "{}: {shown}", i.name);
            assert_eq!((i.trust)(sheet, b"s\n"), untrusted(1), "{}: {shown}", i.name);
            let groups = (i.groups)(sheet, 0, &mut [7; 16]);
            assert_eq!(groups, Groups { answer: 1, count: 0 }, "{}: {shown}", i.name);
        }
    }
}

#[test]
fn scripts_and_why_they_are_refused() {
    let table: &[(&[u8], usize, &str)] = &[
        (b"", 1, "NoLines"),
        (b"\n", 1, "EmptyLine"),
        (b"s", 1, "UnendedLine"),
        (b"s\n\n", 2, "EmptyLine"),
        (b"\ns\n", 1, "EmptyLine"),
        (b"s\ns\n", 2, "LeftOver"),
        (b"s\t\n", 1, "LooseTab"),
        (b"s \n", 1, "Blank"),
        (b"s\r\n", 1, "CarriageReturn"),
        (b"S\n", 1, "LineKind"),
        (b"ss\n", 1, "LineKind"),
        (b"s\x00\n", 1, "ZeroByte"),
        (b";\n", 1, "Ends"),
        (b";\ns\n", 1, "Ends"),
        (b";\ns\ni\t1\n", 3, "LineKind"),
        (b"i\t1\n", 1, "LineKind"),
        (b"=\t0\n", 1, "Ends"),
        (b"=\t0\ns\n", 2, "LineKind"),
        (b"=\n", 1, "FieldCount"),
        (b"=0\ni\t1\n", 1, "LineKind"),
        (b"=\t00\ni\t1\n", 1, "Number"),
        (b"=\t4\ni\t1\n", 1, "Missing Location"),
        (b"=\t4294967296\ni\t1\n", 1, "Number"),
        (b"=\t0\ni\n", 2, "FieldCount"),
        (b"=\t0\ni\t\n", 2, "LooseTab"),
        (b"=\t0\ni\t1\t1\n", 2, "FieldCount"),
        (b"=\t0\ni\t-1\n", 2, "Integer"),
        (b"=\t0\ni\t42949672950\n", 2, "Integer"),
        (b"=\t0\ni\t18446744073709551616\n", 2, "Integer"),
        (b"=\t0\nx\t4\n", 2, "Missing Location"),
        (b"=\t0\nv\t0\n", 2, "Missing Binding"),
        (b"=\t0\nv\t4294967295\n", 2, "Missing Binding"),
        (b"=\t0\n+\ni\t1\n", 2, "Ends"),
        (b"=\t0\n+\t1\ni\t1\ni\t1\n", 2, "FieldCount"),
        (b"=\t2\nk\ni\t1\n", 2, "FieldCount"),
        (b"=\t2\nk\t3\ni\t1\n", 2, "Missing Label"),
        (b"=\t3\nu\t5\nx\t0\n", 2, "FieldCount"),
        (b"=\t3\nu\t6\t0\nx\t0\n", 2, "Missing Type"),
        (b"=\t3\nu\t5\t3\nx\t0\n", 2, "Missing Label"),
        (b"=\t3\np\nx\t0\nx\t0\n", 2, "FieldCount"),
        (b"=\t3\np\t5\t0\nx\t0\nx\t0\n", 2, "FieldCount"),
        (b"=\t3\np\t6\nx\t0\nx\t0\n", 2, "Missing Type"),
        (b"=\t3\np\t4294967296\nx\t0\nx\t0\n", 2, "Number"),
        (b"=\t3\np\t5\nx\t0\n", 2, "Ends"),
        (b"=\t3\np\t5\nx\t0\ns\n", 4, "LineKind"),
        (b"=\t3\np\t5\nx\t0\nx\t0\nx\t0\n", 5, "LeftOver"),
        (b"=\t0\nf\n", 2, "Ends"),
        (b"=\t0\nf\t5\nx\t0\n", 2, "FieldCount"),
        (b"=\t0\ng\t5\nx\t0\n", 2, "FieldCount"),
        (b"=\t0\nF\nx\t0\n", 2, "LineKind"),
        (b"p\t5\nx\t0\nx\t0\n", 1, "LineKind"),
        (b"w\ni\t1\n", 1, "Ends"),
        (b"w\ns\ns\n", 2, "LineKind"),
        (b"c\nx\t2\ns\n", 1, "Ends"),
        (b"c\nx\t2\ns\ns\ns\n", 5, "LeftOver"),
        (b"b\t0\n", 1, "NoCommand"),
        (b"b\t0\n\n", 2, "EmptyLine"),
        (b"b\t0\n\ns\n", 2, "EmptyLine"),
        (b"\nb\t0\ns\n", 1, "EmptyLine"),
        (b"b\t0", 1, "UnendedLine"),
        (b"b", 1, "UnendedLine"),
        (b"b\t0\r\ns\n", 1, "CarriageReturn"),
        (b"b\ns\n", 1, "FieldCount"),
        (b"b\t0\t0\ns\n", 1, "FieldCount"),
        (b"b\t\ns\n", 1, "LooseTab"),
        (b"b 0\ns\n", 1, "Blank"),
        (b"b\t00\ns\n", 1, "Number"),
        (b"b\t-1\ns\n", 1, "Number"),
        (b"b\t4294967296\ns\n", 1, "Number"),
        (b"b\t3\ns\n", 1, "Missing Label"),
        (b"b\t4294967295\ns\n", 1, "Missing Label"),
        (b"b\t3\nq\n", 1, "Missing Label"),
        (b"b\t0\nq\n", 2, "LineKind"),
        (b"b\t0\ni\t1\n", 2, "LineKind"),
        (b"b\t0\n;\ns\n", 2, "Ends"),
        (b"b\t0\ns\ns\n", 3, "LeftOver"),
        (b"b0\ns\n", 1, "LineKind"),
        (b"bb\t0\ns\n", 1, "LineKind"),
        (b"B\t0\ns\n", 1, "LineKind"),
        (b"b\t0\nb\t0\ns\n", 2, "LateStart again"),
        (b"b\t0\nb\n", 2, "LateStart again"),
        (b"b\t0\n;\ns\nb\t0\ns\n", 4, "LateStart again"),
        (b"b\t0\ns\nb\t0\n", 3, "LateStart again ended"),
        (b";\nb\t0\ns\ns\n", 2, "LateStart"),
        (b";\ns\nb\t0\ns\n", 3, "LateStart"),
        (b"=\t0\nb\t0\n", 2, "LateStart"),
        (b"=\t0\n+\ni\t1\nb\t9\t9\n", 4, "LateStart"),
        (b"s\nb\t0\n", 2, "LateStart ended"),
        (b"s\nb\t0\ns\n", 2, "LateStart ended"),
    ];
    let parsed = sheet_text::parse(&sheet()).unwrap();
    for (script, line, cause) in table {
        let shown = script.escape_ascii();
        let fault = script_text::parse(&parsed, script).err();
        assert_eq!(told(fault), format!("{line}: {cause}"), "{shown}");
        for i in ALL {
            assert_eq!((i.check)(&sheet(), script), 4, "{}: {shown}", i.name);
            assert_eq!((i.trust)(&sheet(), script), untrusted(4), "{}: {shown}", i.name);
        }
    }
}

#[test]
fn long_texts() {
    for length in [16_383, 16_384, 16_385, 70_000, 1 << 20] {
        for byte in [b'\n', b'0', b'\t', b's', 0xff] {
            let long = vec![byte; length];
            let after_sheet = [&sheet()[..], &long].concat();
            let after_script = [&b"s\n"[..], &long].concat();
            let number = [b"P\t", &long[..], b"\n"].concat();
            for i in ALL {
                assert_eq!((i.check)(&long, b"s\n"), 1, "{}", i.name);
                assert_eq!((i.check)(&after_sheet, b"s\n"), 1, "{}", i.name);
                assert_eq!((i.check)(&number, b"s\n"), 1, "{}", i.name);
                assert_eq!((i.groups)(&after_sheet, 0, &mut [7; 16]).answer, 1, "{}", i.name);
                assert_eq!((i.trust)(&after_sheet, b"s\n"), untrusted(1), "{}", i.name);
                assert_eq!((i.check)(&sheet(), &long), 4, "{}", i.name);
                assert_eq!((i.check)(&sheet(), &after_script), 4, "{}", i.name);
                assert_eq!((i.trust)(&sheet(), &after_script), untrusted(4), "{}", i.name);
            }
        }
    }
}

#[test]
fn the_deepest_scripts() {
    let deep = |line: &str, count: usize| format!("{line}\n").replace(' ', "\t").repeat(count);
    let packs = |count: usize| format!("=\t2\n{}i\t1\n", deep("k 2", count));
    let whiles = deep("w\nl 3\ni 0", 170) + "s\n";
    let plus = format!("=\t0\n{}{}", deep("+", 255), deep("i 1", 256));
    let (left, right) = (deep(";", 255) + &deep("s", 256), deep(";\ns", 255) + "s\n");
    let added = memory(&[&[1, 256], &[1, 62], &[4, 2, 1], &[4, 2, 1]]);
    let done = |steps| Outcome { answer: 0, steps };
    let refused = |answer, steps| Outcome { answer, steps };
    // A script, the answer of its check, an authority, a budget, the outcome and the memory after it.
    let table = [
        (whiles, 0, 0, 50, refused(9, 50), start()),
        (plus, 0, 0, 1, done(1), added),
        // Each pack fails and the next one packs its error; or each succeeds, and the fifth doesn't fit.
        (packs(510), 0, 0, 1, done(1), start()),
        (packs(510), 0, 1, 1, refused(10, 0), start()),
        (packs(511), 4, 0, 1, refused(4, 0), start()),
        (left.clone(), 0, 0, 254, refused(9, 254), start()),
        (left, 0, 0, 255, done(255), start()),
        (right.clone(), 0, 0, 254, refused(9, 254), start()),
        (right, 0, 0, 255, done(255), start()),
        (deep("+", 512), 4, 0, 50, refused(4, 0), start()),
        (deep(";", 512), 4, 0, 50, refused(4, 0), start()),
        (deep("c", 512), 4, 0, 50, refused(4, 0), start()),
    ];
    for (script, check, authority, budget, outcome, after) in table {
        let script = script.as_bytes();
        let shown = script[..40].escape_ascii();
        for i in ALL {
            assert_eq!((i.check)(&sheet(), script), check, "{}: {shown}", i.name);
            // none of them has an unpack
            let keeping = u8::from(check == 0);
            let trust = Trust { answer: check, keeping };
            assert_eq!((i.trust)(&sheet(), script), trust, "{}: {shown}", i.name);
            let mut words = start();
            let ran = (i.run)(&sheet(), script, &mut words, authority, budget);
            assert_eq!((ran, words), (outcome, after.clone()), "{}: {shown} {budget}", i.name);
        }
    }
}

#[test]
fn the_deepest_pairs() {
    let sheet = text(&["P 1", "Q 0 0", "L", "X 0 0", "X 5 0"]);
    let deep = |lines: &str, count: usize| {
        let lines: String = lines.split(',').map(|line| format!("{line}\n")).collect();
        lines.replace(' ', "\t").repeat(count)
    };
    let script = |parts: &[(&str, usize)]| -> String {
        parts.iter().map(|(lines, count)| deep(lines, *count)).collect()
    };
    let in_first = script(&[("= 0", 1), ("f,p 5", 170), ("i 8", 1), ("i 2", 170)]);
    let in_second = script(&[("= 0", 1), ("g,p 5,i 2", 170), ("i 8", 1)]);
    let in_both = script(&[("= 0", 1), ("f,p 5,g,p 5,i 2", 85), ("i 8", 1), ("i 2", 85)]);
    let added = script(&[("= 0", 1), ("f,p 5,+", 101), ("i 0", 1), ("i 1,i 2", 101)]);
    // a script, the answer of its check, and the integer that it leaves at location 0
    let table = [
        (in_first.clone(), 0, 8),
        (in_second.clone(), 0, 8),
        (in_both, 0, 8),
        (added, 0, 101),
        (deep("b 0", 1) + &in_first, 4, 7),
        (deep("b 0", 1) + &in_second, 4, 7),
        (script(&[("= 1", 1), ("p 5", 255), ("i 1", 256)]), 5, 7),
        (script(&[("= 1", 1), ("p 5,i 1", 255), ("i 1", 1)]), 5, 7),
        (script(&[("= 0", 1), ("f", 510), ("x 1", 1)]), 5, 7),
        (script(&[("= 0", 1), ("g", 510), ("x 1", 1)]), 5, 7),
        (script(&[("= 0", 1), ("f", 511), ("x 1", 1)]), 4, 7),
        (script(&[("= 1", 1), ("p 5", 511)]), 4, 7),
        (script(&[("= 1", 1), ("p 5,i 1", 255), ("p 5", 1)]), 4, 7),
        (script(&[("= 0", 1), ("f", 511)]), 4, 7),
        (deep("p 5", 512), 4, 7),
    ];
    for (script, answer, left) in table {
        let (script, shown) = (script.as_bytes(), script[..20].escape_debug().to_string());
        for i in ALL {
            let trust = Trust { answer, keeping: u8::from(answer == 0) };
            assert_eq!((i.trust)(&sheet, script), trust, "{}: {shown}", i.name);
            let mut words = memory(&[&[1, 7], &[6, 1, 3, 1, 4]]);
            let ran = (i.run)(&sheet, script, &mut words, 1, 1);
            let outcome = Outcome { answer, steps: u32::from(answer == 0) };
            let after = memory(&[&[1, left], &[6, 1, 3, 1, 4]]);
            assert_eq!((ran, words), (outcome, after), "{}: {shown}", i.name);
        }
    }
}

/// Pairs inside one another, as deep as types can be: those of more than four levels are too long.
#[test]
fn the_deepest_types() {
    for in_first in [true, false] {
        let made = |ty: usize| match (ty, in_first) {
            (5, _) => "Q 0 0".to_string(),
            (_, true) => format!("Q {} 0", ty - 1),
            (_, false) => format!("Q 0 {}", ty - 1),
        };
        let types: Vec<String> = (5..32).map(made).collect();
        let sheet = text_of(&[&lines(&["P 1"]), &types, &lines(&["L", "X 4 0"])]);
        for depth in 1..=27 {
            let pairs = (5..5 + depth).rev().map(|ty| format!("p {ty}"));
            let pair: Vec<String> = if in_first {
                pairs.chain(repeated("i 1", depth + 1)).collect()
            } else {
                pairs.flat_map(|line| [line, "i 1".to_string()]).chain(lines(&["i 1"])).collect()
            };
            let script = text_of(&[&lines(&["= 0", "k 0"]), &pair]);
            // the pack fails for nobody, so that the pair alone can be too long
            let (answer, steps, left) = if depth <= 4 { (0, 1, 1) } else { (10, 0, 3) };
            for i in ALL {
                let mut words = memory(&[&[4, 2, 3]]);
                assert_eq!((i.check)(&sheet, &script), 0, "{}: {depth}", i.name);
                let ran = (i.run)(&sheet, &script, &mut words, 0, 9);
                let expected = (Outcome { answer, steps }, memory(&[&[4, 2, left]]));
                assert_eq!((ran, words), expected, "{}: {depth}", i.name);
            }
        }
    }
}

/// A sheet, an authority, a script, the number of words lent, a budget, and the answer.
type Row<'a> = (&'a [u8], u16, &'a [u8], usize, u32, u8);

#[test]
fn the_first_number_is_given() {
    let (good, script) = (sheet(), text(&["= 0", "i 1"]));
    let form = text(&["P 3", "T 0 9"]);
    let repeats = text(&["P 3", "L", "L", "X 0 0"]);
    let (unformed, shapeless, flowless) =
        (text(&["q"]), text(&["= 0", "x 2"]), text(&["= 0", "x 1"]));
    let table: &[Row] = &[
        (&form, 8, &unformed, 1, 9, 1),
        (&repeats, 8, &unformed, 1, 9, 2),
        (&good, 8, &unformed, 1, 9, 3),
        (&good, 1, &unformed, 1, 9, 4),
        (&good, 1, &shapeless, 1, 9, 5),
        (&good, 1, &flowless, 1, 9, 6),
        (&good, 1, &script, 1, 9, 7),
        (&good, 1, &script, 64, 9, 8),
        (&good, 1, &script, 64, 0, 8),
    ];
    for i in ALL {
        for (sheet, authority, script, length, budget, answer) in table {
            let mut lent = vec![9; *length];
            let outcome = (i.run)(sheet, script, &mut lent, *authority, *budget);
            assert_eq!((outcome.answer, outcome.steps), (*answer, 0), "{}", i.name);
            assert_eq!(lent, vec![9; *length], "{}", i.name);
        }
        let mut lent = start();
        let outcome = (i.run)(&good, &script, &mut lent, 1, 0);
        assert_eq!((outcome, &lent), (Outcome { answer: 9, steps: 0 }, &start()), "{}", i.name);
        let outcome = (i.run)(&good, &script, &mut lent, 1, 1);
        let written = memory(&[&[1, 1], &[1, 62], &[4, 2, 1], &[4, 2, 1]]);
        assert_eq!((outcome, lent), (Outcome { answer: 0, steps: 1 }, written), "{}", i.name);
    }
}

#[test]
fn the_first_number_is_given_by_a_view() {
    let (good, form, repeats) = (sheet(), text(&["P 3", "T 0 9"]), text(&["P 3", "L", "L"]));
    let table: &[(&[u8], u16, usize, usize, u8)] = &[
        (&form, 8, 1, 1, 1),
        (&repeats, 8, 1, 1, 2),
        (&good, 8, 1, 1, 3),
        (&good, 1, 1, 1, 7),
        (&good, 1, 64, 1, 7),
        (&good, 1, 1, 64, 7),
        (&good, 1, 64, 64, 8),
    ];
    for i in ALL {
        for (sheet, group, memory, length, answer) in table {
            let mut view = vec![7; *length];
            assert_eq!(
                (i.view)(sheet, &vec![9; *memory], *group, &mut view),
                *answer,
                "{}",
                i.name
            );
            assert_eq!(view, vec![7; *length], "{}", i.name);
        }
    }
}

#[test]
fn the_first_number_is_given_by_a_call_for_groups() {
    let (good, form, repeats) = (sheet(), text(&["P 3", "T 0 9"]), text(&["P 3", "L", "L"]));
    let (form_and_repeats, no_label) = (text(&["P 3", "L", "L", "X 9 0"]), text(&["P 3"]));
    let table: &[(&[u8], u32, usize, u8)] = &[
        (&form, 9, 0, 1),
        (&form, 0, 9, 1),
        (&form_and_repeats, 0, 9, 1),
        (&repeats, 9, 0, 2),
        (&repeats, 0, 0, 2),
        (&repeats, 0, 9, 2),
        (&no_label, 0, 9, 12),
        (&good, 3, 9, 12),
        (&good, 3, 0, 12),
        (&good, 0, 2, 12),
        (&good, 0, 0, 12),
    ];
    for i in ALL {
        for (sheet, label, length, answer) in table {
            let mut places = vec![7; *length];
            let groups = (i.groups)(sheet, *label, &mut places);
            assert_eq!(groups, Groups { answer: *answer, count: 0 }, "{}", i.name);
            assert_eq!(places, vec![7; *length], "{}", i.name);
        }
        let mut places = [7; 4];
        assert_eq!((i.groups)(&good, 0, &mut places), Groups::listed(3), "{}", i.name);
        assert_eq!(places, [1, 2, 4, 7], "{}", i.name);
    }
}
