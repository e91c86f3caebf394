//! Names for principals, labels and locations.

use reference::principals;
use reference::sheet::Sheet;
use reference::text::number;
use std::collections::BTreeMap;

/// The most bytes of a name.
const MOST_BYTES: usize = 40;

/// The names that a names file gives.
#[derive(Clone, Debug, Default, PartialEq, Eq)]
pub struct Names {
    principals: Kind,
    labels: Kind,
    locations: Kind,
}

/// The names for one kind of thing, by number.
type Kind = BTreeMap<usize, Named>;

/// A name and the line that gives it.
#[derive(Clone, Debug, PartialEq, Eq)]
struct Named {
    name: String,
    line: usize,
}

/// Why a names file isn't of its form, or isn't for the sheet.
#[derive(Clone, Debug, PartialEq, Eq)]
pub struct BadNames {
    /// Counted from 1.
    pub line: usize,
    pub what: String,
}

impl Names {
    pub fn principal(&self, principal: usize) -> Option<&str> {
        name(&self.principals, principal)
    }

    pub fn label(&self, label: usize) -> Option<&str> {
        name(&self.labels, label)
    }

    pub fn location(&self, location: usize) -> Option<&str> {
        name(&self.locations, location)
    }

    /// Reads a names file. It is for people, so lines may end in CR LF, and the last needn't end.
    pub fn parse(text: &[u8]) -> Result<Names, BadNames> {
        let mut names = Names::default();
        let text = text.strip_prefix(b"\xef\xbb\xbf").unwrap_or(text);
        for (before, line) in text.split(|&byte| byte == b'\n').enumerate() {
            let line = line.strip_suffix(b"\r").unwrap_or(line);
            let at = before + 1;
            names.read_line(line, at).map_err(|what| BadNames { line: at, what })?;
        }
        Ok(names)
    }

    fn read_line(&mut self, line: &[u8], at: usize) -> Result<(), String> {
        if line.is_empty() || line.starts_with(b"#") {
            return Ok(());
        }
        let line = std::str::from_utf8(line).map_err(|_| "the line isn't UTF-8")?;
        let fields: Vec<&str> = line.split('\t').collect();
        let [kind, digits, name] = fields[..] else {
            return Err(
                "a line has three fields, parted by tabs: P, L or X, a number, a name".into()
            );
        };
        let (names, thing) = match kind {
            "P" => (&mut self.principals, "principal"),
            "L" => (&mut self.labels, "label"),
            "X" => (&mut self.locations, "location"),
            _ => return Err("a line starts with P, L or X".into()),
        };
        let number = number(digits.as_bytes()).map_err(|_| "the second field isn't a number")?;
        require_form(name)?;
        add(names, thing, number as usize, Named { name: name.to_string(), line: at })
    }

    /// That every number is on the sheet: else the file is for another sheet.
    pub fn require_on(&self, sheet: &Sheet) -> Result<(), BadNames> {
        let kinds = [
            (&self.principals, "principal", sheet.principals),
            (&self.labels, "label", sheet.labels.len()),
            (&self.locations, "location", sheet.locations.len()),
        ];
        let strangers = kinds.into_iter().filter_map(|(names, thing, count)| {
            let (number, named) = names.range(count..).min_by_key(|(_, named)| named.line)?;
            let what = format!("{thing} {number} isn't on the sheet, which has {count}");
            Some(BadNames { line: named.line, what })
        });
        strangers.min_by_key(|stranger| stranger.line).map_or(Ok(()), Err)
    }

    /// The set that a comma list of names and numbers gives. The empty list is nobody.
    pub fn group(&self, list: &str) -> Result<u16, String> {
        if list.is_empty() {
            return Ok(0);
        }
        list.split(',').try_fold(0, |bits, one| Ok(bits | 1 << self.principal_of(one.trim())?))
    }

    /// The principal that a name or a number gives. It may be one that isn't on the sheet.
    fn principal_of(&self, given: &str) -> Result<usize, String> {
        match numbered(&self.principals, given) {
            Some(principal) if principal < principals::MOST => Ok(principal),
            Some(principal) => {
                Err(format!("there can't be a principal {principal}: 15 is the last"))
            }
            None if given.is_empty() => Err("a principal is missing in the list".to_string()),
            None if self.principals.is_empty() => Err(unnamed("principal", "P", given)),
            None => Err(format!("`{given}` is no principal's name or number")),
        }
    }

    /// The label that a name or a number gives. It may be one that isn't on the sheet.
    pub fn label_of(&self, given: &str) -> Result<usize, String> {
        match numbered(&self.labels, given) {
            Some(label) => Ok(label),
            None if given.is_empty() => Err("it is empty: give a number or a name".to_string()),
            None if self.labels.is_empty() => Err(unnamed("label", "L", given)),
            None => Err(format!("`{given}` is no label's name or number")),
        }
    }
}

/// The number that a name or a number gives.
fn numbered(names: &Kind, given: &str) -> Option<usize> {
    let named = || names.iter().find(|(_, named)| named.name == given).map(|(number, _)| *number);
    number(given.as_bytes()).ok().map(|number| number as usize).or_else(named)
}

/// That what is given is no number, and nothing of its kind has a name, which a `line` would give.
fn unnamed(thing: &str, line: &str, given: &str) -> String {
    format!(
        "`{given}` is no {thing}'s number, and no names of {thing}s are given (`{line}` lines of \
         --names FILE)"
    )
}

fn name(names: &Kind, number: usize) -> Option<&str> {
    names.get(&number).map(|named| named.name.as_str())
}

/// Adds a name, if its number has none and nothing else of its kind has it.
fn add(names: &mut Kind, thing: &str, number: usize, named: Named) -> Result<(), String> {
    if let Some(earlier) = names.get(&number) {
        return Err(format!("{thing} {number} has a name already, in line {}", earlier.line));
    }
    if let Some((other, earlier)) = names.iter().find(|(_, other)| other.name == named.name) {
        let line = earlier.line;
        return Err(format!("{thing} {other} is named `{}` already, in line {line}", named.name));
    }
    names.insert(number, named);
    Ok(())
}

/// A name has 1 to 40 bytes of letters, digits, blanks, `-`, `_`, `.` and `'`. It can't be taken
/// for a number or for the tool's own words, and no blank stands at its ends.
fn require_form(name: &str) -> Result<(), &'static str> {
    let fits = |c: char| c.is_alphabetic() || c.is_ascii_digit() || " -_.'".contains(c);
    if name.is_empty() {
        Err("the name is missing")
    } else if name.len() > MOST_BYTES {
        Err("a name has at most 40 bytes")
    } else if !name.chars().all(fits) {
        Err("a name has letters, digits, blanks, `-`, `_`, `.` and `'` only")
    } else if name.bytes().all(|byte| byte.is_ascii_digit()) {
        Err("a name isn't a number")
    } else if name.trim() != name {
        Err("a name has no blank at its ends")
    } else if name == "everyone" || name == "nobody" || name.contains(" and ") {
        Err("`everyone`, `nobody` and ` and ` have a meaning of their own")
    } else {
        Ok(())
    }
}

#[cfg(test)]
mod tests {
    use super::Names;
    use reference::calls::read_sheet;

    fn names(text: &str) -> Names {
        Names::parse(text.replace(' ', "\t").replace('~', " ").as_bytes()).unwrap()
    }

    fn refused(text: &[u8]) -> (usize, String) {
        let bad = Names::parse(text).unwrap_err();
        (bad.line, bad.what)
    }

    #[test]
    fn a_file_names_three_kinds() {
        let names = names("#~a~comment\n\nP 0 farm\r\nL 1 farm~only\r\nX 3 Güte~'a'\nX 0 farm");
        assert_eq!(names.principal(0), Some("farm"));
        assert_eq!(names.label(1), Some("farm only"));
        assert_eq!(names.location(3), Some("Güte 'a'"));
        assert_eq!(names.location(0), Some("farm"));
        assert_eq!((names.principal(1), names.label(0)), (None, None));
        assert_eq!(Names::parse(b""), Ok(Names::default()));
        assert_eq!(Names::parse(b"\xef\xbb\xbf# a mark before it\n"), Ok(Names::default()));
    }

    #[test]
    fn what_is_no_names_file() {
        let long = format!("P\t0\t{}\n", "a".repeat(41));
        let wrong: [&[u8]; 14] = [
            b"P\t0\n",
            b"P\t0\tfarm\t\n",
            b"P 0 farm\n",
            b"Q\t0\tfarm\n",
            b"p\t0\tfarm\n",
            b"P\t00\tfarm\n",
            b"P\t-1\tfarm\n",
            b"P\t0\t\n",
            b"P\t0\t12\n",
            b"P\t0\ta,b\n",
            b"P\t0\t farm\n",
            b"P\t0\tfa\x1brm\n",
            b"P\t0\tf\xffrm\n",
            long.as_bytes(),
        ];
        for text in wrong {
            assert_eq!(refused(text).0, 1, "{}", text.escape_ascii());
        }
        assert!(Names::parse(format!("P\t0\t{}\n", "a".repeat(40)).as_bytes()).is_ok());
    }

    #[test]
    fn no_number_and_no_name_twice() {
        let (line, what) = refused(b"P\t0\tfarm\nL\t0\tfarm\n\nP\t0\tfeed\n");
        assert_eq!((line, what.contains("line 1")), (4, true));
        let (line, what) = refused(b"P\t0\tfarm\n#\nP\t1\tfarm\n");
        assert_eq!((line, what.contains("line 1")), (3, true));
    }

    #[test]
    fn names_are_for_one_sheet() {
        let sheet = read_sheet(b"P\t2\nL\nX\t0\t0\n").unwrap();
        assert_eq!(names("P 0 a\nP 1 b\nL 0 a\nX 0 a\n").require_on(&sheet), Ok(()));
        for (text, line) in [("P 0 a\nP 2 c\n", 2), ("L 1 b\n", 1), ("X 1 b\nP 7 x\n", 1)] {
            assert_eq!(names(text).require_on(&sheet).unwrap_err().line, line, "{text}");
        }
    }

    #[test]
    fn groups_are_lists_of_names_and_numbers() {
        let names = names("P 0 farm\nP 3 feed~mill\n");
        assert_eq!(names.group(""), Ok(0));
        assert_eq!(names.group("farm"), Ok(1));
        assert_eq!(names.group("feed mill, 1,farm,0"), Ok(0b1011));
        assert_eq!(names.group("15"), Ok(0x8000));
        for wrong in ["16", "4294967296", "01", "+1", "buyer", "0,", ",", "0,,1", " ", "Farm"] {
            assert!(names.group(wrong).is_err(), "{wrong}");
        }
    }

    #[test]
    fn a_label_is_a_name_or_a_number() {
        let names = names("P 0 farm\nL 1 farm~only\nL 3 -\n");
        for (given, label) in
            [("0", 0), ("farm only", 1), ("-", 3), ("32", 32), ("4294967295", 0xffff_ffff)]
        {
            assert_eq!(names.label_of(given), Ok(label));
        }
        for wrong in ["", "farm", "Farm only", "01", "+1", "4294967296", "0,1"] {
            assert!(names.label_of(wrong).is_err(), "{wrong}");
        }
    }

    /// The file may have names of another kind, or there may be none.
    #[test]
    fn a_kind_without_names() {
        let label = "`farm only` is no label's number, and no names of labels are given (`L` \
                     lines of --names FILE)";
        for text in ["", "P 0 farm~only\n", "X 0 farm~only\n"] {
            assert_eq!(names(text).label_of("farm only"), Err(label.to_string()), "{text}");
        }
        let principal = "`farm` is no principal's number, and no names of principals are given \
                         (`P` lines of --names FILE)";
        for text in ["", "L 0 farm\n", "X 0 farm\n"] {
            assert_eq!(names(text).group("0,farm"), Err(principal.to_string()), "{text}");
        }
    }
}
