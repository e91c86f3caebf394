//! Labels that don't fit: both in words, and what flowed where.

use super::{told, Told};
use crate::words::{Right, Words, NOBODY};
use reference::flow::{Endorsement, Into, NoFlow, Origin, Source, Through};
use reference::label::Label;
use reference::sheet::LocationId;

pub fn told_of(words: &Words, fault: &NoFlow) -> Told {
    let target = match fault.into {
        Into::Location(location) => words.sheet.label_at(location),
        Into::Package(label) | Into::Opened(label) => &words.sheet.labels[label],
    };
    let (right, owner) = broken(&fault.source.label, target);
    let flow = Flow { words, fault, right, target, source: &fault.source.label };
    if flow.shows() {
        told(flow.fact(), flow.advice(None), flow.rule(""))
    } else {
        let owner_name = words.principal(owner);
        told(flow.fact_of(owner), flow.advice(Some(&owner_name)), flow.rule("for each owner: "))
    }
}

/// Of an unpack by which an accepted script isn't trust-keeping: its operand's readers fit, and its
/// writers don't.
pub fn told_of_unpack(words: &Words, unpack: &Endorsement) -> Told {
    let Endorsement { line, wanted, source } = unpack.clone();
    let into = Into::Opened(wanted);
    told_of(words, &NoFlow { line, into, source, through: Through::Value })
}

/// What breaks the order, and an owner for whom it does: readers of the target that the source
/// doesn't have, else writers of the source that the target doesn't have.
fn broken(source: &Label, target: &Label) -> (Right, usize) {
    let mut owners = 0..source.principals();
    let reads = |&owner: &usize| !source.readers(owner).contains(target.readers(owner));
    if let Some(owner) = owners.clone().find(reads) {
        return (Right::Read, owner);
    }
    let writes = |&owner: &usize| !target.writers(owner).contains(source.writers(owner));
    (Right::Write, owners.find(writes).expect("some condition is broken"))
}

/// A flow from the source's label to the target's, and the right by which it is refused.
struct Flow<'a> {
    words: &'a Words<'a>,
    fault: &'a NoFlow,
    right: Right,
    target: &'a Label,
    source: &'a Label,
}

impl Flow<'_> {
    /// Whether the labels as a whole show what is broken: some group may read the target and not the
    /// source, or may have written the source and not the target. It is the one outside of a set
    /// that all others reach beyond.
    fn shows(&self) -> bool {
        let (within, beyond) = match self.right {
            Right::Read => (self.source, self.target),
            Right::Write => (self.target, self.source),
        };
        let [sets, beyond] = [within, beyond].map(|label| self.words.sets(self.right, label));
        sets.iter().any(|set| beyond.iter().all(|other| !set.contains(*other)))
    }

    /// By the labels as a whole.
    fn fact(&self) -> String {
        let (may, done) = match self.right {
            Right::Read => ("may be read", "may read"),
            Right::Write => ("may have been written", "may have written"),
        };
        let [target, source] =
            [self.target, self.source].map(|label| self.words.who(self.right, label));
        let by = match target.strip_prefix("only ") {
            None => format!("by {target}"),
            Some(few) => format!("only by {few}"),
        };
        format!("{} {may} {by}, but {}, which {source} {done}", self.what(), self.comes())
    }

    /// By the policies of an owner.
    fn fact_of(&self, owner: usize) -> String {
        let done = match self.right {
            Right::Read => "read",
            Right::Write => "have written",
        };
        let name = self.words.principal(owner);
        let whom = |label| self.words.only(self.right.set(label, owner));
        format!(
            "owner {name} lets {} {done} {}, but {}, which owner {name} lets {} {done}",
            whom(self.target),
            self.what(),
            self.comes(),
            whom(self.source)
        )
    }

    /// What the flow goes into.
    fn what(&self) -> String {
        match self.fault.into {
            Into::Location(location) => self.words.location(location),
            Into::Package(label) => format!("a package of {}", self.words.label(label)),
            Into::Opened(label) => format!("what is opened as {}", self.words.label(label)),
        }
    }

    /// What flows there, and from where.
    fn comes(&self) -> String {
        let origin = self.origin();
        match (self.fault.through, self.fault.into) {
            (Through::Guard(line), _) => {
                format!("whether this line is reached is decided in line {line} by {origin}")
            }
            (Through::Start, _) => {
                let link = match self.right {
                    Right::Read => "it would tell that the script was run",
                    Right::Write => "whoever had the script run would have written it",
                };
                format!("{link}, and the script starts at {origin}")
            }
            (_, Into::Location(_)) => format!("the value comes from {origin}"),
            (_, Into::Package(_)) => format!("what is packed comes from {origin}"),
            (_, Into::Opened(_)) => format!("the package comes from {origin}"),
        }
    }

    /// Where the source stands.
    fn origin(&self) -> String {
        let Source { line, origin, bound_in, .. } = &self.fault.source;
        let bound = bound_in.map(|case| format!("bound by the `c` in line {case}"));
        let made = match origin {
            Origin::Location(location) => {
                let note = bound.map_or(String::new(), |bound| format!(", {bound}"));
                return noted(self.words.location(*location), &format!("line {line}{note}"));
            }
            Origin::Packed(label) => {
                format!("the package of {} made in line {line}", self.words.label(*label))
            }
            Origin::Opened(label) => {
                format!("what is opened as {} in line {line}", self.words.label(*label))
            }
            Origin::Start(label) => {
                return noted(self.words.label(*label), &format!("`b` in line {line}"));
            }
        };
        bound.map_or(made.clone(), |bound| format!("{made} ({bound})"))
    }

    fn advice(&self, owner: Option<&str>) -> String {
        if let Through::Guard(_) = self.fault.through {
            let to = match self.right {
                Right::Read => "whose readers may all read what decides",
                Right::Write => "that whoever may have written what decides may have written",
            };
            return format!("move it out of the `c` or `w`, or assign to a location {to}");
        }
        if let (Through::Start, Into::Location(assigned)) = (self.fault.through, self.fault.into) {
            return self.advice_on_start(assigned, owner);
        }
        let location = self.other_location(owner);
        let label = match (self.right, owner) {
            (Right::Read, None) => format!("that lets {} read", self.others()),
            (Right::Write, None) => "whose writers include them".to_string(),
            (Right::Read, Some(owner)) => format!("on which owner {owner} lets no one else read"),
            (Right::Write, Some(owner)) => {
                format!("on which owner {owner} lets them have written too")
            }
        };
        match (self.fault.into, self.right) {
            (Into::Location(_), Right::Read) => {
                format!("assign to a location {location}, or pack it by `k` into one of type 4")
            }
            (Into::Location(_), Right::Write) => format!("assign to a location {location}"),
            (Into::Package(_), _) => format!("pack with a label {label}"),
            (Into::Opened(_), Right::Read) => format!("open with a label {label}"),
            (Into::Opened(_), Right::Write) => {
                format!("open with a label {label}, or {}", self.other_package(owner))
            }
        }
    }

    /// Which other package may be opened as the same label.
    fn other_package(&self, owner: Option<&str>) -> String {
        let (taken, on) = match self.fault.source.origin {
            Origin::Packed(_) => ("pack it with a label", "on which"),
            Origin::Opened(_) => ("open what it comes from with a label", "on which"),
            Origin::Location(_) | Origin::Start(_) => {
                ("take the package from a location", "on whose label")
            }
        };
        match owner {
            None => {
                format!("{taken} that {} may have written", self.words.who(self.right, self.target))
            }
            Some(name) => format!("{taken} {on} owner {name} lets no one else have written"),
        }
    }

    /// The location's own label would do, where its readers may know of the run, or where its
    /// writers alone have the script run.
    fn advice_on_start(&self, assigned: LocationId, owner: Option<&str>) -> String {
        let own = self.words.label(self.words.sheet.locations[assigned].label);
        let may = match self.right {
            Right::Read => "its readers may know that the script is run",
            Right::Write => "no one but its writers has the script run",
        };
        let location = self.other_location(owner);
        format!("assign to a location {location}, or start at the location's own {own} if {may}")
    }

    /// Which other location may be assigned to.
    fn other_location(&self, owner: Option<&str>) -> String {
        match (self.right, owner) {
            (Right::Read, None) => format!("that {} may read", self.others()),
            (Right::Write, None) => "that they may have written too".to_string(),
            (Right::Read, Some(owner)) => {
                format!("on whose label owner {owner} lets no one else read")
            }
            (Right::Write, Some(owner)) => {
                format!("on whose label owner {owner} lets them have written too")
            }
        }
    }

    /// Whom a target may not let read, beside the source's readers.
    fn others(&self) -> &'static str {
        match self.words.who(Right::Read, self.source) == NOBODY {
            true => NOBODY,
            false => "no one else",
        }
    }

    fn rule(&self, each: &str) -> String {
        let rule = match (self.fault.into, self.right) {
            (Into::Location(_), Right::Read) if self.fault.through == Through::Start => {
                "who may read a location may read the label that a script assigning to it starts at"
            }
            (Into::Location(_), Right::Write) if self.fault.through == Through::Start => {
                "who may have written the label that a script starts at may have written each \
                 location that it assigns to"
            }
            (Into::Location(_), Right::Read) => {
                "who may read a location may read all that is assigned to it or decides whether"
            }
            (Into::Location(_), Right::Write) => {
                "who may have written what is assigned, or decides whether, may have written the location"
            }
            (Into::Package(_), Right::Read) => "who may read a package may read what is packed",
            (Into::Package(_), Right::Write) => {
                "who may have written what is packed may have written the package"
            }
            (Into::Opened(_), Right::Read) => {
                "who may read what is opened may read what the package comes from"
            }
            (Into::Opened(_), Right::Write) => {
                "who may have written what a package comes from may have written what is opened, \
                 or what they put there would pass for another's"
            }
        };
        format!("{each}{rule}")
    }
}

/// A note in parentheses, in those of the name where there is one.
fn noted(what: String, note: &str) -> String {
    match what.strip_suffix(')') {
        None => format!("{what} ({note})"),
        Some(open) => format!("{open}, {note})"),
    }
}

#[cfg(test)]
mod tests {
    use super::{broken, told_of, told_of_unpack, Flow};
    use crate::names::Names;
    use crate::words::{Right, Words};
    use reference::calls::read_sheet;
    use reference::flow::{Endorsement, Into, NoFlow, Origin, Source, Through};
    use reference::principals::Principals;
    use reference::sheet::Sheet;

    /// The line of a sheet by which one reader must read by himself, or none.
    const RULES: [&str; 2] = ["", "R\t1\n"];

    /// A sheet of three principals with two labels, each owner's sets taken from the bits of a seed.
    fn sheet(rule: &str, seed: u32) -> Option<Sheet> {
        let label = |seed: u32| -> String {
            let policy = |owner: u32| {
                let bits = seed >> (6 * owner);
                format!("O\t{owner}\t{:04x}\t{:04x}\n", bits & 7, bits >> 3 & 7)
            };
            format!("L\n{}", (0..3).map(policy).collect::<String>())
        };
        let (first, second) = (label(seed), label(seed.wrapping_mul(0x9e37_79b1) >> 7));
        read_sheet(format!("P\t3\n{rule}{first}{second}X\t0\t0\nX\t0\t1\n").as_bytes()).ok()
    }

    /// From label 0, which a location has or the script starts at, to location 1.
    fn flow_of(sheet: &Sheet, through: Through) -> NoFlow {
        let origin = match through {
            Through::Start => Origin::Start(0),
            _ => Origin::Location(0),
        };
        let source = Source { line: 2, origin, label: sheet.labels[0].clone(), bound_in: None };
        NoFlow { line: 3, into: Into::Location(1), source, through }
    }

    /// Whether some group may read the second label and not the first; or, of writing, the other way
    /// round.
    fn some_group_shows(sheet: &Sheet, right: Right) -> bool {
        let may = |label: usize, group: Principals| match right {
            Right::Read => sheet.reads(group, label),
            Right::Write => sheet.labels[label].written_by(group),
        };
        let (more, less) = if right == Right::Read { (1, 0) } else { (0, 1) };
        (0..8).map(Principals::from_bits).any(|group| may(more, group) && !may(less, group))
    }

    /// The labels as a whole are told where a group shows what is broken, else an owner's policies,
    /// and what is told is so, by either rule of reading.
    #[test]
    fn what_is_told_of_two_labels_is_so() {
        for rule in RULES {
            let (whole, by_owner) = told_of_two_labels(rule);
            assert!(whole > 1000 && by_owner > 1000, "{whole} whole, {by_owner} by an owner");
        }
    }

    /// How often the labels as a whole are told, and how often an owner's policies.
    fn told_of_two_labels(rule: &str) -> (usize, usize) {
        let names = Names::default();
        let (mut whole, mut by_owner) = (0, 0);
        for seed in (0..60_000_000).step_by(997) {
            let Some(sheet) = sheet(rule, seed) else {
                continue;
            };
            let [source, target] = &sheet.labels[..] else { unreachable!("two labels") };
            if source.at_or_below(target) {
                continue;
            }
            let words = Words { sheet: &sheet, names: &names };
            let through = [Through::Value, Through::Start][seed as usize % 2];
            let fault = flow_of(&sheet, through);
            let (right, owner) = broken(source, target);
            let flow = Flow { words: &words, fault: &fault, right, target, source };
            assert_eq!(flow.shows(), some_group_shows(&sheet, right), "{seed}");
            let fact = told_of(&words, &fault).fact;
            let (start, end) = if flow.shows() {
                whole += 1;
                (
                    format!("location 1 {} {}, but", may(right), by(&words.who(right, target))),
                    format!(", which {} {}", words.who(right, source), done(right)),
                )
            } else {
                by_owner += 1;
                let whom = |label| words.only(right.set(label, owner));
                assert_ne!(whom(source), whom(target), "{fact}");
                (
                    format!("owner {owner} lets {} ", whom(target)),
                    format!(", which owner {owner} lets {} {}", whom(source), plain(right)),
                )
            };
            assert!(fact.starts_with(&start) && fact.ends_with(&end), "{fact}");
        }
        (whole, by_owner)
    }

    /// The same of an unpack whose readers fit and whose writers don't.
    #[test]
    fn what_is_told_of_an_unpack_is_so() {
        let names = Names::default();
        let (mut whole, mut by_owner) = (0, 0);
        let of_seed = |seed: u32| sheet(RULES[seed as usize % 2], seed);
        for sheet in (0..60_000_000).step_by(997).filter_map(of_seed) {
            let [source, target] = &sheet.labels[..] else { unreachable!("two labels") };
            let reads = source.confidentiality().at_or_below(&target.confidentiality());
            if !reads || source.at_or_below(target) {
                continue;
            }
            let words = Words { sheet: &sheet, names: &names };
            let source = flow_of(&sheet, Through::Value).source;
            let told = told_of_unpack(&words, &Endorsement { line: 3, wanted: 1, source });
            assert!(told.fact.contains(", but the package comes from location 0 (line 2), which "));
            let target = words.who(Right::Write, target);
            let location = "or take the package from a location";
            let (start, end) = if some_group_shows(&sheet, Right::Write) {
                whole += 1;
                let by = by(&target);
                (
                    format!("what is opened as label 1 may have been written {by}, but"),
                    format!("{location} that {target} may have written"),
                )
            } else {
                by_owner += 1;
                let owner = &told.fact[..told.fact.find(" lets").expect("an owner")];
                (
                    format!("{owner} lets "),
                    format!("{location} on whose label {owner} lets no one else have written"),
                )
            };
            assert!(told.fact.starts_with(&start) && told.advice.ends_with(&end), "{}", told.fact);
        }
        assert!(whole > 100 && by_owner > 10, "{whole} whole, {by_owner} by an owner");
    }

    fn may(right: Right) -> &'static str {
        if right == Right::Read {
            "may be read"
        } else {
            "may have been written"
        }
    }

    fn by(who: &str) -> String {
        match who {
            "everyone" => "by everyone".to_string(),
            few => few.replacen("only ", "only by ", 1),
        }
    }

    fn done(right: Right) -> &'static str {
        if right == Right::Read {
            "may read"
        } else {
            "may have written"
        }
    }

    fn plain(right: Right) -> &'static str {
        if right == Right::Read {
            "read"
        } else {
            "have written"
        }
    }
}
