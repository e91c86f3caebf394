//! The label conditions, by the least label of each expression, after "Typing".

use crate::label::Label;
use crate::script::{Command, Expression, Phrase, Script, Start, Term};
use crate::sheet::{LabelId, LocationId, Sheet};

/// Why a label condition fails: the line, what the flow goes into, and a part of what flows there
/// whose label isn't at or below the one that is asked.
#[derive(Clone, Debug, PartialEq, Eq)]
pub struct NoFlow {
    pub line: usize,
    pub into: Into,
    pub source: Source,
    pub through: Through,
}

/// What a flow goes into.
#[derive(Clone, Copy, Debug, PartialEq, Eq)]
pub enum Into {
    /// A location.
    Location(LocationId),
    /// A package of this label.
    Package(LabelId),
    /// What is opened as this label, whose readers alone count.
    Opened(LabelId),
}

/// How what flows gets there.
#[derive(Clone, Copy, Debug, PartialEq, Eq)]
pub enum Through {
    /// As the value.
    Value,
    /// The `w` or `c` in this line decides whether the line is reached.
    Guard(usize),
    /// By the run itself: the script starts at the source, which is its `b` line's label.
    Start,
}

/// What has a label of its own: a part of an expression, or the start of a script. The least label
/// of an expression is the join of its sources' labels. An integer's is bottom, which every label
/// is above.
#[derive(Clone, Debug, PartialEq, Eq)]
pub struct Source {
    pub line: usize,
    pub origin: Origin,
    pub label: Label,
    /// The line of the `c` in whose expression it stands, if the value comes by a binding.
    pub bound_in: Option<usize>,
}

#[derive(Clone, Copy, Debug, PartialEq, Eq)]
pub enum Origin {
    Location(LocationId),
    Packed(LabelId),
    Opened(LabelId),
    /// The `b` line of the script.
    Start(LabelId),
}

/// An unpack by which a script isn't trust-keeping: it wants a label that its operand's least label
/// isn't at or below. In an accepted script that is by the writers, since the readers pass.
#[derive(Clone, Debug, PartialEq, Eq)]
pub struct Endorsement {
    pub line: usize,
    pub wanted: LabelId,
    /// A part of the operand whose label isn't at or below the wanted one.
    pub source: Source,
}

impl Source {
    fn is_at(&self, other: &Source) -> bool {
        (self.line, self.bound_in) == (other.line, other.bound_in)
    }
}

/// The least label of an expression, and where it comes from.
#[derive(Clone, Debug)]
struct Least {
    label: Label,
    sources: Vec<Source>,
}

impl Least {
    fn bottom(sheet: &Sheet) -> Least {
        Least { label: Label::bottom(sheet.principals), sources: Vec::new() }
    }

    fn of(line: usize, origin: Origin, label: Label) -> Least {
        let source = Source { line, origin, label: label.clone(), bound_in: None };
        Least { label, sources: vec![source] }
    }

    /// Each source once, so that there are no more of them than places in the script.
    fn join(mut self, other: Least) -> Least {
        for source in other.sources {
            if !self.sources.iter().any(|known| known.is_at(&source)) {
                self.sources.push(source);
            }
        }
        Least { label: self.label.join(&other.label), sources: self.sources }
    }

    /// The same as the value that the `c` in this line binds.
    fn bound_in(mut self, line: usize) -> Least {
        for source in &mut self.sources {
            source.bound_in.get_or_insert(line);
        }
        self
    }

    /// A source whose label fails the condition that the join fails.
    fn culprit(&self, passes: impl Fn(&Label) -> bool) -> Source {
        let culprit = self.sources.iter().find(|source| !passes(&source.label));
        culprit.expect("a join is at or below a label if all that is joined is").clone()
    }
}

/// What surrounds a command: the join of the starting label and the guards that it stands in, and
/// each with its line.
struct Surrounding<'a> {
    label: Label,
    start: Option<Start>,
    /// The innermost guard, and what surrounds that.
    guard: Option<Guard<'a>>,
}

struct Guard<'a> {
    line: usize,
    least: &'a Least,
    outside: &'a Surrounding<'a>,
}

impl<'a> Surrounding<'a> {
    fn within(&'a self, line: usize, least: &'a Least) -> Surrounding<'a> {
        let guard = Guard { line, least, outside: self };
        let label = self.label.join(&least.label);
        Surrounding { label, start: self.start, guard: Some(guard) }
    }

    /// The outermost guard whose label fails the condition that the join fails. Where none does,
    /// the starting label fails it.
    fn culprit(&self, passes: impl Fn(&Label) -> bool) -> Option<&Guard<'a>> {
        let mut found = None;
        let mut next = self.guard.as_ref();
        while let Some(guard) = next {
            found = if passes(&guard.least.label) { found } else { Some(guard) };
            next = guard.outside.guard.as_ref();
        }
        found
    }

    /// The `b` line as what flows.
    fn started(&self, sheet: &Sheet) -> Source {
        let Start { line, label } = self.start.expect("bottom is at or below every label");
        let origin = Origin::Start(label);
        Source { line, origin, label: sheet.labels[label].clone(), bound_in: None }
    }
}

/// Whether the least labels of a script pass.
pub fn check(sheet: &Sheet, script: &Script) -> Result<(), NoFlow> {
    endorsements(sheet, script).map(|_| ())
}

/// Whether the least labels of a script pass, and then the unpacks by which it isn't trust-keeping,
/// in the order of their lines.
pub fn endorsements(sheet: &Sheet, script: &Script) -> Result<Vec<Endorsement>, NoFlow> {
    let Script { opening, command } = script;
    let label = opening.starting_label(sheet);
    let surrounding = Surrounding { label, start: opening.start, guard: None };
    let mut pass = Pass { sheet, bound: Vec::new(), endorsements: Vec::new() };
    pass.command(&surrounding, command)?;
    pass.endorsements.sort_by_key(|endorsement| endorsement.line);
    Ok(pass.endorsements)
}

/// A pass over a script.
struct Pass<'a> {
    sheet: &'a Sheet,
    /// The least labels of the bound values, the innermost last.
    bound: Vec<Least>,
    /// Those met so far.
    endorsements: Vec<Endorsement>,
}

impl Pass<'_> {
    fn command(&mut self, surrounding: &Surrounding, c: &Command) -> Result<(), NoFlow> {
        match &c.phrase {
            Phrase::Skip => Ok(()),
            Phrase::Seq(first, second) => {
                self.command(surrounding, first)?;
                self.command(surrounding, second)
            }
            Phrase::Assign(location, e) => {
                let least = self.expression(e)?;
                assign(self.sheet, surrounding, c.line, *location, &least)
            }
            Phrase::While(guard, body) => {
                let least = self.expression(guard)?;
                self.command(&surrounding.within(c.line, &least), body)
            }
            Phrase::Case(e, on_left, on_right) => {
                let least = self.expression(e)?;
                let inside = surrounding.within(c.line, &least);
                self.bound.push(least.clone().bound_in(c.line));
                self.command(&inside, on_left)?;
                self.command(&inside, on_right)?;
                self.bound.pop();
                Ok(())
            }
        }
    }

    /// The least label of an expression.
    fn expression(&mut self, e: &Expression) -> Result<Least, NoFlow> {
        match &e.term {
            Term::Integer(_) => Ok(Least::bottom(self.sheet)),
            Term::Location(location) => {
                let label = self.sheet.label_at(*location).clone();
                Ok(Least::of(e.line, Origin::Location(*location), label))
            }
            Term::Bound(d) => Ok(self.bound[self.bound.len() - 1 - d].clone()),
            Term::Plus(e1, e2) | Term::Pair(_, e1, e2) => {
                let least = self.expression(e1)?;
                Ok(least.join(self.expression(e2)?))
            }
            Term::Left(_, e) | Term::Right(_, e) => self.expression(e),
            // a part has the label of the whole pair
            Term::First(e) | Term::Second(e) => self.expression(e),
            Term::Pack(label, operand) => {
                let packed = &self.sheet.labels[*label];
                let least = self.expression(operand)?;
                require(e.line, Into::Package(*label), &least, |label| label.at_or_below(packed))?;
                Ok(Least::of(e.line, Origin::Packed(*label), packed.integrity()))
            }
            Term::Unpack(_, label, operand) => {
                let least = self.expression(operand)?;
                self.unpack(e.line, *label, &least)
            }
            Term::Value(_) => unreachable!("no script has a value"),
        }
    }

    /// An unpack asks for the readers alone; where the writers don't pass, it endorses its operand.
    fn unpack(&mut self, line: usize, wanted: LabelId, operand: &Least) -> Result<Least, NoFlow> {
        let label = &self.sheet.labels[wanted];
        let reads = |source: &Label| source.confidentiality().at_or_below(&label.confidentiality());
        require(line, Into::Opened(wanted), operand, reads)?;
        let keeps = |source: &Label| source.at_or_below(label);
        if !keeps(&operand.label) {
            let source = operand.culprit(keeps);
            self.endorsements.push(Endorsement { line, wanted, source });
        }
        Ok(Least::of(line, Origin::Opened(wanted), label.clone()))
    }
}

/// The expression and the surrounding label are both at or below the location's.
fn assign(
    sheet: &Sheet,
    surrounding: &Surrounding,
    line: usize,
    location: LocationId,
    least: &Least,
) -> Result<(), NoFlow> {
    let passes = |label: &Label| label.at_or_below(sheet.label_at(location));
    let into = Into::Location(location);
    if !passes(&least.label) {
        let source = least.culprit(passes);
        return Err(NoFlow { line, into, source, through: Through::Value });
    }
    if passes(&surrounding.label) {
        return Ok(());
    }
    let (source, through) = match surrounding.culprit(passes) {
        Some(guard) => (guard.least.culprit(passes), Through::Guard(guard.line)),
        None => (surrounding.started(sheet), Through::Start),
    };
    Err(NoFlow { line, into, source, through })
}

fn require(
    line: usize,
    into: Into,
    least: &Least,
    passes: impl Fn(&Label) -> bool,
) -> Result<(), NoFlow> {
    if passes(&least.label) {
        return Ok(());
    }
    Err(NoFlow { line, into, source: least.culprit(passes), through: Through::Value })
}

#[cfg(test)]
mod tests {
    use super::{check, endorsements, Endorsement, Into, NoFlow, Origin, Source, Through};
    use crate::script::Script;
    use crate::sheet::Sheet;
    use crate::{script_text, sheet_text};

    /// Location 0 has label 0, locations 1 and 2 label 1, which is above it and alike but for one
    /// reader. Location 1 is an integer and location 2 a choice.
    const SHEET: &[u8] = b"P\t2\nL\nL\nO\t0\t0000\t0003\nX\t0\t0\nX\t0\t1\nX\t3\t1\n";

    /// The sheet of a text, and the script on it, written with blanks and commas.
    fn read(sheet: &[u8], script: &str) -> (Sheet, Script) {
        let sheet = sheet_text::parse(sheet).expect("a sheet");
        let text = script.replace(' ', "\t").replace(',', "\n") + "\n";
        let script = script_text::parse(&sheet, text.as_bytes()).expect("a script");
        (sheet, script)
    }

    fn refused(script: &str) -> Option<NoFlow> {
        let (sheet, script) = read(SHEET, script);
        check(&sheet, &script).err()
    }

    #[test]
    fn a_start_is_blamed_with_its_line_and_label() {
        let label = sheet_text::parse(SHEET).expect("a sheet").labels[1].clone();
        let source = Source { line: 1, origin: Origin::Start(1), label, bound_in: None };
        let (into, through) = (Into::Location(0), Through::Start);
        let expected = |line| Some(NoFlow { line, into, source: source.clone(), through });
        assert_eq!(refused("b 1,= 0,i 1"), expected(2));
        assert_eq!(refused("b 1,;,s,;,= 0,i 1,s"), expected(5));
        assert_eq!(refused("b 1,;,= 1,x 1,w,l 3,x 0,= 0,i 1"), expected(8));
        for accepted in ["b 1,= 1,i 1", "b 0,= 0,i 1", "= 0,i 1", "b 1,w,x 2,s"] {
            assert_eq!(refused(accepted), None, "{accepted}");
        }
    }

    #[test]
    fn values_are_blamed_before_guards_and_guards_before_the_start() {
        let blamed = |script| refused(script).map(|fault| (fault.line, fault.through));
        assert_eq!(blamed("b 1,w,x 2,= 0,x 1"), Some((4, Through::Value)));
        assert_eq!(blamed("b 1,w,x 2,= 0,x 0"), Some((4, Through::Guard(2))));
        assert_eq!(blamed("b 1,w,l 3,x 0,w,x 2,= 0,i 1"), Some((7, Through::Guard(5))));
        assert_eq!(blamed("b 1,c,x 2,s,w,x 2,= 0,i 1"), Some((7, Through::Guard(2))));
        assert_eq!(blamed("b 0,w,x 2,= 0,i 1"), Some((4, Through::Guard(2))));
        assert_eq!(blamed("b 1,w,l 3,x 0,= 0,i 1"), Some((5, Through::Start)));
    }

    #[test]
    fn a_part_of_a_pair_is_blamed_for_the_whole() {
        let sheet = b"P\t2\nQ\t0\t0\nL\nL\nO\t0\t0000\t0003\nX\t0\t0\nX\t0\t1\n";
        for (script, line) in [("= 0,f,p 5,x 0,x 1", 5), ("= 0,g,p 5,x 1,x 0", 4)] {
            let (sheet, script) = read(sheet, script);
            let fault = check(&sheet, &script).expect_err("a secret part");
            assert_eq!((fault.line, fault.into), (1, Into::Location(0)));
            assert_eq!((fault.source.line, fault.source.origin), (line, Origin::Location(1)));
        }
    }

    /// Label 0 lets all read and write, and nothing but readers sets 1 apart from it. Owner 0 lets
    /// itself alone write label 2. Locations 0, 1 and 2 hold packages under these labels, 3 and 4
    /// unpacked integers under 0 and 2, and 5 a pkg+error under 0. Type 6 is a pair of type 5 twice.
    const PACKAGES: &[u8] = b"P\t2\nT\t0\t1\nQ\t5\t5\n\
        L\nL\nO\t0\t0000\t0003\nL\nO\t0\t0003\t0000\n\
        X\t2\t0\nX\t2\t1\nX\t2\t2\nX\t5\t0\nX\t5\t2\nX\t4\t0\n";

    /// The line of each endorsement with its wanted label, and where its source stands.
    fn endorsed(script: &str) -> Vec<(usize, usize, Origin, usize, Option<usize>)> {
        let (sheet, script) = read(PACKAGES, script);
        let endorsements = endorsements(&sheet, &script).expect("accepted");
        let places = endorsements.into_iter().map(|endorsement| {
            let Endorsement { line, wanted, source } = endorsement;
            (line, wanted, source.origin, source.line, source.bound_in)
        });
        places.collect()
    }

    #[test]
    fn an_unpack_endorses_where_the_writers_of_its_operand_do_not_pass() {
        let opened = [(2, 2, Origin::Location(0), 3, None)];
        assert_eq!(endorsed("= 4,u 5 2,x 0"), opened);
        for keeping in ["s", "= 3,u 5 0,x 0", "= 3,u 5 0,x 2", "= 4,u 5 2,x 2"] {
            assert_eq!(endorsed(keeping), [], "{keeping}");
        }
        let (sheet, script) = read(PACKAGES, "= 4,u 5 2,x 1");
        let refused = check(&sheet, &script).expect_err("readers don't pass");
        assert_eq!((refused.line, refused.into), (2, Into::Opened(2)));
    }

    #[test]
    fn every_endorsement_is_told_with_its_source_in_the_order_of_lines() {
        let bad = |line| (line, 2, Origin::Location(0), line + 1, None);
        let three = ";,= 4,u 5 2,x 0,;,= 4,u 5 2,x 2,c,u 5 2,x 0,s,= 4,u 5 2,x 0";
        assert_eq!(endorsed(three), [bad(3), bad(10), bad(14)]);
        let bound = (4, 2, Origin::Location(5), 2, Some(1));
        assert_eq!(endorsed("c,x 5,= 3,u 5 2,v 0,s"), [bound]);
        let packed = (5, 2, Origin::Packed(0), 2, Some(1));
        assert_eq!(endorsed("c,k 0,i 7,= 3,u 5 2,v 0,s"), [packed]);
        assert_eq!(endorsed("c,x 5,s,c,k 0,u 5 2,x 0,s,s"), [bad(6)]);
        assert_eq!(endorsed("w,l 3,i 1,= 3,u 5 2,x 0"), [bad(5)]);
        let paired = "= 3,f,p 6,u 5 0,x 2,g,p 6,u 5 2,x 0,u 5 2,x 0";
        assert_eq!(endorsed(paired), [bad(8), bad(10)]);
    }
}
