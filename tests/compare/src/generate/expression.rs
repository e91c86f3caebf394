//! Expressions of a wanted type, at or below a wanted label.

use super::prng::Prng;
use reference::label::Label;
use reference::sheet::Sheet;
use reference::types::{TypeId, ERROR, INT, PACKAGE, PACKED};

/// The writer of one script: the lines so far and what is bound where it stands.
pub struct Writer<'a> {
    pub prng: &'a mut Prng,
    pub sheet: &'a Sheet,
    pub lines: Vec<String>,
    /// The types and labels of the bound values, the innermost last.
    pub bound: Vec<(TypeId, Label)>,
    /// The location that the expression is assigned to, which it mostly doesn't read alone.
    pub target: Option<usize>,
    /// How often in a hundred a type is chosen wrongly.
    pub wrong_types: usize,
    /// How often in a hundred a label condition is passed over.
    pub wrong_labels: usize,
    /// What an unpack may have for an operand.
    pub operands: Operands,
    /// Expressions that may still be tried, which keeps the search for one short.
    pub tries: usize,
}

/// Operands that an unpack may have beside what the check asks: any, those by which it is
/// trust-keeping, or those by which it isn't.
#[derive(Clone, Copy, PartialEq, Eq)]
pub enum Operands {
    Any,
    Kept,
    Endorsed,
}

#[derive(Clone, Copy)]
enum Form {
    Integer,
    Location,
    Bound,
    Plus,
    Left,
    Right,
    Pack,
    Unpack,
    Pair,
    First,
    Second,
}

impl<'a> Writer<'a> {
    /// The writer of a script in which nothing is to be wrong.
    pub fn new(prng: &'a mut Prng, sheet: &'a Sheet) -> Writer<'a> {
        Writer {
            prng,
            sheet,
            lines: Vec::new(),
            bound: Vec::new(),
            target: None,
            wrong_types: 0,
            wrong_labels: 0,
            operands: Operands::Any,
            tries: 0,
        }
    }
}

impl Writer<'_> {
    /// Writes an expression and gives its least label, or writes nothing where none is found.
    /// Without a limit any label will do.
    pub fn expression(&mut self, ty: TypeId, limit: Option<&Label>, fuel: usize) -> Option<Label> {
        self.tries = self.tries.checked_sub(1)?;
        let wrong = self.prng.chance(self.wrong_types);
        let ty = if wrong { self.other_type() } else { ty };
        let mut forms = self.forms(ty, fuel);
        self.prng.shuffle(&mut forms);
        let start = self.lines.len();
        for form in forms {
            if let Some(label) = self.form(form, ty, limit, fuel.saturating_sub(1)) {
                return Some(label);
            }
            self.lines.truncate(start);
        }
        None
    }

    /// A type to be wrong with.
    fn other_type(&mut self) -> TypeId {
        let any = self.prng.below(self.sheet.types.len());
        if self.prng.chance(50) {
            self.pair_with(|_| true).unwrap_or(any)
        } else {
            any
        }
    }

    /// The forms that can have a type, and where types may be wrong others too.
    fn forms(&mut self, ty: TypeId, fuel: usize) -> Vec<Form> {
        let mut forms = vec![Form::Location, Form::Location, Form::Bound, Form::Bound];
        if ty == INT {
            forms.push(Form::Integer);
        }
        if ty == INT && fuel > 1 {
            forms.push(Form::Plus);
        }
        let wrong = self.prng.chance(self.wrong_types);
        let parts = self.sheet.parts(ty);
        if wrong || parts.is_some() {
            forms.extend([Form::Left, Form::Right]);
        }
        if wrong || parts.is_some_and(|(_, right)| right == ERROR) {
            forms.extend([Form::Unpack, Form::Unpack]);
        }
        if ty == PACKED {
            forms.extend([Form::Pack, Form::Pack, Form::Pack]);
        }
        if fuel > 1 && (wrong || self.sheet.pair_parts(ty).is_some()) {
            forms.extend([Form::Pair, Form::Pair, Form::Pair]);
        }
        if fuel > 1 {
            forms.extend([Form::First, Form::Second]);
        }
        forms
    }

    fn form(
        &mut self,
        form: Form,
        ty: TypeId,
        limit: Option<&Label>,
        fuel: usize,
    ) -> Option<Label> {
        match form {
            Form::Integer => {
                let n = self.prng.integer();
                self.lines.push(format!("i\t{n}"));
                Some(Label::bottom(self.sheet.principals))
            }
            Form::Location => self.location(ty, |label| passes(label, limit)),
            Form::Bound => self.bound(ty, |label| passes(label, limit)),
            Form::Plus => {
                self.target = None;
                self.lines.push("+".to_string());
                let label = self.expression(INT, limit, fuel / 2)?;
                Some(label.join(&self.expression(INT, limit, fuel / 2)?))
            }
            Form::Left => {
                let (left, _) = self.sheet.parts(ty).unwrap_or((INT, INT));
                self.lines.push(format!("l\t{ty}"));
                self.expression(left, limit, fuel)
            }
            Form::Right => {
                let (_, right) = self.sheet.parts(ty).unwrap_or((INT, INT));
                self.lines.push(format!("r\t{ty}"));
                self.expression(right, limit, fuel)
            }
            Form::Pack => self.pack(limit, fuel),
            Form::Unpack => self.unpack(ty, limit),
            Form::Pair => {
                let (first, second) = self.sheet.pair_parts(ty).unwrap_or((INT, INT));
                self.target = None;
                self.lines.push(format!("p\t{ty}"));
                let label = self.expression(first, limit, fuel / 2)?;
                Some(label.join(&self.expression(second, limit, fuel / 2)?))
            }
            Form::First => self.part("f", |(first, _)| first == ty, limit, fuel),
            Form::Second => self.part("g", |(_, second)| second == ty, limit, fuel),
        }
    }

    /// A part of a pair with such parts; or of another type, where types may be wrong.
    fn part(
        &mut self,
        line: &str,
        fits: impl Fn((TypeId, TypeId)) -> bool,
        limit: Option<&Label>,
        fuel: usize,
    ) -> Option<Label> {
        let wrong = self.prng.chance(self.wrong_types);
        let whole = if wrong { self.sum() } else { self.pair_with(fits)? };
        self.target = None;
        self.lines.push(line.to_string());
        self.expression(whole, limit, fuel)
    }

    /// A pair type with such parts.
    pub fn pair_with(&mut self, fits: impl Fn((TypeId, TypeId)) -> bool) -> Option<TypeId> {
        let sheet = self.sheet;
        let fits = |&ty: &TypeId| sheet.pair_parts(ty).is_some_and(&fits);
        let pairs: Vec<TypeId> = (0..sheet.types.len()).filter(fits).collect();
        self.choose(&pairs)
    }

    fn location(&mut self, ty: TypeId, passes: impl Fn(&Label) -> bool) -> Option<Label> {
        let any_label = self.prng.chance(self.wrong_labels);
        let avoided = if self.prng.chance(90) { self.target } else { None };
        let fits = |&x: &usize| {
            let typed = self.sheet.locations[x].ty == ty && Some(x) != avoided;
            typed && (any_label || passes(self.sheet.label_at(x)))
        };
        let locations: Vec<usize> = (0..self.sheet.locations.len()).filter(fits).collect();
        let location = self.choose(&locations)?;
        self.lines.push(format!("x\t{location}"));
        Some(self.sheet.label_at(location).clone())
    }

    fn bound(&mut self, ty: TypeId, passes: impl Fn(&Label) -> bool) -> Option<Label> {
        let any_label = self.prng.chance(self.wrong_labels);
        let fits = |&i: &usize| self.bound[i].0 == ty && (any_label || passes(&self.bound[i].1));
        let places: Vec<usize> = (0..self.bound.len()).filter(fits).collect();
        let place = self.choose(&places)?;
        self.lines.push(format!("v\t{}", self.bound.len() - 1 - place));
        Some(self.bound[place].1.clone())
    }

    fn choose(&mut self, things: &[usize]) -> Option<usize> {
        if things.is_empty() {
            None
        } else {
            Some(self.prng.pick(things))
        }
    }

    /// A label of the sheet that passes.
    pub fn label(&mut self, passes: impl Fn(&Label) -> bool) -> Option<usize> {
        let any_label = self.prng.chance(self.wrong_labels);
        let fits = |&a: &usize| any_label || passes(&self.sheet.labels[a]);
        let labels: Vec<usize> = (0..self.sheet.labels.len()).filter(fits).collect();
        self.choose(&labels)
    }

    fn pack(&mut self, limit: Option<&Label>, fuel: usize) -> Option<Label> {
        let label = self.label(|label| passes(&label.integrity(), limit))?;
        let packed = self.sheet.labels[label].clone();
        let ty = match self.prng.below(5) {
            0 => PACKED,
            1 => self.prng.below(self.sheet.types.len()),
            2 => self.pair_with(|_| true).unwrap_or(INT),
            _ => INT,
        };
        self.target = None;
        self.lines.push(format!("k\t{label}"));
        self.expression(ty, Some(&packed), fuel)?;
        Some(packed.integrity())
    }

    pub fn unpack(&mut self, ty: TypeId, limit: Option<&Label>) -> Option<Label> {
        let label = self.label(|label| passes(label, limit))?;
        let wanted = self.sheet.labels[label].clone();
        let (confidential, operands) = (wanted.confidentiality(), self.operands);
        let passes = |operand: &Label| {
            let kept = operand.at_or_below(&wanted);
            let reads = operand.confidentiality().at_or_below(&confidential);
            match operands {
                Operands::Any => reads,
                Operands::Kept => kept,
                Operands::Endorsed => reads && !kept,
            }
        };
        self.lines.push(format!("u\t{ty}\t{label}"));
        let operand = if self.prng.chance(60) {
            self.bound(PACKAGE, passes).or_else(|| self.location(PACKAGE, passes))
        } else {
            self.location(PACKAGE, passes).or_else(|| self.bound(PACKAGE, passes))
        };
        operand.map(|_| wanted)
    }
}

fn passes(label: &Label, limit: Option<&Label>) -> bool {
    limit.is_none_or(|limit| label.at_or_below(limit))
}
