//! Scripts built along their types and labels.

use super::expression::Writer;
use super::prng::Prng;
use reference::label::Label;
use reference::sheet::{LabelId, Sheet};
use reference::types::{TypeId, CHOICE, PACKED};

/// What may go wrong in a script that is otherwise built to be accepted.
#[derive(Clone, Copy, PartialEq, Eq)]
pub enum Wrong {
    Nothing,
    Types,
    Labels,
}

pub(super) const MOST_CASES: usize = 8;
const TRIES: usize = 60;

/// The label that a script starts at, where it names one, and the lines of its command.
pub struct Script {
    pub start: Option<LabelId>,
    pub command: Vec<String>,
}

impl Script {
    /// The number of lines.
    pub fn length(&self) -> usize {
        self.command.len() + usize::from(self.start.is_some())
    }

    pub fn text(&self) -> Vec<u8> {
        let start = self.start.map(|label| format!("b\t{label}"));
        let lines = start.iter().chain(&self.command);
        lines.flat_map(|line| format!("{line}\n").into_bytes()).collect()
    }
}

/// A script whose command has about `size` lines. `starting` of a hundred name a starting label.
pub fn script(
    prng: &mut Prng,
    sheet: &Sheet,
    size: usize,
    wrong: Wrong,
    starting: usize,
) -> Script {
    let start = start(prng, sheet, starting);
    // so that often the start alone is wrong
    let unheeded = wrong == Wrong::Labels && start.is_some() && prng.chance(60);
    let surrounding = match start {
        Some(label) if !unheeded => sheet.labels[label].clone(),
        _ => Label::bottom(sheet.principals),
    };
    let wrong_labels = wrong == Wrong::Labels && !unheeded;
    let wrong_labels = if wrong_labels { prng.pick(&[5, 10, 20, 100]) } else { 0 };
    let wrong_types = if wrong == Wrong::Types { 10 } else { 0 };
    let mut writer = Writer { wrong_types, wrong_labels, ..Writer::new(prng, sheet) };
    writer.command(&surrounding, size);
    Script { start, command: writer.lines }
}

/// A starting label: mostly one under which some location may be written.
pub(super) fn start(prng: &mut Prng, sheet: &Sheet, starting: usize) -> Option<LabelId> {
    if sheet.labels.is_empty() || !prng.chance(starting) {
        return None;
    }
    let opens = |&label: &LabelId| {
        let label = &sheet.labels[label];
        (0..sheet.locations.len()).any(|x| label.at_or_below(sheet.label_at(x)))
    };
    let open: Vec<LabelId> = (0..sheet.labels.len()).filter(opens).collect();
    if open.is_empty() || prng.chance(15) {
        Some(prng.below(sheet.labels.len()))
    } else {
        Some(prng.pick(&open))
    }
}

impl Writer<'_> {
    pub(super) fn line(&mut self, line: &str) {
        self.lines.push(line.to_string());
    }

    /// Writes a command under a surrounding label.
    pub(super) fn command(&mut self, surrounding: &Label, size: usize) {
        let start = self.lines.len();
        let sequences = if size > 12 { 60 } else { 20 };
        let written = if size < 2 {
            false
        } else if size > 3 && self.prng.chance(sequences) {
            self.sequence(surrounding, size)
        } else {
            match self.prng.below(20) {
                0..=7 => self.case(surrounding, size),
                8 => self.while_any(surrounding, size),
                9 | 10 => self.while_once(surrounding, size),
                11 if self.prng.chance(50) => self.while_packing(surrounding),
                _ => self.assign(surrounding, size),
            }
        };
        if written {
            return;
        }
        self.lines.truncate(start);
        if size < 2 || !self.assign(surrounding, size) {
            self.lines.truncate(start);
            self.line("s");
        }
    }

    fn sequence(&mut self, surrounding: &Label, size: usize) -> bool {
        let first = self.prng.between(1, size - 2);
        self.line(";");
        self.command(surrounding, first);
        self.command(surrounding, size - 1 - first);
        true
    }

    /// An expression, found within a number of tries.
    pub(super) fn found(
        &mut self,
        ty: TypeId,
        limit: Option<&Label>,
        fuel: usize,
    ) -> Option<Label> {
        self.tries = TRIES;
        self.expression(ty, limit, fuel)
    }

    /// A location that may be written under a surrounding label.
    pub(super) fn open_location(
        &mut self,
        surrounding: &Label,
        fits: impl Fn(TypeId) -> bool,
    ) -> Option<usize> {
        let any_label = self.prng.chance(self.wrong_labels);
        let open = |&x: &usize| {
            let passes = any_label || surrounding.at_or_below(self.sheet.label_at(x));
            passes && fits(self.sheet.locations[x].ty)
        };
        let targets: Vec<usize> = (0..self.sheet.locations.len()).filter(open).collect();
        if targets.is_empty() {
            None
        } else {
            Some(self.prng.pick(&targets))
        }
    }

    fn assign(&mut self, surrounding: &Label, size: usize) -> bool {
        let Some(target) = self.open_location(surrounding, |_| true) else {
            return false;
        };
        self.target = Some(target);
        self.line(&format!("=\t{target}"));
        let limit = self.sheet.label_at(target).clone();
        let label = self.found(self.sheet.locations[target].ty, Some(&limit), size - 1);
        self.target = None;
        label.is_some()
    }

    fn case(&mut self, surrounding: &Label, size: usize) -> bool {
        if self.bound.len() == MOST_CASES {
            return false;
        }
        let ty = if self.prng.chance(40) { PACKED } else { self.sum() };
        self.line("c");
        let guard = self.or_pair(ty);
        let Some(label) = self.found(guard, None, size.min(24)) else {
            return false;
        };
        self.branches(surrounding, ty, &label, |writer, inside, _| {
            writer.command(inside, size / 2);
            true
        })
    }

    /// A type, or a pair in its place where types may be wrong.
    fn or_pair(&mut self, ty: TypeId) -> TypeId {
        if self.prng.chance(2 * self.wrong_types) {
            self.pair_with(|_| true).unwrap_or(ty)
        } else {
            ty
        }
    }

    /// A sum of the sheet.
    pub(super) fn sum(&mut self) -> TypeId {
        let is_sum = |&ty: &TypeId| self.sheet.parts(ty).is_some();
        let sums: Vec<TypeId> = (CHOICE..self.sheet.types.len()).filter(is_sum).collect();
        self.prng.pick(&sums)
    }

    /// The two branches of a case whose expression has this type and label, each with its number and
    /// the label that surrounds it.
    pub(super) fn branches(
        &mut self,
        surrounding: &Label,
        ty: TypeId,
        label: &Label,
        mut branch: impl FnMut(&mut Self, &Label, usize) -> bool,
    ) -> bool {
        let inside = surrounding.join(label);
        let (left, right) = self.sheet.parts(ty).expect("a sum");
        [left, right].into_iter().enumerate().all(|(number, part)| {
            self.bound.push((part, label.clone()));
            let written = branch(self, &inside, number);
            self.bound.pop();
            written
        })
    }

    /// A loop with any guard.
    fn while_any(&mut self, surrounding: &Label, size: usize) -> bool {
        self.line("w");
        let guard = self.or_pair(CHOICE);
        let Some(label) = self.found(guard, None, 3) else {
            return false;
        };
        self.command(&surrounding.join(&label), size - 1);
        true
    }

    fn while_once(&mut self, surrounding: &Label, size: usize) -> bool {
        self.while_once_of(surrounding, |writer, inside| {
            writer.command(inside, size - 1);
            true
        })
    }

    /// A loop whose body stops it after another command.
    pub(super) fn while_once_of(
        &mut self,
        surrounding: &Label,
        body: impl FnOnce(&mut Self, &Label) -> bool,
    ) -> bool {
        let Some(guard) = self.open_location(surrounding, |ty| ty == CHOICE) else {
            return false;
        };
        let inside = surrounding.join(self.sheet.label_at(guard));
        self.line("w");
        self.line(&format!("x\t{guard}"));
        self.line(";");
        if !body(self, &inside) {
            return false;
        }
        self.line(&format!("=\t{guard}"));
        self.line("r\t3");
        self.line("i\t0");
        true
    }

    /// A loop that packs a location's value again and again.
    fn while_packing(&mut self, surrounding: &Label) -> bool {
        let Some(location) = self.open_location(surrounding, |ty| ty == PACKED) else {
            return false;
        };
        let label = self.sheet.locations[location].label;
        for line in ["w", "l\t3", "i\t0"] {
            self.line(line);
        }
        self.line(&format!("=\t{location}"));
        self.line(&format!("k\t{label}"));
        self.line(&format!("x\t{location}"));
        true
    }
}
