//! Scripts of several unpacks, and the calls and rounds that have them.

use super::case::{budget, Case};
use super::expression::{Operands, Writer};
use super::prng::Prng;
use super::round::RoundCase;
use super::script::{start, Script, Wrong, MOST_CASES};
use super::sheet::{plan_of, Listed};
use super::{damage, memory, pool, script};
use reference::label::Label;
use reference::sheet::Sheet;
use reference::sheet_text;
use reference::types::{TypeId, ERROR, PACKED};

/// Which unpacks of a script have operands by which it isn't trust-keeping.
#[derive(Clone, Copy, PartialEq, Eq)]
pub enum Endorsed {
    None,
    /// One, where the sheet has an operand for it.
    One,
    Any,
}

/// The arguments of a call for trust.
#[derive(Clone, Debug)]
pub struct TrustCase {
    pub sheet: Vec<u8>,
    pub script: Vec<u8>,
}

/// The call of a seed: about seven tenths of the scripts are accepted.
pub fn trust_case(seed: u64) -> TrustCase {
    let prng = &mut Prng::new(seed);
    let (text, sheet) = sheet(prng);
    let endorsed = prng.pick(&[Endorsed::None, Endorsed::One, Endorsed::One, Endorsed::Any]);
    let size = prng.between(2, 40);
    let script = match prng.below(16) {
        0 => script::script(prng, &sheet, size, Wrong::Types, 40),
        1 | 2 => script::script(prng, &sheet, size, Wrong::Labels, 40),
        3 => script::script(prng, &sheet, size, Wrong::Nothing, 40),
        _ => unpacks(prng, &sheet, endorsed),
    };
    let script = script.text();
    TrustCase {
        script: if prng.chance(12) { damage::script(prng, &script) } else { script },
        sheet: if prng.chance(8) { damage::sheet(prng, &text) } else { text },
    }
}

/// A case in which nothing is damaged, with a script of several unpacks.
pub fn undamaged(prng: &mut Prng, endorsed: Endorsed) -> (Case, Sheet) {
    let (text, sheet) = sheet(prng);
    let script = unpacks(prng, &sheet, endorsed).text();
    let memory = memory::memory(prng, &sheet);
    let case = Case {
        view_length: memory.len(),
        sheet: text,
        budget: budget(prng, &script),
        authority: pool::authority(prng, &sheet, &script),
        script,
        memory,
        group: pool::onlookers(prng, &sheet),
    };
    (case, sheet)
}

/// A round of such scripts, all of them trust-keeping.
pub fn undamaged_round(prng: &mut Prng) -> (RoundCase, Sheet) {
    let (mut case, sheet, scripts) = parted(prng, Endorsed::None);
    case.scripts = scripts.join(&b'\n');
    case.budget = budget(prng, &case.scripts);
    (case, sheet)
}

/// A round with its scripts of several unpacks apart, and without a budget.
pub(super) fn parted(prng: &mut Prng, endorsed: Endorsed) -> (RoundCase, Sheet, Vec<Vec<u8>>) {
    let (text, sheet) = sheet(prng);
    let count = prng.pick(&[1, 2, 2, 3, 3, 4, 6]);
    let scripts: Vec<Vec<u8>> =
        (0..count).map(|_| unpacks(prng, &sheet, endorsed).text()).collect();
    let case = RoundCase {
        sheet: text,
        scripts: Vec::new(),
        memory: memory::memory(prng, &sheet),
        authority: pool::authority(prng, &sheet, &scripts.concat()),
        budget: 0,
        group: pool::onlookers(prng, &sheet),
    };
    (case, sheet, scripts)
}

/// A sheet whose labels differ mostly in writers, with places for packages.
fn sheet(prng: &mut Prng) -> (Vec<u8>, Sheet) {
    let principals = if prng.chance(8) { prng.pick(&[1, 7, 16]) } else { prng.between(2, 4) };
    let plan = plan_of(prng, principals, policies).with_packages(prng);
    let text = plan.text().into_bytes();
    let sheet = sheet_text::parse(&text).expect("a sheet without damage is of the form");
    (text, sheet)
}

/// Policies of some owners: each lets everyone read, or in some labels some or nobody else, and
/// all, some or nobody else write.
fn policies(prng: &mut Prng, n: usize) -> Vec<Listed> {
    let everyone = u16::MAX >> (16 - n);
    let secret = prng.chance(50);
    let share = prng.pick(if secret { &[50, 100, 100] } else { &[20, 50, 100] });
    let owners: Vec<usize> = (0..n).filter(|_| prng.chance(share)).collect();
    let policy = |owner| Listed {
        owner,
        readers: match prng.below(4) {
            0 if secret => 0,
            1 | 2 if secret => prng.draw() as u16 & everyone,
            _ => everyone,
        },
        writers: match prng.below(4) {
            0 => everyone,
            1 => prng.draw() as u16 & everyone,
            _ => 0,
        },
    };
    owners.into_iter().map(policy).collect()
}

/// A script of one to five commands with an unpack each, and others around them.
fn unpacks(prng: &mut Prng, sheet: &Sheet, endorsed: Endorsed) -> Script {
    let start = start(prng, sheet, 20);
    let surrounding =
        start.map_or(Label::bottom(sheet.principals), |label| sheet.labels[label].clone());
    let count = prng.pick(&[1, 2, 2, 3, 3, 4, 5]);
    let one = match endorsed {
        Endorsed::One => Some(prng.below(count)),
        Endorsed::None | Endorsed::Any => None,
    };
    let others = if endorsed == Endorsed::Any { Operands::Any } else { Operands::Kept };
    let mut writer = Writer { operands: others, ..Writer::new(prng, sheet) };
    for part in 0..count {
        if part + 1 < count {
            writer.line(";");
        }
        let operands = if Some(part) == one { Operands::Endorsed } else { others };
        writer.unpacking(&surrounding, operands);
    }
    Script { start, command: writer.lines }
}

/// Whether a type is a sum with error on its right.
fn opens(sheet: &Sheet, ty: TypeId) -> bool {
    sheet.parts(ty).is_some_and(|(_, right)| right == ERROR)
}

/// Where an unpack stands.
#[derive(Clone, Copy)]
enum Place {
    Assigned,
    Guard,
    Packed,
    /// In the branch of a case that binds a package, which mostly is the operand.
    Bound,
    /// In this branch of a case.
    Branch(usize),
    Loop,
}

const PLACES: [Place; 9] = [
    Place::Assigned,
    Place::Assigned,
    Place::Guard,
    Place::Packed,
    Place::Bound,
    Place::Bound,
    Place::Branch(0),
    Place::Branch(1),
    Place::Loop,
];

impl Writer<'_> {
    /// Writes a command with an unpack whose operand is such, or `s` where none is found soon.
    fn unpacking(&mut self, surrounding: &Label, operands: Operands) {
        let start = self.lines.len();
        for _ in 0..20 {
            let place = self.prng.pick(&PLACES);
            if self.unpacking_in(surrounding, operands, place) {
                return;
            }
            self.lines.truncate(start);
        }
        self.line("s");
    }

    fn unpacking_in(&mut self, surrounding: &Label, operands: Operands, place: Place) -> bool {
        let simple = self.prng.pick(&[Place::Assigned, Place::Guard, Place::Packed]);
        match place {
            Place::Assigned => self.unpack_assigned(surrounding, operands),
            Place::Guard => {
                let ty = self.error_sum();
                self.case_of(surrounding, ty, None, |writer| writer.opened(ty, None, operands))
            }
            Place::Packed => self.case_of(surrounding, PACKED, None, |writer| {
                let label = writer.label(|_| true)?;
                let packed = writer.sheet.labels[label].clone();
                writer.line(&format!("k\t{label}"));
                let ty = writer.error_sum();
                writer.opened(ty, Some(&packed), operands)?;
                Some(packed.integrity())
            }),
            Place::Bound => {
                let inner = Some((0, simple, operands));
                self.case_of(surrounding, PACKED, inner, |writer| writer.found(PACKED, None, 4))
            }
            Place::Branch(number) => {
                let ty = self.sum();
                let inner = Some((number, simple, operands));
                self.case_of(surrounding, ty, inner, |writer| writer.found(ty, None, 4))
            }
            Place::Loop => self.loop_of(surrounding, simple, operands),
        }
    }

    /// An unpack to a type, found within some tries; at times inside a pair of which a part is taken.
    fn opened(&mut self, ty: TypeId, limit: Option<&Label>, operands: Operands) -> Option<Label> {
        let start = self.lines.len();
        (0..6).find_map(|_| {
            self.lines.truncate(start);
            if self.prng.chance(35) {
                self.opened_in_pair(ty, limit, operands)
            } else {
                self.unpack_of(operands, ty, limit)
            }
        })
    }

    /// An unpack to a type whose operand is such.
    fn unpack_of(
        &mut self,
        operands: Operands,
        ty: TypeId,
        limit: Option<&Label>,
    ) -> Option<Label> {
        let others = std::mem::replace(&mut self.operands, operands);
        let label = self.unpack(ty, limit);
        self.operands = others;
        label
    }

    /// A part of a pair, with the unpack in the operand that is taken or, where that can be one, in
    /// the other.
    fn opened_in_pair(
        &mut self,
        ty: TypeId,
        limit: Option<&Label>,
        operands: Operands,
    ) -> Option<Label> {
        let second = self.prng.chance(50);
        let taken = |(a, b): (TypeId, TypeId)| if second { b } else { a };
        let whole = self.pair_with(|parts| taken(parts) == ty)?;
        let (a, b) = self.sheet.pair_parts(whole)?;
        let dropped = if second { a } else { b };
        let in_dropped = opens(self.sheet, dropped) && self.prng.chance(50);
        self.line(if second { "g" } else { "f" });
        self.line(&format!("p\t{whole}"));
        let mut label = Label::bottom(self.sheet.principals);
        for (part, is_taken) in [(a, !second), (b, second)] {
            let least = if is_taken != in_dropped {
                self.unpack_of(operands, part, limit)?
            } else {
                self.found(part, limit, 3)?
            };
            label = label.join(&least);
        }
        Some(label)
    }

    /// A sum with error on its right.
    fn error_sum(&mut self) -> TypeId {
        let sums: Vec<TypeId> =
            (PACKED..self.sheet.types.len()).filter(|&ty| opens(self.sheet, ty)).collect();
        self.prng.pick(&sums)
    }

    fn unpack_assigned(&mut self, surrounding: &Label, operands: Operands) -> bool {
        let sheet = self.sheet;
        let Some(target) = self.open_location(surrounding, |ty| opens(sheet, ty)) else {
            return false;
        };
        self.line(&format!("=\t{target}"));
        let ty = sheet.locations[target].ty;
        self.opened(ty, Some(sheet.label_at(target)), operands).is_some()
    }

    /// A case with such an expression. One branch may have an unpack, in such a place and with such
    /// an operand.
    fn case_of(
        &mut self,
        surrounding: &Label,
        ty: TypeId,
        inner: Option<(usize, Place, Operands)>,
        expression: impl FnOnce(&mut Self) -> Option<Label>,
    ) -> bool {
        if self.bound.len() + 2 > MOST_CASES {
            return false;
        }
        self.line("c");
        let Some(label) = expression(self) else {
            return false;
        };
        self.branches(surrounding, ty, &label, |writer, inside, number| match inner {
            Some((chosen, place, operands)) if chosen == number => {
                writer.unpacking_in(inside, operands, place)
            }
            _ => {
                let size = writer.prng.below(6);
                writer.command(inside, size);
                true
            }
        })
    }

    /// A loop with an unpack in its body, which is gone through once or never.
    fn loop_of(&mut self, surrounding: &Label, place: Place, operands: Operands) -> bool {
        let start = self.lines.len();
        let once = self.while_once_of(surrounding, |writer, inside| {
            writer.unpacking_in(inside, operands, place)
        });
        if once {
            return true;
        }
        self.lines.truncate(start);
        for line in ["w", "r\t3", "i\t0"] {
            self.line(line);
        }
        self.unpacking_in(surrounding, operands, place)
    }
}
