//! Sheets without damage.

use super::memory::least_words;
use super::prng::Prng;
use reference::label::{Label, Policy};
use reference::principals::Principals;
use reference::types::{given, Type, CHOICE, ERROR, INT, PACKAGE, PACKED};
use reference::value::MOST_WORDS;

/// A policy with its sets as bits.
#[derive(Clone, Copy, Debug)]
pub(super) struct Listed {
    pub owner: usize,
    pub readers: u16,
    pub writers: u16,
}

/// What the lines of a sheet say.
pub struct Plan {
    principals: usize,
    /// Whether `R 1` stands on it.
    alone: bool,
    /// The given types and those of the lines.
    types: Vec<Type>,
    labels: Vec<Vec<Listed>>,
    locations: Vec<(usize, usize)>,
}

const MOST_LOCATIONS: usize = 64;

impl Plan {
    pub fn text(&self) -> String {
        let mut text = format!("P\t{}\n", self.principals);
        if self.alone {
            text += "R\t1\n";
        }
        for ty in &self.types[given().len()..] {
            text += &type_line(*ty);
        }
        for policies in &self.labels {
            text += "L\n";
            for Listed { owner, readers, writers } in policies {
                text += &format!("O\t{owner}\t{readers:04x}\t{writers:04x}\n");
            }
        }
        for (ty, label) in &self.locations {
            text += &format!("X\t{ty}\t{label}\n");
        }
        text
    }

    /// The same with a place for a package, one for what is packed and one for what is opened at each
    /// of the first labels, in any order, and no more locations than there may be.
    pub(super) fn with_packages(mut self, prng: &mut Prng) -> Plan {
        let opens = |&ty: &usize| matches!(self.types[ty], Type::Sum(_, ERROR));
        let opened: Vec<usize> = (given().len()..self.types.len()).filter(opens).collect();
        for label in 0..self.labels.len().min(6) {
            let opened = if opened.is_empty() { PACKED } else { prng.pick(&opened) };
            self.locations.extend([PACKAGE, PACKED, opened].map(|ty| (ty, label)));
        }
        prng.shuffle(&mut self.locations);
        self.locations.truncate(MOST_LOCATIONS);
        self
    }
}

/// The line that makes a type.
pub(super) fn type_line(ty: Type) -> String {
    match ty {
        Type::Sum(left, right) => format!("T\t{left}\t{right}\n"),
        Type::Pair(first, second) => format!("Q\t{first}\t{second}\n"),
        Type::Int | Type::Error | Type::Package => unreachable!("no line makes it"),
    }
}

/// A count that is mostly small, sometimes large and sometimes the most.
fn count(prng: &mut Prng, few: usize, most: usize) -> usize {
    match prng.below(20) {
        0 => most,
        1 => prng.between(0, most),
        _ => prng.between(1, few),
    }
}

/// A sheet of the form that repeats nothing.
pub fn plan(prng: &mut Prng) -> Plan {
    let principals = match prng.below(10) {
        0 => prng.pick(&[1, 16]),
        1 => prng.between(5, 15),
        _ => prng.between(2, 4),
    };
    plan_of(prng, principals, policies)
}

/// The same of so many principals, with labels of the policies that are drawn.
pub(super) fn plan_of(
    prng: &mut Prng,
    principals: usize,
    policies: fn(&mut Prng, usize) -> Vec<Listed>,
) -> Plan {
    let alone = prng.chance(45);
    let types = types(prng);
    let labels = labels(prng, principals, policies);
    let locations = locations(prng, &types, labels.len());
    Plan { principals, alone, types, labels, locations }
}

/// The given types, and different sums and pairs of earlier ones; sometimes one long chain, and
/// sometimes without a pair.
fn types(prng: &mut Prng) -> Vec<Type> {
    let mut types = given();
    let chain = prng.chance(12);
    let lines = if chain { prng.between(13, 27) } else { count(prng, 7, 27) };
    let wanted = types.len() + lines;
    let pairs = prng.pick(if chain { &[0, 5, 20][..] } else { &[0, 30, 50, 70] });
    for _ in 0..lines * 4 {
        let ty = if chain {
            let right = if prng.chance(50) { ERROR } else { prng.below(types.len()) };
            made(prng, pairs, types.len() - 1, right)
        } else {
            next_type(prng, &types, pairs)
        };
        if types.len() < wanted && !types.contains(&ty) {
            types.push(ty);
        }
    }
    types
}

/// A pair in `pairs` of a hundred cases, else a sum.
fn made(prng: &mut Prng, pairs: usize, a: usize, b: usize) -> Type {
    if prng.chance(pairs) {
        Type::Pair(a, b)
    } else {
        Type::Sum(a, b)
    }
}

/// A type of earlier ones: a sum or pair with the parts of a pair or sum, what is unpacked to a pair,
/// or any, of which pairs mostly have small parts.
fn next_type(prng: &mut Prng, types: &[Type], pairs: usize) -> Type {
    let newest = types.len() - 1;
    if pairs > 0 && prng.chance(15) {
        match types[prng.between(CHOICE, newest)] {
            Type::Sum(a, b) => return Type::Pair(a, b),
            Type::Pair(a, b) => return Type::Sum(a, b),
            Type::Int | Type::Error | Type::Package => unreachable!("types 0 to 2 have no parts"),
        }
    }
    if matches!(types[newest], Type::Pair(..)) && prng.chance(40) {
        return Type::Sum(newest, ERROR);
    }
    let any = prng.below(types.len());
    let (small, other) = (prng.pick(&[INT, INT, PACKAGE, CHOICE, PACKED]), prng.below(types.len()));
    let error = prng.chance(50);
    match made(prng, pairs, any, other) {
        Type::Sum(left, _) if error => Type::Sum(left, ERROR),
        Type::Pair(first, _) if error => Type::Pair(first, small),
        Type::Pair(_, second) if prng.chance(50) => Type::Pair(small, second),
        ty => ty,
    }
}

/// Labels of different effective sets.
fn labels(
    prng: &mut Prng,
    n: usize,
    policies: fn(&mut Prng, usize) -> Vec<Listed>,
) -> Vec<Vec<Listed>> {
    let wanted = count(prng, 6, 32);
    let mut labels = Vec::new();
    let mut effective = Vec::new();
    for _ in 0..wanted * 4 {
        let policies = policies(prng, n);
        let label = Label::of_policies(n, &policies.iter().map(listed).collect::<Vec<Policy>>());
        if labels.len() < wanted && !effective.contains(&label) {
            labels.push(policies);
            effective.push(label);
        }
    }
    labels
}

fn listed(policy: &Listed) -> Policy {
    Policy {
        owner: policy.owner,
        readers: Principals::from_bits(policy.readers),
        writers: Principals::from_bits(policy.writers),
    }
}

/// Policies of some owners or all. For the rules of reading there are labels in which each owner
/// lets one other read and one write, and labels that one principal reads for all of them.
fn policies(prng: &mut Prng, n: usize) -> Vec<Listed> {
    let everyone = u16::MAX >> (16 - n);
    let (style, common) = (prng.below(8), 1 << prng.below(n));
    let owners: Vec<usize> = (0..n).filter(|_| style < 2 || prng.chance(40)).collect();
    let sets = |prng: &mut Prng| match style {
        0 => (everyone, 0),
        1 | 2 => (0, everyone),
        3 => (prng.draw() as u16 & everyone, everyone),
        4 => (1 << prng.below(n), 1 << prng.below(n)),
        5 => (common | 1 << prng.below(n), everyone),
        _ => (prng.draw() as u16 & everyone, prng.draw() as u16 & everyone),
    };
    owners
        .into_iter()
        .map(|owner| {
            let (readers, writers) = sets(prng);
            Listed { owner, readers, writers }
        })
        .collect()
}

/// Locations, mostly of types that have a value of 16 words.
fn locations(prng: &mut Prng, types: &[Type], labels: usize) -> Vec<(usize, usize)> {
    if labels == 0 {
        return Vec::new();
    }
    let least = least_words(types);
    let fits = |ty: &usize| least[*ty] <= MOST_WORDS;
    let paired = |ty: &usize| match types[*ty] {
        Type::Pair(..) => true,
        Type::Sum(left, _) => matches!(types[left], Type::Pair(..)),
        Type::Int | Type::Error | Type::Package => false,
    };
    let pairs: Vec<usize> = (0..types.len()).filter(fits).filter(paired).collect();
    let mut locations = Vec::new();
    for _ in 0..count(prng, 8, MOST_LOCATIONS) {
        let ty = match prng.below(4) {
            0 => prng.below(types.len()),
            1 => prng.between(INT, PACKED),
            2 if !pairs.is_empty() => prng.pick(&pairs),
            _ => prng.pick(&[0, 0, 2, 3, 3, 4, 4, 4]),
        };
        if fits(&ty) || prng.chance(2) {
            locations.push((ty, prng.below(labels)));
        }
    }
    locations
}
