//! One call from two memories that are alike in what is seen of them, each with a budget of its own:
//! where both are done, the memories that they leave are alike in it too.

use crate::common::{has_pairs, other, under};
use compare::generate::prng::Prng;
use compare::generate::round::RoundCase;
use compare::implementation::{Implementation, REFERENCE};
use reference::label::Reading;
use reference::memory::{decode, encode, Memory};
use reference::principals::Principals;
use reference::sheet::Sheet;
use reference::{parts, view, Outcome, Round, DONE};

/// The call of one script or of a round, and two memories that are alike in what is seen: in the
/// group's view, or in what is left where the group is distrusted.
pub struct Twice {
    pub seed: u64,
    pub case: RoundCase,
    pub sheet: Sheet,
    pub memories: [Memory; 2],
    budgets: [u32; 2],
}

/// Makes of a memory another that is alike in what is seen.
type Alike = fn(&mut Prng, &Sheet, &Memory, Principals) -> Memory;

/// The memory that a call leaves, and the steps of each script.
pub type Left = (Vec<u32>, Vec<u32>);

impl Twice {
    /// The call with its own memory and one that is alike, and with a budget that mostly is enough.
    /// Nothing where a location's type has no value of 16 words.
    pub fn new(
        seed: u64,
        prng: &mut Prng,
        mut case: RoundCase,
        sheet: Sheet,
        alike: Alike,
    ) -> Option<Twice> {
        let first = decode(&sheet, &case.memory).ok()?;
        let other = alike(prng, &sheet, &first, Principals::from_bits(case.group));
        case.budget = case.budget.max(200);
        let budgets = [case.budget, case.budget / 2 + 1 + (seed % 997) as u32];
        Some(Twice { seed, case, sheet, memories: [first, other], budgets })
    }

    fn both(&self, call: impl Fn(&mut [u32], u32) -> Option<Vec<u32>>) -> Option<[Left; 2]> {
        let left = |place: usize| {
            let mut memory = encode(&self.memories[place]);
            let steps = call(&mut memory, self.budgets[place])?;
            Some((memory, steps))
        };
        Some([left(0)?, left(1)?])
    }

    /// What the two runs of an accepted script leave, where both are done.
    pub fn runs(&self, i: &Implementation) -> Option<[Left; 2]> {
        let RoundCase { sheet, scripts, authority, .. } = &self.case;
        self.both(|memory, budget| {
            let Outcome { answer, steps } = (i.run)(sheet, scripts, memory, *authority, budget);
            let seed = self.seed;
            assert!([0, 9, 10].contains(&answer), "{}, seed {seed}: {answer}", i.name);
            (answer == DONE).then_some(vec![steps])
        })
    }

    /// What the two rounds of accepted scripts leave, where every script is done in both.
    pub fn rounds(&self, i: &Implementation) -> Option<[Left; 2]> {
        let RoundCase { sheet, scripts, authority, .. } = &self.case;
        self.both(|memory, budget| {
            let Round { answer, answers, steps } =
                (i.round)(sheet, scripts, memory, *authority, budget);
            assert_eq!(answer, DONE, "{}, seed {}", i.name, self.seed);
            answers.iter().all(|&answer| answer == DONE).then_some(steps.to_vec())
        })
    }

    /// Whether the group would tell the two memories apart if its members pooled.
    pub fn would_tell_by_pooling(&self) -> bool {
        let sheet = Sheet { reading: Reading::Pooled, ..self.sheet.clone() };
        let group = Principals::from_bits(self.case.group);
        let [first, other] = self.memories.each_ref().map(|m| view::words(&sheet, m, group));
        first != other
    }

    /// Whether the call from the first memory, which left this one, would leave another if the
    /// authority read by the other rule.
    fn turns_on_the_rule(&self, left: &[u32]) -> bool {
        let RoundCase { scripts, authority, .. } = &self.case;
        let sheet = under(other(self.sheet.reading), &self.case.sheet);
        let mut memory = encode(&self.memories[0]);
        (REFERENCE.round)(&sheet, scripts, &mut memory, *authority, self.budgets[0]);
        memory != left
    }
}

/// What pairs of calls have to show.
#[derive(Debug, Default)]
pub struct Shown {
    pub pairs: u64,
    /// Pairs of which both are done.
    pub compared: u64,
    /// Of these: those of more than one script,
    pub several: u64,
    /// those from different memories,
    pub differ: u64,
    /// and of these those that write, those that write and have a script with a `b` line or with
    /// pairs, those that change what is seen, with pairs too, and those that take other steps.
    pub written: u64,
    pub started: u64,
    pub paired: u64,
    pub changed: u64,
    pub changed_by_pairs: u64,
    pub stepped: u64,
    /// Of those from different memories, by the rule of reading, pooled and alone: all of them,
    /// those that write, and those that would leave another memory by the other rule.
    pub by_rule: [u64; 2],
    pub written_by_rule: [u64; 2],
    pub turning: [u64; 2],
}

impl Shown {
    /// Counts a pair. The two memories must be alike in what is seen, and those that are left too.
    pub fn count(
        &mut self,
        twice: &Twice,
        left: Option<[Left; 2]>,
        seen: impl Fn(&[u32]) -> Vec<u32>,
    ) {
        let [first, other] = twice.memories.each_ref().map(encode);
        let (seed, before) = (twice.seed, seen(&first));
        assert_eq!(before, seen(&other), "seed {seed}: what is seen before");
        self.pairs += 1;
        let Some([(after_first, steps), (after_other, other_steps)]) = left else {
            return;
        };
        let after = seen(&after_first);
        assert_eq!(after, seen(&after_other), "seed {seed}: what is seen after");
        self.compared += 1;
        let scripts = parts(&twice.case.scripts);
        let starts = scripts.iter().any(|script| script.text.starts_with(b"b\t"));
        let paired = has_pairs(&twice.case.scripts);
        let differ = first != other;
        let writes = differ && (after_first != first || after_other != other);
        self.several += u64::from(scripts.len() > 1);
        self.differ += u64::from(differ);
        self.written += u64::from(writes);
        self.started += u64::from(writes && starts);
        self.paired += u64::from(writes && paired);
        self.changed += u64::from(differ && after != before);
        self.changed_by_pairs += u64::from(differ && paired && after != before);
        self.stepped += u64::from(differ && steps != other_steps);
        if differ {
            self.count_rule(twice, writes, &after_first);
        }
    }

    /// Counts by the rule of reading a pair from different memories, the first of which left this.
    fn count_rule(&mut self, twice: &Twice, writes: bool, left: &[u32]) {
        let rule = usize::from(twice.sheet.reading == Reading::Alone);
        self.by_rule[rule] += 1;
        self.written_by_rule[rule] += u64::from(writes);
        self.turning[rule] += u64::from(twice.turns_on_the_rule(left));
    }

    /// That both rules of reading came often, and each at times where it decides what is left.
    pub fn assert_rules(&self) {
        let each = |counts: [u64; 2], rare| counts.iter().all(|count| count * rare > self.differ);
        assert!(each(self.by_rule, 4) && each(self.written_by_rule, 6), "{self:?}");
        assert!(each(self.turning, 200), "{self:?}");
    }
}
