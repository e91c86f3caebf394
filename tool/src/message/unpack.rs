//! An unpack by which an accepted script isn't trust-keeping.

use super::pairs::Paired;
use super::{flow, Told, Which};
use crate::words::Words;
use reference::flow::Endorsement;
use reference::sheet::LabelId;
use std::fmt;

/// What is told of it.
#[derive(Clone, Debug, PartialEq, Eq)]
pub struct Unpack {
    /// The script of a round that it stands in.
    pub script: Option<Which>,
    pub line: usize,
    /// The label that it wants.
    pub label: LabelId,
    pub fact: String,
    pub advice: String,
    pub rule: String,
}

impl Unpack {
    /// `script` is the text that it stands in.
    pub fn new(unpack: &Endorsement, script: &[u8], words: &Words) -> Unpack {
        let paired = Paired::of_unpack(unpack, script, words.sheet);
        Unpack::through(unpack, paired, words)
    }

    /// With the pair that the package comes from, if it does.
    pub(super) fn through(unpack: &Endorsement, paired: Option<Paired>, words: &Words) -> Unpack {
        let Told { mut fact, mut advice, rule } = flow::told_of_unpack(words, unpack);
        if let Some(paired) = paired {
            paired.add(&mut fact, &mut advice);
        }
        Unpack { script: None, line: unpack.line, label: unpack.wanted, fact, advice, rule }
    }
}

/// On one line.
impl fmt::Display for Unpack {
    fn fmt(&self, f: &mut fmt::Formatter) -> fmt::Result {
        let Unpack { script, fact, advice, rule, .. } = self;
        if let Some(script) = script {
            write!(f, "{script}: ")?;
        }
        write!(f, "not trust-keeping: {fact}: {advice} [trust-keeping: {rule}]")
    }
}
