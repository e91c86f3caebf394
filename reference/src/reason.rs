//! Why a call is refused. The answer's number follows from it.

use crate::answer::Refusal;
use crate::flow::NoFlow;
use crate::machine::Stopped;
use crate::memory::BadMemory;
use crate::shape::NoShape;
use crate::sheet::Repeat;
use crate::text::Fault;

#[derive(Clone, Debug, PartialEq, Eq)]
pub enum Reason {
    /// 1.
    Sheet(Fault),
    /// 2, with the line of the type or label that is there already.
    Repeats { line: usize, repeat: Repeat },
    /// 3: a principal that isn't one of the sheet's `count`.
    Principal { principal: usize, count: usize },
    /// 4.
    Script(Fault),
    /// 5.
    Types(NoShape),
    /// 6.
    Labels(NoFlow),
    /// 7: a slice of other words than the sheet's locations take.
    SliceLength { found: usize, wanted: usize },
    /// 8.
    Memory(BadMemory),
    /// 9 and 10.
    Stopped(Stopped),
    /// 11: a round of more scripts than it may have.
    Scripts { found: usize, most: usize },
    /// 12: a label that isn't one of the sheet's `count`.
    UnknownLabel { label: u32, count: usize },
    /// 12: a slice of fewer places than a label has smallest groups.
    Places { found: usize, wanted: usize },
}

impl Reason {
    pub fn refusal(&self) -> Refusal {
        match self {
            Reason::Sheet(_) => Refusal::SheetForm,
            Reason::Repeats { .. } => Refusal::SheetRepeats,
            Reason::Principal { .. } => Refusal::UnknownPrincipal,
            Reason::Script(_) => Refusal::ScriptForm,
            Reason::Types(_) => Refusal::NoShape,
            Reason::Labels(_) => Refusal::NoFlow,
            Reason::SliceLength { .. } => Refusal::SliceLength,
            Reason::Memory(_) => Refusal::MemoryForm,
            Reason::Stopped(Stopped::Spent { .. }) => Refusal::Spent,
            Reason::Stopped(Stopped::TooLong { .. }) => Refusal::ValueTooLong,
            Reason::Scripts { .. } => Refusal::TooManyScripts,
            Reason::UnknownLabel { .. } | Reason::Places { .. } => Refusal::Unlisted,
        }
    }

    pub fn number(&self) -> u8 {
        self.refusal().number()
    }

    /// The transitions that were made: 0 but for a run that stopped.
    pub fn steps(&self) -> u32 {
        match self {
            Reason::Stopped(Stopped::Spent { steps, .. } | Stopped::TooLong { steps, .. }) => {
                *steps
            }
            _ => 0,
        }
    }
}
