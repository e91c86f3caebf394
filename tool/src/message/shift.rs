//! The lines that a reason names, counted from elsewhere. What has no line is listed, so that the
//! compiler asks about what is new.

use reference::evaluate::ValueTooLong;
use reference::flow::{Endorsement, NoFlow, Source, Through};
use reference::machine::Stopped;
use reference::shape::{Misfit, NoShape};
use reference::text::{Cause, Expected, Fault, Operand};
use reference::Reason;

/// The reason of a script's refusal or stop, with so many lines before the script. What isn't about
/// a script's lines is as it was.
pub fn shifted(reason: Reason, before: usize) -> Reason {
    match reason {
        Reason::Script(Fault { line, cause }) => {
            Reason::Script(Fault { line: line + before, cause: in_cause(cause, before) })
        }
        Reason::Types(NoShape { line, rule, misfit }) => {
            let misfit = in_misfit(misfit, before);
            Reason::Types(NoShape { line: line + before, rule, misfit })
        }
        Reason::Labels(fault) => Reason::Labels(in_flow(fault, before)),
        Reason::Stopped(stopped) => Reason::Stopped(in_stop(stopped, before)),
        other @ (Reason::Sheet(_)
        | Reason::Repeats { .. }
        | Reason::Principal { .. }
        | Reason::SliceLength { .. }
        | Reason::Memory(_)
        | Reason::Scripts { .. }
        | Reason::UnknownLabel { .. }
        | Reason::Places { .. }) => other,
    }
}

fn in_cause(cause: Cause, before: usize) -> Cause {
    match cause {
        Cause::LineKind { found, expected: Expected::Operand(operand) } => {
            let expected = Expected::Operand(in_operand(operand, before));
            Cause::LineKind { found, expected }
        }
        Cause::Ends(operand) => Cause::Ends(in_operand(operand, before)),
        other @ (Cause::LineKind { expected: Expected::Sheet(_) | Expected::Script, .. }
        | Cause::TextLength(_)
        | Cause::ByteOrderMark
        | Cause::CarriageReturn
        | Cause::ZeroByte
        | Cause::Comment
        | Cause::Blank
        | Cause::LooseTab
        | Cause::UnendedLine
        | Cause::EmptyLine
        | Cause::FieldCount { .. }
        | Cause::Number(_)
        | Cause::Integer(_)
        | Cause::Set(_)
        | Cause::PrincipalCount(_)
        | Cause::ReadingRule { .. }
        | Cause::OwnerOrder { .. }
        | Cause::TooMany { .. }
        | Cause::Missing { .. }
        | Cause::NoLines
        | Cause::LeftOver
        | Cause::NoCommand
        | Cause::LateStart { .. }
        | Cause::CaseDepth
        | Cause::EndingZero
        | Cause::Locations { .. }) => other,
    }
}

fn in_operand(operand: Operand, before: usize) -> Operand {
    let Operand { line, kind, place, sort } = operand;
    Operand { line: line + before, kind, place, sort }
}

fn in_misfit(misfit: Misfit, before: usize) -> Misfit {
    match misfit {
        Misfit::Operand { operand, found, wanted } => {
            Misfit::Operand { operand: operand + before, found, wanted }
        }
        Misfit::CaseOf { operand, found } => Misfit::CaseOf { operand: operand + before, found },
        Misfit::PartOf { operand, found } => Misfit::PartOf { operand: operand + before, found },
        other @ (Misfit::NoSum(_) | Misfit::NoError(_) | Misfit::NoPair(_)) => other,
    }
}

fn in_flow(fault: NoFlow, before: usize) -> NoFlow {
    let NoFlow { line, into, source, through } = fault;
    let through = match through {
        Through::Guard(line) => Through::Guard(line + before),
        through @ (Through::Value | Through::Start) => through,
    };
    NoFlow { line: line + before, into, source: in_source(source, before), through }
}

fn in_source(source: Source, before: usize) -> Source {
    let Source { line, origin, label, bound_in } = source;
    let bound_in = bound_in.map(|line| line + before);
    Source { line: line + before, origin, label, bound_in }
}

/// The same of an unpack by which an accepted script isn't trust-keeping.
pub fn shifted_unpack(unpack: Endorsement, before: usize) -> Endorsement {
    let Endorsement { line, wanted, source } = unpack;
    Endorsement { line: line + before, wanted, source: in_source(source, before) }
}

fn in_stop(stopped: Stopped, before: usize) -> Stopped {
    match stopped {
        Stopped::Spent { line, steps } => Stopped::Spent { line: line + before, steps },
        Stopped::TooLong { at: ValueTooLong { line, words }, steps } => {
            Stopped::TooLong { at: ValueTooLong { line: line + before, words }, steps }
        }
    }
}
