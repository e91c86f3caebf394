//! `simp run`.

use crate::args::{Form, Run};
use crate::calls::{Calls, Outcome, Ran, MOST_RETRACED};
use crate::inputs::{self, blamed, Inputs};
use crate::json::{opened, Fields, Json};
use crate::left::{kept, Left};
use crate::lent::Lent;
use crate::long_pair::{LongPair, Started};
use crate::message::{self, counted, message, Message};
use crate::names::Names;
use crate::opening::in_full;
use crate::refusal::{disagreed, Refusal};
use crate::status::{Status, Stop};
use crate::streams::{Paint, Streams};
use crate::values;
use crate::words::Words;
use reference::evaluate::ValueTooLong;
use reference::machine::Stopped;
use reference::value::MOST_WORDS;
use reference::Reason;

pub fn run(request: &Run, calls: &Calls, streams: &mut Streams) -> Result<Status, Stop> {
    let texts = inputs::read(request, streams)?;
    let Inputs { names, authority, sheet } = texts.open(request, calls)?;
    let sheet = match sheet {
        Ok(sheet) => sheet,
        Err(refusal) => return refused(request, &End { refusal, steps: 0 }, None, streams),
    };
    let lent = Lent::new(&texts.memory, &sheet);
    let mut after = lent.words.clone();
    let ran = calls.run(texts.asked(authority, request.budget), &mut after);
    let ran = ran.map_err(|found| disagreed(&inputs::in_words(request), &found))?;
    let (message, steps) = match ran {
        Ran::Done { steps } => {
            let words = Words { sheet: &sheet, names: &names };
            let left = Left { request, words, before: &lent.words, after: &after };
            return done(steps, &left, streams);
        }
        Ran::Late(outcome) => (late(outcome), outcome.steps),
        Ran::Refused(reason) => {
            let steps = reason.steps();
            let reason = in_full(reason, &texts.sheet.text, &texts.script);
            let script = &texts.script.bytes;
            let started = Started { sheet: &sheet, script, memory: &lent.words, authority };
            let told = lent.told(&reason, &sheet, &names).with_pair(&reason, script, &sheet);
            let pair = LongPair::of(&reason, script);
            (told.with_parts(pair.and_then(|pair| started.parts(pair))), steps)
        }
    };
    let refusal = Refusal { name: blamed(request, &message), message };
    refused(request, &End { refusal, steps }, lent.memory(), streams)
}

/// A run that is refused.
struct End {
    refusal: Refusal,
    steps: u32,
}

/// Prints a run that is done and replaces the memory, if that is asked.
fn done(steps: u32, left: &Left, streams: &mut Streams) -> Result<Status, Stop> {
    let paint = streams.paint();
    let text = match left.request.form {
        Form::Words => format!(
            "{}, {}\n{}{}",
            paint.good("done"),
            counted(steps as usize, "step"),
            left.in_words(paint),
            uncompared(steps.into())
        ),
        Form::Plain => format!("0\t{steps}\n{}", values::text(left.after)),
        Form::Json => opened([fields(0, steps), left.fields()].concat()),
    };
    left.finish(&text, Status::Done, streams)
}

/// Prints a refused run. `memory` is there if it could be read.
fn refused(
    request: &Run,
    end: &End,
    memory: Option<&[u32]>,
    streams: &mut Streams,
) -> Result<Status, Stop> {
    let End { refusal, steps } = end;
    let answer = refusal.message.number;
    let text = match request.form {
        Form::Words => format!(
            "{}\nthe memory is as it was\n{}",
            refusal.line(streams.paint()),
            uncompared((*steps).into())
        ),
        Form::Plain => {
            streams.say(&refusal.line(Paint::OFF));
            format!("{answer}\t{steps}\n{}", memory.map_or_else(String::new, values::text))
        }
        Form::Json => {
            let written = vec![("written", Json::Bool(false))];
            let parts =
                [fields(answer, *steps), kept(memory), refusal.named_fields(), written].concat();
            format!("{}\n", Json::Object(parts))
        }
    };
    streams.finish(&text, Status::Refused)
}

fn fields(answer: u8, steps: u32) -> Fields {
    vec![
        ("answer", Json::number(answer.into())),
        ("done", Json::Bool(answer == 0)),
        ("steps", Json::Number(steps.into())),
        ("compared", Json::Bool(compared(steps.into()))),
    ]
}

/// Whether the reference follows so many steps.
pub fn compared(steps: u64) -> bool {
    steps <= MOST_RETRACED.into()
}

/// That the reference didn't follow so many steps.
pub fn uncompared(steps: u64) -> String {
    if compared(steps) {
        return String::new();
    }
    format!("not compared with the reference: more than {MOST_RETRACED} steps\n")
}

/// What is told of a run that stopped where the reference didn't follow: no line.
pub fn late(outcome: Outcome) -> Message {
    let Outcome { answer, steps } = outcome;
    if answer == 9 {
        return message::spent(steps);
    }
    let at = ValueTooLong { line: 0, words: MOST_WORDS + 1 };
    let reason = Reason::Stopped(Stopped::TooLong { at, steps });
    let step = u64::from(steps) + 1;
    Message {
        line: None,
        fact: format!("in step {step} a value takes more than {MOST_WORDS} words"),
        ..message(&reason, None, &Names::default())
    }
}
