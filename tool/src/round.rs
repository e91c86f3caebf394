//! `simp round`.

use crate::args::{Form, Run};
use crate::calls::{Asked, Calls, Ran};
use crate::files::{self, shown};
use crate::inputs::{self, blamed, Inputs};
use crate::json::{opened, Fields, Json};
use crate::left::{kept, Left};
use crate::lent::Lent;
use crate::long_pair::{LongPair, Started};
use crate::message::{counted, Message, Scripts};
use crate::refusal::{disagreed, Refusal};
use crate::run::{compared, late, uncompared};
use crate::status::{Status, Stop};
use crate::streams::{Paint, Streams};
use crate::values;
use crate::words::Words;
use reference::round::Refused;
use reference::Reason;

pub fn round(request: &Run, calls: &Calls, streams: &mut Streams) -> Result<Status, Stop> {
    let texts = inputs::read(request, streams)?;
    inputs::require_whole(&request.script, &texts.script)?;
    let Inputs { names, authority, sheet } = texts.open(request, calls)?;
    let sheet = match sheet {
        Ok(sheet) => sheet,
        Err(refusal) => return refused(request, &refusal, None, streams),
    };
    let lent = Lent::new(&texts.memory, &sheet);
    let mut after = lent.words.clone();
    let asked = texts.asked(authority, request.budget);
    let rounded = calls.round(asked, &mut after);
    let rounded = rounded.map_err(|found| disagreed(&inputs::in_words(request), &found))?;
    let words = Words { sheet: &sheet, names: &names };
    let start = Start { calls, asked, memory: &lent.words };
    let desk = Desk { request, scripts: Scripts::new(&texts.script.bytes), words, start };
    match rounded {
        Ok(runs) => {
            let left = Left { request, words, before: &lent.words, after: &after };
            let ends = runs.into_iter().enumerate().map(|(place, ran)| desk.end(place, ran));
            desk.ran(&ends.collect::<Vec<_>>(), &left, streams)
        }
        Err(found) => {
            let message = desk.refusal(found, &lent);
            let refusal = Refusal { name: blamed(request, &message), message };
            refused(request, &refusal, lent.memory(), streams)
        }
    }
}

/// What is asked, and what it is told by.
struct Desk<'a> {
    request: &'a Run,
    scripts: Scripts<'a>,
    words: Words<'a>,
    start: Start<'a>,
}

/// What the round started from.
struct Start<'a> {
    calls: &'a Calls,
    asked: Asked<'a>,
    memory: &'a [u32],
}

impl Start<'_> {
    /// The memory before the script in a place.
    fn memory_before(&self, place: usize, scripts: &Scripts) -> Vec<u32> {
        let Asked { sheet, authority, budget, .. } = self.asked;
        let mut memory = self.memory.to_vec();
        for before in 0..place {
            let script = scripts.text(before);
            (self.calls.library.run)(sheet, script, &mut memory, authority, budget);
        }
        memory
    }
}

/// How a script of a round ended.
struct End {
    place: usize,
    steps: u32,
    /// Why it stopped, if it isn't done.
    stopped: Option<Refusal>,
}

impl End {
    fn is_done(&self) -> bool {
        self.stopped.is_none()
    }

    fn answer(&self) -> u8 {
        self.stopped.as_ref().map_or(0, |refusal| refusal.message.number)
    }
}

impl Desk<'_> {
    fn end(&self, place: usize, ran: Ran) -> End {
        let (steps, message) = match ran {
            Ran::Done { steps } => return End { place, steps, stopped: None },
            Ran::Refused(reason) => {
                let parts = self.long_parts(place, &reason);
                (reason.steps(), self.told(place, reason).with_parts(parts))
            }
            // the reference knows no line, so it is the script's first
            Ran::Late(outcome) => {
                let script = Some(self.scripts.which(place));
                let line = Some(self.scripts.first_line(place));
                (outcome.steps, Message { script, line, ..late(outcome) })
            }
        };
        let name = files::name(&self.request.script);
        End { place, steps, stopped: Some(Refusal { name, message }) }
    }

    /// The words of the parts, where a pair is the value that stopped the script in a place.
    fn long_parts(&self, place: usize, reason: &Reason) -> Option<[usize; 2]> {
        let (script, authority) = (self.scripts.text(place), self.start.asked.authority);
        let pair = LongPair::of(reason, script)?;
        let memory = &self.start.memory_before(place, &self.scripts);
        Started { sheet: self.words.sheet, script, memory, authority }.parts(pair)
    }

    fn told(&self, place: usize, reason: Reason) -> Message {
        self.scripts.message(place, reason, self.words.sheet, self.words.names)
    }

    fn refusal(&self, refused: Refused, lent: &Lent) -> Message {
        match refused {
            Refused { script: Some(place), reason } => self.told(place.number, reason),
            Refused { reason: reason @ Reason::Scripts { .. }, .. } => {
                self.scripts.too_many(&reason)
            }
            Refused { reason, .. } => lent.told(&reason, self.words.sheet, self.words.names),
        }
    }

    /// Prints a round that isn't refused and replaces the memory, if that is asked.
    fn ran(&self, ends: &[End], left: &Left, streams: &mut Streams) -> Result<Status, Stop> {
        let steps = ends.iter().map(|end| u64::from(end.steps)).sum();
        let done = ends.iter().all(End::is_done);
        let paint = streams.paint();
        let text = match self.request.form {
            Form::Words => {
                let scripts: String = ends.iter().map(|end| self.line(end, paint) + "\n").collect();
                let (sums, memory) = (sums(ends), left.in_words(paint));
                format!("{scripts}{sums}{memory}{}", uncompared(steps))
            }
            Form::Plain => {
                let stops = ends.iter().filter(|end| !end.is_done());
                let lines: Vec<String> = stops.map(|end| self.line(end, Paint::OFF)).collect();
                streams.say(&lines.join("\n"));
                plain(ends, left)
            }
            Form::Json => {
                let scripts = Json::list(ends, |end| self.json(end));
                opened([fields(0, done, scripts, steps), left.fields()].concat())
            }
        };
        let status = if done { Status::Done } else { Status::Refused };
        left.finish(&text, status, streams)
    }

    /// Where the script starts and that it is done, or where and why it stopped.
    fn line(&self, end: &End, paint: Paint) -> String {
        if let Some(refusal) = &end.stopped {
            return refusal.line(paint);
        }
        let first = self.scripts.first_line(end.place);
        let name = paint.bold(&format!("{}:{first}:", shown(&self.request.script)));
        let which = self.scripts.which(end.place);
        let steps = counted(end.steps as usize, "step");
        format!("{name} {which}: {}, {steps}", paint.good("done"))
    }

    fn json(&self, end: &End) -> Json {
        let fields = vec![
            ("script", Json::number(self.scripts.which(end.place).script)),
            ("first_line", Json::number(self.scripts.first_line(end.place))),
            ("answer", Json::number(end.answer().into())),
            ("done", Json::Bool(end.is_done())),
            ("steps", Json::Number(end.steps.into())),
        ];
        let why = end.stopped.as_ref().map_or(Vec::new(), Refusal::fields);
        Json::Object([fields, why].concat())
    }
}

fn sums(ends: &[End]) -> String {
    let done = ends.iter().filter(|end| end.is_done()).count();
    let stopped = ends.len() - done;
    let left = if stopped > 0 { " and changed nothing" } else { "" };
    format!("{}: {done} done, {stopped} stopped{left}\n", counted(ends.len(), "script"))
}

/// The answer and how many scripts follow, each one's answer and steps, and the memory.
fn plain(ends: &[End], left: &Left) -> String {
    let line = |end: &End| format!("{}\t{}\n", end.answer(), end.steps);
    let scripts: String = ends.iter().map(line).collect();
    format!("0\t{}\n{scripts}{}", ends.len(), values::text(left.after))
}

/// Prints a refused round. `memory` is there if it could be read.
fn refused(
    request: &Run,
    refusal: &Refusal,
    memory: Option<&[u32]>,
    streams: &mut Streams,
) -> Result<Status, Stop> {
    let answer = refusal.message.number;
    let text = match request.form {
        Form::Words => format!(
            "{}\nno script was run, and the memory is as it was\n",
            refusal.line(streams.paint())
        ),
        Form::Plain => {
            streams.say(&refusal.line(Paint::OFF));
            format!("{answer}\t0\n{}", memory.map_or_else(String::new, values::text))
        }
        Form::Json => {
            let which = refusal.message.script.map(|which| which.script);
            let mut why = refusal.named_fields();
            why.insert(2, ("script", which.map_or(Json::Null, Json::number)));
            why.push(("written", Json::Bool(false)));
            let about = fields(answer, false, Json::List(Vec::new()), 0);
            format!("{}\n", Json::Object([about, kept(memory), why].concat()))
        }
    };
    streams.finish(&text, Status::Refused)
}

fn fields(answer: u8, done: bool, scripts: Json, steps: u64) -> Fields {
    vec![
        ("answer", Json::number(answer.into())),
        ("done", Json::Bool(done)),
        ("scripts", scripts),
        ("compared", Json::Bool(compared(steps))),
    ]
}
