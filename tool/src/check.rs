//! `simp check`.

use crate::args::{Check, Form};
use crate::calls::{Calls, Differing, Trust};
use crate::files::{self, shown};
use crate::json::{Fields, Json};
use crate::message::{counted, message, Unpack};
use crate::names::Names;
use crate::opening::{self, in_full, Named};
use crate::progress::Progress;
use crate::refusal::{disagreement, Refusal};
use crate::status::{Status, Stop};
use crate::streams::{cause, Paint, Streams};
use crate::trust::{self, KEEPING};
use crate::words::Words;
use reference::sheet::Sheet;
use std::ffi::OsStr;
use std::io;
use std::time::Instant;

pub fn check(request: &Check, calls: &Calls, streams: &mut Streams) -> Result<Status, Stop> {
    let names_file = opening::read_names(request.names.as_deref(), streams)?;
    let text = match files::read(&request.sheet, streams) {
        Ok(text) => text,
        Err(error) => return unread_sheet(request, &error, streams),
    };
    let file = Named { name: &request.sheet, text };
    let names = opening::names(names_file.as_ref())?;
    let sheet = match opening::sheet(&file, &names, names_file.as_ref(), calls)? {
        Ok(sheet) => sheet,
        Err(refusal) => return refused_sheet(request, &refusal, streams),
    };
    let desk = Desk { calls, file: &file, sheet: &sheet, names: &names };
    let entries = desk.judge_all(request, streams);
    let status = entries.iter().map(Entry::status).max().unwrap_or(Status::Done);
    let text = match request.form {
        Form::Json => document(&request.sheet, answered(0), &entries),
        _ => words(&entries, streams.paint()),
    };
    streams.finish(&text, status)
}

/// That no script was checked, since the sheet can't be read.
fn unread_sheet(request: &Check, error: &io::Error, streams: &mut Streams) -> Result<Status, Stop> {
    streams.say(&files::unread(&request.sheet, error));
    let text = match request.form {
        Form::Json => document(&request.sheet, unread_fields(&cause(error)), &[]),
        _ => format!(
            "{} can't be read\nno script was checked: the sheet can't be read\n",
            streams.paint().bold(&format!("{}:", shown(&request.sheet)))
        ),
    };
    streams.finish(&text, Status::Files)
}

/// That no script was checked, since the sheet is refused.
fn refused_sheet(
    request: &Check,
    refusal: &Refusal,
    streams: &mut Streams,
) -> Result<Status, Stop> {
    let text = match request.form {
        Form::Json => document(&request.sheet, refused_fields(refusal), &[]),
        _ => format!(
            "{}\nno script was checked: the sheet is refused\n",
            refusal.line(streams.paint())
        ),
    };
    streams.finish(&text, Status::Refused)
}

/// What scripts are judged on.
struct Desk<'a> {
    calls: &'a Calls,
    file: &'a Named<'a>,
    sheet: &'a Sheet,
    names: &'a Names,
}

/// A script and what became of it.
struct Entry<'a> {
    file: &'a OsStr,
    verdict: Verdict,
}

enum Verdict {
    /// With the unpacks by which it isn't trust-keeping.
    Accepted(Vec<Unpack>),
    Refused(Refusal),
    /// The library and the reference disagree.
    Disagreed(Differing),
    /// Why it can't be read.
    Unread(io::Error),
}

impl Desk<'_> {
    /// The verdicts in their order. What can't be judged is told on standard error.
    fn judge_all<'a>(&self, request: &'a Check, streams: &mut Streams) -> Vec<Entry<'a>> {
        let mut progress = Progress::new(request.scripts.len(), Instant::now(), streams);
        let mut entries = Vec::new();
        for file in &request.scripts {
            entries.push(Entry { file, verdict: self.judge(file, streams) });
            progress.at(entries.len(), Instant::now(), streams);
        }
        progress.clear(streams);
        let sheet = shown(self.file.name);
        let errors: Vec<String> = entries.iter().filter_map(|entry| entry.error(&sheet)).collect();
        streams.say(&errors.join("\n"));
        entries
    }

    fn judge(&self, file: &OsStr, streams: &mut Streams) -> Verdict {
        let text = match files::read(file, streams) {
            Ok(text) => text,
            Err(error) => return Verdict::Unread(error),
        };
        match self.calls.trust(&self.file.text.bytes, &text.bytes) {
            Err(found) => Verdict::Disagreed(found),
            Ok(Ok(unpacks)) => {
                let words = Words { sheet: self.sheet, names: self.names };
                let told = unpacks.iter().map(|unpack| Unpack::new(unpack, &text.bytes, &words));
                Verdict::Accepted(told.collect())
            }
            Ok(Err(reason)) => {
                let reason = in_full(reason, &self.file.text, &text);
                let message = message(&reason, Some(self.sheet), self.names);
                let message = message.with_pair(&reason, &text.bytes, self.sheet);
                Verdict::Refused(Refusal { name: files::name(file), message })
            }
        }
    }
}

impl Entry<'_> {
    fn status(&self) -> Status {
        match self.verdict {
            Verdict::Accepted(_) => Status::Done,
            Verdict::Refused(_) => Status::Refused,
            Verdict::Unread(_) => Status::Files,
            Verdict::Disagreed(_) => Status::Disagree,
        }
    }

    /// The library's answer, if there is one.
    fn answer(&self) -> Option<u8> {
        match &self.verdict {
            Verdict::Accepted(_) => Some(0),
            Verdict::Refused(refusal) => Some(refusal.message.number),
            Verdict::Disagreed(found) => Some(found.library.answer),
            Verdict::Unread(_) => None,
        }
    }

    /// Whether the library says that it is trust-keeping.
    fn keeping(&self) -> bool {
        match &self.verdict {
            Verdict::Accepted(unpacks) => unpacks.is_empty(),
            Verdict::Disagreed(found) => found.library == Trust { answer: 0, keeping: 1 },
            Verdict::Refused(_) | Verdict::Unread(_) => false,
        }
    }

    /// What standard error says of it.
    fn error(&self, sheet: &str) -> Option<String> {
        match &self.verdict {
            Verdict::Accepted(_) | Verdict::Refused(_) => None,
            Verdict::Unread(error) => Some(files::unread(self.file, error)),
            Verdict::Disagreed(found) => {
                let asked = format!("is {} accepted on {sheet}, and {KEEPING}", shown(self.file));
                Some(disagreement(&asked, &found.disagreement()))
            }
        }
    }

    /// The verdict on a line, and below it the unpacks by which an accepted script isn't
    /// trust-keeping, a line each.
    fn lines(&self, paint: Paint) -> String {
        let (said, more) = match &self.verdict {
            Verdict::Refused(refusal) => return refusal.line(paint) + "\n",
            Verdict::Accepted(unpacks) if unpacks.is_empty() => {
                (paint.good(&format!("accepted, {KEEPING}")), String::new())
            }
            Verdict::Accepted(unpacks) => {
                (paint.good("accepted"), trust::lines(self.file, unpacks, paint))
            }
            Verdict::Unread(_) => (paint.bad("can't be read"), String::new()),
            Verdict::Disagreed(found) => (alone(found), String::new()),
        };
        format!("{} {said}\n{more}", paint.bold(&format!("{}:", shown(self.file))))
    }

    fn json(&self) -> Json {
        let (fields, trusted) = match &self.verdict {
            Verdict::Accepted(unpacks) => (answered(0), trust::fields(unpacks)),
            Verdict::Refused(refusal) => (refused_fields(refusal), self.kept()),
            Verdict::Unread(error) => (unread_fields(&cause(error)), self.kept()),
            Verdict::Disagreed(found) => {
                let disagreed = vec![("disagreement", Json::Bool(true))];
                ([answered(found.library.answer), disagreed].concat(), self.kept())
            }
        };
        named(self.file, [fields, trusted].concat())
    }

    /// Without unpacks, where none are known.
    fn kept(&self) -> Fields {
        vec![("keeping", Json::Bool(self.keeping()))]
    }
}

/// What one of the two says and the other doesn't.
fn alone(found: &Differing) -> String {
    let Differing { library, reference } = found;
    match (library.answer, reference.answer) {
        (0, 0) if library.keeping == 0 => format!("accepted, {KEEPING} by the reference alone"),
        (0, 0) => format!("accepted, {KEEPING} by the library alone"),
        (0, _) => "accepted by the library alone".to_string(),
        (answer, _) => format!("refused by the library alone [{answer}]"),
    }
}

/// How many were accepted, how many of these are trust-keeping, how many were refused, and how many
/// couldn't be read.
struct Counts {
    accepted: usize,
    keeping: usize,
    refused: usize,
    unread: usize,
}

fn counts(entries: &[Entry]) -> Counts {
    let count = |holds: fn(Option<u8>) -> bool| {
        entries.iter().filter(|entry| holds(entry.answer())).count()
    };
    Counts {
        accepted: count(|answer| answer == Some(0)),
        keeping: entries.iter().filter(|entry| entry.keeping()).count(),
        refused: count(|answer| answer.is_some_and(|answer| answer != 0)),
        unread: count(|answer| answer.is_none()),
    }
}

fn words(entries: &[Entry], paint: Paint) -> String {
    let mut text: String = entries.iter().map(|entry| entry.lines(paint)).collect();
    let Counts { accepted, keeping, refused, unread } = counts(entries);
    text += &format!("{}: {accepted} accepted", counted(entries.len(), "script"));
    if accepted > 0 {
        text += &format!(" ({keeping} {KEEPING})");
    }
    text += &format!(", {refused} refused");
    if unread > 0 {
        text += &format!(", {unread} can't be read");
    }
    text + "\n"
}

fn document(sheet: &OsStr, about: Fields, entries: &[Entry]) -> String {
    let Counts { accepted, keeping, refused, unread } = counts(entries);
    let fields = vec![
        ("sheet", named(sheet, about)),
        ("scripts", Json::list(entries, Entry::json)),
        ("accepted", Json::number(accepted)),
        ("refused", Json::number(refused)),
        ("unread", Json::number(unread)),
        ("keeping", Json::number(keeping)),
    ];
    format!("{}\n", Json::Object(fields))
}

fn named(file: &OsStr, mut fields: Fields) -> Json {
    fields.insert(0, ("name", Json::text(files::name(file))));
    Json::Object(fields)
}

fn answered(answer: u8) -> Fields {
    vec![("answer", Json::number(answer.into())), ("accepted", Json::Bool(answer == 0))]
}

fn refused_fields(refusal: &Refusal) -> Fields {
    [answered(refusal.message.number), refusal.fields()].concat()
}

fn unread_fields(error: &str) -> Fields {
    vec![("answer", Json::Null), ("accepted", Json::Bool(false)), ("error", Json::text(error))]
}
