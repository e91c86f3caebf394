//! `simp readers`.

use crate::args::{self, Form, Readers};
use crate::calls::Calls;
use crate::files::{self, shown};
use crate::json::{Fields, Json};
use crate::message::{counted, groups_read, message, Blamed, Message};
use crate::names::Names;
use crate::opening::{self, Named};
use crate::reading;
use crate::refusal::{disagreed, Refusal};
use crate::status::{Status, Stop};
use crate::streams::{Paint, Streams};
use crate::words::Words;
use reference::label::Reading;
use reference::principals::Principals;
use reference::sheet::LabelId;
use reference::sheet_text::line_of_label;
use reference::Reason;

/// The argument's name.
const LABEL: &str = "LABEL";

pub fn readers(request: &Readers, calls: &Calls, streams: &mut Streams) -> Result<Status, Stop> {
    let names_file = opening::read_names(request.names.as_deref(), streams)?;
    let [text] = files::read_all([&*request.sheet], streams)?;
    let names = opening::names(names_file.as_ref())?;
    let label = asked_label(request, &names)?;
    let file = Named { name: &request.sheet, text };
    let sheet = match opening::sheet(&file, &names, names_file.as_ref(), calls)? {
        Ok(sheet) => sheet,
        Err(refusal) => return refused(request, &refusal, streams),
    };
    let labels = label.map_or(0..sheet.labels.len(), |label| label..label + 1);
    match lists(request, labels, &file.text.bytes, calls)? {
        Ok(lists) => {
            let words = Words { sheet: &sheet, names: &names };
            let desk = Desk { words, sheet: &file.text.bytes };
            let text = desk.told(request, &lists, streams.paint());
            streams.finish(&text, Status::Done)
        }
        Err(reason) => {
            let message = message(&reason, Some(&sheet), &names);
            refused(request, &Refusal { name: blamed(request, &message), message }, streams)
        }
    }
}

/// The label that is asked about, if it isn't every one.
fn asked_label(request: &Readers, names: &Names) -> Result<Option<LabelId>, Stop> {
    let Some(given) = &request.label else {
        return Ok(None);
    };
    let misused = |what| opening::misused(&format!("{LABEL}: {what}"), args::command("readers"));
    names.label_of(given).map(Some).map_err(misused)
}

/// A label and the smallest groups that read it.
struct List {
    label: LabelId,
    groups: Vec<Principals>,
}

/// The lists of some labels, or why the first that is refused is.
fn lists(
    request: &Readers,
    labels: impl Iterator<Item = LabelId>,
    sheet: &[u8],
    calls: &Calls,
) -> Result<Result<Vec<List>, Reason>, Stop> {
    let mut lists = Vec::new();
    for label in labels {
        // a label's number has 32 bits, on a sheet and as an argument
        let groups = calls.groups(sheet, label as u32);
        match groups.map_err(|found| disagreed(&asked(request, label), &found))? {
            Ok(groups) => lists.push(List { label, groups }),
            Err(reason) => return Ok(Err(reason)),
        }
    }
    Ok(Ok(lists))
}

fn asked(request: &Readers, label: LabelId) -> String {
    format!("readers of label {label} on {}", shown(&request.sheet))
}

fn blamed(request: &Readers, message: &Message) -> String {
    match message.blamed {
        Blamed::Argument => LABEL.to_string(),
        _ => files::name(&request.sheet),
    }
}

fn refused(request: &Readers, refusal: &Refusal, streams: &mut Streams) -> Result<Status, Stop> {
    let text = match request.form {
        Form::Json => {
            let fields = verdict(refusal.message.number);
            format!("{}\n", Json::Object([fields, refusal.named_fields()].concat()))
        }
        _ => refusal.line(streams.paint()) + "\n",
    };
    streams.finish(&text, Status::Refused)
}

fn verdict(answer: u8) -> Fields {
    vec![("answer", Json::number(answer.into())), ("listed", Json::Bool(answer == 0))]
}

/// What the lists are told by.
struct Desk<'a> {
    words: Words<'a>,
    /// The text of the sheet.
    sheet: &'a [u8],
}

impl Desk<'_> {
    fn told(&self, request: &Readers, lists: &[List], paint: Paint) -> String {
        match request.form {
            Form::Json => {
                let labels = vec![
                    ("reading", reading::json(self.words.sheet.reading)),
                    ("labels", Json::list(lists, |list| self.json(list))),
                ];
                format!("{}\n", Json::Object([verdict(0), labels].concat()))
            }
            _ if lists.is_empty() => {
                let sheet = paint.bold(&format!("{}:", shown(&request.sheet)));
                format!("{sheet} the sheet has no labels\n")
            }
            _ => lists.iter().map(|list| self.in_words(list, paint)).collect(),
        }
    }

    /// The label and how many groups read it, or principals each by himself, then a line for each.
    fn in_words(&self, list: &List, paint: Paint) -> String {
        let label = paint.bold(&format!("{}:", self.words.label(list.label)));
        // `everyone` would be taken for each by himself
        let group = |group: &Principals| format!("  {}\n", self.words.members(*group));
        let groups: String = list.groups.iter().map(group).collect();
        let read = match (self.words.sheet.reading, list.groups.len()) {
            (Reading::Pooled, count) => format!("{} it", groups_read(count)),
            (Reading::Alone, 0) => self.unread(list.label),
            (Reading::Alone, 1) => "1 principal reads it by himself".to_string(),
            (Reading::Alone, count) => {
                format!("{} read it, each by himself", counted(count, "principal"))
            }
        };
        format!("{label} {read}\n{groups}")
    }

    /// That no one reads a label by himself, and what to do.
    fn unread(&self, label: LabelId) -> String {
        format!(
            "nobody reads it by himself: let one principal read for every owner, in the `O` lines \
             after its `L` (line {}); or take `R 1` (line {}) out if parties may read together",
            line_of_label(self.sheet, label),
            reading::LINE
        )
    }

    fn json(&self, list: &List) -> Json {
        let group = |group: &Principals| Json::list(group.members(), Json::number);
        Json::Object(vec![
            ("label", Json::number(list.label)),
            ("name", Json::name(self.words.names.label(list.label))),
            ("count", Json::number(list.groups.len())),
            ("groups", Json::list(&list.groups, group)),
        ])
    }
}
