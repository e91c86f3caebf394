//! `simp explain`.

mod scripts;

use crate::args::{Explain, Form};
use crate::calls::Calls;
use crate::files::{self, shown};
use crate::inputs;
use crate::json::{Fields, Json};
use crate::opening::{self, Named};
use crate::reading;
use crate::refusal::Refusal;
use crate::status::{Status, Stop};
use crate::streams::{Paint, Streams};
use crate::table::{aligned, printed};
use crate::words::{Right, Words};
use reference::label::Label;
use reference::principals::Principals;
use reference::types::{Type, TypeId};
use std::ffi::OsStr;

pub fn explain(request: &Explain, calls: &Calls, streams: &mut Streams) -> Result<Status, Stop> {
    let names_file = opening::read_names(request.names.as_deref(), streams)?;
    let (file, scripts) = read(request, streams)?;
    let names = opening::names(names_file.as_ref())?;
    let sheet = match opening::sheet(&file, &names, names_file.as_ref(), calls)? {
        Ok(sheet) => sheet,
        Err(refusal) => return refused(request, &refusal, streams),
    };
    let words = Words { sheet: &sheet, names: &names };
    if let Some(scripts) = scripts {
        let desk = scripts::Desk { sheet: &file, scripts: &scripts, words };
        return desk.explain(request.form, calls, streams);
    }
    let about = About { words };
    let text = match request.form {
        Form::Json => format!("{}\n", Json::Object(about.document(&request.sheet))),
        _ => about.in_words(&request.sheet, streams.paint()),
    };
    streams.finish(&text, Status::Done)
}

/// The sheet, and the scripts where they are asked about.
fn read<'a>(
    request: &'a Explain,
    streams: &mut Streams,
) -> Result<(Named<'a>, Option<Named<'a>>), Stop> {
    let sheet = |text| Named { name: &request.sheet, text };
    let Some(name) = &request.scripts else {
        let [text] = files::read_all([&*request.sheet], streams)?;
        return Ok((sheet(text), None));
    };
    let [first, text] = files::read_all([&*request.sheet, name], streams)?;
    inputs::require_whole(name, &text)?;
    Ok((sheet(first), Some(Named { name, text })))
}

fn refused(request: &Explain, refusal: &Refusal, streams: &mut Streams) -> Result<Status, Stop> {
    let text = match request.form {
        Form::Json => {
            let mut fields = verdict(&request.sheet, refusal.message.number);
            fields.extend(refusal.fields());
            format!("{}\n", Json::Object(vec![("sheet", Json::Object(fields))]))
        }
        _ => refusal.line(streams.paint()) + "\n",
    };
    streams.finish(&text, Status::Refused)
}

fn verdict(file: &OsStr, answer: u8) -> Fields {
    vec![
        ("name", Json::text(files::name(file))),
        ("answer", Json::number(answer.into())),
        ("accepted", Json::Bool(answer == 0)),
    ]
}

const MEANING: &str = "
read: who may be shown it. write: whose data may have gone into it, and who may pack with its
label; not who may run a script, for a number in a script may be stored anywhere
";

/// What is told of a sheet.
struct About<'a> {
    words: Words<'a>,
}

impl About<'_> {
    fn in_words(&self, sheet: &OsStr, paint: Paint) -> String {
        let title = |count: usize, thing: &str| {
            let end = if count == 1 { "" } else { "s" };
            format!("\n{}\n", paint.bold(&format!("{count} {thing}{end}")))
        };
        let about = self.words.sheet;
        [
            format!("{} {}\n", paint.bold(&format!("{}:", shown(sheet))), paint.good("accepted")),
            title(about.principals, "principal"),
            printed("  ", &self.principals()),
            format!("\n{}\n", paint.bold("rule of reading")),
            format!("  {}\n", reading::in_words(about.reading)),
            title(about.types.len(), "type"),
            printed("  ", &self.types()),
            title(about.labels.len(), "label"),
            self.labels(),
            title(about.locations.len(), "location"),
            printed("  ", &self.locations()),
            MEANING.to_string(),
        ]
        .concat()
    }

    fn principals(&self) -> Vec<Vec<String>> {
        let name = |p: usize| self.words.names.principal(p).unwrap_or_default().to_string();
        (0..self.words.sheet.principals).map(|p| vec![numbered(p), name(p)]).collect()
    }

    fn types(&self) -> Vec<Vec<String>> {
        let types = 0..self.words.sheet.types.len();
        types.map(|ty| vec![numbered(ty), self.words.parts(ty)]).collect()
    }

    /// A line for each label, and below it one for each owner who doesn't let everyone.
    fn labels(&self) -> String {
        let labels = &self.words.sheet.labels;
        let rows = labels.iter().enumerate().map(|(number, label)| {
            let name = self.words.names.label(number).unwrap_or_default().to_string();
            vec![numbered(number), name, self.rights(label)]
        });
        let rows = aligned(&rows.collect::<Vec<_>>());
        let both = rows.iter().zip(labels);
        both.map(|(row, label)| format!("  {}\n{}", row.join("  "), self.policies(label))).collect()
    }

    /// Who may read and who may write.
    fn rights(&self, label: &Label) -> String {
        let [read, write] = [Right::Read, Right::Write].map(|right| self.words.who(right, label));
        if read == write {
            format!("read and write: {read}")
        } else {
            format!("read: {read}; write: {write}")
        }
    }

    fn policies(&self, label: &Label) -> String {
        let everyone = Principals::first(self.words.sheet.principals);
        let strict =
            |owner: &usize| label.readers(*owner) != everyone || label.writers(*owner) != everyone;
        let line = |owner: usize| {
            format!(
                "        owner {} lets {} read and {} write\n",
                self.words.principal(owner),
                self.words.principals(label.readers(owner)),
                self.words.principals(label.writers(owner))
            )
        };
        (0..label.principals()).filter(strict).map(line).collect()
    }

    fn locations(&self) -> Vec<Vec<String>> {
        let rows = self.words.sheet.locations.iter().enumerate().map(|(number, location)| {
            let name = self.words.names.location(number).unwrap_or_default().to_string();
            let rights = self.rights(self.words.sheet.label_at(number));
            let label = self.words.label(location.label);
            vec![numbered(number), name, self.words.parts(location.ty), label, rights]
        });
        rows.collect()
    }

    fn document(&self, sheet: &OsStr) -> Fields {
        let about = self.words.sheet;
        let names = self.words.names;
        let principal = |number: usize| {
            let name = Json::name(names.principal(number));
            Json::Object(vec![("principal", Json::number(number)), ("name", name)])
        };
        vec![
            ("sheet", Json::Object(verdict(sheet, 0))),
            ("principals", Json::list(0..about.principals, principal)),
            ("reading", reading::json(about.reading)),
            ("types", Json::list(0..about.types.len(), |number| self.type_json(number))),
            ("labels", Json::list(0..about.labels.len(), |number| self.label_json(number))),
            (
                "locations",
                Json::list(0..about.locations.len(), |number| self.location_json(number)),
            ),
        ]
    }

    fn type_json(&self, number: usize) -> Json {
        let both = |first: TypeId, second: TypeId| Json::list([first, second], Json::number);
        let (kind, parts) = match self.words.sheet.types[number] {
            Type::Int => ("int", Json::Null),
            Type::Error => ("error", Json::Null),
            Type::Package => ("pkg", Json::Null),
            Type::Sum(left, right) => ("sum", both(left, right)),
            Type::Pair(first, second) => ("pair", both(first, second)),
        };
        Json::Object(vec![
            ("type", Json::number(number)),
            ("kind", Json::text(kind)),
            ("parts", parts),
            ("words", Json::text(self.words.parts(number))),
        ])
    }

    fn label_json(&self, number: usize) -> Json {
        let label = &self.words.sheet.labels[number];
        let owner = |owner: usize| {
            Json::Object(vec![
                ("owner", Json::number(owner)),
                ("readers", Json::list(label.readers(owner).members(), Json::number)),
                ("writers", Json::list(label.writers(owner).members(), Json::number)),
            ])
        };
        Json::Object(vec![
            ("label", Json::number(number)),
            ("name", Json::name(self.words.names.label(number))),
            ("read", Json::text(self.words.who(Right::Read, label))),
            ("write", Json::text(self.words.who(Right::Write, label))),
            ("owners", Json::list(0..label.principals(), owner)),
        ])
    }

    fn location_json(&self, number: usize) -> Json {
        let location = self.words.sheet.locations[number];
        let label = self.words.sheet.label_at(number);
        Json::Object(vec![
            ("location", Json::number(number)),
            ("name", Json::name(self.words.names.location(number))),
            ("type", Json::number(location.ty)),
            ("label", Json::number(location.label)),
            ("read", Json::text(self.words.who(Right::Read, label))),
            ("write", Json::text(self.words.who(Right::Write, label))),
        ])
    }
}

fn numbered(number: usize) -> String {
    format!("{number:>2}")
}
