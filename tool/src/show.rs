//! `simp show`.

use crate::args::{self, Form, Show};
use crate::calls::Calls;
use crate::files::{self, shown};
use crate::json::{Fields, Json};
use crate::lent::Lent;
use crate::message::{Blamed, Message};
use crate::opening::{self, Named};
use crate::reading;
use crate::refusal::{disagreed, Refusal};
use crate::status::{Status, Stop};
use crate::streams::{Paint, Streams};
use crate::values::{self, Row};
use crate::words::{pair, Words};
use reference::label::Reading;
use reference::principals::Principals;
use reference::sheet::LabelId;

pub fn show(request: &Show, calls: &Calls, streams: &mut Streams) -> Result<Status, Stop> {
    let names_file = opening::read_names(request.names.as_deref(), streams)?;
    let [sheet, memory] = files::read_all([&*request.sheet, &*request.memory], streams)?;
    let names = opening::names(names_file.as_ref())?;
    let group = opening::group("--to", &request.group, &names, args::command("show"))?;
    let file = Named { name: &request.sheet, text: sheet };
    let sheet = match opening::sheet(&file, &names, names_file.as_ref(), calls)? {
        Ok(sheet) => sheet,
        Err(refusal) => return refused(request, &refusal, streams),
    };
    let lent = Lent::new(&memory, &sheet);
    let view = calls.view(&file.text.bytes, &lent.words, group);
    match view.map_err(|found| disagreed(&asked(request), &found))? {
        Ok(view) => {
            let group = Principals::from_bits(group);
            let desk = Desk { words: Words { sheet: &sheet, names: &names }, group };
            let text = desk.view(request, &view, streams.paint());
            streams.finish(&text, Status::Done)
        }
        Err(reason) => {
            let message = lent.told(&reason, &sheet, &names);
            refused(request, &Refusal { name: blamed(request, &message), message }, streams)
        }
    }
}

fn asked(request: &Show) -> String {
    let Show { sheet, memory, group, .. } = request;
    let (sheet, memory, group) = (shown(sheet), shown(memory), files::printable(group));
    format!("show {memory} on {sheet}, --to '{group}'")
}

fn blamed(request: &Show, message: &Message) -> String {
    match message.blamed {
        Blamed::Argument => "--to".to_string(),
        Blamed::Memory => files::name(&request.memory),
        _ => files::name(&request.sheet),
    }
}

fn refused(request: &Show, refusal: &Refusal, streams: &mut Streams) -> Result<Status, Stop> {
    let text = match request.form {
        Form::Words => refusal.line(streams.paint()) + "\n",
        Form::Plain => {
            streams.say(&refusal.line(Paint::OFF));
            String::new()
        }
        Form::Json => {
            let answer = Json::number(refusal.message.number.into());
            let mut fields = vec![("answer", answer), ("shown", Json::Bool(false))];
            fields.extend(refusal.named_fields());
            format!("{}\n", Json::Object(fields))
        }
    };
    streams.finish(&text, Status::Refused)
}

/// What a view is told by.
struct Desk<'a> {
    words: Words<'a>,
    group: Principals,
}

/// What a group sees of a location.
struct Seen<'a> {
    /// Its words in the view.
    words: &'a [u32],
    /// Its value, if it isn't hidden.
    value: Option<String>,
    hidden: Hidden,
}

/// What is hidden of a location.
#[derive(Default)]
struct Hidden {
    /// Whether the content of a package in it is.
    content: bool,
    /// Whether the group would read that, or the location, if parties read together.
    only_together: bool,
}

/// Stands after what is hidden only since the sheet wants one reader by himself.
const ONLY_TOGETHER: &str = " (read only together)";

impl<'a> Seen<'a> {
    fn row(&self) -> Row<'a> {
        let why = if self.hidden.only_together { ONLY_TOGETHER } else { "" };
        let value = self.value.clone().unwrap_or_else(|| format!("hidden{why}"));
        Row { mark: "", words: self.words, value }
    }
}

impl Desk<'_> {
    /// All that is printed comes from the view's words; the sheet says what is hidden in them.
    fn view(&self, request: &Show, view: &[u32], paint: Paint) -> String {
        let places = values::locations(view).enumerate();
        let seen: Vec<Seen> = places.map(|(place, words)| self.seen(place, words)).collect();
        match request.form {
            Form::Plain => values::text(view),
            Form::Words => self.in_words(&seen, paint),
            Form::Json => format!("{}\n", Json::Object(self.fields(&seen))),
        }
    }

    fn seen<'a>(&self, location: usize, words: &'a [u32]) -> Seen<'a> {
        let label = self.words.sheet.locations[location].label;
        let mut hidden = Hidden::default();
        if self.words.sheet.reads(self.group, label) {
            let value = Some(self.value(words, &mut hidden).0);
            Seen { words, value, hidden }
        } else {
            hidden.only_together = self.read_together(label);
            Seen { words, value: None, hidden }
        }
    }

    /// Whether the members of the group would read a label together.
    fn read_together(&self, label: LabelId) -> bool {
        let label = self.words.sheet.labels.get(label);
        label.is_some_and(|label| label.read_by(Reading::Pooled, self.group))
    }

    /// The value that a view's words start with, without contents that the group can't read, and
    /// the words after it.
    fn value<'w>(&self, words: &'w [u32], hidden: &mut Hidden) -> (String, &'w [u32]) {
        let mut after = |start: &str, words| {
            let (value, rest) = self.value(words, hidden);
            (format!("{start} {value}"), rest)
        };
        match *words {
            [1 | 2, _, ref rest @ ..] => (values::in_words(&words[..2], &self.words), rest),
            [3, ref rest @ ..] => after("left", rest),
            [4, ref rest @ ..] => after("right", rest),
            [5, label, ref content @ ..] => {
                let (label, sheet) = (label as usize, self.words.sheet);
                let package = format!("a package of {} with", self.words.label(label));
                if label < sheet.labels.len() && sheet.reads(self.group, label) {
                    return after(&package, content);
                }
                let together = self.read_together(label);
                hidden.content = true;
                hidden.only_together |= together;
                let why = if together { ONLY_TOGETHER } else { "" };
                // one zero word, and what comes next follows it
                (format!("{package} hidden content{why}"), content.get(1..).unwrap_or_default())
            }
            [6, ref rest @ ..] => {
                let (first, rest) = self.value(rest, hidden);
                let (second, rest) = self.value(rest, hidden);
                (pair(&first, &second), rest)
            }
            _ => (values::NONE.to_string(), &[]),
        }
    }

    fn in_words(&self, seen: &[Seen], paint: Paint) -> String {
        let rows: Vec<Row> = seen.iter().map(Seen::row).collect();
        let hidden = seen.iter().filter(|seen| seen.value.is_none()).count();
        let group = self.words.principals(self.group);
        let rule = match seen.iter().any(|seen| seen.hidden.only_together) {
            true => reading::in_words(self.words.sheet.reading) + "\n",
            false => String::new(),
        };
        format!(
            "what a group of {} may see\n{}{} of {} locations hidden\n{rule}",
            paint.bold(&group),
            values::lines(&rows, self.words.names, paint),
            hidden,
            seen.len()
        )
    }

    fn fields(&self, seen: &[Seen]) -> Fields {
        vec![
            ("answer", Json::number(0)),
            ("shown", Json::Bool(true)),
            ("group", Json::list(self.group.members(), Json::number)),
            ("reading", reading::json(self.words.sheet.reading)),
            ("locations", Json::list(seen.iter().enumerate(), |seen| self.location(seen))),
        ]
    }

    fn location(&self, (location, seen): (usize, &Seen)) -> Json {
        Json::Object(vec![
            ("location", Json::number(location)),
            ("name", Json::name(self.words.names.location(location))),
            ("hidden", Json::Bool(seen.value.is_none())),
            ("content_hidden", Json::Bool(seen.hidden.content)),
            ("only_together", Json::Bool(seen.hidden.only_together)),
            ("words", values::json(seen.words)),
            ("value", Json::name(seen.value.as_deref())),
        ])
    }
}
