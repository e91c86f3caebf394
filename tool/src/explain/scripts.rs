//! `simp explain` of scripts: the label that each starts at and who reads it, and whether it is
//! trust-keeping.

use super::{numbered, verdict};
use crate::args::Form;
use crate::calls::Calls;
use crate::files::{self, shown};
use crate::json::{Fields, Json};
use crate::message::{counted, Message, Scripts, Unpack};
use crate::opening::Named;
use crate::reading;
use crate::refusal::{disagreed, Refusal};
use crate::status::{Status, Stop};
use crate::streams::{Paint, Streams};
use crate::table::printed;
use crate::trust::{self, KEEPING};
use crate::words::{Right, Words};
use reference::flow::Endorsement;
use reference::round::Refused;
use reference::script::Script;

const MEANING: &str = "\
a group that can't read a script's starting label is shown no difference when that script is run
what a group can write makes no difference to the rest after a trust-keeping script is done
";

/// What is asked, and what it is told by.
pub struct Desk<'a> {
    pub sheet: &'a Named<'a>,
    /// One script, or those of a round.
    pub scripts: &'a Named<'a>,
    pub words: Words<'a>,
}

impl Desk<'_> {
    pub fn explain(
        &self,
        form: Form,
        calls: &Calls,
        streams: &mut Streams,
    ) -> Result<Status, Stop> {
        let [sheet, scripts] = [self.sheet, self.scripts].map(|file| &file.text.bytes[..]);
        let judged = calls.scripts((sheet, self.words.sheet), scripts);
        match judged.map_err(|found| disagreed(&self.asked("accepted"), &found))? {
            Ok(accepted) => {
                let trusts = calls.trusts(sheet, scripts);
                let trusts = trusts.map_err(|found| disagreed(&self.asked(KEEPING), &found))?;
                let about = self.about(&accepted, trusts);
                let text = match form {
                    Form::Json => self.document(verdict(self.scripts.name, 0), &about),
                    _ => self.in_words(&about, streams.paint()),
                };
                streams.finish(&text, Status::Done)
            }
            Err(refused) => self.refused(form, refused, streams),
        }
    }

    fn asked(&self, what: &str) -> String {
        let [sheet, scripts] = [self.sheet, self.scripts].map(|file| shown(file.name));
        format!("is every script of {scripts} {what} on {sheet}")
    }

    fn refused(&self, form: Form, refused: Refused, streams: &mut Streams) -> Result<Status, Stop> {
        let message = self.told(refused);
        let which = message.script.map_or(Json::Null, |which| Json::number(which.script));
        let refusal = Refusal { name: files::name(self.scripts.name), message };
        let text = match form {
            Form::Json => {
                let verdict = verdict(self.scripts.name, refusal.message.number);
                let about = [verdict, vec![("script", which)], refusal.fields()].concat();
                self.document(about, &[])
            }
            _ => refusal.line(streams.paint()) + "\n",
        };
        streams.finish(&text, Status::Refused)
    }

    fn told(&self, refused: Refused) -> Message {
        let scripts = Scripts::new(&self.scripts.text.bytes);
        let Words { sheet, names } = self.words;
        match refused.script {
            Some(place) => scripts.message(place.number, refused.reason, sheet, names),
            None => scripts.too_many(&refused.reason),
        }
    }

    fn in_words(&self, scripts: &[About], paint: Paint) -> String {
        let name = paint.bold(&format!("{}:", shown(self.scripts.name)));
        let title = paint.bold(&counted(scripts.len(), "script"));
        let rows: Vec<Vec<String>> = scripts.iter().map(|script| script.row(&self.words)).collect();
        let rows = printed("  ", &rows);
        let unpacks: Vec<Unpack> =
            scripts.iter().flat_map(|script| script.unpacks.clone()).collect();
        let parting = if unpacks.is_empty() { "" } else { "\n" };
        let unpacks = trust::lines(self.scripts.name, &unpacks, paint);
        let accepted = paint.good("accepted");
        let rule = reading::in_words(self.words.sheet.reading);
        format!("{name} {accepted}\n\n{title}\n{rows}{parting}{unpacks}\n{rule}\n{MEANING}")
    }

    fn document(&self, about: Fields, scripts: &[About]) -> String {
        let fields = vec![
            ("sheet", Json::Object(verdict(self.sheet.name, 0))),
            ("reading", reading::json(self.words.sheet.reading)),
            ("scripts", Json::Object(about)),
            ("starts", Json::list(scripts, |script| script.json(&self.words))),
        ];
        format!("{}\n", Json::Object(fields))
    }

    /// What is told of accepted scripts, by the unpacks by which each isn't trust-keeping.
    fn about<'a>(&self, scripts: &'a [Script], trusts: Vec<Vec<Endorsement>>) -> Vec<About<'a>> {
        let places = Scripts::new(&self.scripts.text.bytes);
        let told = |(place, (script, unpacks)): (usize, (&'a Script, Vec<Endorsement>))| About {
            script,
            number: places.which(place).script,
            first_line: places.first_line(place),
            unpacks: unpacks.into_iter().map(|u| places.unpack(place, u, &self.words)).collect(),
        };
        scripts.iter().zip(trusts).enumerate().map(told).collect()
    }
}

/// A script, its number, the line of the file that it starts in, and the unpacks by which it isn't
/// trust-keeping.
struct About<'a> {
    script: &'a Script,
    number: usize,
    first_line: usize,
    unpacks: Vec<Unpack>,
}

impl About<'_> {
    fn row(&self, words: &Words) -> Vec<String> {
        let label = match self.script.opening.start {
            Some(start) => words.label(start.label),
            None => "bottom, without `b`".to_string(),
        };
        let not = if self.unpacks.is_empty() { "" } else { "not " };
        vec![
            numbered(self.number),
            format!("line {}", self.first_line),
            format!("starts at {label}"),
            format!("read: {}", self.who(Right::Read, words)),
            format!("{not}{KEEPING}"),
        ]
    }

    fn who(&self, right: Right, words: &Words) -> String {
        words.who(right, &self.script.opening.starting_label(words.sheet))
    }

    fn json(&self, words: &Words) -> Json {
        let label = self.script.opening.start.map(|start| start.label);
        let start = vec![
            ("script", Json::number(self.number)),
            ("first_line", Json::number(self.first_line)),
            ("label", label.map_or(Json::Null, Json::number)),
            ("name", Json::name(label.and_then(|label| words.names.label(label)))),
            ("read", Json::text(self.who(Right::Read, words))),
            ("write", Json::text(self.who(Right::Write, words))),
        ];
        Json::Object([start, trust::fields(&self.unpacks)].concat())
    }
}
