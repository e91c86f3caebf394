//! The memory that a run or a round leaves: printed, and put back into its file.

use crate::args::{Form, Run};
use crate::files::shown;
use crate::json::{closing, Fields, Json};
use crate::replace::replace;
use crate::status::{Status, Stop};
use crate::streams::{cause, output_failed, Paint, Streams};
use crate::values::{self, Row};
use crate::words::Words;
use std::path::Path;

pub struct Left<'a> {
    pub request: &'a Run,
    pub words: Words<'a>,
    pub before: &'a [u32],
    pub after: &'a [u32],
}

impl<'a> Left<'a> {
    /// Each location before and after.
    fn changes(&self) -> Vec<Change<'a>> {
        let pairs = values::locations(self.before).zip(values::locations(self.after));
        pairs.map(|(before, after)| Change { before, after }).collect()
    }

    /// A line for each location, and how many changed.
    pub fn in_words(&self, paint: Paint) -> String {
        let changes = self.changes();
        let rows: Vec<Row> = changes.iter().map(|change| change.row(&self.words)).collect();
        let changed = changes.iter().filter(|change| change.is_one()).count();
        let lines = values::lines(&rows, self.words.names, paint);
        format!("{lines}{changed} of {} locations changed\n", changes.len())
    }

    pub fn fields(&self) -> Fields {
        let changes = self.changes();
        let places = changes.iter().enumerate().filter(|(_, change)| change.is_one());
        let changed = Json::list(places, |(location, _)| Json::number(location));
        vec![("memory", memory(Some(self.after))), ("changed", changed)]
    }

    /// Prints what is told of the run and replaces the memory, if that is asked.
    pub fn finish(
        &self,
        text: &str,
        status: Status,
        streams: &mut Streams,
    ) -> Result<Status, Stop> {
        if self.request.write {
            self.write(text, streams).map(|()| status)
        } else {
            streams.finish(&format!("{text}{}", self.end(None)), status)
        }
    }

    /// The run is printed first, so that a memory whose run couldn't be shown is as it was.
    fn write(&self, text: &str, streams: &mut Streams) -> Result<(), Stop> {
        let memory = shown(&self.request.memory);
        let failed = |what: String| Err(Stop::late(Status::Files, what));
        if let Err(error) = streams.print(text) {
            return failed(format!("{}; {memory} is as it was", output_failed(&error)));
        }
        let path = Path::new(&self.request.memory);
        let after = values::text(self.after);
        let replaced = replace(path, after.as_bytes()).map_err(|error| cause(&error));
        let printed = streams.print(&self.end(Some(&replaced)));
        match (replaced, printed) {
            (Ok(()), Ok(())) => Ok(()),
            (Ok(()), Err(error)) => {
                failed(format!("{}; {memory} is replaced", output_failed(&error)))
            }
            (Err(error), _) => failed(format!("simp: {memory}: {error}; it is as it was")),
        }
    }

    /// What is printed last: whether the memory is replaced, if that was tried.
    fn end(&self, replaced: Option<&Result<(), String>>) -> String {
        match (self.request.form, replaced) {
            (Form::Json, Some(Err(error))) => {
                closing(vec![("written", Json::Bool(false)), ("error", Json::text(error))])
            }
            (Form::Json, _) => closing(vec![("written", Json::Bool(replaced.is_some()))]),
            (Form::Words, Some(Ok(()))) => format!("{} is replaced\n", shown(&self.request.memory)),
            _ => String::new(),
        }
    }
}

/// The fields of a memory that is as it was. It is there if it could be read.
pub fn kept(words: Option<&[u32]>) -> Fields {
    vec![("memory", memory(words)), ("changed", Json::List(Vec::new()))]
}

fn memory(words: Option<&[u32]>) -> Json {
    words.map_or(Json::Null, |words| Json::list(values::locations(words), values::json))
}

/// A location's words before and after a run.
struct Change<'a> {
    before: &'a [u32],
    after: &'a [u32],
}

impl<'a> Change<'a> {
    fn is_one(&self) -> bool {
        self.before != self.after
    }

    fn row(&self, words: &Words) -> Row<'a> {
        let value = values::in_words(self.after, words);
        if self.is_one() {
            let value = format!("{value} (was {})", values::in_words(self.before, words));
            Row { mark: "*", words: self.after, value }
        } else {
            Row { mark: "", words: self.after, value }
        }
    }
}
