//! What a run and a round start from.

use crate::args::Run;
use crate::calls::{Asked, Calls};
use crate::files::{self, shown, Text};
use crate::message::{Blamed, Message};
use crate::names::Names;
use crate::opening::{self, Named};
use crate::refusal::Refusal;
use crate::status::{Status, Stop};
use crate::streams::Streams;
use reference::sheet::Sheet;
use std::ffi::OsStr;

/// The files.
pub struct Texts<'a> {
    names: Option<Named<'a>>,
    pub sheet: Named<'a>,
    pub script: Text,
    pub memory: Text,
}

/// What they and the arguments give.
pub struct Inputs {
    pub names: Names,
    pub authority: u16,
    /// The sheet, or why it is refused.
    pub sheet: Result<Sheet, Refusal>,
}

pub fn read<'a>(request: &'a Run, streams: &mut Streams) -> Result<Texts<'a>, Stop> {
    let names = opening::read_names(request.names.as_deref(), streams)?;
    let files = [&*request.sheet, &*request.script, &*request.memory];
    let [sheet, script, memory] = files::read_all(files, streams)?;
    Ok(Texts { names, sheet: Named { name: &request.sheet, text: sheet }, script, memory })
}

impl Texts<'_> {
    pub fn open(&self, request: &Run, calls: &Calls) -> Result<Inputs, Stop> {
        let names_file = self.names.as_ref();
        let names = opening::names(names_file)?;
        let authority = opening::group("--as", &request.authority, &names, Some(request.command))?;
        let sheet = opening::sheet(&self.sheet, &names, names_file, calls)?;
        Ok(Inputs { names, authority, sheet })
    }

    /// What the library is asked.
    pub fn asked(&self, authority: u16, budget: u32) -> Asked<'_> {
        let (sheet, script) = (&self.sheet.text.bytes, &self.script.bytes);
        Asked { sheet, script, authority, budget }
    }
}

/// That the text of several scripts was read whole. A longer one isn't judged by its start, which
/// may have another number: 4, where the whole has too many scripts.
pub fn require_whole(name: &OsStr, scripts: &Text) -> Result<(), Stop> {
    if !scripts.is_cut() {
        return Ok(());
    }
    let what = "it has 1 MiB or more, and 32 scripts have less: name a file of scripts";
    Err(Stop::new(Status::Files, format!("simp: {}: {what}", shown(name))))
}

/// What is asked, in words.
pub fn in_words(request: &Run) -> String {
    let Run { command, sheet, script, memory, authority, budget, .. } = request;
    let [sheet, script, memory] = [sheet, script, memory].map(|name| shown(name));
    let (name, authority) = (command.name, files::printable(authority));
    format!("{name} {script} on {sheet} from {memory}, --as '{authority}' --budget {budget}")
}

/// The file or argument that a message blames.
pub fn blamed(request: &Run, message: &Message) -> String {
    match message.blamed {
        Blamed::Sheet => files::name(&request.sheet),
        Blamed::Script => files::name(&request.script),
        Blamed::Memory => files::name(&request.memory),
        Blamed::Argument => "--as".to_string(),
    }
}
