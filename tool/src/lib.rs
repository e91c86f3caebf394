//! The desk tool `simp`: checks, runs, shows and explains. Every verdict, run, view and list of
//! groups is the proved library's; what is told of it comes from the reference.

mod args;
mod at_start;
pub mod calls;
mod check;
mod explain;
mod files;
mod help;
mod inputs;
mod json;
mod left;
mod lent;
mod long_pair;
pub mod message;
pub mod names;
mod opening;
mod progress;
mod readers;
mod reading;
mod refusal;
mod replace;
mod round;
mod run;
mod show;
pub mod status;
pub mod streams;
mod table;
mod trust;
mod values;
pub mod words;

use args::{Form, Request};
use calls::{Calls, CALLS};
use json::Json;
use status::{Status, Stop};
use std::ffi::OsString;
use std::io::{self, IsTerminal, Read, Write};
use streams::{Closed, Streams};

/// The tool on the process's arguments and streams; the exit status.
pub fn standard() -> i32 {
    let args = std::env::args_os().skip(1).collect();
    let mut input: Box<dyn Read> =
        if at_start::input_closed() { Box::new(Closed) } else { Box::new(io::stdin()) };
    let mut out: Box<dyn Write> =
        if at_start::output_closed() { Box::new(Closed) } else { Box::new(io::stdout()) };
    let mut streams = Streams {
        input: &mut input,
        out: &mut out,
        err: &mut io::stderr(),
        colour: streams::wants_colour(),
        progress: io::stderr().is_terminal(),
    };
    main_with(args, &CALLS, &mut streams)
}

/// The tool on arguments, calls and streams; the exit status.
pub fn main_with(args: Vec<OsString>, calls: &Calls, streams: &mut Streams) -> i32 {
    match answer(args, calls, streams) {
        Ok(status) => status.code(),
        Err(stop) => {
            streams.say(&stop.text);
            stop.status.code()
        }
    }
}

fn answer(args: Vec<OsString>, calls: &Calls, streams: &mut Streams) -> Result<Status, Stop> {
    match args::parse(args) {
        Err(misuse) => Err(opening::misused(&misuse.what, misuse.command)),
        Ok(Request::Help(command)) => streams.finish(&help::help(command), Status::Done),
        Ok(Request::Version) => streams.finish(&help::version(), Status::Done),
        Ok(Request::Check(request)) => {
            let ended = check::check(&request, calls, streams);
            documented(request.form, ended, streams)
        }
        Ok(Request::Run(request)) => {
            let ended = run::run(&request, calls, streams);
            documented(request.form, ended, streams)
        }
        Ok(Request::Round(request)) => {
            let ended = round::round(&request, calls, streams);
            documented(request.form, ended, streams)
        }
        Ok(Request::Show(request)) => {
            let ended = show::show(&request, calls, streams);
            documented(request.form, ended, streams)
        }
        Ok(Request::Readers(request)) => {
            let ended = readers::readers(&request, calls, streams);
            documented(request.form, ended, streams)
        }
        Ok(Request::Explain(request)) => {
            let ended = explain::explain(&request, calls, streams);
            documented(request.form, ended, streams)
        }
    }
}

/// With `--json`, a command that ends before it has printed anything has a document too.
fn documented(
    form: Form,
    ended: Result<Status, Stop>,
    streams: &mut Streams,
) -> Result<Status, Stop> {
    match ended {
        Err(stop) if form == Form::Json && !stop.late => {
            let fields = vec![("answer", Json::Null), ("error", Json::text(&stop.text))];
            // that standard output fails too is told by the status of what is told first
            let _ = streams.print(&format!("{}\n", Json::Object(fields)));
            Err(stop)
        }
        other => other,
    }
}
