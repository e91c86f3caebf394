//! How far a long check is, on a terminal.

use crate::streams::Streams;
use std::time::{Duration, Instant};

/// How long a check goes on before its progress is shown, and between two lines.
const WAIT: Duration = Duration::from_secs(1);
const PAUSE: Duration = Duration::from_millis(100);

pub struct Progress {
    total: usize,
    /// When to show the next line, if at all.
    next: Option<Instant>,
    shown: usize,
}

impl Progress {
    pub fn new(total: usize, start: Instant, streams: &Streams) -> Progress {
        let next = streams.progress.then(|| start + WAIT);
        Progress { total, next, shown: 0 }
    }

    /// Rewrites the line, if it is due.
    pub fn at(&mut self, done: usize, now: Instant, streams: &mut Streams) {
        if self.next.is_some_and(|next| now >= next) {
            let line = format!("checked {done} of {}", self.total);
            self.write(&format!("\r{line}"), streams);
            self.shown = line.len();
            self.next = Some(now + PAUSE);
        }
    }

    /// Takes the line away.
    pub fn clear(&mut self, streams: &mut Streams) {
        if self.shown > 0 {
            self.write(&format!("\r{}\r", " ".repeat(self.shown)), streams);
        }
    }

    /// Progress that can't be shown is no error.
    fn write(&self, text: &str, streams: &mut Streams) {
        let _ = streams.err.write_all(text.as_bytes()).and_then(|()| streams.err.flush());
    }
}

#[cfg(test)]
mod tests {
    use super::{Progress, WAIT};
    use crate::streams::Streams;
    use std::io;
    use std::time::Instant;

    /// What is written to standard error while three scripts are checked, at two moments.
    fn shown(progress: bool) -> String {
        let mut err = Vec::new();
        let (input, out) = (&mut io::empty(), &mut io::sink());
        let mut streams = Streams { input, out, err: &mut err, colour: false, progress };
        let start = Instant::now();
        let mut line = Progress::new(140, start, &streams);
        line.at(1, start, &mut streams);
        line.at(37, start + WAIT * 2, &mut streams);
        line.at(38, start + WAIT * 2, &mut streams);
        line.clear(&mut streams);
        String::from_utf8(err).unwrap()
    }

    #[test]
    fn a_line_is_written_after_a_while_and_taken_away() {
        assert_eq!(shown(true), format!("\rchecked 37 of 140\r{}\r", " ".repeat(17)));
        assert_eq!(shown(false), "");
    }
}
