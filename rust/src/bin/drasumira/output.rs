// What is written, where to, and the status that is left behind.
use crate::shown::thousands;
use std::io::{ErrorKind, IsTerminal, Write, stderr, stdout};
use std::process::ExitCode;
use std::time::{Duration, Instant};

const NOISE: u8 = 1;
const FAILED: u8 = 2;

/// Work that takes less is over before a progress line says much.
const LONG: Duration = Duration::from_secs(1);
const BETWEEN: Duration = Duration::from_millis(250);

pub struct Output {
    noise: bool,
    failed: bool,
    progress: Option<Progress>,
    // what a test would else have to read from standard error
    #[cfg(test)]
    pub said: Vec<String>,
}

// The progress line: only where standard error is a terminal.
struct Progress {
    began: Instant,
    last: Instant,
    // bytes of all files, where that is known
    whole: Option<u64>,
    read: u64,
    lines: u64,
    stands: bool,
}

impl Output {
    pub fn new() -> Output {
        Output {
            noise: false,
            failed: false,
            progress: None,
            #[cfg(test)]
            said: vec![],
        }
    }

    /// From here on a progress line is told of, if somebody sits there. `whole`: how many bytes there are to read, where that is known.
    pub fn expect(&mut self, whole: Option<u64>) {
        let now = Instant::now();
        let progress = Progress { began: now, last: now, whole, read: 0, lines: 0, stands: false };
        self.progress = stderr().is_terminal().then_some(progress);
    }

    /// So much more was read.
    pub fn went_on(&mut self, read: u64, lines: u64) {
        if let Some(progress) = &mut self.progress {
            progress.went_on(read, lines);
        }
    }

    /// Writes to standard output. A reader that has gone away ends the program, and nothing is said.
    pub fn put(&mut self, bytes: &[u8]) {
        if bytes.is_empty() {
            return;
        }
        if stdout().is_terminal() {
            self.clear();
        }
        let mut out = stdout().lock();
        let Err(e) = out.write_all(bytes).and_then(|()| out.flush()) else { return };
        if e.kind() != ErrorKind::BrokenPipe {
            self.fail(&format!("standard output: {e}"));
        }
        std::process::exit(self.status().into());
    }

    /// Says on standard error what could not be done.
    pub fn fail(&mut self, words: &str) {
        self.failed = true;
        self.note(words);
    }

    /// Says on standard error what is good to know.
    pub fn note(&mut self, words: &str) {
        self.clear();
        #[cfg(test)]
        self.said.push(words.to_string());
        // where standard error is closed there is nobody to tell
        #[cfg(not(test))]
        let _ = writeln!(stderr(), "drasumira: {words}");
    }

    pub fn found_noise(&mut self) {
        self.noise = true;
    }

    pub fn found_refused(&mut self) {
        self.failed = true;
    }

    fn clear(&mut self) {
        if let Some(progress) = &mut self.progress {
            progress.clear();
        }
    }

    pub fn status(&self) -> u8 {
        match (self.failed, self.noise) {
            (true, _) => FAILED,
            (_, true) => NOISE,
            _ => 0,
        }
    }

    pub fn end(mut self) -> ExitCode {
        self.clear();
        self.status().into()
    }
}

impl Progress {
    fn went_on(&mut self, read: u64, lines: u64) {
        self.read += read;
        self.lines += lines;
        if self.began.elapsed() < LONG || self.last.elapsed() < BETWEEN {
            return;
        }
        self.last = Instant::now();
        self.stands = true;
        let _ = write!(stderr(), "\r\x1b[K{}", self.words(self.began.elapsed()));
    }

    fn words(&self, took: Duration) -> String {
        let done = match self.whole {
            Some(whole) => format!("{}%", 100 * self.read.min(whole) / whole.max(1)),
            None => format!("{} bytes", thousands(self.read)),
        };
        format!("{done}, {} lines a second", thousands((self.lines as f64 / took.as_secs_f64()) as u64))
    }

    fn clear(&mut self) {
        if std::mem::take(&mut self.stands) {
            let _ = write!(stderr(), "\r\x1b[K");
        }
    }
}

#[cfg(test)]
mod tests {
    use super::*;

    #[test]
    fn progress_in_words() {
        let now = Instant::now();
        let mut progress = Progress { began: now, last: now, whole: Some(2_000), read: 900, lines: 9_000, stands: false };
        assert_eq!(progress.words(Duration::from_secs(2)), "45%, 4,500 lines a second");
        progress.whole = None;
        assert_eq!(progress.words(Duration::from_secs(1)), "900 bytes, 9,000 lines a second");
    }
}
