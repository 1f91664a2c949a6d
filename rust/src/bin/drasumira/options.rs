// What the command line asks for.
use crate::reading::Reading;
use drasumira::DEFAULT_THRESHOLD;
use std::ffi::OsString;
use std::path::PathBuf;

pub const HELP: &str = "\
drasumira: which lines of a log are noise, and why

  drasumira why [FILE..]        the noisy lines, with what makes them so marked
  drasumira score [FILE..]      a row a line, with tabs: score, detector, counts
  drasumira languages [FILE..]  the languages a file may be in, the best first
  drasumira compare --page A --page B [FILE..]
                                the more readable of two readings of each line
  drasumira report [FILE..]     how all lines spread over each detector's ratios

  --threshold X  noise is a score of X or above (0.15 where it is not given);
                 in languages the least score that is told (0.1)
  --page P       utf-8 (where it is not given), windows-1251, windows-1252 or
                 iso-8859-2: how the bytes of a line are read
  --json         one JSON object a line
  --all          why: tell of the readable lines too
  --html OUT     report: write a page for a browser besides
  --help, --version
  FILE           - or none is standard input

Status: 0 no noise, 1 noise found, 2 something could not be read or used.

  drasumira why console.log
  tail -f console.log | drasumira score --page windows-1251
";

#[derive(Clone, Copy, Debug, PartialEq, Eq)]
pub enum Command {
    Why,
    Score,
    Languages,
    Compare,
    Report,
}

#[derive(Debug)]
pub struct Options {
    pub command: Command,
    pub files: Vec<PathBuf>,
    pub threshold: Option<f32>,
    // one reading; of `compare` two
    pub readings: Vec<Reading>,
    pub json: bool,
    pub all: bool,
    pub html: Option<PathBuf>,
}

impl Options {
    /// The sum from which on a line is noise.
    pub fn noise_threshold(&self) -> f32 {
        self.threshold.unwrap_or(DEFAULT_THRESHOLD)
    }
}

#[derive(Debug)]
pub enum Asked {
    Help,
    Version,
    Run(Options),
}

const COMMANDS: [(&str, Command); 5] = [
    ("why", Command::Why),
    ("score", Command::Score),
    ("languages", Command::Languages),
    ("compare", Command::Compare),
    ("report", Command::Report),
];

/// Reads the words of the command line: a command first, then options and files in any order; `--` ends the options.
pub fn asked(words: impl Iterator<Item = OsString>) -> Result<Asked, String> {
    let mut words = words;
    let first = words.next().ok_or("a command is missing: why, score, languages, compare or report")?;
    let first = first.to_string_lossy();
    match &*first {
        "--help" | "-h" | "help" => return Ok(Asked::Help),
        "--version" | "-V" => return Ok(Asked::Version),
        _ => (),
    }
    let command = COMMANDS.into_iter().find(|(name, _)| *name == first).map(|(_, command)| command);
    let command = command.ok_or_else(|| format!("there is no command {}", shown(&first)))?;
    let mut options = Options { command, files: vec![], threshold: None, readings: vec![], json: false, all: false, html: None };
    while let Some(word) = words.next() {
        let Some(option) = word.to_str().filter(|word| word.len() > 1 && word.starts_with('-')) else {
            options.files.push(word.into());
            continue;
        };
        let (name, value) = option.split_once('=').map_or((option, None), |(name, value)| (name, Some(value.to_string())));
        let mut value = || match value.clone() {
            Some(value) => Ok(value),
            None => words.next().map(|word| word.to_string_lossy().into_owned()).ok_or(format!("{name} wants a word behind it")),
        };
        match name {
            "--threshold" => options.threshold = Some(number(&value()?)?),
            "--page" => options.readings.push(page(&value()?)?),
            "--json" => options.json = true,
            "--all" if command == Command::Why => options.all = true,
            "--html" if command == Command::Report => options.html = Some(value()?.into()),
            "--help" | "-h" => return Ok(Asked::Help),
            "--version" => return Ok(Asked::Version),
            "--" => options.files.extend(words.by_ref().map(PathBuf::from)),
            _ => return Err(format!("{first} has no option {}", shown(name))),
        }
    }
    whole(options).map(Asked::Run)
}

// What was left out stands for UTF-8 and for standard input; `compare` wants both of its pages.
fn whole(mut options: Options) -> Result<Options, String> {
    match (options.command, options.readings.len()) {
        (Command::Compare, 2) => (),
        (Command::Compare, _) => return Err("compare wants --page twice: the two readings to compare".to_string()),
        (_, 0) => options.readings.push(Reading::utf_8()),
        (_, 1) => (),
        _ => return Err("--page stands there twice: only compare takes two".to_string()),
    }
    if options.files.is_empty() {
        options.files.push("-".into());
    }
    Ok(options)
}

fn number(word: &str) -> Result<f32, String> {
    word.parse().map_err(|_| format!("--threshold wants a number, and {} is none", shown(word)))
}

fn page(word: &str) -> Result<Reading, String> {
    Reading::named(word)
        .ok_or_else(|| format!("there is no page {}: utf-8, windows-1251, windows-1252 and iso-8859-2 are there", shown(word)))
}

fn shown(word: &str) -> String {
    crate::shown::text(word)
}
