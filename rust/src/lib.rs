//! How much of a text is noise, and which languages it may be in: the mess ratio and the coherence ratio of charset-normalizer-rs, by a
//! proved library.
//!
//! Every call answers what a written definition says for every input, refusals included; the proofs are checked when the library is built.
//! This package is the thin part that is not proved: it hands slices to the library and names what comes back.
//!
//! ```
//! use drasumira::{Tables, score};
//! let tables = Tables::full();
//! let told = score("A line of plain text.", None, &tables)?;
//! assert_eq!(told.sum, 0.0);
//! let noise = score("\u{1}\u{2}\u{3}", None, &tables)?;
//! assert!(noise.sum > 1.0);
//! # Ok::<(), drasumira::Refusal>(())
//! ```
//!
//! Each call of [`score`] checks the class table whole, some 11 microseconds, which for one line of 80 characters is more than the scan itself
//! costs; each character that is fed to a [`Running`] line by itself pays it too, and a chunk pays it once. For many lines [`score_lines`]
//! checks it once:
//!
//! ```
//! use drasumira::{Tables, score_lines};
//! let told = score_lines("A line of plain text.\n\u{1}\u{2}\u{3}\n", None, &Tables::full())?;
//! let sums: Vec<f32> = told.into_iter().map(|line| line.map(|score| score.sum)).collect::<Result<_, _>>()?;
//! assert!(sums.len() == 2 && sums[0] < sums[1]);
//! # Ok::<(), drasumira::Refusal>(())
//! ```
#![deny(missing_docs, clippy::undocumented_unsafe_blocks, clippy::missing_errors_doc)]
mod chooser;
mod coherence;
mod compact;
mod detector;
mod host;
mod page;
mod refusal;
mod report;
mod ring;
mod running;
mod second;
mod text;
mod why;
mod writing;

pub use chooser::{RefusedText, Which, choose, verdict};
pub use coherence::{CoherenceMatch, Languages, TOO_SMALL_SEQUENCE, coherence, language_name, merge};
pub use compact::{COMPACT_RECORD, Compact, LETTERS_RECORD};
pub use detector::{Detector, Share};
pub use page::Page;
pub use refusal::Refusal;
pub use report::{LONGEST_REPORT, MOST_LINES, Report};
pub use ring::{MOST_RECORDS, RECORD, Record, Ring};
pub use running::{RUNNING_NUMBERS, Running};
pub use second::{Apart, NotAgreed, SECOND_LONGEST, agreed, second_score};
pub use text::{Part, Text};
pub use why::{Class, Why, class, why, why_into};
pub use writing::{to_string, write_utf8};

/// A class table and a pair table. The class table is checked when this is made.
#[derive(Clone, Debug)]
pub struct Tables {
    classes: Vec<u8>,
    pairs: Vec<u8>,
}

impl Tables {
    /// Takes class records of 24 bytes and a pair table of 32,768.
    ///
    /// ```
    /// use drasumira::{Refusal, Tables};
    /// assert_eq!(Tables::new(vec![0; 25], vec![0; 32768]).err(), Some(Refusal::new(Refusal::BAD_CLASSES, 0)));
    /// assert_eq!(Tables::new(vec![], vec![]).err(), Some(Refusal::new(Refusal::BAD_PAIRS, 0)));
    /// assert!(Tables::new(vec![], vec![0; 32768]).is_ok());
    /// ```
    ///
    /// # Errors
    ///
    /// [`Refusal::BAD_CLASSES`] or [`Refusal::BAD_PAIRS`] where one is not good.
    pub fn new(classes: Vec<u8>, pairs: Vec<u8>) -> Result<Tables, Refusal> {
        accepted(host::check_classes(&classes))?;
        let tables = Tables { classes, pairs };
        // the library's own word on the pair table
        score("", None, &tables).map(|_| tables)
    }

    /// The tables made from charset-normalizer-rs: every scalar value from U+0250 up in 4,154 records, and its pairs of ranges.
    ///
    /// # Panics
    ///
    /// Never: the tables that this package carries are good, and a test says so.
    pub fn full() -> Tables {
        let classes = include_bytes!("../tables/classes.bin").to_vec();
        let pairs = include_bytes!("../tables/pairs.bin").to_vec();
        Tables::new(classes, pairs).expect("the tables that this package carries are good")
    }

    /// No class record and no suspicious pair: only U+0000 to U+024F, which the library has built in, are scored.
    pub fn builtin_only() -> Tables {
        Tables::new(vec![], vec![0; 32_768]).expect("a table of no records is good")
    }
}

/// The eight ratios in the order in which they are added, their sum, how many characters were fed (the newline that is fed after every
/// text among them), and whether the scan stopped early because the sum had reached the threshold. Of each ratio it tells the counts:
///
/// ```
/// use drasumira::{Detector, Tables, score};
/// let told = score("a, b; c!", None, &Tables::builtin_only())?;
/// assert_eq!(told.share(Detector::Symbols).to_string(), "1 of 9, cut off");
/// let noise = score("ab\u{1}", None, &Tables::builtin_only())?;
/// assert_eq!(noise.share(Detector::Unprintable).to_string(), "8 of 4");
/// let said: Vec<String> = noise.shares().filter(|(_, share)| share.ratio > 0.0).map(|(detector, share)| format!("{detector}: {share}")).collect();
/// assert_eq!(said, ["unprintable characters: 8 of 4"]);
/// # Ok::<(), drasumira::Refusal>(())
/// ```
#[derive(Clone, Copy, Debug, PartialEq)]
#[non_exhaustive]
pub struct Score {
    /// Punctuation and twice the symbols, over the printable characters.
    pub symbols: f32,
    /// Accented letters over all letters.
    pub accents: f32,
    /// Eight times the unprintable characters, over all.
    pub unprintable: f32,
    /// Twice the suspicious neighbours by their ranges, over the printable characters.
    pub ranges: f32,
    /// Twice the doubled accents, over the Latin letters.
    pub doubled: f32,
    /// Characters of weird words over those of all words.
    pub words: f32,
    /// Two CJK stops that are no stops, over the CJK characters.
    pub stops: f32,
    /// Characters in runs of changing case, over all.
    pub archaic: f32,
    /// The sum of the eight, which the threshold is held against.
    pub sum: f32,
    /// How many characters were fed.
    pub fed: u32,
    /// Whether the scan stopped before its end.
    pub stopped: bool,
    // numerator, denominator and mark of each, in order
    counts: [[u32; 3]; 8],
}

impl Score {
    /// What it tells of one detector.
    pub fn share(&self, detector: Detector) -> Share {
        let ratio = match detector {
            Detector::Symbols => self.symbols,
            Detector::Accents => self.accents,
            Detector::Unprintable => self.unprintable,
            Detector::Ranges => self.ranges,
            Detector::Doubled => self.doubled,
            Detector::Words => self.words,
            Detector::Stops => self.stops,
            Detector::Archaic => self.archaic,
        };
        let [numerator, denominator, mark] = self.counts[detector as usize];
        Share { ratio, numerator, denominator, cut_off: mark != 0 }
    }

    /// The detector with the greatest ratio, of equal ones the first; none where every ratio is 0.
    ///
    /// ```
    /// use drasumira::{Detector, Tables, score};
    /// let tables = Tables::builtin_only();
    /// assert_eq!(score("ab\u{1}", None, &tables)?.greatest(), Some(Detector::Unprintable));
    /// assert_eq!(score("plain", None, &tables)?.greatest(), None);
    /// # Ok::<(), drasumira::Refusal>(())
    /// ```
    pub fn greatest(&self) -> Option<Detector> {
        let above = self.shares().filter(|(_, share)| share.ratio > 0.0);
        above.reduce(|best, next| if next.1.ratio > best.1.ratio { next } else { best }).map(|(detector, _)| detector)
    }

    /// What it tells of the eight, in order.
    pub fn shares(&self) -> impl Iterator<Item = (Detector, Share)> + '_ {
        Detector::ALL.into_iter().map(|detector| (detector, self.share(detector)))
    }
}

/// The threshold of the new rooms, and of every call that states none.
pub const NEW_ROOMS: f32 = 0.15;

/// The threshold of the summer rule and of the export desk, which state it; charset-normalizer-rs has it as its default.
///
/// ```
/// use drasumira::{NEW_ROOMS, SUMMER_RULE, Tables, score};
/// let tables = Tables::builtin_only();
/// // one control character: 8 of 47 at the end of the line. At 0.2 that is readable; where no threshold is stated it is held against 0.15
/// let line = format!("{}\u{1}", " ".repeat(45));
/// let (summer, rooms) = (score(&*line, Some(SUMMER_RULE), &tables)?, score(&*line, None, &tables)?);
/// assert!(summer.sum < SUMMER_RULE && rooms.sum >= NEW_ROOMS);
/// # Ok::<(), drasumira::Refusal>(())
/// ```
pub const SUMMER_RULE: f32 = 0.2;

/// Used by [`score`] and [`score_lines`] where no threshold is given. It is the library's own default: a test holds the two together.
pub const DEFAULT_THRESHOLD: f32 = NEW_ROOMS;

/// Bytes that [`score_lines`] takes in one call.
pub const LONGEST_BURST: usize = 16_777_216;

/// How many u32 [`score_lines_into`] puts into its output for each line.
pub const NUMBERS_PER_LINE: usize = host::NUMBERS_PER_LINE;

fn unless_refused<T>(number: u32, place: u32, told: T) -> Result<T, Refusal> {
    if number == 0 { Ok(told) } else { Err(Refusal::new(number, place)) }
}

fn accepted(told: host::HostRead) -> Result<usize, Refusal> {
    unless_refused(told.number, told.place, told.count as usize)
}

/// The mess ratio of a text. Without a threshold [`DEFAULT_THRESHOLD`] is used. The tables are checked in each call: for many lines use
/// [`score_lines`].
///
/// ```
/// use drasumira::{Tables, score};
/// let tables = Tables::builtin_only();
/// let told = score("\u{1}", None, &tables)?;
/// assert_eq!((told.sum, told.fed, told.stopped), (4.0, 2, false));
/// assert_eq!(score("\u{416}", None, &tables).unwrap_err().to_string(),
///     "refusal 6: the code point at index 0 of the text, or in a ranking its lower case, is in no record of the class table");
/// assert_eq!(score(&['a'], Some(f32::NAN), &tables).unwrap_err().number, drasumira::Refusal::NOT_FINITE);
/// # Ok::<(), drasumira::Refusal>(())
/// ```
///
/// # Errors
///
/// [`Refusal::TOO_LONG`], [`Refusal::ILL_FORMED`] for bytes that are not UTF-8, [`Refusal::NOT_FINITE`] for the threshold, and
/// [`Refusal::UNCLASSED`] for a character that is in no record, also behind the place of stopping.
pub fn score<'a>(text: impl Into<Text<'a>>, threshold: Option<f32>, tables: &Tables) -> Result<Score, Refusal> {
    let threshold = threshold.unwrap_or(DEFAULT_THRESHOLD);
    let told = match text.into() {
        Text::Bytes(bytes) => host::score_utf8(bytes, threshold, &tables.classes, &tables.pairs),
        Text::Chars(chars) => host::score(host::points_of(chars), threshold, &tables.classes, &tables.pairs),
    };
    scored(told)
}

fn scored(told: host::HostScore) -> Result<Score, Refusal> {
    let score = Score {
        symbols: told.ratios.symbols,
        accents: told.ratios.accents,
        unprintable: told.ratios.unprintable,
        ranges: told.ratios.ranges,
        doubled: told.ratios.doubled,
        words: told.ratios.words,
        stops: told.ratios.stops,
        archaic: told.ratios.archaic,
        sum: told.sum,
        fed: told.fed,
        stopped: told.stopped != 0,
        counts: told.counts,
    };
    unless_refused(told.number, told.place, score)
}

// How many lines the bytes are.
fn count_lines(bytes: &[u8]) -> usize {
    let ended = bytes.iter().filter(|b| **b == b'\n').count();
    ended + bytes.last().is_some_and(|b| *b != b'\n') as usize
}

/// The score of each line, of a `&str` or of bytes: what [`score`] answers for the line alone, with one check of the tables for all. A line
/// ends at U+000A, which is no part of it; a last line without one counts; no bytes are no lines. A refused line is told in its place.
///
/// It makes 148 bytes a line for the library's output, and the list of answers beside it; of bytes that are newlines alone that is some three hundred
/// times their size. [`score_lines_into`] makes nothing.
///
/// ```
/// use drasumira::{Refusal, Tables, score_lines};
/// let told = score_lines(b"plain\n\xFF\n\x01\x01", None, &Tables::builtin_only())?;
/// assert_eq!(told.len(), 3);
/// assert_eq!(told[1], Err(Refusal::new(Refusal::ILL_FORMED, 0)));
/// assert!(told[0]?.sum < told[2]?.sum);
/// # Ok::<(), drasumira::Refusal>(())
/// ```
///
/// # Errors
///
/// Of the whole call: [`Refusal::TOO_LONG`] over [`LONGEST_BURST`] bytes, [`Refusal::NOT_FINITE`] for the threshold.
pub fn score_lines(lines: impl AsRef<[u8]>, threshold: Option<f32>, tables: &Tables) -> Result<Vec<Result<Score, Refusal>>, Refusal> {
    let bytes = lines.as_ref();
    // bytes that are refused need no room
    let room = if bytes.len() > LONGEST_BURST { 0 } else { NUMBERS_PER_LINE * count_lines(bytes) };
    let mut out = vec![0; room];
    score_lines_into(bytes, threshold, tables, &mut out)?;
    let rows = out.chunks_exact(NUMBERS_PER_LINE).map(|row| row.try_into().expect("a whole row"));
    Ok(rows.map(score_in).collect())
}

/// The same into the first places of `out`, [`NUMBERS_PER_LINE`] a line, which [`score_in`] reads; answers the number of lines. The rest of `out`
/// stays, and all of it in a refusal.
///
/// ```
/// use drasumira::{NUMBERS_PER_LINE, Tables, score_in, score_lines_into};
/// let mut out = [0; 2 * NUMBERS_PER_LINE];
/// let tables = Tables::builtin_only();
/// assert_eq!(score_lines_into("plain\n\u{1}", None, &tables, &mut out), Ok(2));
/// let second: &[u32; NUMBERS_PER_LINE] = out[NUMBERS_PER_LINE..].try_into().unwrap();
/// assert_eq!(score_in(second)?.sum, 4.0);
/// # Ok::<(), drasumira::Refusal>(())
/// ```
///
/// # Errors
///
/// As [`score_lines`], and [`Refusal::NO_ROOM`] where `out` is too short.
pub fn score_lines_into(lines: impl AsRef<[u8]>, threshold: Option<f32>, tables: &Tables, out: &mut [u32]) -> Result<usize, Refusal> {
    let threshold = threshold.unwrap_or(DEFAULT_THRESHOLD);
    accepted(host::score_lines(lines.as_ref(), threshold, &tables.classes, &tables.pairs, out))
}

/// What a row of [`score_lines_into`] holds: the score of its line, or the line's refusal.
///
/// # Errors
///
/// The line's refusal: as [`score`]'s of bytes.
pub fn score_in(row: &[u32; NUMBERS_PER_LINE]) -> Result<Score, Refusal> {
    scored(host::told_in(row))
}

/// Reads UTF-8 into the first places of `out`, one code point each, and answers how many; the rest of `out` stays, and all of it in a refusal.
///
/// ```
/// let mut out = [0; 4];
/// assert_eq!(drasumira::read("aé".as_bytes(), &mut out), Ok(2));
/// assert_eq!(out, [0x61, 0xE9, 0, 0]);
/// assert_eq!(drasumira::read(b"a\xFF", &mut out), Err(drasumira::Refusal::new(drasumira::Refusal::ILL_FORMED, 1)));
/// ```
///
/// # Errors
///
/// [`Refusal::TOO_LONG`], [`Refusal::ILL_FORMED`], [`Refusal::NO_ROOM`].
pub fn read(bytes: &[u8], out: &mut [u32]) -> Result<usize, Refusal> {
    accepted(host::read(bytes, out))
}
