// Lines kept until a month's end, and their report. Nothing is counted here: the text is the library's, and what is told of it is read from it.
use crate::{Detector, NUMBERS_PER_LINE, Refusal, Score, accepted, host};
use std::fmt;

/// Lines that a [`Report`] takes.
pub const MOST_LINES: usize = 65_535;

/// Bytes that hold the text of every [`Report`]; the library proves that no text is longer.
pub const LONGEST_REPORT: usize = 40_336;

/// The lines of a month, kept as the library's rows, and how they are distributed. For each detector and each accepted line, 64 times the numerator over the
/// denominator, rounded down, is a bin from 0 to 512; 512 stands for all above it, and 0 for a ratio or a denominator of 0.
///
/// Shown, it is the library's text: a line for each bin that is not empty, the detector's number, the bin and how many lines are in it, rising; then how many
/// lines there were, were accepted and were refused.
///
/// ```
/// use drasumira::{Detector, Report, Tables, score, score_lines_into, NUMBERS_PER_LINE};
/// let tables = Tables::builtin_only();
/// let mut month = Report::new();
/// month.add(&score("a\u{1}", None, &tables))?;
/// month.add(&score("\u{416}", None, &tables))?;
/// let mut rows = [0; 2 * NUMBERS_PER_LINE];
/// let lines = score_lines_into("plain\nlines\n", None, &tables, &mut rows)?;
/// month.add_rows(&rows[..lines * NUMBERS_PER_LINE])?;
/// assert!(month.to_string().ends_with("lines 4\naccepted 3\nrefused 1\n"));
/// // 8 for the one unprintable character of three that were fed: 64 * 8 / 3
/// assert_eq!(month.bins(Detector::Unprintable), [(0, 2), (170, 1)]);
/// # Ok::<(), drasumira::Refusal>(())
/// ```
#[derive(Clone, Debug, Default)]
pub struct Report {
    rows: Vec<u32>,
}

impl Report {
    /// A report of no lines.
    pub fn new() -> Report {
        Report::default()
    }

    /// How many lines it has.
    pub fn len(&self) -> usize {
        self.rows.len() / NUMBERS_PER_LINE
    }

    /// Whether it has no line.
    pub fn is_empty(&self) -> bool {
        self.rows.is_empty()
    }

    /// Adds a line: its score, or why it was refused.
    ///
    /// # Errors
    ///
    /// [`Refusal::MANY_LINES`] where it has [`MOST_LINES`] already; it then stays as it is.
    pub fn add(&mut self, told: &Result<Score, Refusal>) -> Result<(), Refusal> {
        self.add_rows(&row_of(told))
    }

    /// Adds the lines of a burst, by the rows that [`score_lines_into`](crate::score_lines_into) leaves. Numbers past the last whole row are no line.
    ///
    /// # Errors
    ///
    /// [`Refusal::MANY_LINES`] where there would be more than [`MOST_LINES`]; it then stays as it is.
    pub fn add_rows(&mut self, rows: &[u32]) -> Result<(), Refusal> {
        let lines = rows.len() / NUMBERS_PER_LINE;
        if lines > MOST_LINES - self.len() {
            return Err(Refusal::new(Refusal::MANY_LINES, 0));
        }
        self.rows.extend_from_slice(&rows[..lines * NUMBERS_PER_LINE]);
        Ok(())
    }

    /// The bins of a detector that are not empty, each with how many lines are in it, rising.
    pub fn bins(&self, detector: Detector) -> Vec<(u32, u32)> {
        let text = self.text();
        let of_detector = text.lines().filter_map(|line| line.strip_prefix(&format!("{} ", detector.number())));
        of_detector.filter_map(|line| line.split_once(' ')).map(|(bin, count)| (number(bin), number(count))).collect()
    }

    fn text(&self) -> String {
        let mut out = vec![0; LONGEST_REPORT];
        let n = accepted(host::report(&self.rows, &mut out)).expect("so many lines have a report, and it fits");
        out.truncate(n);
        String::from_utf8(out).expect("the text is ASCII")
    }
}

impl fmt::Display for Report {
    fn fmt(&self, f: &mut fmt::Formatter<'_>) -> fmt::Result {
        f.write_str(&self.text())
    }
}

fn number(word: &str) -> u32 {
    word.parse().expect("the text has decimal numbers")
}

// The row that `score_lines_into` would leave of such a line.
fn row_of(told: &Result<Score, Refusal>) -> [u32; NUMBERS_PER_LINE] {
    let mut row = [0; NUMBERS_PER_LINE];
    match told {
        Err(refusal) => row[..2].copy_from_slice(&[refusal.number, refusal.place]),
        Ok(s) => {
            let ratios = [s.symbols, s.accents, s.unprintable, s.ranges, s.doubled, s.words, s.stops, s.archaic];
            row[2..10].copy_from_slice(&ratios.map(f32::to_bits));
            row[10..13].copy_from_slice(&[s.sum.to_bits(), s.fed, s.stopped as u32]);
            row[13..].copy_from_slice(s.counts.as_flattened());
        }
    }
    row
}
