// The class table in its smaller form: packed, unpacked, and scored with as it is.
use crate::host::compact::{self as host_compact, Lent};
use crate::{DEFAULT_THRESHOLD, Refusal, Score, Tables, Text, accepted, host, score, scored, unless_refused};

/// Bytes of a record of a compact class table.
pub const COMPACT_RECORD: usize = 16;

/// Bytes of the letters of a compact class table, a base and a lower-case letter.
pub const LETTERS_RECORD: usize = 8;

// Bytes of a class record, and the most records of a table.
const CLASS_RECORD: usize = 24;
const MOST_CLASSES: usize = 8_192;

impl Tables {
    /// Takes a class table in the compact form, records of 16 bytes and letters of 8, and a pair table. It is unpacked once, here: scoring costs what it does with
    /// [`Tables::new`].
    ///
    /// ```
    /// use drasumira::{Refusal, Tables, score};
    /// let (records, letters) = Tables::full().to_compact();
    /// assert_eq!((records.len(), letters.len()), (66_464, 10_344));
    /// let tables = Tables::from_compact(&records, &letters, vec![0; 32_768])?;
    /// assert_eq!(score("плохо", None, &tables)?.sum, 0.0);
    /// // the last letters are missing: the first record that uses them is bad
    /// let short = Tables::from_compact(&records, &letters[..10_336], vec![0; 32_768]);
    /// assert_eq!(short.err().map(|refusal| refusal.number), Some(Refusal::BAD_CLASSES));
    /// # Ok::<(), Refusal>(())
    /// ```
    ///
    /// # Errors
    ///
    /// [`Refusal::BAD_CLASSES`] or [`Refusal::BAD_PAIRS`] where one is not good.
    pub fn from_compact(records: &[u8], letters: &[u8], pairs: Vec<u8>) -> Result<Tables, Refusal> {
        // more records are refused and need no room
        let mut classes = vec![0; (records.len() / COMPACT_RECORD).min(MOST_CLASSES) * CLASS_RECORD];
        accepted(host_compact::unpack(records, letters, &mut classes))?;
        let tables = Tables { classes, pairs };
        // the library's own word on the pair table
        score("", None, &tables).map(|_| tables)
    }

    /// The class table in the compact form: its records and its letters. [`Tables::from_compact`] leads back to the same bytes.
    ///
    /// ```
    /// use drasumira::Tables;
    /// let (records, letters) = Tables::builtin_only().to_compact();
    /// assert!(records.is_empty() && letters.is_empty());
    /// ```
    ///
    /// # Panics
    ///
    /// Never: the class table was checked when these tables were made, and there is room for all of it.
    pub fn to_compact(&self) -> (Vec<u8>, Vec<u8>) {
        let n = self.classes.len() / CLASS_RECORD;
        let (mut records, mut letters) = (vec![0; n * COMPACT_RECORD], vec![0; n * LETTERS_RECORD]);
        let told = host_compact::pack(&self.classes, &mut records, &mut letters);
        unless_refused(told.number, told.place, ()).expect("a good table, and room for it");
        letters.truncate(told.letters as usize * LETTERS_RECORD);
        letters.shrink_to_fit();
        (records, letters)
    }
}

/// A compact class table and a pair table that are lent and not copied, as they lie in a card's memory. Each call unpacks the class table into 196,608 bytes of its own
/// stack and checks it, and answers what the same call with [`Tables::from_compact`] does, which unpacks it once.
///
/// ```
/// use drasumira::{Compact, Tables, score};
/// let (records, letters) = Tables::builtin_only().to_compact();
/// let lent = Compact { records: &records, letters: &letters, pairs: &[0; 32_768] };
/// assert_eq!(lent.score("a\u{1}", None)?, score("a\u{1}", None, &Tables::builtin_only())?);
/// # Ok::<(), drasumira::Refusal>(())
/// ```
#[derive(Clone, Copy, Debug)]
pub struct Compact<'a> {
    /// Records of 16 bytes.
    pub records: &'a [u8],
    /// Letters of 8 bytes.
    pub letters: &'a [u8],
    /// The pair table, 32,768 bytes.
    pub pairs: &'a [u8],
}

impl Compact<'_> {
    fn lent(&self) -> Lent<'_> {
        Lent { records: self.records, letters: self.letters, pairs: self.pairs }
    }

    /// As [`score`](crate::score).
    ///
    /// # Errors
    ///
    /// As [`score`](crate::score), and [`Refusal::BAD_CLASSES`] or [`Refusal::BAD_PAIRS`] for what is lent.
    pub fn score<'t>(&self, text: impl Into<Text<'t>>, threshold: Option<f32>) -> Result<Score, Refusal> {
        let threshold = threshold.unwrap_or(DEFAULT_THRESHOLD);
        scored(match text.into() {
            Text::Bytes(bytes) => host_compact::score_utf8(bytes, threshold, self.lent()),
            Text::Chars(chars) => host_compact::score(host::points_of(chars), threshold, self.lent()),
        })
    }

    /// As [`score_lines_into`](crate::score_lines_into): the table is unpacked and checked once for all lines.
    ///
    /// ```
    /// use drasumira::{Compact, NUMBERS_PER_LINE, score_in};
    /// let lent = Compact { records: &[], letters: &[], pairs: &[0; 32_768] };
    /// let mut out = [0; 2 * NUMBERS_PER_LINE];
    /// assert_eq!(lent.score_lines_into("plain\n\u{1}", None, &mut out), Ok(2));
    /// assert_eq!(score_in(out[NUMBERS_PER_LINE..].try_into().unwrap())?.sum, 4.0);
    /// # Ok::<(), drasumira::Refusal>(())
    /// ```
    ///
    /// # Errors
    ///
    /// As [`score_lines_into`](crate::score_lines_into), and [`Refusal::BAD_CLASSES`] or [`Refusal::BAD_PAIRS`] for what is lent.
    pub fn score_lines_into(&self, lines: impl AsRef<[u8]>, threshold: Option<f32>, out: &mut [u32]) -> Result<usize, Refusal> {
        accepted(host_compact::score_lines(lines.as_ref(), threshold.unwrap_or(DEFAULT_THRESHOLD), self.lent(), out))
    }
}
