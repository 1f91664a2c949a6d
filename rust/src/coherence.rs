use crate::host::coherence::{Question, coherence as ask, merge as ask_merge};
use crate::text::points;
use crate::{Refusal, Tables, Text, unless_refused};

/// What charset-normalizer-rs gives for `small`: a layer of at most so many letters says nothing of a language.
pub const TOO_SMALL_SEQUENCE: u32 = 32;

const RECORD: usize = 1_032;
const WORK_PER_POINT: usize = 8;
const LONGEST_RANKED: usize = 8_192;
const MOST_RANKINGS: usize = 64;
const LONGEST_RANKING: usize = 63;

/// A language of a text, by its number in the language table, and how well the text's letters fit its own, from 0 to 1.
#[repr(C)]
#[derive(Clone, Copy, Debug, Default, PartialEq)]
pub struct CoherenceMatch {
    /// Its number in the language table.
    pub language: u32,
    /// How well its letters fit, from 0 to 1.
    pub score: f32,
}

/// A language table, checked when this is made.
#[derive(Clone, Debug)]
pub struct Languages {
    records: Vec<u8>,
}

impl Languages {
    /// Takes records of 1,032 bytes, little-endian: number u32, letter count u16, marks u16 (1 accents, 2 pure Latin), 256 letters u32
    /// by popularity; at most 63.
    ///
    /// ```
    /// use drasumira::{Languages, Refusal};
    /// let mut record = vec![0; 1032];
    /// assert_eq!(Languages::new(record.clone()).err(), Some(Refusal::new(Refusal::BAD_LANGUAGES, 0)));
    /// record[0] = 7; // the number
    /// record[4] = 2; // two letters
    /// record[8] = b'e';
    /// record[12] = b't';
    /// assert!(Languages::new(record).is_ok());
    /// ```
    ///
    /// # Errors
    ///
    /// [`Refusal::BAD_LANGUAGES`] where they are not good.
    pub fn new(records: Vec<u8>) -> Result<Languages, Refusal> {
        let languages = Languages { records };
        // the library's own word on the table
        ranking(&[], None, 0, &Tables::builtin_only(), &languages, &[]).map(|_| languages)
    }

    /// The table made from charset-normalizer-rs: 41 records of 38 languages, numbered from 1 ([`language_name`] has their names).
    ///
    /// # Panics
    ///
    /// Never: the table that this package carries is good, and a test says so.
    pub fn full() -> Languages {
        let records = include_bytes!("../tables/languages.bin").to_vec();
        Languages::new(records).expect("the table that this package carries is good")
    }
}

/// The name that charset-normalizer-rs has for a number of [`Languages::full`].
///
/// ```
/// assert_eq!(drasumira::language_name(3), Some("French"));
/// assert_eq!(drasumira::language_name(0), None);
/// ```
pub fn language_name(number: u32) -> Option<&'static str> {
    let lines = include_str!("../tables/languages.txt").lines().filter(|line| !line.starts_with('#'));
    let mut fields = lines.map(|line| line.split(' ')).find(|fields| fields.clone().next() == Some(&number.to_string()))?;
    fields.nth(4)
}

/// The languages that a text may be in, the best first; of equal scores the one whose first record stands first in the table.
///
/// The text has at most 8,192 code points. Layers of at most `small` letters are passed over. A match below the threshold is left out;
/// without one 0.1 is used. `included` names the languages to compare with; empty, the alphabets choose, and `[0]` is the alphabets of
/// pure Latin languages alone.
///
/// ```
/// use drasumira::{Languages, TOO_SMALL_SEQUENCE, Tables, coherence, language_name};
/// let (tables, languages) = (Tables::full(), Languages::full());
/// let greek = "Το σήμα στη βόρεια διασταύρωση είναι κλειστό και το τρένο περιμένει";
/// let found = coherence(greek, None, TOO_SMALL_SEQUENCE, &tables, &languages, &[])?;
/// assert_eq!(language_name(found[0].language), Some("Greek"));
/// let latin_only = coherence(greek, None, TOO_SMALL_SEQUENCE, &tables, &languages, &[0])?;
/// assert!(latin_only.is_empty());
/// let unknown = coherence("text", None, TOO_SMALL_SEQUENCE, &tables, &languages, &[3, 99]).unwrap_err();
/// assert_eq!(unknown.to_string(), "refusal 9: the included number at index 1 is in no record of the language table");
/// # Ok::<(), drasumira::Refusal>(())
/// ```
///
/// `\u{130}` lowers to two letters, as [`char::to_lowercase`] has it, and both count:
///
/// ```
/// use drasumira::{Languages, Refusal, TOO_SMALL_SEQUENCE, Tables, coherence, language_name};
/// let (tables, languages) = (Tables::full(), Languages::full());
/// let names = "İstanbul, İzmir, Diyarbakır, Iğdır, Eskişehir, İskenderun, Kırklareli";
/// let found = coherence(names, None, TOO_SMALL_SEQUENCE, &tables, &languages, &[])?;
/// assert!(found.iter().any(|m| language_name(m.language) == Some("Turkish")));
/// let refused = coherence("İzmir", None, 0, &Tables::builtin_only(), &languages, &[]).unwrap_err();
/// assert_eq!(refused, Refusal::new(Refusal::UNCLASSED, 0)); // U+0307 has no class there
/// # Ok::<(), drasumira::Refusal>(())
/// ```
///
/// A text that is refused for its length costs no memory: the work area, 32 bytes a code point, is made for at most 8,192 of them.
///
/// # Errors
///
/// Bytes as [`read`](crate::read) refuses them, before all else. Then [`Refusal::TOO_LONG`] over 8,192 code points, [`Refusal::NOT_FINITE`],
/// [`Refusal::BAD_INCLUDED`], and [`Refusal::UNCLASSED`] for a character, or the lower case of a letter, that is in no record: U+0130 lowers to two
/// letters, U+0069 and U+0307, of which the second is in no built-in table.
pub fn coherence<'a>(
    text: impl Into<Text<'a>>,
    threshold: Option<f32>,
    small: u32,
    tables: &Tables,
    languages: &Languages,
    included: &[u32],
) -> Result<Vec<CoherenceMatch>, Refusal> {
    ranking(&points(text.into())?, threshold, small, tables, languages, included)
}

// The work area and the list are made here, as long as they must be. A text that is too long is refused before the library looks at either.
fn ranking(
    text: &[u32],
    threshold: Option<f32>,
    small: u32,
    tables: &Tables,
    languages: &Languages,
    included: &[u32],
) -> Result<Vec<CoherenceMatch>, Refusal> {
    let languages = &languages.records;
    let question = Question { text, threshold, small, classes: &tables.classes, pairs: &tables.pairs, languages, included };
    let ranked = if text.len() > LONGEST_RANKED { 0 } else { text.len() };
    let mut work = vec![0; WORK_PER_POINT * ranked];
    let mut matches = vec![CoherenceMatch::default(); languages.len() / RECORD];
    let told = ask(&question, &mut work, &mut matches);
    matches.truncate(told.count as usize);
    unless_refused(told.number, told.place, matches)
}

/// One ranking of several: each language with the mean of its scores, the best first; of equal means the language that appears first.
///
/// At most 64 rankings of at most 63 entries, scores from 0 to 1. The mean is the f32 sum of the language's scores in their order, from +0.0 on,
/// divided by how many they are, and lies between 0 and 1.
///
/// ```
/// use drasumira::{CoherenceMatch, Refusal, merge};
/// let entry = |language, score| CoherenceMatch { language, score };
/// let shift = [vec![entry(3, 0.5), entry(7, 0.25)], vec![entry(7, 0.75)]];
/// let lists: Vec<&[CoherenceMatch]> = shift.iter().map(Vec::as_slice).collect();
/// assert_eq!(merge(&lists)?, [entry(3, 0.5), entry(7, 0.5)]);
/// let refused = merge(&[&[entry(3, 1.5)]]).unwrap_err();
/// assert_eq!(refused, Refusal::new(Refusal::NOT_FINITE, 0));
/// # Ok::<(), Refusal>(())
/// ```
///
/// # Errors
///
/// [`Refusal::BAD_LENGTHS`] for more than 64 rankings or one of more than 63 entries, then [`Refusal::NOT_FINITE`] for a score that is not from 0
/// to 1, at its place in the rankings laid end to end.
pub fn merge(rankings: &[&[CoherenceMatch]]) -> Result<Vec<CoherenceMatch>, Refusal> {
    let lengths: Vec<u32> = rankings.iter().map(|ranking| u32::try_from(ranking.len()).unwrap_or(u32::MAX)).collect();
    // more than the library takes is not laid end to end: its lengths refuse it
    let fit = rankings.len() <= MOST_RANKINGS && rankings.iter().all(|ranking| ranking.len() <= LONGEST_RANKING);
    let list = if fit { rankings.concat() } else { Vec::new() };
    let mut out = vec![CoherenceMatch::default(); list.len()];
    let told = ask_merge(&list, &lengths, &mut out);
    out.truncate(told.count as usize);
    unless_refused(told.number, told.place, out)
}
