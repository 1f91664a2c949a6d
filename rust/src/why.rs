// Why a text is noise, and what a character is.
use crate::text::points;
use crate::{DEFAULT_THRESHOLD, Detector, Refusal, Share, Tables, Text, host, scored, unless_refused};
use std::fmt;

/// The detector with the greatest ratio, what the score tells of it, and the characters at which its numerator grew.
#[derive(Clone, Debug, PartialEq)]
#[non_exhaustive]
pub struct Why {
    /// The first of the eight with the greatest ratio. Ratios are compared as the `f32`s that [`score`](crate::score) answers.
    pub detector: Detector,
    /// Its ratio and its two counts.
    pub share: Share,
    /// Where it grew, rising: indexes in code points, none twice. Of a text of n characters n is the newline that is fed behind it. A repeated symbol adds
    /// nothing and is not listed; two doubled accents add 2 or 4 at once and are listed once; a weird word and a run of changing case are listed where they
    /// close.
    pub indexes: Vec<usize>,
    /// The character at each index.
    pub characters: Vec<char>,
}

/// Why a text is noise: which detector has the greatest ratio, and which characters made it so. `None` where the greatest ratio is 0. Without a threshold
/// [`DEFAULT_THRESHOLD`] is used; past the place where the scan stopped nothing is listed.
///
/// ```
/// use drasumira::{Detector, Tables, why};
/// let tables = Tables::full();
/// let why = why("boot \u{1}\u{1}ok", None, &tables)?.expect("it is noise");
/// assert_eq!(why.detector, Detector::Unprintable);
/// assert_eq!((&why.indexes[..], &why.characters[..]), (&[5, 6][..], &['\u{1}', '\u{1}'][..]));
/// assert_eq!(format!("{}: {}", why.detector, why.share), "unprintable characters: 16 of 10");
/// assert_eq!(drasumira::why("A line of plain text.", None, &tables)?, None);
/// # Ok::<(), drasumira::Refusal>(())
/// ```
///
/// # Errors
///
/// As [`score`](crate::score).
pub fn why<'a>(text: impl Into<Text<'a>>, threshold: Option<f32>, tables: &Tables) -> Result<Option<Why>, Refusal> {
    let points = points(text.into())?;
    let mut out = vec![0; points.len() + 1];
    let threshold = threshold.unwrap_or(DEFAULT_THRESHOLD);
    let told = host::why::reason(&points, threshold, &tables.classes, &tables.pairs, &mut out);
    unless_refused(told.number, told.place, ())?;
    let Some(detector) = Detector::from_number(told.detector) else { return Ok(None) };
    out.truncate(told.count as usize);
    let at = |i: u32| points.get(i as usize).map_or('\n', |p| char::from_u32(*p).expect("a text is made of characters"));
    let characters: Vec<char> = out.iter().map(|i| at(*i)).collect();
    let share = scored(host::score(&points, threshold, &tables.classes, &tables.pairs))?.share(detector);
    Ok(Some(Why { detector, share, indexes: out.into_iter().map(|i| i as usize).collect(), characters }))
}

/// The same into the first places of `out`, which makes nothing: the detector, and how many indexes were put. The rest of `out` stays, and all of it in a
/// refusal. 65,537 places are always enough; of a text of n characters n + 1 are.
///
/// ```
/// use drasumira::{Detector, Tables, why_into};
/// let mut out = [7; 4];
/// assert_eq!(why_into("a\u{1}b\u{2}", None, &Tables::builtin_only(), &mut out), Ok((Some(Detector::Unprintable), 2)));
/// assert_eq!(out, [1, 3, 7, 7]);
/// ```
///
/// # Errors
///
/// As [`score`](crate::score), and [`Refusal::NO_ROOM`] where `out` is too short.
pub fn why_into<'a>(
    text: impl Into<Text<'a>>,
    threshold: Option<f32>,
    tables: &Tables,
    out: &mut [u32],
) -> Result<(Option<Detector>, usize), Refusal> {
    let threshold = threshold.unwrap_or(DEFAULT_THRESHOLD);
    let told = match text.into() {
        Text::Bytes(bytes) => host::why::reason_utf8(bytes, threshold, &tables.classes, &tables.pairs, out),
        Text::Chars(chars) => host::why::reason(host::points_of(chars), threshold, &tables.classes, &tables.pairs, out),
    };
    unless_refused(told.number, told.place, (Detector::from_number(told.detector), told.count as usize))
}

/// What a character is to the detectors: its flags, and the number of its range, 0 for none.
#[derive(Clone, Copy, Debug, PartialEq, Eq)]
#[non_exhaustive]
pub struct Class {
    /// The flags as the class tables have them: [`Class::names`] names those that are set.
    pub flags: u32,
    /// The number of its range.
    pub range: u32,
}

// The 25 flags in words, from bit 0 on.
const FLAGS: [&str; 25] = [
    "white space",
    "unprintable",
    "symbol",
    "emoticon",
    "safe everywhere",
    "safe in words",
    "punctuation",
    "separator",
    "ASCII",
    "ASCII letter",
    "ASCII graphic",
    "ASCII digit",
    "Latin",
    "letter",
    "accented",
    "CJK",
    "Hangul",
    "Katakana",
    "Hiragana",
    "Thai",
    "has both cases",
    "lower case",
    "upper case",
    "number",
    "alphabetic",
];

impl Class {
    /// The flags that are set, in words.
    pub fn names(&self) -> impl Iterator<Item = &'static str> {
        let flags = self.flags;
        FLAGS.into_iter().enumerate().filter(move |(bit, _)| flags >> bit & 1 == 1).map(|(_, name)| name)
    }
}

impl fmt::Display for Class {
    fn fmt(&self, f: &mut fmt::Formatter<'_>) -> fmt::Result {
        let names: Vec<&str> = self.names().collect();
        f.pad(&if names.is_empty() { "none of these".to_string() } else { names.join(", ") })
    }
}

/// What a character is, by the built-in table up to U+024F and by the lent one past it.
///
/// ```
/// use drasumira::{Refusal, Tables, class};
/// assert_eq!(class('\u{1}', &Tables::full())?.to_string(), "unprintable, ASCII");
/// assert!(class('é', &Tables::full())?.names().any(|name| name == "accented"));
/// assert_eq!(class('\u{416}', &Tables::builtin_only()), Err(Refusal::new(Refusal::UNCLASSED, 0)));
/// # Ok::<(), drasumira::Refusal>(())
/// ```
///
/// # Errors
///
/// [`Refusal::UNCLASSED`], place 0, for a character that is in no record.
pub fn class(character: char, tables: &Tables) -> Result<Class, Refusal> {
    let told = host::why::class(character as u32, &tables.classes);
    unless_refused(told.number, told.place, Class { flags: told.flags, range: told.range })
}
