// The eight detectors by name, and what a score tells of each.
use std::fmt;

/// One of the eight detectors whose ratios add up to a score, in the order in which they are added.
///
/// ```
/// use drasumira::Detector;
/// assert_eq!(Detector::ALL.map(|d| d.number()), [1, 2, 3, 4, 5, 6, 7, 8]);
/// assert_eq!(Detector::Symbols.to_string(), "symbols and punctuation");
/// assert_eq!(Detector::from_number(3), Some(Detector::Unprintable));
/// assert_eq!(Detector::from_number(0), None);
/// ```
#[derive(Clone, Copy, Debug, PartialEq, Eq, Hash, PartialOrd, Ord)]
pub enum Detector {
    /// Punctuation and twice the symbols, over the printable characters.
    Symbols,
    /// Accented letters over all letters.
    Accents,
    /// Eight times the unprintable characters, over all.
    Unprintable,
    /// Twice the suspicious neighbours by their ranges, over the printable characters.
    Ranges,
    /// Twice the doubled accents, over the Latin letters.
    Doubled,
    /// Characters of weird words over those of all words.
    Words,
    /// Two CJK stops that are no stops, over the CJK characters.
    Stops,
    /// Characters in runs of changing case, over all.
    Archaic,
}

impl Detector {
    /// All eight, in order.
    pub const ALL: [Detector; 8] = [
        Detector::Symbols,
        Detector::Accents,
        Detector::Unprintable,
        Detector::Ranges,
        Detector::Doubled,
        Detector::Words,
        Detector::Stops,
        Detector::Archaic,
    ];

    /// Its number, 1 to 8.
    pub const fn number(self) -> u32 {
        self as u32 + 1
    }

    /// The detector of a number, 1 to 8.
    pub fn from_number(number: u32) -> Option<Detector> {
        Detector::ALL.into_iter().find(|d| d.number() == number)
    }
}

impl fmt::Display for Detector {
    fn fmt(&self, f: &mut fmt::Formatter<'_>) -> fmt::Result {
        f.pad(match self {
            Detector::Symbols => "symbols and punctuation",
            Detector::Accents => "accented letters",
            Detector::Unprintable => "unprintable characters",
            Detector::Ranges => "suspicious neighbours",
            Detector::Doubled => "doubled accents",
            Detector::Words => "weird words",
            Detector::Stops => "CJK stops",
            Detector::Archaic => "changing case",
        })
    }
}

/// What a score tells of one detector: its ratio, and the two counts that it is made of, shown as "3 of 10".
///
/// The ratio is `numerator` over `denominator`, rounded once; it is 0 where it was cut off and where the denominator is 0. The numerator has the
/// detector's factor in it (8 for each unprintable character, 2 for a symbol, a suspicious pair and a doubled accent), so it can be larger than
/// the denominator.
#[derive(Clone, Copy, Debug, PartialEq)]
#[non_exhaustive]
pub struct Share {
    /// The ratio, as it is added to the sum.
    pub ratio: f32,
    /// What was counted, its factor included.
    pub numerator: u32,
    /// What it was counted among.
    pub denominator: u32,
    /// Whether both counts are above 0 and the ratio is 0 all the same: it was too small, or there was too little text, for the detector to say anything.
    pub cut_off: bool,
}

impl fmt::Display for Share {
    fn fmt(&self, f: &mut fmt::Formatter<'_>) -> fmt::Result {
        write!(f, "{} of {}", self.numerator, self.denominator)?;
        if self.cut_off { write!(f, ", cut off") } else { Ok(()) }
    }
}
