// The second engine, and both engines held together.
use crate::host::{self, HostScore};
use crate::{DEFAULT_THRESHOLD, Refusal, Score, Tables, Text, read, scored};
use std::borrow::Cow;
use std::fmt;

/// Code points of the longest text that [`second_score`] scores.
pub const SECOND_LONGEST: usize = 4096;

/// Two answers to one text that are not the same.
#[derive(Clone, Copy, Debug, PartialEq)]
#[non_exhaustive]
pub struct Apart {
    /// What [`score`](crate::score) answered.
    pub first: Result<Score, Refusal>,
    /// What [`second_score`] answered.
    pub second: Result<Score, Refusal>,
}

/// Why [`agreed`] has no score to give.
#[derive(Clone, Debug, PartialEq)]
#[non_exhaustive]
pub enum NotAgreed {
    /// Both engines refuse the text so, or it is too long for the second.
    Refused(Refusal),
    /// The two engines answer otherwise. It is proved that they do not; what could still make them is beside the proofs: the compiler, the machine.
    Apart(Box<Apart>),
}

impl fmt::Display for NotAgreed {
    fn fmt(&self, f: &mut fmt::Formatter<'_>) -> fmt::Result {
        match self {
            NotAgreed::Refused(refusal) => refusal.fmt(f),
            NotAgreed::Apart(apart) => write!(f, "the two engines differ: {:?} and {:?}", apart.first, apart.second),
        }
    }
}

impl std::error::Error for NotAgreed {}

impl From<Refusal> for NotAgreed {
    fn from(refusal: Refusal) -> NotAgreed {
        NotAgreed::Refused(refusal)
    }
}

// The code points of a text.
fn points_in(text: Text<'_>) -> Result<Cow<'_, [u32]>, Refusal> {
    match text {
        Text::Chars(chars) => Ok(Cow::Borrowed(host::points_of(chars))),
        Text::Bytes(bytes) => {
            let mut points = vec![0; bytes.len()];
            let n = read(bytes, &mut points)?;
            points.truncate(n);
            Ok(Cow::Owned(points))
        }
    }
}

/// The mess ratio of a text of at most [`SECOND_LONGEST`] code points, by a second engine: other code, proved against the same definition as
/// [`score`](crate::score)'s, so that the two answer alike. It is written to be read, and is slower. A call takes up to 1 MiB of stack.
///
/// ```
/// use drasumira::{Refusal, Tables, score, second_score};
/// let tables = Tables::full();
/// let text = "Voix ambiguë d'un cœur qui au zéphyr préfère les jattes de kiwis.";
/// assert_eq!(second_score(text, None, &tables), score(text, None, &tables));
/// assert_eq!(second_score("a".repeat(4097).as_str(), None, &tables), Err(Refusal::new(Refusal::TOO_LONG, 0)));
/// ```
///
/// # Errors
///
/// [`Refusal::TOO_LONG`] above 4,096 code points; else as [`score`](crate::score). Bytes are read first, with reading's refusals.
pub fn second_score<'a>(text: impl Into<Text<'a>>, threshold: Option<f32>, tables: &Tables) -> Result<Score, Refusal> {
    let points = points_in(text.into())?;
    scored(host::second_score(&points, threshold.unwrap_or(DEFAULT_THRESHOLD), &tables.classes, &tables.pairs))
}

// One answer of two: every number is looked at, a float by its bits.
fn held_together(first: HostScore, second: HostScore) -> Result<Score, NotAgreed> {
    if host::numbers_of(first) == host::numbers_of(second) {
        return Ok(scored(second)?);
    }
    Err(NotAgreed::Apart(Box::new(Apart { first: scored(first), second: scored(second) })))
}

/// The mess ratio that both engines answer: of ratios, counts, sum, fed, stop and refusal every bit is compared.
///
/// ```
/// use drasumira::{NotAgreed, Refusal, Tables, agreed, score};
/// let tables = Tables::full();
/// assert_eq!(agreed("A line of plain text.", None, &tables), Ok(score("A line of plain text.", None, &tables)?));
/// assert_eq!(agreed("a".repeat(4097).as_str(), None, &tables), Err(NotAgreed::Refused(Refusal::new(Refusal::TOO_LONG, 0))));
/// # Ok::<(), drasumira::Refusal>(())
/// ```
///
/// # Errors
///
/// [`NotAgreed::Refused`] with the second engine's refusal above [`SECOND_LONGEST`] code points, and with the refusal of both; [`NotAgreed::Apart`] where the
/// two differ.
pub fn agreed<'a>(text: impl Into<Text<'a>>, threshold: Option<f32>, tables: &Tables) -> Result<Score, NotAgreed> {
    let points = points_in(text.into())?;
    let threshold = threshold.unwrap_or(DEFAULT_THRESHOLD);
    let second = host::second_score(&points, threshold, &tables.classes, &tables.pairs);
    if points.len() > SECOND_LONGEST {
        return Ok(scored(second)?);
    }
    held_together(host::score(&points, threshold, &tables.classes, &tables.pairs), second)
}

#[cfg(test)]
mod tests {
    use super::*;

    // No text is known on which the engines differ: one answer is forged.
    #[test]
    fn engines_that_differ() {
        let tables = Tables::builtin_only();
        let told = |text: &[u32]| host::second_score(text, 9.0, &tables.classes, &tables.pairs);
        let (plain, noise) = (told(&[0x61]), told(&[1]));
        assert_eq!(held_together(plain, plain), Ok(scored(plain).unwrap()));
        let apart = held_together(plain, noise).unwrap_err();
        assert_eq!(apart, NotAgreed::Apart(Box::new(Apart { first: scored(plain), second: scored(noise) })));
        assert!(apart.to_string().starts_with("the two engines differ: Ok(Score { symbols: 0.0, "));
        // another sign of a zero is another answer, and so is a refusal
        let forged = HostScore { sum: -0.0, ..plain };
        assert!(matches!(held_together(plain, forged), Err(NotAgreed::Apart(_))));
        let refused = told(&[0x416]);
        assert!(matches!(held_together(plain, refused), Err(NotAgreed::Apart(_))));
        assert_eq!(held_together(refused, refused), Err(NotAgreed::Refused(Refusal::new(Refusal::UNCLASSED, 0))));
    }
}
