use crate::text::{Part, points};
use crate::{Refusal, Tables, Text, host};

/// One of two texts.
#[derive(Clone, Copy, Debug, PartialEq, Eq, Hash)]
pub enum Which {
    /// The first.
    First,
    /// The second.
    Second,
}

/// The refusal of one of two texts; the first is checked first.
#[derive(Clone, Copy, Debug, PartialEq, Eq, Hash)]
#[non_exhaustive]
pub struct RefusedText {
    /// Which of the two.
    pub which: Which,
    /// Why, and where in it.
    pub refusal: Refusal,
}

impl RefusedText {
    /// The refusal of this text.
    pub const fn new(which: Which, refusal: Refusal) -> RefusedText {
        RefusedText { which, refusal }
    }
}

impl std::fmt::Display for RefusedText {
    fn fmt(&self, f: &mut std::fmt::Formatter<'_>) -> std::fmt::Result {
        let which = if self.which == Which::First { "first" } else { "second" };
        write!(f, "of the {which} text: {}", self.refusal)
    }
}

impl std::error::Error for RefusedText {
    fn source(&self) -> Option<&(dyn std::error::Error + 'static)> {
        Some(&self.refusal)
    }
}

/// Which of two texts is the more readable: each is scored whole, the lower score is taken, and equal scores take the first. Each may be a
/// `str`, bytes or `char`s.
///
/// ```
/// use drasumira::{Tables, Which, verdict};
/// let tables = Tables::full();
/// assert_eq!(verdict("\u{1}\u{2}", "plain", &tables), Ok(Which::Second));
/// assert_eq!(verdict("plain", &['p', 'l', 'a', 'i', 'n'], &tables), Ok(Which::First));
/// ```
///
/// # Errors
///
/// The first text that is refused, with its refusal: as bytes [`Refusal::TOO_LONG`] or [`Refusal::ILL_FORMED`], then [`Refusal::TOO_LONG`] or
/// [`Refusal::UNCLASSED`]. Whatever the second is, the first is told where it is refused.
pub fn verdict<'a, 'b>(first: impl Into<Text<'a>>, second: impl Into<Text<'b>>, tables: &Tables) -> Result<Which, RefusedText> {
    let first = points(first.into()).map_err(|refusal| RefusedText::new(Which::First, refusal))?;
    match points(second.into()) {
        Ok(second) => judged(&first, &second, tables),
        // the first may be refused too, and then is told
        Err(refusal) => judged(&first, &[], tables).and(Err(RefusedText::new(Which::Second, refusal))),
    }
}

fn judged(first: &[u32], second: &[u32], tables: &Tables) -> Result<Which, RefusedText> {
    let told = host::verdict(first, second, &tables.classes, &tables.pairs);
    let refusal = Refusal::new(told.number, told.place);
    match (told.taken, told.refused) {
        (1, _) => Ok(Which::First),
        (2, _) => Ok(Which::Second),
        (_, 1) => Err(RefusedText::new(Which::First, refusal)),
        _ => Err(RefusedText::new(Which::Second, refusal)),
    }
}

/// The more readable of two texts, without the newlines at its end; an empty part of the first where either is refused ([`verdict`] says which
/// and why). Which text, and how much of it, is the library's word. Both are `&str`, both `&[u8]` or both `&[char]`, and so is the part.
///
/// ```
/// use drasumira::{Tables, choose};
/// let tables = Tables::full();
/// assert_eq!(choose("\u{1}\u{2}", "plain\n\n", &tables), "plain");
/// assert_eq!(choose(&b"\xFF"[..], &b"plain\n"[..], &tables), b"");
/// ```
pub fn choose<'a, T: Part<'a>>(first: T, second: T, tables: &Tables) -> T {
    let none = || first.without(length(first.into()));
    let (Ok(a), Ok(b)) = (points(first.into()), points(second.into())) else { return none() };
    let told = host::choose(&a, &b, &tables.classes, &tables.pairs);
    match told.taken {
        1 => first.without(a.len() - told.length as usize),
        2 => second.without(b.len() - told.length as usize),
        _ => none(),
    }
}

fn length(text: Text<'_>) -> usize {
    match text {
        Text::Bytes(bytes) => bytes.len(),
        Text::Chars(chars) => chars.len(),
    }
}
