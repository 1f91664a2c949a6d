use crate::{Refusal, host};
use std::borrow::Cow;

/// A text: a `str`, code points as `char`s, or bytes, which are refused where they are not UTF-8. It is made of a reference to any of these and
/// copies none of them. [`score`](crate::score) copies nothing either; [`verdict`](crate::verdict), [`choose`](crate::choose) and
/// [`coherence`](crate::coherence) read a `str` or bytes into code points first, 4 bytes each, and take `char`s as they are.
#[derive(Clone, Copy, Debug)]
#[non_exhaustive]
pub enum Text<'a> {
    /// UTF-8, or what is to be refused because it is not.
    Bytes(&'a [u8]),
    /// Code points.
    Chars(&'a [char]),
}

macro_rules! text_of {
    ($($from:ty, $text:ident, $value:expr, [$($size:tt)*];)*) => {$(
        impl<'a, $($size)*> From<&'a $from> for Text<'a> {
            fn from(text: &'a $from) -> Text<'a> {
                let slice: fn(&'a $from) -> &'a [_] = $value;
                Text::$text(slice(text))
            }
        }
    )*};
}

text_of! {
    str, Bytes, |text| text.as_bytes(), [];
    String, Bytes, |text| text.as_bytes(), [];
    [u8], Bytes, |bytes| bytes, [];
    Vec<u8>, Bytes, |bytes| bytes, [];
    [u8; N], Bytes, |bytes| bytes, [const N: usize];
    [char], Chars, |chars| chars, [];
    Vec<char>, Chars, |chars| chars, [];
    [char; N], Chars, |chars| chars, [const N: usize];
}

const LONGEST_BYTES: usize = 262_144;
const LONGEST_TEXT: usize = 65_536;

// The code points of a text, or why its bytes are not read. Bytes that are refused for their length get no room.
pub(crate) fn points(text: Text<'_>) -> Result<Cow<'_, [u32]>, Refusal> {
    match text {
        Text::Chars(chars) => Ok(Cow::Borrowed(host::points_of(chars))),
        Text::Bytes(bytes) => {
            let room = if bytes.len() > LONGEST_BYTES { 0 } else { bytes.len().min(LONGEST_TEXT) };
            let mut points = vec![0; room];
            let count = crate::read(bytes, &mut points)?;
            points.truncate(count);
            Ok(Cow::Owned(points))
        }
    }
}

/// A text of which [`choose`](crate::choose) hands back a part: `&str`, `&[u8]` or `&[char]`.
pub trait Part<'a>: Copy + Into<Text<'a>> + sealed::Front {}

impl<'a> Part<'a> for &'a str {}
impl<'a> Part<'a> for &'a [u8] {}
impl<'a> Part<'a> for &'a [char] {}

pub(crate) mod sealed {
    /// The text without so many newlines at its end: each is one element of it.
    pub trait Front {
        fn without(self, newlines: usize) -> Self;
    }

    impl Front for &str {
        fn without(self, newlines: usize) -> Self {
            &self[..self.len() - newlines]
        }
    }

    impl<T> Front for &[T] {
        fn without(self, newlines: usize) -> Self {
            &self[..self.len() - newlines]
        }
    }
}
