use crate::{Refusal, accepted, host};

/// Writes characters as UTF-8 into the first places of `out` and answers how many bytes; the rest of `out` stays, and all of it in a refusal.
/// [`read`](crate::read) of what was written gives the text back, and that is proved.
///
/// ```
/// use drasumira::Refusal;
/// let mut out = [9; 4];
/// assert_eq!(drasumira::write_utf8(&['a', '\u{E9}'], &mut out), Ok(3));
/// assert_eq!(out, [0x61, 0xC3, 0xA9, 9]);
/// assert_eq!(drasumira::write_utf8(&['\u{1F600}'], &mut out[..3]), Err(Refusal::new(Refusal::NO_ROOM, 0)));
/// ```
///
/// # Errors
///
/// [`Refusal::TOO_LONG`] over 65,536 characters, [`Refusal::NO_ROOM`] where `out` is shorter than the bytes.
pub fn write_utf8(text: &[char], out: &mut [u8]) -> Result<usize, Refusal> {
    accepted(host::write_utf8(host::points_of(text), out))
}

/// Characters as a `String`, by [`write_utf8`]: of the part that [`choose`](crate::choose) hands back, for example.
///
/// ```
/// use drasumira::{Tables, choose, to_string};
/// let (noise, plain) = (['\u{1}', '\u{2}'], ['p', 'l', 'a', '\u{EE}', 'n', '\n']);
/// assert_eq!(to_string(choose(&noise[..], &plain[..], &Tables::full()))?, "pla\u{EE}n");
/// # Ok::<(), drasumira::Refusal>(())
/// ```
///
/// # Errors
///
/// [`Refusal::TOO_LONG`] over 65,536 characters.
///
/// # Panics
///
/// Never: what the library writes is UTF-8, and that is proved.
pub fn to_string(text: &[char]) -> Result<String, Refusal> {
    let mut bytes = vec![0; text.iter().map(|c| c.len_utf8()).sum()];
    let count = write_utf8(text, &mut bytes)?;
    bytes.truncate(count);
    Ok(String::from_utf8(bytes).expect("the library writes UTF-8"))
}
