use crate::{Refusal, Score, Tables, Text, accepted, host, score, text};

const ENTRIES: usize = 128;
const LONGEST_TEXT: usize = 65_536;

/// A single-byte code page: the code points of the bytes 80 to FF. The bytes below 80 stand for themselves. It is checked when it is made, and by
/// the library in each call again.
///
/// ```
/// use drasumira::Page;
/// let page = Page::windows_1251();
/// let bytes = [0xD2, 0xE5, 0xEA, 0xF1, 0xF2, b'.'];
/// assert_eq!(page.read(&bytes)?, "Текст.");
/// assert_eq!(page.write("Текст.")?, bytes);
/// assert_eq!(page.write("日本").unwrap_err().to_string(), "refusal 11: the code page has no byte for the code point at index 0");
/// # Ok::<(), drasumira::Refusal>(())
/// ```
#[derive(Clone, Debug, PartialEq, Eq, Hash)]
pub struct Page {
    entries: [u16; ENTRIES],
}

impl Page {
    /// What an entry holds that is not used.
    pub const UNUSED: u16 = 0xFFFF;

    /// Takes the code points of the bytes 80 to FF in their order, [`Page::UNUSED`] for a byte that stands for nothing.
    ///
    /// ```
    /// use drasumira::{Page, Refusal};
    /// assert!(Page::new(&[Page::UNUSED; 128]).is_ok());
    /// assert_eq!(Page::new(&[Page::UNUSED; 127]), Err(Refusal::new(Refusal::BAD_PAGE, 0)));
    /// let mut twice = [Page::UNUSED; 128];
    /// (twice[3], twice[5]) = (0x20AC, 0x20AC);
    /// assert_eq!(Page::new(&twice), Err(Refusal::new(Refusal::BAD_PAGE, 5)));
    /// ```
    ///
    /// # Errors
    ///
    /// [`Refusal::BAD_PAGE`] where there are not 128 entries, or where a used one is below 0080, a surrogate, or equal to one before it.
    pub fn new(entries: &[u16]) -> Result<Page, Refusal> {
        // the library's own word on the page
        accepted(host::read_page(entries, &[], &mut []))?;
        let entries = entries.try_into().map_err(|_| Refusal::new(Refusal::BAD_PAGE, 0))?;
        Ok(Page { entries })
    }

    // Of a table that this package carries: 128 u16, little-endian.
    fn carried(table: &[u8; 2 * ENTRIES]) -> Page {
        let entries: Vec<u16> = table.chunks_exact(2).map(|two| u16::from_le_bytes([two[0], two[1]])).collect();
        Page::new(&entries).expect("the pages that this package carries are good")
    }

    /// Windows-1251, as the WHATWG Encoding Standard has it: every byte is used.
    ///
    /// # Panics
    ///
    /// Never: the pages that this package carries are good, and a test says so.
    pub fn windows_1251() -> Page {
        Page::carried(include_bytes!("../tables/pages/windows-1251.bin"))
    }

    /// Windows-1252, as the WHATWG Encoding Standard has it: every byte is used.
    ///
    /// # Panics
    ///
    /// Never, as [`Page::windows_1251`].
    pub fn windows_1252() -> Page {
        Page::carried(include_bytes!("../tables/pages/windows-1252.bin"))
    }

    /// ISO 8859-2, as the WHATWG Encoding Standard has it: every byte is used.
    ///
    /// # Panics
    ///
    /// Never, as [`Page::windows_1251`].
    pub fn iso_8859_2() -> Page {
        Page::carried(include_bytes!("../tables/pages/iso-8859-2.bin"))
    }

    /// The entries of the bytes 80 to FF.
    pub fn entries(&self) -> &[u16; ENTRIES] {
        &self.entries
    }

    /// The text of bytes.
    ///
    /// # Errors
    ///
    /// [`Refusal::TOO_LONG`] over 65,536 bytes; [`Refusal::ILL_FORMED`] where a byte is unused, at its index.
    ///
    /// # Panics
    ///
    /// Never: what a good page has is a scalar value.
    pub fn read(&self, bytes: &[u8]) -> Result<String, Refusal> {
        Ok(self.points(bytes)?.into_iter().map(|point| char::from_u32(point).expect("a scalar value")).collect())
    }

    // The code points of bytes. Bytes that are refused for their number get no room.
    fn points(&self, bytes: &[u8]) -> Result<Vec<u32>, Refusal> {
        let mut points = vec![0; if bytes.len() > LONGEST_TEXT { 0 } else { bytes.len() }];
        self.read_into(bytes, &mut points)?;
        Ok(points)
    }

    /// Reads bytes into the first places of `out`, one code point each, and answers how many; the rest of `out` stays, and all of it in a refusal.
    ///
    /// ```
    /// let mut out = [7; 3];
    /// let page = drasumira::Page::windows_1252();
    /// assert_eq!(page.read_into(&[0x80, b'5'], &mut out), Ok(2));
    /// assert_eq!(out, [0x20AC, 0x35, 7]);
    /// ```
    ///
    /// # Errors
    ///
    /// As [`Page::read`], and [`Refusal::NO_ROOM`] where `out` has fewer places than there are bytes.
    pub fn read_into(&self, bytes: &[u8], out: &mut [u32]) -> Result<usize, Refusal> {
        accepted(host::read_page(&self.entries, bytes, out))
    }

    /// The bytes of a text.
    ///
    /// # Errors
    ///
    /// [`Refusal::TOO_LONG`] over 65,536 code points; [`Refusal::NOT_ON_PAGE`] where the page has no byte for a code point, at its index in code points. Of
    /// bytes that are not UTF-8, [`Refusal::ILL_FORMED`].
    pub fn write<'a>(&self, text: impl Into<Text<'a>>) -> Result<Vec<u8>, Refusal> {
        let points = text::points(text.into())?;
        let mut out = vec![0; if points.len() > LONGEST_TEXT { 0 } else { points.len() }];
        self.write_into(&points, &mut out)?;
        Ok(out)
    }

    /// Writes code points into the first places of `out`, one byte each, and answers how many; the rest of `out` stays, and all of it in a refusal.
    ///
    /// ```
    /// use drasumira::{Page, Refusal};
    /// let mut out = [7; 3];
    /// let page = Page::windows_1252();
    /// assert_eq!(page.write_into(&[0x20AC, 0x35], &mut out), Ok(2));
    /// assert_eq!(out, [0x80, b'5', 7]);
    /// assert_eq!(page.write_into(&[0x35, 0xFFFF], &mut out), Err(Refusal::new(Refusal::NOT_ON_PAGE, 1)));
    /// ```
    ///
    /// # Errors
    ///
    /// As [`Page::write`], and [`Refusal::NO_ROOM`] where `out` has fewer places than there are code points.
    pub fn write_into(&self, text: &[u32], out: &mut [u8]) -> Result<usize, Refusal> {
        accepted(host::write_page(&self.entries, text, out))
    }

    /// The mess ratio of bytes under this page, in one step: they are read, and what was read is scored as [`score`] does.
    ///
    /// ```
    /// use drasumira::{Page, Tables};
    /// let tables = Tables::full();
    /// let bytes = Page::windows_1251().write("Съешь же ещё этих мягких французских булок, да выпей чаю.")?;
    /// let right = Page::windows_1251().score(&bytes, None, &tables)?;
    /// let wrong = Page::windows_1252().score(&bytes, None, &tables)?;
    /// assert!(right.sum < wrong.sum);
    /// # Ok::<(), drasumira::Refusal>(())
    /// ```
    ///
    /// # Errors
    ///
    /// As [`Page::read`], then as [`score`].
    pub fn score(&self, bytes: &[u8], threshold: Option<f32>, tables: &Tables) -> Result<Score, Refusal> {
        let text: Vec<char> = self.read(bytes)?.chars().collect();
        score(&text, threshold, tables)
    }
}
