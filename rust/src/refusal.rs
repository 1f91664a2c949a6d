use std::fmt;

/// Why a call refused its input: the number of the cause and its place, 0 where the cause has none. The numbers have names:
/// [`Refusal::TOO_LONG`] and its fellows.
///
/// ```
/// use drasumira::Refusal;
/// let refusal = Refusal::new(Refusal::ILL_FORMED, 7);
/// assert_eq!(refusal.to_string(), "refusal 2: the bytes are not UTF-8, or not of the code page, from byte 7 on");
/// ```
#[derive(Clone, Copy, Debug, PartialEq, Eq, Hash)]
#[non_exhaustive]
pub struct Refusal {
    /// Which cause: one of the constants below. Later versions may know more.
    pub number: u32,
    /// Where it lies: what the constant says, 0 where it says nothing.
    pub place: u32,
}

impl Refusal {
    /// Over 262,144 bytes or 65,536 code points; under a code page over 65,536 bytes; in a ranking over 8,192 code points; many lines over 16,777,216 bytes.
    pub const TOO_LONG: u32 = 1;
    /// Bytes that are not UTF-8: the place is the first byte of the bad sequence. Under a code page a byte that is unused: the place is its index.
    pub const ILL_FORMED: u32 = 2;
    /// A lent output or work area is too short.
    pub const NO_ROOM: u32 = 3;
    /// The threshold is no finite number; in merging, a score is not from 0 to 1, and the place is its entry.
    pub const NOT_FINITE: u32 = 4;
    /// The class table is not good. The place is the first bad record, or 0 for its length or number. Of a compact one it is also the first bad letters, or 0 for their length,
    /// where no record is bad.
    pub const BAD_CLASSES: u32 = 5;
    /// A code point is in no record. The place is its index in the text.
    pub const UNCLASSED: u32 = 6;
    /// The pair table is not 32,768 bytes.
    pub const BAD_PAIRS: u32 = 7;
    /// The language table is not good. The place is as for [`Refusal::BAD_CLASSES`].
    pub const BAD_LANGUAGES: u32 = 8;
    /// Over 64 included numbers, place 0, or one that is not in the table, place its index.
    pub const BAD_INCLUDED: u32 = 9;
    /// A code page is not good. The place is its first bad entry, or 0 where it has not 128.
    pub const BAD_PAGE: u32 = 10;
    /// A code page has no byte for a code point. The place is its index in the text.
    pub const NOT_ON_PAGE: u32 = 11;
    /// A number that is no scalar value, in a text that is written as UTF-8. The place is its index. No `char` is refused so.
    pub const NOT_SCALAR: u32 = 12;
    /// A character past the length that was declared for a line.
    pub const LINE_FULL: u32 = 13;
    /// A line that is closed with fewer characters than were declared.
    pub const LINE_SHORT: u32 = 14;
    /// A ring that is not 1 to 2,048 records of 32 bytes, or whose head is not below its size or its count above it.
    pub const BAD_RING: u32 = 15;
    /// A ring that holds as many records as it has slots.
    pub const RING_FULL: u32 = 16;
    /// More than 65,535 lines in a report.
    pub const MANY_LINES: u32 = 17;
    /// More than 64 rankings to merge, one of more than 63 entries, or lengths that do not add up to the list.
    pub const BAD_LENGTHS: u32 = 18;
    /// A running state that cannot be gone on with: its threshold, its length, its range or one of its counts.
    pub const BAD_STATE: u32 = 19;

    /// A refusal of this number and place.
    pub const fn new(number: u32, place: u32) -> Refusal {
        Refusal { number, place }
    }
}

impl fmt::Display for Refusal {
    fn fmt(&self, f: &mut fmt::Formatter<'_>) -> fmt::Result {
        let place = self.place;
        write!(f, "refusal {}: ", self.number)?;
        match self.number {
            Refusal::TOO_LONG => write!(
                f,
                "the text is over 262,144 bytes or 65,536 code points, in a ranking over 8,192 code points, or many lines are over 16,777,216 bytes"
            ),
            Refusal::ILL_FORMED => write!(f, "the bytes are not UTF-8, or not of the code page, from byte {place} on"),
            Refusal::NO_ROOM => write!(f, "a lent output or work area is too short"),
            Refusal::NOT_FINITE => {
                write!(f, "the threshold is not a finite number, or the score of entry {place} to merge is not from 0 to 1")
            }
            Refusal::BAD_CLASSES => {
                bad_table(f, "class", place)?;
                bad_letters(f, place)
            }
            Refusal::UNCLASSED => {
                write!(f, "the code point at index {place} of the text, or in a ranking its lower case, is in no record of the class table")
            }
            Refusal::BAD_PAIRS => write!(f, "the pair table is not 32,768 bytes"),
            Refusal::BAD_LANGUAGES => bad_table(f, "language", place),
            Refusal::BAD_INCLUDED if place == 0 => {
                write!(f, "over 64 numbers are included, or the one at index 0 is in no record of the language table")
            }
            Refusal::BAD_INCLUDED => write!(f, "the included number at index {place} is in no record of the language table"),
            Refusal::BAD_PAGE if place == 0 => write!(f, "the code page is not good: its number of entries, or entry 0"),
            Refusal::BAD_PAGE => write!(f, "the code page is not good: entry {place}, counted from 0, is the first bad one"),
            Refusal::NOT_ON_PAGE => write!(f, "the code page has no byte for the code point at index {place}"),
            Refusal::NOT_SCALAR => write!(f, "the number at index {place} of the text is no scalar value"),
            Refusal::LINE_FULL => write!(f, "the line has all the characters that were declared: open another, or close it"),
            Refusal::LINE_SHORT => write!(f, "the line has fewer characters than were declared: feed the rest before closing it"),
            Refusal::BAD_RING => write!(f, "the ring is not 1 to 2,048 records of 32 bytes, or its head or its count is past its size"),
            Refusal::RING_FULL => write!(f, "the ring is full"),
            Refusal::MANY_LINES => write!(f, "a report takes 65,535 lines at most"),
            Refusal::BAD_LENGTHS => {
                write!(f, "over 64 rankings to merge, one of over 63 entries, or lengths that do not add up to the list")
            }
            Refusal::BAD_STATE => {
                write!(f, "the running state is not one to go on with: its threshold, length, range or a count is out of bounds; open it again")
            }
            _ => write!(f, "place {place}"),
        }
    }
}

fn bad_table(f: &mut fmt::Formatter<'_>, table: &str, place: u32) -> fmt::Result {
    match place {
        0 => write!(f, "the {table} table is not good: its length, its number of records, or record 0"),
        _ => write!(f, "the {table} table is not good: record {place}, counted from 0, is the first bad one"),
    }
}

fn bad_letters(f: &mut fmt::Formatter<'_>, place: u32) -> fmt::Result {
    match place {
        0 => write!(f, "; or of a compact one the letters' length, or letters 0"),
        _ => write!(f, "; or of a compact one letters {place} are"),
    }
}

impl std::error::Error for Refusal {}
