use crate::host::ring::{self as host, HostRing, Numbers};
use crate::{Refusal, Score, unless_refused};

/// Bytes of a record in a [`Ring`].
pub const RECORD: usize = 32;

/// The most records that a [`Ring`] has room for; the fewest is one.
pub const MOST_RECORDS: usize = 2_048;

/// What a [`Ring`] keeps of a line.
#[derive(Clone, Copy, Debug, PartialEq)]
#[non_exhaustive]
pub struct Record {
    /// The number under which the line was put; numbers may repeat.
    pub line: u64,
    /// The score's sum, 0 where the line was refused.
    pub sum: f32,
    /// The characters fed, 0 where the line was refused.
    pub fed: u32,
    /// Whether the scan stopped early.
    pub stopped: bool,
    /// The refusal's number, or 0. Its place is not kept.
    pub refusal: u32,
}

impl Record {
    // The record that 32 bytes are, little-endian: the line u64, the sum's bits, fed, stopped and the refusal u32, 8 zero bytes.
    fn of(bytes: &[u8]) -> Record {
        let word = |at: usize| u32::from_le_bytes(bytes[at..at + 4].try_into().expect("four bytes"));
        Record {
            line: word(0) as u64 | (word(4) as u64) << 32,
            sum: f32::from_bits(word(8)),
            fed: word(12),
            stopped: word(16) != 0,
            refusal: word(20),
        }
    }
}

/// Verdicts on lines, kept in a buffer of [`RECORD`] bytes each until they are flushed, the oldest first. The buffer is lent or owned:
/// `&mut [u8]`, a `Vec<u8>`, an array. Nothing is allocated but what [`Ring::flush`] answers.
///
/// Whatever is put is flushed once, in the order in which it was put: the library's history law says so of every list of calls over a ring that
/// nobody else writes. A ring that is full refuses a put and stays as it is, so nothing is lost: flush, and put again.
///
/// ```
/// use drasumira::{RECORD, Refusal, Ring, Tables, score};
/// let tables = Tables::builtin_only();
/// let mut ring = Ring::open([0; 2 * RECORD])?;
/// ring.put(1, &score("plain", None, &tables))?;
/// ring.put(2, &score("\u{416}", None, &tables))?;
/// assert_eq!(ring.put(3, &score("more", None, &tables)).unwrap_err().number, Refusal::RING_FULL);
/// let oldest = ring.flush(1)?;
/// assert_eq!((oldest[0].line, oldest[0].fed, oldest[0].refusal), (1, 6, 0));
/// ring.put(3, &score("more", None, &tables))?;
/// let lines: Vec<(u64, u32)> = ring.flush(9)?.iter().map(|record| (record.line, record.refusal)).collect();
/// assert_eq!(lines, [(2, Refusal::UNCLASSED), (3, 0)]);
/// # Ok::<(), Refusal>(())
/// ```
#[derive(Clone, Copy, Debug)]
pub struct Ring<B> {
    bytes: B,
    head: u32,
    count: u32,
}

impl<B: AsRef<[u8]> + AsMut<[u8]>> Ring<B> {
    /// A ring with nothing in it. The bytes stay as they are.
    ///
    /// # Errors
    ///
    /// [`Refusal::BAD_RING`] where the buffer is not 1 to [`MOST_RECORDS`] times [`RECORD`] bytes.
    pub fn open(bytes: B) -> Result<Ring<B>, Refusal> {
        let told = host::open(bytes.as_ref());
        unless_refused(told.number, told.place, Ring { bytes, head: told.head, count: told.count })
    }

    /// A ring that was put away with its head and its count, as [`Ring::into_parts`] gave them.
    ///
    /// ```
    /// use drasumira::{RECORD, Refusal, Ring};
    /// let (bytes, head, count) = Ring::open(vec![0; 3 * RECORD])?.into_parts();
    /// assert!(Ring::resume(bytes.clone(), head, count).is_ok());
    /// assert_eq!(Ring::resume(bytes, 3, 0).unwrap_err().number, Refusal::BAD_RING);
    /// # Ok::<(), Refusal>(())
    /// ```
    ///
    /// # Errors
    ///
    /// [`Refusal::BAD_RING`] where the buffer, the head or the count is none of a ring.
    pub fn resume(bytes: B, head: u32, count: u32) -> Result<Ring<B>, Refusal> {
        let told = host::flush(bytes.as_ref(), head, count, 0, &mut []);
        unless_refused(told.number, told.place, Ring { bytes, head, count })
    }

    /// The buffer, the slot of the oldest record, and how many records are in it.
    pub fn into_parts(self) -> (B, u32, u32) {
        (self.bytes, self.head, self.count)
    }

    /// How many records are in it.
    pub fn len(&self) -> usize {
        self.count as usize
    }

    /// Whether no record is in it.
    pub fn is_empty(&self) -> bool {
        self.count == 0
    }

    /// Puts the verdict on a line behind the newest record.
    ///
    /// # Errors
    ///
    /// [`Refusal::RING_FULL`] where the ring is full, which then stays as it is; [`Refusal::BAD_RING`] where the buffer gives out other bytes than before.
    pub fn put(&mut self, line: u64, told: &Result<Score, Refusal>) -> Result<(), Refusal> {
        let numbers = match told {
            Ok(score) => Numbers { line, bits: score.sum.to_bits(), fed: score.fed, stopped: score.stopped as u32, refusal: 0 },
            Err(refusal) => Numbers { line, bits: 0, fed: 0, stopped: 0, refusal: refusal.number },
        };
        let told = host::put(self.bytes.as_mut(), self.head, self.count, &numbers);
        self.keep(told)
    }

    /// Takes the oldest records out, up to `most` of them, the oldest first.
    ///
    /// # Errors
    ///
    /// [`Refusal::BAD_RING`] where the buffer gives out other bytes than before; no buffer of plain bytes does.
    pub fn flush(&mut self, most: usize) -> Result<Vec<Record>, Refusal> {
        let mut out = vec![0; RECORD * most.min(self.len())];
        let n = self.flush_into(most, &mut out)?;
        Ok(out.chunks_exact(RECORD).take(n).map(Record::of).collect())
    }

    /// The same, as bytes at the front of `out`, whose rest stays; answers how many records.
    ///
    /// ```
    /// use drasumira::{RECORD, Refusal, Ring, Tables, score};
    /// let mut ring = Ring::open([0; RECORD])?;
    /// ring.put(7, &score("plain", None, &Tables::builtin_only()))?;
    /// let mut out = [9; RECORD + 1];
    /// assert_eq!(ring.flush_into(1, &mut out[..31]).unwrap_err().number, Refusal::NO_ROOM);
    /// assert_eq!(ring.flush_into(5, &mut out), Ok(1));
    /// assert_eq!((out[0], out[12], out[RECORD]), (7, 6, 9));
    /// # Ok::<(), Refusal>(())
    /// ```
    ///
    /// # Errors
    ///
    /// [`Refusal::NO_ROOM`] where `out` cannot hold them, and then nothing is taken out; [`Refusal::BAD_RING`] as [`Ring::flush`].
    pub fn flush_into(&mut self, most: usize, out: &mut [u8]) -> Result<usize, Refusal> {
        let before = self.count;
        let most = u32::try_from(most).unwrap_or(u32::MAX);
        let told = host::flush(self.bytes.as_ref(), self.head, self.count, most, out);
        self.keep(told)?;
        Ok((before - self.count) as usize)
    }

    // Head and count of an accepted answer; the ring's own stay in a refusal, which tells zeros.
    fn keep(&mut self, told: HostRing) -> Result<(), Refusal> {
        unless_refused(told.number, told.place, ())?;
        (self.head, self.count) = (told.head, told.count);
        Ok(())
    }
}
