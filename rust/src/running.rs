use crate::host::running as host;
use crate::{DEFAULT_THRESHOLD, Detector, Refusal, Score, Tables, accepted, scored, unless_refused};

/// How many u32 the state of a [`Running`] line is.
pub const RUNNING_NUMBERS: usize = host::NUMBERS;

/// A line that is scored while it arrives. It is opened with the number of its characters, which fixes the scan's checkpoints; fed one character a call, or
/// a chunk; and closed once all have arrived, which answers what [`score`](crate::score) answers for the whole line. It can be copied, so that a recorder
/// keeps one for each console.
///
/// Each call checks the tables again, some 11 microseconds; a chunk pays that once ([`Running::feed_str`], [`Running::feed_chars`]). A call that is
/// refused leaves the line as it was: a character without a class can be left out, or another be fed in its place.
///
/// ```
/// use drasumira::{Refusal, Running, Tables, score};
/// let tables = Tables::builtin_only();
/// let mut line = Running::open(5, None, &tables)?;
/// assert_eq!(line.feed('p'), Ok(1));
/// assert_eq!(line.feed('\u{416}').unwrap_err(), Refusal::new(Refusal::UNCLASSED, 1));
/// assert_eq!(line.feed_str("lai"), Ok(4));
/// assert_eq!(line.close().unwrap_err().number, Refusal::LINE_SHORT);
/// assert_eq!(line.feed('n'), Ok(5));
/// assert_eq!(line.feed('!').unwrap_err().number, Refusal::LINE_FULL);
/// assert_eq!(line.close()?, score("plain", None, &tables)?);
/// # Ok::<(), Refusal>(())
/// ```
#[derive(Clone, Copy, Debug)]
pub struct Running<'t> {
    state: host::HostRunning,
    tables: &'t Tables,
}

impl<'t> Running<'t> {
    /// A line of `length` characters of which none has arrived. Without a threshold [`DEFAULT_THRESHOLD`] is used.
    ///
    /// # Errors
    ///
    /// [`Refusal::TOO_LONG`] for a length over 65,536, [`Refusal::NOT_FINITE`] for the threshold.
    pub fn open(length: usize, threshold: Option<f32>, tables: &'t Tables) -> Result<Running<'t>, Refusal> {
        let length = u32::try_from(length).unwrap_or(u32::MAX);
        let told = host::open(length, threshold.unwrap_or(DEFAULT_THRESHOLD), &tables.classes, &tables.pairs);
        unless_refused(told.number, told.place, Running { state: told.state, tables })
    }

    /// A line that was put away by its [`numbers`](Running::numbers). Nothing is checked here: numbers that no line can have are refused by the next call
    /// ([`Refusal::BAD_STATE`]).
    ///
    /// ```
    /// use drasumira::{RUNNING_NUMBERS, Refusal, Running, Tables};
    /// let tables = Tables::builtin_only();
    /// let mut line = Running::open(2, None, &tables)?;
    /// line.feed('a')?;
    /// let kept: [u32; RUNNING_NUMBERS] = *line.numbers();
    /// let mut again = Running::resume(kept, &tables);
    /// again.feed('b')?;
    /// assert_eq!(again.close()?.fed, 3);
    /// assert_eq!(Running::resume([u32::MAX; RUNNING_NUMBERS], &tables).close().unwrap_err().number, Refusal::BAD_STATE);
    /// # Ok::<(), Refusal>(())
    /// ```
    #[must_use]
    pub fn resume(numbers: [u32; RUNNING_NUMBERS], tables: &'t Tables) -> Running<'t> {
        Running { state: numbers, tables }
    }

    /// The numbers that the line is, in the order of docs/HOST.md.
    #[must_use]
    pub fn numbers(&self) -> &[u32; RUNNING_NUMBERS] {
        &self.state
    }

    /// Feeds one character; answers how many were received.
    ///
    /// # Errors
    ///
    /// [`Refusal::LINE_FULL`] where all have arrived, [`Refusal::UNCLASSED`] for a character that is in no record, at the number received before it,
    /// [`Refusal::BAD_STATE`] for a resumed line that is none. The line stays as it was.
    pub fn feed(&mut self, character: char) -> Result<usize, Refusal> {
        accepted(host::feed(&mut self.state, character.into(), &self.tables.classes, &self.tables.pairs))
    }

    /// Feeds the characters of a `str`, all of them or none; answers how many were received. The line is then what single calls would have left.
    ///
    /// # Errors
    ///
    /// As [`Running::feed`]; [`Refusal::LINE_FULL`] where fewer places are left than characters.
    pub fn feed_str(&mut self, text: &str) -> Result<usize, Refusal> {
        let points: Vec<u32> = text.chars().map(u32::from).collect();
        self.feed_points(&points)
    }

    /// The same of `char`s, which are not copied.
    ///
    /// # Errors
    ///
    /// As [`Running::feed_str`].
    pub fn feed_chars(&mut self, text: &[char]) -> Result<usize, Refusal> {
        self.feed_points(crate::host::points_of(text))
    }

    fn feed_points(&mut self, points: &[u32]) -> Result<usize, Refusal> {
        accepted(host::feed_all(&mut self.state, points, &self.tables.classes, &self.tables.pairs))
    }

    /// The score of the whole line: the newline is fed, unless the scan has stopped. The line stays as it is.
    ///
    /// # Errors
    ///
    /// [`Refusal::LINE_SHORT`] where fewer were received than declared, [`Refusal::BAD_STATE`] for a resumed line that is none.
    pub fn close(&self) -> Result<Score, Refusal> {
        scored(host::close(&self.state))
    }

    /// How many characters were declared.
    #[must_use]
    pub fn declared(&self) -> usize {
        self.state[host::LENGTH] as usize
    }

    /// How many have arrived.
    #[must_use]
    pub fn received(&self) -> usize {
        self.state[host::RECEIVED] as usize
    }

    /// How many of them were fed: once the scan has stopped, the others are only counted as received.
    #[must_use]
    pub fn fed(&self) -> usize {
        self.state[host::FED] as usize
    }

    /// Whether the sum has reached the threshold at a checkpoint.
    #[must_use]
    pub fn stopped(&self) -> bool {
        self.state[host::STOPPED] != 0
    }

    /// The index of the last character fed at which a detector's numerator grew.
    #[must_use]
    pub fn last_growth(&self, detector: Detector) -> Option<usize> {
        (self.state[host::GROWN + detector as usize] as usize).checked_sub(1)
    }
}
