// The proved library, called by the C ABI, with every lent slice between canaries or against a wall (walls.rs).
#[path = "walls.rs"]
pub mod walls;

pub use walls::Guarded;

#[repr(C)]
#[derive(Clone, Copy, Debug, Default, PartialEq)]
pub struct HostRead {
    pub number: u32,
    pub place: u32,
    pub count: u32,
}

#[repr(C)]
#[derive(Clone, Copy, Debug, Default)]
pub struct HostScore {
    pub number: u32,
    pub place: u32,
    pub ratios: [f32; 8],
    pub sum: f32,
    pub fed: u32,
    pub stopped: u32,
    pub counts: [[u32; 3]; 8],
}

pub const SCORE_WORDS: usize = 13 + 3 * 8;

// Two answers are the same where every bit is.
impl PartialEq for HostScore {
    fn eq(&self, other: &HostScore) -> bool {
        self.words() == other.words()
    }
}

impl HostScore {
    pub fn words(&self) -> [u32; SCORE_WORDS] {
        let mut words = vec![self.number, self.place];
        words.extend(self.ratios.map(f32::to_bits));
        words.extend([self.sum.to_bits(), self.fed, self.stopped]);
        words.extend(self.counts.as_flattened());
        words.try_into().expect("as many words")
    }

    pub fn shown(&self) -> String {
        let r: Vec<String> = self.ratios.iter().map(|x| format!("{:08X}", x.to_bits())).collect();
        format!(
            "number {} place {} ratios {} sum {:08X} fed {} stopped {} counts {:?}",
            self.number,
            self.place,
            r.join(" "),
            self.sum.to_bits(),
            self.fed,
            self.stopped,
            self.counts
        )
    }
}

#[repr(C)]
#[derive(Clone, Copy, Debug, Default, PartialEq)]
pub struct HostVerdict {
    pub taken: u32,
    pub refused: u32,
    pub number: u32,
    pub place: u32,
}

#[repr(C)]
#[derive(Clone, Copy, Debug, Default, PartialEq)]
pub struct HostChosen {
    pub taken: u32,
    pub length: u32,
    pub number: u32,
    pub place: u32,
}

#[repr(C)]
#[derive(Clone, Copy, Debug, Default, PartialEq)]
pub struct HostRing {
    pub number: u32,
    pub place: u32,
    pub head: u32,
    pub count: u32,
}

// A running line: 48 numbers.
pub const RUNNING: usize = 48;

#[repr(C)]
#[derive(Clone, Copy, Debug, PartialEq)]
pub struct HostOpened {
    pub number: u32,
    pub place: u32,
    pub state: [u32; RUNNING],
}

#[repr(C)]
#[derive(Clone, Copy, Debug, Default, PartialEq)]
pub struct HostReason {
    pub number: u32,
    pub place: u32,
    pub detector: u32,
    pub count: u32,
}

#[repr(C)]
#[derive(Clone, Copy, Debug, Default, PartialEq)]
pub struct HostClass {
    pub number: u32,
    pub place: u32,
    pub flags: u32,
    pub range: u32,
}

// A struct of more than 16 bytes comes back through the first pointer, which is also returned.
unsafe extern "C" {
    fn drasumira_open(
        told: *mut HostOpened,
        length: u32,
        threshold: f32,
        classes: *const u8,
        classes_n: usize,
        pairs: *const u8,
        pairs_n: usize,
    ) -> *mut HostOpened;
    fn drasumira_feed(state: *mut u32, point: u32, classes: *const u8, classes_n: usize, pairs: *const u8, pairs_n: usize) -> HostRead;
    fn drasumira_feed_all(
        state: *mut u32,
        text: *const u32,
        n: usize,
        classes: *const u8,
        classes_n: usize,
        pairs: *const u8,
        pairs_n: usize,
    ) -> HostRead;
    fn drasumira_close(told: *mut HostScore, state: *const u32) -> *mut HostScore;
    fn drasumira_class(point: u32, classes: *const u8, n: usize) -> HostClass;
    fn drasumira_reason(
        text: *const u32,
        n: usize,
        threshold: f32,
        classes: *const u8,
        classes_n: usize,
        pairs: *const u8,
        pairs_n: usize,
        out: *mut u32,
        room: usize,
    ) -> HostReason;
    fn drasumira_reason_utf8(
        bytes: *const u8,
        n: usize,
        threshold: f32,
        classes: *const u8,
        classes_n: usize,
        pairs: *const u8,
        pairs_n: usize,
        out: *mut u32,
        room: usize,
    ) -> HostReason;
    fn drasumira_check_classes(classes: *const u8, n: usize) -> HostRead;
    fn drasumira_read(bytes: *const u8, n: usize, out: *mut u32, room: usize) -> HostRead;
    fn drasumira_read_page(page: *const u16, entries: usize, bytes: *const u8, n: usize, out: *mut u32, room: usize) -> HostRead;
    fn drasumira_write_page(page: *const u16, entries: usize, text: *const u32, n: usize, out: *mut u8, room: usize) -> HostRead;
    fn drasumira_score(
        told: *mut HostScore,
        text: *const u32,
        n: usize,
        threshold: f32,
        classes: *const u8,
        classes_n: usize,
        pairs: *const u8,
        pairs_n: usize,
    ) -> *mut HostScore;
    fn drasumira_second_score(
        told: *mut HostScore,
        text: *const u32,
        n: usize,
        threshold: f32,
        classes: *const u8,
        classes_n: usize,
        pairs: *const u8,
        pairs_n: usize,
    ) -> *mut HostScore;
    fn drasumira_score_default(
        told: *mut HostScore,
        text: *const u32,
        n: usize,
        classes: *const u8,
        classes_n: usize,
        pairs: *const u8,
        pairs_n: usize,
    ) -> *mut HostScore;
    fn drasumira_score_utf8(
        told: *mut HostScore,
        text: *const u8,
        n: usize,
        threshold: f32,
        classes: *const u8,
        classes_n: usize,
        pairs: *const u8,
        pairs_n: usize,
    ) -> *mut HostScore;
    fn drasumira_score_utf8_default(
        told: *mut HostScore,
        text: *const u8,
        n: usize,
        classes: *const u8,
        classes_n: usize,
        pairs: *const u8,
        pairs_n: usize,
    ) -> *mut HostScore;
    fn drasumira_score_lines(
        bytes: *const u8,
        n: usize,
        threshold: f32,
        classes: *const u8,
        classes_n: usize,
        pairs: *const u8,
        pairs_n: usize,
        out: *mut u32,
        room: usize,
    ) -> HostRead;
    fn drasumira_verdict(
        first: *const u32,
        first_n: usize,
        second: *const u32,
        second_n: usize,
        classes: *const u8,
        classes_n: usize,
        pairs: *const u8,
        pairs_n: usize,
    ) -> HostVerdict;
    fn drasumira_choose(
        first: *const u32,
        first_n: usize,
        second: *const u32,
        second_n: usize,
        classes: *const u8,
        classes_n: usize,
        pairs: *const u8,
        pairs_n: usize,
    ) -> HostChosen;
    fn drasumira_write_utf8(text: *const u32, n: usize, out: *mut u8, room: usize) -> HostRead;
    fn drasumira_merge(list: *const u32, n: usize, lengths: *const u32, rankings: usize, out: *mut u32, room: usize) -> HostRead;
    fn drasumira_report(rows: *const u32, n: usize, out: *mut u8, room: usize) -> HostRead;
    fn drasumira_ring_open(ring: *const u8, n: usize) -> HostRing;
    fn drasumira_ring_put(
        ring: *mut u8,
        n: usize,
        head: u32,
        count: u32,
        line: u64,
        bits: u32,
        fed: u32,
        stopped: u32,
        refusal: u32,
    ) -> HostRing;
    fn drasumira_ring_flush(ring: *const u8, n: usize, head: u32, count: u32, most: u32, out: *mut u8, room: usize) -> HostRing;
}

pub const BYTE: u8 = 0xA5;
pub const WORD: u32 = 0xA5C3_0F5A;

pub fn text_of(points: &[u32]) -> Guarded<u32> {
    Guarded::new(points, WORD)
}

// A class table and a pair table, lent over and over; `whole` says whether a call changed one.
pub struct Lent {
    pub classes: Guarded<u8>,
    pub pairs: Guarded<u8>,
}

impl Lent {
    pub fn new(classes: &[u8], pairs: &[u8]) -> Lent {
        Lent { classes: Guarded::new(classes, BYTE), pairs: Guarded::new(pairs, BYTE) }
    }

    pub fn whole(&self) -> bool {
        self.classes.whole() && self.pairs.whole()
    }
}

pub fn check_classes(classes: &[u8]) -> HostRead {
    unsafe { drasumira_check_classes(classes.as_ptr(), classes.len()) }
}

// HostRanking has the members of HostRead.
pub fn merge(list: &[u32], lengths: &[u32], out: &mut [u32]) -> HostRead {
    unsafe { drasumira_merge(list.as_ptr(), list.len(), lengths.as_ptr(), lengths.len(), out.as_mut_ptr(), out.len()) }
}

pub fn read(bytes: &[u8], out: &mut Guarded<u32>) -> HostRead {
    let out = out.list_mut();
    unsafe { drasumira_read(bytes.as_ptr(), bytes.len(), out.as_mut_ptr(), out.len()) }
}

pub fn read_page(page: &[u16], bytes: &[u8], out: &mut [u32]) -> HostRead {
    unsafe { drasumira_read_page(page.as_ptr(), page.len(), bytes.as_ptr(), bytes.len(), out.as_mut_ptr(), out.len()) }
}

pub fn write_page(page: &[u16], text: &[u32], out: &mut [u8]) -> HostRead {
    unsafe { drasumira_write_page(page.as_ptr(), page.len(), text.as_ptr(), text.len(), out.as_mut_ptr(), out.len()) }
}

pub fn write_utf8(text: &[u32], out: &mut Guarded<u8>) -> HostRead {
    let out = out.list_mut();
    unsafe { drasumira_write_utf8(text.as_ptr(), text.len(), out.as_mut_ptr(), out.len()) }
}

// No threshold: the call for the default one.
pub fn score(text: &[u32], threshold: Option<f32>, lent: &Lent) -> HostScore {
    let mut told = HostScore { number: WORD, ..HostScore::default() };
    let (c, p) = (lent.classes.list(), lent.pairs.list());
    let at: *mut HostScore = &mut told;
    let back = unsafe {
        match threshold {
            Some(t) => drasumira_score(at, text.as_ptr(), text.len(), t, c.as_ptr(), c.len(), p.as_ptr(), p.len()),
            None => drasumira_score_default(at, text.as_ptr(), text.len(), c.as_ptr(), c.len(), p.as_ptr(), p.len()),
        }
    };
    assert_eq!(back, at, "the pointer that a large struct comes back through is returned");
    told
}

// The same by the second engine, which has no call for the default threshold.
pub fn second_score(text: &[u32], threshold: Option<f32>, lent: &Lent) -> HostScore {
    let mut told = HostScore { number: WORD, ..HostScore::default() };
    let (c, p) = (lent.classes.list(), lent.pairs.list());
    let at: *mut HostScore = &mut told;
    let t = threshold.unwrap_or(drasumira::DEFAULT_THRESHOLD);
    let back = unsafe { drasumira_second_score(at, text.as_ptr(), text.len(), t, c.as_ptr(), c.len(), p.as_ptr(), p.len()) };
    assert_eq!(back, at, "the pointer that a large struct comes back through is returned");
    told
}

// The same of UTF-8 bytes.
pub fn score_utf8(bytes: &[u8], threshold: Option<f32>, lent: &Lent) -> HostScore {
    let mut told = HostScore { number: WORD, ..HostScore::default() };
    let (c, p) = (lent.classes.list(), lent.pairs.list());
    let at: *mut HostScore = &mut told;
    let back = unsafe {
        match threshold {
            Some(t) => drasumira_score_utf8(at, bytes.as_ptr(), bytes.len(), t, c.as_ptr(), c.len(), p.as_ptr(), p.len()),
            None => drasumira_score_utf8_default(at, bytes.as_ptr(), bytes.len(), c.as_ptr(), c.len(), p.as_ptr(), p.len()),
        }
    };
    assert_eq!(back, at, "the pointer that a large struct comes back through is returned");
    told
}

// Many lines in one call.
pub fn score_lines(bytes: &[u8], threshold: f32, lent: &Lent, out: &mut [u32]) -> HostRead {
    let (c, p) = (lent.classes.list(), lent.pairs.list());
    let (o, room) = (out.as_mut_ptr(), out.len());
    unsafe { drasumira_score_lines(bytes.as_ptr(), bytes.len(), threshold, c.as_ptr(), c.len(), p.as_ptr(), p.len(), o, room) }
}

pub fn verdict(first: &[u32], second: &[u32], lent: &Lent) -> HostVerdict {
    let (c, p) = (lent.classes.list(), lent.pairs.list());
    unsafe { drasumira_verdict(first.as_ptr(), first.len(), second.as_ptr(), second.len(), c.as_ptr(), c.len(), p.as_ptr(), p.len()) }
}

pub fn choose(first: &[u32], second: &[u32], lent: &Lent) -> HostChosen {
    let (c, p) = (lent.classes.list(), lent.pairs.list());
    unsafe { drasumira_choose(first.as_ptr(), first.len(), second.as_ptr(), second.len(), c.as_ptr(), c.len(), p.as_ptr(), p.len()) }
}

pub fn report(rows: &[u32], out: &mut [u8]) -> HostRead {
    unsafe { drasumira_report(rows.as_ptr(), rows.len(), out.as_mut_ptr(), out.len()) }
}

pub fn ring_open(ring: &[u8]) -> HostRing {
    unsafe { drasumira_ring_open(ring.as_ptr(), ring.len()) }
}

// Bits, fed, stopped and refusal behind the line's number.
pub fn ring_put(ring: &mut [u8], head: u32, count: u32, line: u64, words: [u32; 4]) -> HostRing {
    let [bits, fed, stopped, refusal] = words;
    unsafe { drasumira_ring_put(ring.as_mut_ptr(), ring.len(), head, count, line, bits, fed, stopped, refusal) }
}

pub fn ring_flush(ring: &[u8], head: u32, count: u32, most: u32, out: &mut [u8]) -> HostRing {
    unsafe { drasumira_ring_flush(ring.as_ptr(), ring.len(), head, count, most, out.as_mut_ptr(), out.len()) }
}

pub fn open_line(length: u32, threshold: f32, lent: &Lent) -> HostOpened {
    let mut told = HostOpened { number: WORD, place: WORD, state: [WORD; RUNNING] };
    let (c, p) = (lent.classes.list(), lent.pairs.list());
    let at: *mut HostOpened = &mut told;
    let back = unsafe { drasumira_open(at, length, threshold, c.as_ptr(), c.len(), p.as_ptr(), p.len()) };
    assert!(back == at, "the first pointer is returned");
    told
}

pub fn feed(state: &mut Guarded<u32>, point: u32, lent: &Lent) -> HostRead {
    let (c, p) = (lent.classes.list(), lent.pairs.list());
    unsafe { drasumira_feed(state.list_mut().as_mut_ptr(), point, c.as_ptr(), c.len(), p.as_ptr(), p.len()) }
}

pub fn feed_all(state: &mut Guarded<u32>, text: &[u32], lent: &Lent) -> HostRead {
    let (c, p) = (lent.classes.list(), lent.pairs.list());
    unsafe { drasumira_feed_all(state.list_mut().as_mut_ptr(), text.as_ptr(), text.len(), c.as_ptr(), c.len(), p.as_ptr(), p.len()) }
}

pub fn close_line(state: &Guarded<u32>) -> HostScore {
    let mut told = HostScore { number: WORD, ..HostScore::default() };
    let at: *mut HostScore = &mut told;
    let back = unsafe { drasumira_close(at, state.list().as_ptr()) };
    assert!(back == at, "the first pointer is returned");
    told
}

pub fn reason(text: &[u32], threshold: f32, lent: &Lent, out: &mut Guarded<u32>) -> HostReason {
    let (c, p, o) = (lent.classes.list(), lent.pairs.list(), out.list_mut());
    unsafe { drasumira_reason(text.as_ptr(), text.len(), threshold, c.as_ptr(), c.len(), p.as_ptr(), p.len(), o.as_mut_ptr(), o.len()) }
}

pub fn reason_utf8(bytes: &[u8], threshold: f32, lent: &Lent, out: &mut Guarded<u32>) -> HostReason {
    let (c, p, o) = (lent.classes.list(), lent.pairs.list(), out.list_mut());
    unsafe { drasumira_reason_utf8(bytes.as_ptr(), bytes.len(), threshold, c.as_ptr(), c.len(), p.as_ptr(), p.len(), o.as_mut_ptr(), o.len()) }
}

pub fn class(point: u32, classes: &[u8]) -> HostClass {
    unsafe { drasumira_class(point, classes.as_ptr(), classes.len()) }
}
