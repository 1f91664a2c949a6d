// The entries of the compact class table, called by the C ABI.
use crate::library::{HostRead, HostScore, WORD};

#[repr(C)]
#[derive(Clone, Copy, Debug, Default, PartialEq)]
pub struct HostPacked {
    pub number: u32,
    pub place: u32,
    pub records: u32,
    pub letters: u32,
}

// What is lent to a scoring call: records, letters and the pair table.
#[derive(Clone, Copy)]
pub struct Tables<'a> {
    pub records: &'a [u8],
    pub letters: &'a [u8],
    pub pairs: &'a [u8],
}

type Bytes = *const u8;

// A struct of more than 16 bytes comes back through the first pointer, which is also returned.
#[rustfmt::skip]
unsafe extern "C" {
    fn drasumira_pack(classes: Bytes, n: usize, records: *mut u8, records_n: usize, letters: *mut u8, letters_n: usize) -> HostPacked;
    fn drasumira_unpack(records: Bytes, records_n: usize, letters: Bytes, letters_n: usize, out: *mut u8, room: usize) -> HostRead;
    fn drasumira_score_compact(told: *mut HostScore, text: *const u32, n: usize, threshold: f32,
        records: Bytes, records_n: usize, letters: Bytes, letters_n: usize, pairs: Bytes, pairs_n: usize) -> *mut HostScore;
    fn drasumira_score_compact_default(told: *mut HostScore, text: *const u32, n: usize,
        records: Bytes, records_n: usize, letters: Bytes, letters_n: usize, pairs: Bytes, pairs_n: usize) -> *mut HostScore;
    fn drasumira_score_utf8_compact(told: *mut HostScore, text: Bytes, n: usize, threshold: f32,
        records: Bytes, records_n: usize, letters: Bytes, letters_n: usize, pairs: Bytes, pairs_n: usize) -> *mut HostScore;
    fn drasumira_score_utf8_compact_default(told: *mut HostScore, text: Bytes, n: usize,
        records: Bytes, records_n: usize, letters: Bytes, letters_n: usize, pairs: Bytes, pairs_n: usize) -> *mut HostScore;
    fn drasumira_score_lines_compact(bytes: Bytes, n: usize, threshold: f32,
        records: Bytes, records_n: usize, letters: Bytes, letters_n: usize, pairs: Bytes, pairs_n: usize,
        out: *mut u32, room: usize) -> HostRead;
}

pub fn pack(classes: &[u8], records: &mut [u8], letters: &mut [u8]) -> HostPacked {
    let (r, l) = (records, letters);
    unsafe { drasumira_pack(classes.as_ptr(), classes.len(), r.as_mut_ptr(), r.len(), l.as_mut_ptr(), l.len()) }
}

pub fn unpack(records: &[u8], letters: &[u8], out: &mut [u8]) -> HostRead {
    let (r, l) = (records, letters);
    unsafe { drasumira_unpack(r.as_ptr(), r.len(), l.as_ptr(), l.len(), out.as_mut_ptr(), out.len()) }
}

// No threshold: the call for the default one.
pub fn score(text: &[u32], threshold: Option<f32>, lent: Tables) -> HostScore {
    let mut told = HostScore { number: WORD, ..HostScore::default() };
    let at: *mut HostScore = &mut told;
    let (t, n, r, l, p) = (text.as_ptr(), text.len(), lent.records, lent.letters, lent.pairs);
    let back = unsafe {
        match threshold {
            Some(h) => drasumira_score_compact(at, t, n, h, r.as_ptr(), r.len(), l.as_ptr(), l.len(), p.as_ptr(), p.len()),
            None => drasumira_score_compact_default(at, t, n, r.as_ptr(), r.len(), l.as_ptr(), l.len(), p.as_ptr(), p.len()),
        }
    };
    assert_eq!(back, at, "the pointer that a large struct comes back through is returned");
    told
}

pub fn score_utf8(bytes: &[u8], threshold: Option<f32>, lent: Tables) -> HostScore {
    let mut told = HostScore { number: WORD, ..HostScore::default() };
    let at: *mut HostScore = &mut told;
    let (t, n, r, l, p) = (bytes.as_ptr(), bytes.len(), lent.records, lent.letters, lent.pairs);
    let back = unsafe {
        match threshold {
            Some(h) => drasumira_score_utf8_compact(at, t, n, h, r.as_ptr(), r.len(), l.as_ptr(), l.len(), p.as_ptr(), p.len()),
            None => drasumira_score_utf8_compact_default(at, t, n, r.as_ptr(), r.len(), l.as_ptr(), l.len(), p.as_ptr(), p.len()),
        }
    };
    assert_eq!(back, at, "the pointer that a large struct comes back through is returned");
    told
}

pub fn score_lines(bytes: &[u8], threshold: f32, lent: Tables, out: &mut [u32]) -> HostRead {
    let (b, n, r, l, p) = (bytes.as_ptr(), bytes.len(), lent.records, lent.letters, lent.pairs);
    let (o, room) = (out.as_mut_ptr(), out.len());
    unsafe { drasumira_score_lines_compact(b, n, threshold, r.as_ptr(), r.len(), l.as_ptr(), l.len(), p.as_ptr(), p.len(), o, room) }
}
