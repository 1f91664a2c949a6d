// The entries of the compact class table by the C ABI: each slice crosses as pointer and length, an answer of up to 16 bytes comes back by value and a score through the first pointer.
use crate::host::{HostRead, HostScore};
use std::mem::offset_of;

#[repr(C)]
#[derive(Clone, Copy, Default)]
pub struct HostPacked {
    pub number: u32,
    pub place: u32,
    pub records: u32,
    pub letters: u32,
}

// The layout that the library writes.
const _: () = assert!(size_of::<HostPacked>() == 16 && offset_of!(HostPacked, records) == 8 && offset_of!(HostPacked, letters) == 12);

// A class table in the compact form, and a pair table.
#[derive(Clone, Copy)]
pub struct Lent<'a> {
    pub records: &'a [u8],
    pub letters: &'a [u8],
    pub pairs: &'a [u8],
}

#[rustfmt::skip]
unsafe extern "C" {
    fn drasumira_pack(classes: *const u8, n: usize, records: *mut u8, records_n: usize, letters: *mut u8, letters_n: usize) -> HostPacked;
    fn drasumira_unpack(records: *const u8, records_n: usize, letters: *const u8, letters_n: usize, out: *mut u8, room: usize) -> HostRead;
    fn drasumira_score_compact(told: *mut HostScore, text: *const u32, n: usize, threshold: f32,
        records: *const u8, records_n: usize, letters: *const u8, letters_n: usize, pairs: *const u8, pairs_n: usize) -> *mut HostScore;
    fn drasumira_score_utf8_compact(told: *mut HostScore, text: *const u8, n: usize, threshold: f32,
        records: *const u8, records_n: usize, letters: *const u8, letters_n: usize, pairs: *const u8, pairs_n: usize) -> *mut HostScore;
    fn drasumira_score_lines_compact(bytes: *const u8, n: usize, threshold: f32,
        records: *const u8, records_n: usize, letters: *const u8, letters_n: usize, pairs: *const u8, pairs_n: usize,
        out: *mut u32, room: usize) -> HostRead;
}

pub fn pack(classes: &[u8], records: &mut [u8], letters: &mut [u8]) -> HostPacked {
    let (r, l) = (records, letters);
    // SAFETY: as at the head of host.rs.
    unsafe { drasumira_pack(classes.as_ptr(), classes.len(), r.as_mut_ptr(), r.len(), l.as_mut_ptr(), l.len()) }
}

pub fn unpack(records: &[u8], letters: &[u8], out: &mut [u8]) -> HostRead {
    let (r, l) = (records, letters);
    // SAFETY: as at the head of host.rs.
    unsafe { drasumira_unpack(r.as_ptr(), r.len(), l.as_ptr(), l.len(), out.as_mut_ptr(), out.len()) }
}

pub fn score(text: &[u32], threshold: f32, lent: Lent) -> HostScore {
    let mut told = HostScore::default();
    let (t, n, r, l, p) = (text.as_ptr(), text.len(), lent.records, lent.letters, lent.pairs);
    // SAFETY: as at the head of host.rs; `told` is a local of the answer's type.
    unsafe { drasumira_score_compact(&mut told, t, n, threshold, r.as_ptr(), r.len(), l.as_ptr(), l.len(), p.as_ptr(), p.len()) };
    told
}

pub fn score_utf8(text: &[u8], threshold: f32, lent: Lent) -> HostScore {
    let mut told = HostScore::default();
    let (t, n, r, l, p) = (text.as_ptr(), text.len(), lent.records, lent.letters, lent.pairs);
    // SAFETY: as at the head of host.rs; `told` is a local of the answer's type.
    unsafe { drasumira_score_utf8_compact(&mut told, t, n, threshold, r.as_ptr(), r.len(), l.as_ptr(), l.len(), p.as_ptr(), p.len()) };
    told
}

pub fn score_lines(bytes: &[u8], threshold: f32, lent: Lent, out: &mut [u32]) -> HostRead {
    let (b, n, r, l, p) = (bytes.as_ptr(), bytes.len(), lent.records, lent.letters, lent.pairs);
    let (o, room) = (out.as_mut_ptr(), out.len());
    // SAFETY: as at the head of host.rs.
    unsafe { drasumira_score_lines_compact(b, n, threshold, r.as_ptr(), r.len(), l.as_ptr(), l.len(), p.as_ptr(), p.len(), o, room) }
}

// The library's own default threshold is the package's in this form too.
#[cfg(test)]
mod tests {
    use super::*;
    use crate::DEFAULT_THRESHOLD;
    use crate::host::numbers_of;

    #[rustfmt::skip]
    unsafe extern "C" {
        fn drasumira_score_compact_default(told: *mut HostScore, text: *const u32, n: usize,
            records: *const u8, records_n: usize, letters: *const u8, letters_n: usize, pairs: *const u8, pairs_n: usize) -> *mut HostScore;
        fn drasumira_score_utf8_compact_default(told: *mut HostScore, text: *const u8, n: usize,
            records: *const u8, records_n: usize, letters: *const u8, letters_n: usize, pairs: *const u8, pairs_n: usize) -> *mut HostScore;
    }

    // The texts of host.rs's test: the first two stop exactly at 0.15, the third is the highest sum below it.
    #[test]
    fn one_default_in_the_compact_form() {
        let pairs = vec![0; 32_768];
        let lent = Lent { records: &[], letters: &[], pairs: &pairs };
        for (n, unprintable, stops) in [(160, 3, 1), (65_408, 1_227, 1), (65_408, 1_226, 0)] {
            let before = |i: usize| i * unprintable / n;
            let text: Vec<u8> = (0..n).map(|i| if before(i) < before(i + 1) { 1 } else { b' ' }).collect();
            let points: Vec<u32> = text.iter().map(|b| u32::from(*b)).collect();
            let (mut a, mut b) = (HostScore::default(), HostScore::default());
            let (none, p, n) = ([].as_ptr(), pairs.as_ptr(), pairs.len());
            // SAFETY: as for the entries above; of no bytes the pointer may be anything.
            unsafe {
                drasumira_score_compact_default(&mut a, points.as_ptr(), points.len(), none, 0, none, 0, p, n);
                drasumira_score_utf8_compact_default(&mut b, text.as_ptr(), text.len(), none, 0, none, 0, p, n);
            }
            assert_eq!((a.number, a.stopped), (0, stops));
            assert_eq!(numbers_of(a), numbers_of(b));
            assert_eq!(numbers_of(a), numbers_of(score(&points, DEFAULT_THRESHOLD, lent)));
            assert_eq!(numbers_of(b), numbers_of(score_utf8(&text, DEFAULT_THRESHOLD, lent)));
        }
    }
}
