// The ranking's three entries by the C ABI: each slice crosses as pointer and length, and the answer of 12 bytes comes back by value.
use crate::CoherenceMatch;
use std::mem::offset_of;

#[repr(C)]
#[derive(Clone, Copy, Default)]
pub struct HostRanking {
    pub number: u32,
    pub place: u32,
    pub count: u32,
}

// The layouts that the library reads and writes.
const _: () = assert!(size_of::<HostRanking>() == 12 && size_of::<CoherenceMatch>() == 8);
const _: () = assert!(offset_of!(CoherenceMatch, language) == 0 && offset_of!(CoherenceMatch, score) == 4);

#[rustfmt::skip]
unsafe extern "C" {
    fn drasumira_coherence(text: *const u32, n: usize, threshold: f32, small: u32, classes: *const u8, classes_n: usize,
        pairs: *const u8, pairs_n: usize, languages: *const u8, languages_n: usize, included: *const u32, included_n: usize,
        work: *mut u32, work_n: usize, matches: *mut CoherenceMatch, matches_n: usize) -> HostRanking;
    fn drasumira_coherence_default(text: *const u32, n: usize, small: u32, classes: *const u8, classes_n: usize,
        pairs: *const u8, pairs_n: usize, languages: *const u8, languages_n: usize, included: *const u32, included_n: usize,
        work: *mut u32, work_n: usize, matches: *mut CoherenceMatch, matches_n: usize) -> HostRanking;
    fn drasumira_merge(list: *const CoherenceMatch, list_words: usize, lengths: *const u32, rankings: usize,
        out: *mut CoherenceMatch, out_words: usize) -> HostRanking;
}

// The words of an entry: the library has a list of entries as u32.
const WORDS: usize = size_of::<CoherenceMatch>() / size_of::<u32>();

pub fn merge(list: &[CoherenceMatch], lengths: &[u32], out: &mut [CoherenceMatch]) -> HostRanking {
    // SAFETY: as in host.rs: pointer and length are those of one Rust slice each, two u32 for each entry, `out` is `&mut` and overlaps nothing
    // else, every value of CoherenceMatch's two members is one, and the entry is declared as crates/host/src/lib.rt has it.
    unsafe { drasumira_merge(list.as_ptr(), list.len() * WORDS, lengths.as_ptr(), lengths.len(), out.as_mut_ptr(), out.len() * WORDS) }
}

// What is asked, but for the work area and the list that is filled.
pub struct Question<'a> {
    pub text: &'a [u32],
    pub threshold: Option<f32>,
    pub small: u32,
    pub classes: &'a [u8],
    pub pairs: &'a [u8],
    pub languages: &'a [u8],
    pub included: &'a [u32],
}

#[rustfmt::skip]
pub fn coherence(q: &Question, work: &mut [u32], matches: &mut [CoherenceMatch]) -> HostRanking {
    let (t, c, p, l, i) = (q.text, q.classes, q.pairs, q.languages, q.included);
    let (w, wn, m, mn) = (work.as_mut_ptr(), work.len(), matches.as_mut_ptr(), matches.len());
    // SAFETY: as in host.rs: pointer and length are those of one Rust slice each, work and matches are `&mut` and overlap nothing else, every
    // value of CoherenceMatch's two members is one, and the entries are declared as crates/host/src/lib.rt has them.
    unsafe {
        match q.threshold {
            Some(threshold) => drasumira_coherence(t.as_ptr(), t.len(), threshold, q.small, c.as_ptr(), c.len(), p.as_ptr(), p.len(),
                l.as_ptr(), l.len(), i.as_ptr(), i.len(), w, wn, m, mn),
            None => drasumira_coherence_default(t.as_ptr(), t.len(), q.small, c.as_ptr(), c.len(), p.as_ptr(), p.len(),
                l.as_ptr(), l.len(), i.as_ptr(), i.len(), w, wn, m, mn),
        }
    }
}
