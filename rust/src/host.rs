// The library's entries by the C ABI (docs/HOST.md). All that is `unsafe` in this package stands here, in host/coherence.rs, in host/compact.rs, in host/ring.rs, in host/running.rs and in host/why.rs: each slice
// crosses as pointer and length, and a struct of more than 16 bytes comes back through the first pointer, which is also returned.
//
// What every call of an entry rests on, and what "as above" at each `unsafe` means: pointer and length are those of one Rust slice, so they are
// valid, aligned and stay so for the call; what is lent for writing is a `&mut`, so it overlaps nothing else; the entry is declared as
// crates/host/src/lib.rt has it.
pub mod coherence;
pub mod compact;
pub mod ring;
pub mod running;
pub mod why;

use std::mem::offset_of;

#[repr(C)]
#[derive(Clone, Copy, Default)]
pub struct HostRead {
    pub number: u32,
    pub place: u32,
    pub count: u32,
}

#[repr(C)]
#[derive(Clone, Copy, Default)]
pub struct Ratios {
    pub symbols: f32,
    pub accents: f32,
    pub unprintable: f32,
    pub ranges: f32,
    pub doubled: f32,
    pub words: f32,
    pub stops: f32,
    pub archaic: f32,
}

#[repr(C)]
#[derive(Clone, Copy, Default)]
pub struct HostScore {
    pub number: u32,
    pub place: u32,
    pub ratios: Ratios,
    pub sum: f32,
    pub fed: u32,
    pub stopped: u32,
    // numerator, denominator and mark of each detector, in order
    pub counts: [[u32; 3]; 8],
}

#[repr(C)]
#[derive(Clone, Copy, Default)]
pub struct HostVerdict {
    pub taken: u32,
    pub refused: u32,
    pub number: u32,
    pub place: u32,
}

#[repr(C)]
#[derive(Clone, Copy, Default)]
pub struct HostChosen {
    pub taken: u32,
    pub length: u32,
    pub number: u32,
    pub place: u32,
}

// The layouts that the library writes.
const _: () = assert!(size_of::<HostRead>() == 12 && size_of::<HostScore>() == 148 && size_of::<HostVerdict>() == 16);
const _: () = assert!(size_of::<HostChosen>() == 16 && offset_of!(HostChosen, length) == 4 && offset_of!(HostChosen, number) == 8);
const _: () = assert!(offset_of!(HostScore, number) == 0 && offset_of!(HostScore, place) == 4 && offset_of!(HostScore, ratios) == 8);
const _: () = assert!(offset_of!(HostScore, sum) == 40 && offset_of!(HostScore, fed) == 44 && offset_of!(HostScore, stopped) == 48);
const _: () = assert!(offset_of!(HostScore, counts) == 52);
const _: () = assert!(offset_of!(Ratios, symbols) == 0 && offset_of!(Ratios, accents) == 4 && offset_of!(Ratios, unprintable) == 8);
const _: () = assert!(offset_of!(Ratios, ranges) == 12 && offset_of!(Ratios, doubled) == 16 && offset_of!(Ratios, words) == 20);
const _: () = assert!(offset_of!(Ratios, stops) == 24 && offset_of!(Ratios, archaic) == 28 && size_of::<Ratios>() == 32);
const _: () = assert!(size_of::<char>() == size_of::<u32>() && align_of::<char>() == align_of::<u32>());

// The numbers that the library puts into its output for each line: HostScore's, a float as its bits.
pub const NUMBERS_PER_LINE: usize = size_of::<HostScore>() / size_of::<u32>();

// The score that a row of the library's output holds.
pub fn told_in(row: &[u32; NUMBERS_PER_LINE]) -> HostScore {
    // SAFETY: both are the same 148 bytes with no padding, and every u32 is a u32 and an f32's bits.
    unsafe { std::mem::transmute(*row) }
}

// The numbers of an answer, a float as its bits: two answers are the same where these are.
pub fn numbers_of(told: HostScore) -> [u32; NUMBERS_PER_LINE] {
    // SAFETY: as for told_in; every f32's bits are a u32.
    unsafe { std::mem::transmute(told) }
}

// Characters as the code points that they are.
pub fn points_of(text: &[char]) -> &[u32] {
    // SAFETY: a char has the size, the alignment and the bits of the u32 that is its code point (asserted above, and char's own documents); the slice is
    // read only, and lives as long as the other.
    unsafe { std::slice::from_raw_parts(text.as_ptr().cast::<u32>(), text.len()) }
}

#[rustfmt::skip]
unsafe extern "C" {
    fn drasumira_check_classes(classes: *const u8, n: usize) -> HostRead;
    fn drasumira_read(bytes: *const u8, n: usize, out: *mut u32, room: usize) -> HostRead;
    fn drasumira_read_page(page: *const u16, entries: usize, bytes: *const u8, n: usize, out: *mut u32, room: usize) -> HostRead;
    fn drasumira_write_page(page: *const u16, entries: usize, text: *const u32, n: usize, out: *mut u8, room: usize) -> HostRead;
    fn drasumira_write_utf8(text: *const u32, n: usize, out: *mut u8, room: usize) -> HostRead;
    fn drasumira_report(rows: *const u32, n: usize, out: *mut u8, room: usize) -> HostRead;
    fn drasumira_score(told: *mut HostScore, text: *const u32, n: usize, threshold: f32,
        classes: *const u8, classes_n: usize, pairs: *const u8, pairs_n: usize) -> *mut HostScore;
    fn drasumira_second_score(told: *mut HostScore, text: *const u32, n: usize, threshold: f32,
        classes: *const u8, classes_n: usize, pairs: *const u8, pairs_n: usize) -> *mut HostScore;
    fn drasumira_score_utf8(told: *mut HostScore, text: *const u8, n: usize, threshold: f32,
        classes: *const u8, classes_n: usize, pairs: *const u8, pairs_n: usize) -> *mut HostScore;
    fn drasumira_score_lines(bytes: *const u8, n: usize, threshold: f32,
        classes: *const u8, classes_n: usize, pairs: *const u8, pairs_n: usize, out: *mut u32, room: usize) -> HostRead;
    fn drasumira_verdict(first: *const u32, first_n: usize, second: *const u32, second_n: usize,
        classes: *const u8, classes_n: usize, pairs: *const u8, pairs_n: usize) -> HostVerdict;
    fn drasumira_choose(first: *const u32, first_n: usize, second: *const u32, second_n: usize,
        classes: *const u8, classes_n: usize, pairs: *const u8, pairs_n: usize) -> HostChosen;
}

pub fn check_classes(classes: &[u8]) -> HostRead {
    // SAFETY: as above.
    unsafe { drasumira_check_classes(classes.as_ptr(), classes.len()) }
}

pub fn read(bytes: &[u8], out: &mut [u32]) -> HostRead {
    // SAFETY: as above.
    unsafe { drasumira_read(bytes.as_ptr(), bytes.len(), out.as_mut_ptr(), out.len()) }
}

pub fn read_page(page: &[u16], bytes: &[u8], out: &mut [u32]) -> HostRead {
    // SAFETY: as above.
    unsafe { drasumira_read_page(page.as_ptr(), page.len(), bytes.as_ptr(), bytes.len(), out.as_mut_ptr(), out.len()) }
}

pub fn write_page(page: &[u16], text: &[u32], out: &mut [u8]) -> HostRead {
    // SAFETY: as above.
    unsafe { drasumira_write_page(page.as_ptr(), page.len(), text.as_ptr(), text.len(), out.as_mut_ptr(), out.len()) }
}

pub fn write_utf8(text: &[u32], out: &mut [u8]) -> HostRead {
    // SAFETY: as above.
    unsafe { drasumira_write_utf8(text.as_ptr(), text.len(), out.as_mut_ptr(), out.len()) }
}

pub fn report(rows: &[u32], out: &mut [u8]) -> HostRead {
    // SAFETY: as above.
    unsafe { drasumira_report(rows.as_ptr(), rows.len(), out.as_mut_ptr(), out.len()) }
}

pub fn score(text: &[u32], threshold: f32, classes: &[u8], pairs: &[u8]) -> HostScore {
    let mut told = HostScore::default();
    let (c, p) = (classes, pairs);
    // SAFETY: as above; `told` is a local of the answer's type.
    unsafe { drasumira_score(&mut told, text.as_ptr(), text.len(), threshold, c.as_ptr(), c.len(), p.as_ptr(), p.len()) };
    told
}

pub fn second_score(text: &[u32], threshold: f32, classes: &[u8], pairs: &[u8]) -> HostScore {
    let mut told = HostScore::default();
    let (c, p) = (classes, pairs);
    // SAFETY: as above; `told` is a local of the answer's type.
    unsafe { drasumira_second_score(&mut told, text.as_ptr(), text.len(), threshold, c.as_ptr(), c.len(), p.as_ptr(), p.len()) };
    told
}

pub fn score_utf8(text: &[u8], threshold: f32, classes: &[u8], pairs: &[u8]) -> HostScore {
    let mut told = HostScore::default();
    let (c, p) = (classes, pairs);
    // SAFETY: as above; `told` is a local of the answer's type.
    unsafe { drasumira_score_utf8(&mut told, text.as_ptr(), text.len(), threshold, c.as_ptr(), c.len(), p.as_ptr(), p.len()) };
    told
}

pub fn score_lines(bytes: &[u8], threshold: f32, classes: &[u8], pairs: &[u8], out: &mut [u32]) -> HostRead {
    let (b, n, o, room) = (bytes.as_ptr(), bytes.len(), out.as_mut_ptr(), out.len());
    // SAFETY: as above.
    unsafe { drasumira_score_lines(b, n, threshold, classes.as_ptr(), classes.len(), pairs.as_ptr(), pairs.len(), o, room) }
}

pub fn verdict(first: &[u32], second: &[u32], classes: &[u8], pairs: &[u8]) -> HostVerdict {
    let (a, b, c, p) = (first, second, classes, pairs);
    // SAFETY: as above.
    unsafe { drasumira_verdict(a.as_ptr(), a.len(), b.as_ptr(), b.len(), c.as_ptr(), c.len(), p.as_ptr(), p.len()) }
}

pub fn choose(first: &[u32], second: &[u32], classes: &[u8], pairs: &[u8]) -> HostChosen {
    let (a, b, c, p) = (first, second, classes, pairs);
    // SAFETY: as above.
    unsafe { drasumira_choose(a.as_ptr(), a.len(), b.as_ptr(), b.len(), c.as_ptr(), c.len(), p.as_ptr(), p.len()) }
}

// The library's own default threshold is the package's.
#[cfg(test)]
mod tests {
    use super::*;
    use crate::{DEFAULT_THRESHOLD, Tables};

    #[rustfmt::skip]
    unsafe extern "C" {
        fn drasumira_score_default(told: *mut HostScore, text: *const u32, n: usize,
            classes: *const u8, classes_n: usize, pairs: *const u8, pairs_n: usize) -> *mut HostScore;
        fn drasumira_score_utf8_default(told: *mut HostScore, text: *const u8, n: usize,
            classes: *const u8, classes_n: usize, pairs: *const u8, pairs_n: usize) -> *mut HostScore;
    }

    fn whole(told: HostScore) -> (u32, u32, u32) {
        (told.sum.to_bits(), told.fed, told.stopped)
    }

    // Spaces, so many of them unprintable and spread evenly. The first two sums that stop are exactly 0.15; the highest of the text that does not is
    // 8 * 1,226 / 65,408, which is 0.14995: so the library's default is above the one and at most the other.
    #[test]
    fn one_default() {
        let tables = Tables::builtin_only();
        let (c, p) = (&tables.classes, &tables.pairs);
        for (n, unprintable, fed, stops) in [(160, 3, 160, 1), (65_408, 1_227, 640, 1), (65_408, 1_226, 65_409, 0)] {
            let before = |i: usize| i * unprintable / n;
            let text: Vec<u8> = (0..n).map(|i| if before(i) < before(i + 1) { 1 } else { b' ' }).collect();
            let points: Vec<u32> = text.iter().map(|b| u32::from(*b)).collect();
            let (mut a, mut b) = (HostScore::default(), HostScore::default());
            // SAFETY: as for the entries above.
            unsafe {
                drasumira_score_default(&mut a, points.as_ptr(), points.len(), c.as_ptr(), c.len(), p.as_ptr(), p.len());
                drasumira_score_utf8_default(&mut b, text.as_ptr(), text.len(), c.as_ptr(), c.len(), p.as_ptr(), p.len());
            }
            let sum = (8 * before(n.min(fed))) as f32 / fed as f32;
            assert_eq!(whole(a), (sum.to_bits(), fed as u32, stops));
            assert_eq!(whole(b), whole(a));
            assert_eq!(whole(score(&points, DEFAULT_THRESHOLD, c, p)), whole(a));
            assert_eq!(whole(score_utf8(&text, DEFAULT_THRESHOLD, c, p)), whole(a));
        }
    }
}
