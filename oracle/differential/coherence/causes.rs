// 01's and 02 [4]'s causes of refusal in coherence, written a second time from those papers alone. It shares nothing with the library.
use super::host::Question;
use crate::causes::{Refusal, classes_fault};
use crate::tables::{BUILTIN_END, PAIR_BYTES, Record, records};
use oracle::open::crate_class;

const LONGEST_TEXT: usize = 8_192;
const LANGUAGE_BYTES: usize = 1_032;
const MOST_LANGUAGES: usize = 63;
const MOST_LETTERS: usize = 256;
const MOST_INCLUDED: usize = 64;
pub const WORK_PER_POINT: usize = 8; // 02 [4]
const CHAR_ALPHABETIC: u32 = 1 << 24;
pub const DOTTED_I: u32 = 0x130;
pub const DOT_ABOVE: u32 = 0x307;

fn word(record: &[u8], at: usize) -> u32 {
    u32::from_le_bytes([record[at], record[at + 1], record[at + 2], record[at + 3]])
}

// "numbers nonzero, count 1 to 256, marks at most 3, used letters scalar values, unused slots 0"
fn language_good(record: &[u8]) -> bool {
    let count = u16::from_le_bytes([record[4], record[5]]) as usize;
    let marks = u16::from_le_bytes([record[6], record[7]]);
    let letters: Vec<u32> = (0..MOST_LETTERS).map(|i| word(record, 8 + 4 * i)).collect();
    word(record, 0) != 0
        && (1..=MOST_LETTERS).contains(&count)
        && marks <= 3
        && letters[..count].iter().all(|letter| char::from_u32(*letter).is_some())
        && letters[count..].iter().all(|letter| *letter == 0)
}

// 8, "as 5": the length, the number of records, the first bad one.
pub fn languages_fault(bytes: &[u8]) -> Option<Refusal> {
    if bytes.len() % LANGUAGE_BYTES != 0 || bytes.len() / LANGUAGE_BYTES > MOST_LANGUAGES {
        return Some((8, 0));
    }
    bytes.chunks(LANGUAGE_BYTES).position(|record| !language_good(record)).map(|i| (8, i as u32))
}

// 9: "over 64 included numbers, or one not in the table (a lone 0 is allowed)"
fn included_fault(included: &[u32], languages: &[u8]) -> Option<Refusal> {
    if included.len() > MOST_INCLUDED {
        return Some((9, 0));
    }
    if included == [0] {
        return None;
    }
    let known = |n: u32| languages.chunks(LANGUAGE_BYTES).any(|record| word(record, 0) == n);
    included.iter().position(|n| !known(*n)).map(|i| (9, i as u32))
}

// A class as flags, range and lower-case letter.
fn class(point: u32, all: &[Record]) -> Option<(u32, u16, u32)> {
    if point < BUILTIN_END {
        let class = crate_class(char::from_u32(point)?);
        return Some((class.flags, class.range, class.lower));
    }
    all.iter().find(|r| r.first <= point && point <= r.last).map(|r| (r.flags, r.range, r.lower))
}

// 6: a code point in no record, or "a taken character whose lower case has no class, at the first index of either kind"; "and 6 at the index
// of U+0130 if U+0307 has no class" (02 [4])
fn unclassed(text: &[u32], all: &[Record]) -> Option<Refusal> {
    let bad = |point: &u32| match class(*point, all) {
        None => true,
        Some((flags, range, lower)) => {
            let taken = flags & CHAR_ALPHABETIC != 0 && range != 0;
            taken && (lower != 0 && class(lower, all).is_none() || *point == DOTTED_I && class(DOT_ABOVE, all).is_none())
        }
    };
    text.iter().position(bad).map(|i| (6, i as u32))
}

// "coherence 1, 4, 5, 7, 8, 9, 3, 6"; a threshold that is not given is finite.
pub fn refusal(q: &Question, work: usize, matches: usize) -> Option<Refusal> {
    if q.text.len() > LONGEST_TEXT {
        return Some((1, 0));
    }
    if q.threshold.is_some_and(|t| !t.is_finite()) {
        return Some((4, 0));
    }
    if let Some(fault) = classes_fault(q.classes) {
        return Some(fault);
    }
    if q.pairs.len() != PAIR_BYTES {
        return Some((7, 0));
    }
    if let Some(fault) = languages_fault(q.languages).or_else(|| included_fault(q.included, q.languages)) {
        return Some(fault);
    }
    if work < WORK_PER_POINT * q.text.len() || matches < q.languages.len() / LANGUAGE_BYTES {
        return Some((3, 0));
    }
    unclassed(q.text, &records(q.classes))
}
