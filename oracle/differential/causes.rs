// 01's causes of refusal, written a second time from 01 alone: the oracle refuses nothing, so this says what is expected where a call
// refuses. It shares nothing with the library.
use crate::library::{HostRead, HostScore, HostVerdict};
use crate::tables::{Record, records};

const LONGEST_BYTES: usize = 262_144;
const LONGEST_TEXT: usize = 65_536;
const MOST_RECORDS: usize = 8_192;
const PAIR_BYTES: usize = 32_768;
const BUILTIN_END: u32 = 0x250;

pub type Refusal = (u32, u32);

fn scalar(n: u32) -> bool {
    char::from_u32(n).is_some()
}

// 01's flag rule, sentence by sentence.
pub fn flags_good(flags: u32) -> bool {
    let bit = |n: u32| flags >> n & 1 == 1;
    let count = |bits: &[u32]| bits.iter().filter(|n| bit(**n)).count();
    let (whitespace, unprintable, emoticon, common, weird, separator) = (bit(0), bit(1), bit(3), bit(4), bit(5), bit(7));
    let (alphabetic, case_variable, lower, upper, numeric) = (bit(13), bit(20), bit(21), bit(22), bit(23));
    let kinds = [alphabetic, numeric, whitespace, unprintable];
    !(upper && lower)
        && case_variable == (upper || lower)
        && (!case_variable || alphabetic)
        && kinds.iter().filter(|k| **k).count() <= 1
        && (!whitespace || (separator && !common && !weird && !emoticon))
        && count(&[12, 15, 16, 17, 18, 19]) <= 1
}

pub fn record_good(r: &Record, before: Option<&Record>) -> bool {
    r.first >= BUILTIN_END
        && r.first <= r.last
        && r.last <= 0x10FFFF
        && !(r.first <= 0xDFFF && r.last >= 0xD800)
        && before.is_none_or(|b| b.last < r.first)
        && r.range <= 511
        && r.zero == 0
        && scalar(r.base)
        && scalar(r.lower)
        && flags_good(r.flags)
        && r.flags & 0xF00 == 0
        && r.flags >> 25 == 0
}

// 5: "Length and number come before records."
pub fn classes_fault(bytes: &[u8]) -> Option<Refusal> {
    if bytes.len() % 24 != 0 || bytes.len() / 24 > MOST_RECORDS {
        return Some((5, 0));
    }
    let all = records(bytes);
    let bad = (0..all.len()).find(|i| !record_good(&all[*i], i.checked_sub(1).map(|b| &all[b])));
    bad.map(|i| (5, i as u32))
}

pub fn checked(bytes: &[u8]) -> HostRead {
    match classes_fault(bytes) {
        Some((number, place)) => HostRead { number, place, count: 0 },
        None => HostRead { number: 0, place: 0, count: (bytes.len() / 24) as u32 },
    }
}

// 6: the first code point in no record.
fn unclassed(text: &[u32], all: &[Record]) -> Option<Refusal> {
    let known = |p: u32| p < BUILTIN_END || all.iter().any(|r| r.first <= p && p <= r.last);
    text.iter().position(|p| !known(*p)).map(|i| (6, i as u32))
}

// "scoring 1, 4, 5, 7, 6"; a threshold that is not given is finite.
pub fn scoring(text: &[u32], threshold: Option<f32>, classes: &[u8], pairs: &[u8]) -> Option<Refusal> {
    if text.len() > LONGEST_TEXT {
        return Some((1, 0));
    }
    if threshold.is_some_and(|t| !t.is_finite()) {
        return Some((4, 0));
    }
    if let Some(fault) = classes_fault(classes) {
        return Some(fault);
    }
    if pairs.len() != PAIR_BYTES {
        return Some((7, 0));
    }
    unclassed(text, &records(classes))
}

// "Any refusal gives +0.0, false and counts of 0"
pub fn refused((number, place): Refusal) -> HostScore {
    HostScore { number, place, ..HostScore::default() }
}

fn decoded(bytes: &[u8]) -> Result<Vec<u32>, Refusal> {
    let text = std::str::from_utf8(bytes).map_err(|e| (2, e.valid_up_to() as u32))?;
    Ok(text.chars().map(|c| c as u32).collect())
}

// The causes of reading that lie in the bytes, "1 (bytes), 2, 1 (code points)", or the code points.
pub fn points(bytes: &[u8]) -> Result<Vec<u32>, Refusal> {
    if bytes.len() > LONGEST_BYTES {
        return Err((1, 0));
    }
    let points = decoded(bytes)?;
    if points.len() > LONGEST_TEXT { Err((1, 0)) } else { Ok(points) }
}

// "reading 1 (bytes), 2, 1 (code points), 3": the answer and the output after it.
pub fn reading(bytes: &[u8], out: &[u32]) -> (HostRead, Vec<u32>) {
    let refused = |(number, place)| (HostRead { number, place, count: 0 }, out.to_vec());
    let points = match points(bytes) {
        Err(refusal) => return refused(refusal),
        Ok(points) => points,
    };
    if points.len() > out.len() {
        return refused((3, 0));
    }
    let mut after = out.to_vec();
    after[..points.len()].copy_from_slice(&points);
    (HostRead { number: 0, place: 0, count: points.len() as u32 }, after)
}

// The verdict on two texts: "the first is checked first".
pub fn verdict_refusal(first: &[u32], second: &[u32], classes: &[u8], pairs: &[u8]) -> Option<HostVerdict> {
    let told = |refused, (number, place)| HostVerdict { taken: 0, refused, number, place };
    let of = |text| scoring(text, None, classes, pairs);
    of(first).map(|r| told(1, r)).or_else(|| of(second).map(|r| told(2, r)))
}
