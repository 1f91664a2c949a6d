// Texts made against the two short ways of a scan: runs, in which characters of one record are fed at once, and hints, the record that was found for the last code point with the same last ten bits.
use crate::random::Random;
use crate::texts::{Records, drawn};

// A Cyrillic letter, then the ideograph with the same last ten bits: no two characters of a run, and each hint is of the other's record.
pub fn two_records(random: &mut Random, n: usize) -> Vec<char> {
    const APART: u32 = 0x4C00;
    let pair = |_| {
        let letter = drawn(random, 0x430, 0x44F);
        [letter, char::from_u32(letter as u32 + APART).expect("an ideograph")]
    };
    (0..n.div_ceil(2)).flat_map(pair).take(n).collect()
}

// Each character in a record drawn by chance that is not the last one's.
pub fn other_records(random: &mut Random, n: usize, records: &Records) -> Vec<char> {
    let mut last = 0;
    let other = |_| {
        last = (last + 1 + random.below(records.len() - 1)) % records.len();
        of_record(random, records[last])
    };
    (0..n).map(other).collect()
}

// A character of each record in turn, from the first to the last, then from the first again.
pub fn records_in_turn(random: &mut Random, n: usize, records: &Records) -> Vec<char> {
    (0..n).map(|at| of_record(random, records[at % records.len()])).collect()
}

// A letter, a space, a letter, a space: each word is closed after its first letter.
pub fn lone_letters(random: &mut Random, n: usize) -> Vec<char> {
    (0..n).map(|at| if at % 2 == 0 { drawn(random, 'a' as u32, 'z' as u32) } else { ' ' }).collect()
}

// Capitals and digits by chance, as a dump has them: they stand in the built-in table and make no run.
pub fn hexadecimal(random: &mut Random, n: usize) -> Vec<char> {
    (0..n).map(|_| *random.pick(b"0123456789ABCDEF") as char).collect()
}

fn of_record(random: &mut Random, (first, last): (u32, u32)) -> char {
    drawn(random, first, last)
}
