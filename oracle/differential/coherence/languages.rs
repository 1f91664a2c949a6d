// Language tables: the committed one, random good ones, and damaged ones.
use super::causes::languages_fault;
use crate::random::Random;
use oracle::entity::Language;
use oracle::open::LanguageRow;

pub const MOST_RECORDS: usize = 63;
const MOST_LETTERS: usize = 256;
const RECORD: usize = 1_032;

#[derive(Clone, Debug)]
pub struct Record {
    pub number: u32,
    pub marks: u16,
    pub letters: Vec<u32>,
}

// Of a good table.
pub fn records(bytes: &[u8]) -> Vec<Record> {
    let one = |record: &[u8]| {
        let words: Vec<u32> = record.chunks(4).map(|w| u32::from_le_bytes([w[0], w[1], w[2], w[3]])).collect();
        let count = (words[1] & 0xFFFF) as usize;
        Record { number: words[0], marks: (words[1] >> 16) as u16, letters: words[2..2 + count].to_vec() }
    };
    bytes.chunks(RECORD).map(one).collect()
}

pub fn bytes(all: &[Record]) -> Vec<u8> {
    let mut out = vec![];
    for record in all {
        out.extend(record.number.to_le_bytes());
        out.extend((record.letters.len() as u16).to_le_bytes());
        out.extend(record.marks.to_le_bytes());
        for i in 0..MOST_LETTERS {
            out.extend(record.letters.get(i).unwrap_or(&0).to_le_bytes());
        }
    }
    out
}

// The table as the oracle takes it; a table lives as long as the run.
pub fn for_oracle(all: &[Record]) -> &'static [LanguageRow] {
    let row = |record: &Record| {
        let letters: String = record.letters.iter().map(|p| char::from_u32(*p).expect("a scalar value")).collect();
        (Language::Lent(record.number), &*letters.leak(), record.marks & 1 != 0, record.marks & 2 != 0)
    };
    all.iter().map(row).collect::<Vec<_>>().leak()
}

// A disorder of some letters that stays near to them: letters swapped, left out, put in, and now and then repeated.
fn near(r: &mut Random, letters: &[u32], others: &[u32]) -> Vec<u32> {
    let mut near = letters.to_vec();
    let share = *r.pick(&[1, 2, 4, 8]);
    for _ in 0..r.below(1 + near.len() / share) {
        let (at, other) = (r.below(near.len()), r.below(near.len()));
        match r.below(6) {
            0 if near.len() > 1 => drop(near.remove(at)),
            1 => near[at] = *r.pick(others),
            2 => near.insert(at, near[other]),
            3 => near.insert(at, *r.pick(others)),
            _ => near.swap(at, other),
        }
    }
    near.truncate(MOST_LETTERS);
    near
}

// A good table: records that are near to some of the given alphabets, copies of one another among them, and numbers of which some stand
// in several records and none goes by the order of the table.
pub fn random(r: &mut Random, alphabets: &[Vec<u32>], others: &[u32]) -> Vec<Record> {
    let n = [r.below(4), r.below(12), r.below(MOST_RECORDS + 1), MOST_RECORDS][r.below(4)];
    let number = |r: &mut Random| [1 + r.below(40) as u32, 1 + r.below(u32::MAX as usize) as u32, u32::MAX][r.below(3)];
    let numbers: Vec<u32> = (0..1 + r.below(n + 1)).map(|_| number(r)).collect();
    let mut all: Vec<Record> = vec![];
    while all.len() < n {
        let letters = match r.below(6) {
            0 if !all.is_empty() => r.pick(&all).letters.clone(),
            1 => {
                let count = [1 + r.below(MOST_LETTERS), MOST_LETTERS][r.below(2)];
                (0..count).map(|_| *r.pick(others)).collect()
            }
            2 => r.pick(alphabets).clone(),
            _ => {
                let alphabet = r.pick(alphabets).clone();
                near(r, &alphabet, others)
            }
        };
        // one number a record in some tables, so that many different ones are found
        let number = if r.below(2) == 0 { *r.pick(&numbers) } else { number(r) };
        all.push(Record { number, marks: r.below(4) as u16, letters });
    }
    all
}

fn put(bytes: &mut [u8], at: usize, word: u32) {
    bytes[at..at + 4].copy_from_slice(&word.to_le_bytes());
}

// A table that is not good: of a wrong length, of too many records, or with one field or more of a record at fault.
pub fn bad(r: &mut Random, all: &[Record]) -> Vec<u8> {
    let mut all = all.to_vec();
    if all.is_empty() {
        all.push(Record { number: 1, marks: 0, letters: vec![0x61] });
    }
    if r.below(8) == 0 {
        let one = all[0].clone();
        all.resize(MOST_RECORDS + 1 + r.below(3), one);
    }
    let mut bytes = bytes(&all);
    if r.below(8) == 0 {
        let left = bytes.len() - 1 - r.below(RECORD - 1);
        bytes.truncate(left);
    }
    while languages_fault(&bytes).is_none() {
        let at = r.below(bytes.len() / RECORD) * RECORD;
        let count = u16::from_le_bytes([bytes[at + 4], bytes[at + 5]]) as usize;
        let slot = |i: usize| at + 8 + 4 * i;
        match r.below(8) {
            0 => put(&mut bytes, at, 0),
            1 => bytes[at + 4..at + 6].copy_from_slice(&[0, 0]),
            2 => bytes[at + 4..at + 6].copy_from_slice(&(257 + r.below(0xFEFF) as u16).to_le_bytes()),
            3 => bytes[at + 6..at + 8].copy_from_slice(&(4 + r.below(0xFFFC) as u16).to_le_bytes()),
            4 => put(&mut bytes, slot(r.below(count.clamp(1, MOST_LETTERS))), 0xD800 + r.below(0x800) as u32),
            5 => put(&mut bytes, slot(r.below(count.clamp(1, MOST_LETTERS))), *r.pick(&[0x11_0000, u32::MAX, 0x8000_0061])),
            6 if count < MOST_LETTERS => put(&mut bytes, slot(count + r.below(MOST_LETTERS - count)), 1 << r.below(32)),
            _ => bytes[at + 4..at + 6].copy_from_slice(&(1 + r.below(MOST_LETTERS) as u16).to_le_bytes()),
        }
    }
    bytes
}
