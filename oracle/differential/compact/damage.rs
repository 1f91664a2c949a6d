// Compact tables with one fault of each kind that 02 [9] names. A table that has nothing to damage in this way may stay as it is.
use super::{Letters, Short, bytes_of_letters, bytes_of_shorts};
use crate::random::Random;
use crate::tables::{self, Record};

pub struct Table {
    pub records: Vec<Short>,
    pub letters: Vec<Letters>,
    // bytes behind each list
    pub more: Vec<u8>,
    pub letters_more: Vec<u8>,
}

impl Table {
    pub fn bytes(&self) -> (Vec<u8>, Vec<u8>) {
        (
            [bytes_of_shorts(&self.records), self.more.clone()].concat(),
            [bytes_of_letters(&self.letters), self.letters_more.clone()].concat(),
        )
    }
}

pub const KINDS: usize = 16;
// Those that are found in the records, and those that are found in the letters.
pub const OF_RECORDS: &[usize] = &[0, 1, 2, 3, 4, 5];
pub const OF_LETTERS: &[usize] = &[6, 7, 8, 9, 10, 11, 12, 13];

// Letters that no record of a random table has.
fn fresh(r: &mut Random) -> Letters {
    (0x2_0000 + r.below(999) as u32, 0x2_0000 + r.below(999) as u32)
}

// The first, last, flags or range of a record, as 01 has its faults; those of its letters are others.
fn record_fault(r: &mut Random, records: &mut [Short]) {
    let whole = |s: &Short| Record { first: s.first, last: s.last, flags: s.flags, range: s.range, zero: 0, base: 0, lower: 0 };
    let mut all: Vec<Record> = records.iter().map(whole).collect();
    tables::damage(r, &mut all);
    for (short, record) in records.iter_mut().zip(all) {
        *short = Short { first: record.first, last: record.last, flags: record.flags, range: record.range, place: short.place };
    }
}

// Two pairs change places, and the records with them.
fn swapped(table: &mut Table, a: usize, b: usize) {
    table.letters.swap(a, b);
    for record in &mut table.records {
        match record.place as usize {
            place if place == a + 1 => record.place = b as u16 + 1,
            place if place == b + 1 => record.place = a as u16 + 1,
            _ => {}
        }
    }
}

pub fn damaged(r: &mut Random, table: &mut Table, kind: usize) {
    let (n, m) = (table.records.len(), table.letters.len());
    let (i, k) = (r.below(n), r.below(m.max(1)));
    match kind {
        // the class list: its length, a record, its letters missing by one or by many
        0 => table.more = vec![0; 1 + r.below(15)],
        1 | 2 => record_fault(r, &mut table.records),
        3 => table.records[i].place = m as u16 + 1,
        4 => table.records[i].place = *r.pick(&[u16::MAX, m as u16 + 2, 0x8000]),
        // its expansion bad: the letters are no scalar value
        5 if m > 0 => {
            let bad = *r.pick(&[0xD800, 0xDFFF, 0x11_0000, u32::MAX]);
            if r.below(2) == 0 { table.letters[k].0 = bad } else { table.letters[k].1 = bad }
        }
        // the letters: their length, unused ones at the end or before, none
        6 => table.letters_more = vec![0; 1 + r.below(7)],
        7 => table.letters.push(fresh(r)),
        8 => {
            table.letters.insert(k, fresh(r));
            table.records.iter_mut().filter(|record| record.place as usize > k).for_each(|record| record.place += 1);
        }
        9 if m > 0 => table.letters[k] = (0, 0),
        // a repeat, of letters before them or behind
        10 if m > 1 => table.letters[k] = table.letters[r.below(m)],
        11 if m > 0 => {
            // used by a record, and the same as others
            table.letters.push(table.letters[k]);
            table.records[n - 1].place = m as u16 + 1;
        }
        // first used before their predecessor
        12 if m > 1 => swapped(table, k, (k + 1) % m),
        13 if m > 1 => swapped(table, k, r.below(m)),
        // a record uses other letters, or none
        14 => table.records[i].place = r.below(m + 1) as u16,
        // the last bytes of a list are not there
        15 => {
            if r.below(2) == 0 {
                table.letters.truncate(m.saturating_sub(1));
                table.letters_more = vec![1; r.below(8)];
            } else {
                table.records.truncate(n - 1);
                table.more = vec![1; r.below(16)];
            }
        }
        _ => {}
    }
}
