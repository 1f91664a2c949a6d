// The compact class table. What is expected is written here a second time, from 02 [9] alone: packing, unpacking, which table is good and where it is not, and the order of the
// causes. Compared byte by byte: the answers, every byte of the outputs, and what stands beside what is lent; and scores in either form with each other and with the oracle.
mod damage;
mod host;

use crate::causes::{self, Refusal};
use crate::library::{self, BYTE, Guarded, HostRead, HostScore, Lent, WORD, text_of};
use crate::lines::{NUMBERS, expected_line, lines, shown};
use crate::tables::{self, PAIR_BYTES, Record};
use crate::texts::{self, Alphabet};
use crate::{DEFAULT_THRESHOLD, LONGEST_TEXT, Run, chars, hex, oracle_score};
use damage::{KINDS, Table, damaged};
use host::{HostPacked, Tables};
use oracle::open::LENT;

const MOST: usize = 8_192;
const LONGEST_BURST: usize = 16_777_216;

// "16-byte records without header: first u32, last u32, flags u32, range u16, and a u16 that is 0 or the 1-based place of a (base, lower) pair".
#[derive(Clone, Copy, Debug, PartialEq)]
pub struct Short {
    pub first: u32,
    pub last: u32,
    pub flags: u32,
    pub range: u16,
    pub place: u16,
}

// "of a (base, lower) pair of u32 in a second lent list of 8-byte records"
pub type Letters = (u32, u32);

fn word(bytes: &[u8]) -> u32 {
    u32::from_le_bytes(bytes.try_into().expect("four bytes"))
}

fn half(bytes: &[u8]) -> u16 {
    u16::from_le_bytes(bytes.try_into().expect("two bytes"))
}

// Whole records only.
pub fn shorts(bytes: &[u8]) -> Vec<Short> {
    let one = |b: &[u8]| Short {
        first: word(&b[..4]),
        last: word(&b[4..8]),
        flags: word(&b[8..12]),
        range: half(&b[12..14]),
        place: half(&b[14..]),
    };
    bytes.chunks_exact(16).map(one).collect()
}

pub fn letters_of(bytes: &[u8]) -> Vec<Letters> {
    bytes.chunks_exact(8).map(|b| (word(&b[..4]), word(&b[4..]))).collect()
}

pub fn bytes_of_shorts(all: &[Short]) -> Vec<u8> {
    let mut bytes = vec![];
    for r in all {
        [r.first, r.last, r.flags].iter().for_each(|w| bytes.extend(w.to_le_bytes()));
        [r.range, r.place].iter().for_each(|h| bytes.extend(h.to_le_bytes()));
    }
    bytes
}

pub fn bytes_of_letters(all: &[Letters]) -> Vec<u8> {
    all.iter().flat_map(|(base, lower)| [base.to_le_bytes(), lower.to_le_bytes()].concat()).collect()
}

// "Pairs stand in order of first use, none twice and none (0, 0)."
fn pack(classes: &[Record]) -> (Vec<Short>, Vec<Letters>) {
    let mut used: Vec<Letters> = vec![];
    for r in classes {
        let letters = (r.base, r.lower);
        if letters != (0, 0) && !used.contains(&letters) {
            used.push(letters);
        }
    }
    let place = |letters: Letters| used.iter().position(|u| *u == letters).map_or(0, |at| at + 1);
    let short = |r: &Record| Short { first: r.first, last: r.last, flags: r.flags, range: r.range, place: place((r.base, r.lower)) as u16 };
    (classes.iter().map(short).collect(), used)
}

// The record that a compact one stands for; none where its pair is missing.
fn expansion(r: &Short, letters: &[Letters]) -> Option<Record> {
    let (base, lower) = match r.place as usize {
        0 => (0, 0),
        place => *letters.get(place - 1)?,
    };
    Some(Record { first: r.first, last: r.last, flags: r.flags, range: r.range, zero: 0, base, lower })
}

fn unpack(records: &[Short], letters: &[Letters]) -> Vec<Record> {
    records.iter().map(|r| expansion(r, letters).expect("a good table")).collect()
}

// "a record is bad if its pair is missing or its expansion bad"; which also hangs on where the record before it ends.
fn record_bad(records: &[Short], letters: &[Letters], i: usize) -> bool {
    let Some(record) = expansion(&records[i], letters) else { return true };
    let before = i.checked_sub(1).map(|b| Record { last: records[b].last, ..record });
    !causes::record_good(&record, before.as_ref())
}

// The first record that uses each pair.
fn first_uses(records: &[Short], letters: &[Letters]) -> Vec<Option<usize>> {
    let mut uses = vec![None; letters.len()];
    for (i, r) in records.iter().enumerate().filter(|(_, r)| r.place > 0) {
        if let Some(use_of) = uses.get_mut(r.place as usize - 1) {
            use_of.get_or_insert(i);
        }
    }
    uses
}

// "bad if unused, (0, 0), a repeat, or first used before its predecessor"
fn letters_bad(letters: &[Letters], uses: &[Option<usize>], k: usize) -> bool {
    let unused = uses[k].is_none();
    let nothing = letters[k] == (0, 0);
    let repeat = letters[..k].contains(&letters[k]);
    let early = k > 0 && matches!((uses[k - 1], uses[k]), (Some(before), Some(here)) if here < before);
    unused || nothing || repeat || early
}

// "5 as before, for the class list .. and then the pairs": as before is the length and the number at 0, then the first that is bad.
pub fn fault(records: &[u8], letters: &[u8]) -> Option<Refusal> {
    if records.len() % 16 != 0 {
        return Some((5, 0));
    }
    if records.len() / 16 > MOST {
        return Some((5, 0));
    }
    let (all, known) = (shorts(records), letters_of(letters));
    if let Some(i) = (0..all.len()).find(|i| record_bad(&all, &known, *i)) {
        return Some((5, i as u32));
    }
    if letters.len() % 8 != 0 {
        return Some((5, 0));
    }
    let uses = first_uses(&all, &known);
    (0..known.len()).find(|k| letters_bad(&known, &uses, *k)).map(|k| (5, k as u32))
}

// The table of 24-byte records, or why there is none.
fn whole_table(records: &[u8], letters: &[u8]) -> Result<Vec<u8>, Refusal> {
    match fault(records, letters) {
        Some(refusal) => Err(refusal),
        None => Ok(tables::bytes(&unpack(&shorts(records), &letters_of(letters)))),
    }
}

// "3 after it": the answer of unpacking, and the output after it.
fn unpacking(records: &[u8], letters: &[u8], out: &[u8]) -> (HostRead, Vec<u8>) {
    let refused = |(number, place): Refusal| (HostRead { number, place, count: 0 }, out.to_vec());
    let table = match whole_table(records, letters) {
        Err(refusal) => return refused(refusal),
        Ok(table) => table,
    };
    if out.len() < table.len() {
        return refused((3, 0));
    }
    let mut after = out.to_vec();
    after[..table.len()].copy_from_slice(&table);
    (HostRead { number: 0, place: 0, count: (table.len() / 24) as u32 }, after)
}

// The same of packing, whose outputs are two.
fn packing(classes: &[u8], records: &[u8], letters: &[u8]) -> (HostPacked, Vec<u8>, Vec<u8>) {
    let refused = |(number, place): Refusal| (HostPacked { number, place, ..HostPacked::default() }, records.to_vec(), letters.to_vec());
    if let Some(refusal) = causes::classes_fault(classes) {
        return refused(refusal);
    }
    let (all, used) = pack(&tables::records(classes));
    let (all_bytes, used_bytes) = (bytes_of_shorts(&all), bytes_of_letters(&used));
    if records.len() < all_bytes.len() || letters.len() < used_bytes.len() {
        return refused((3, 0));
    }
    let (mut records, mut letters) = (records.to_vec(), letters.to_vec());
    records[..all_bytes.len()].copy_from_slice(&all_bytes);
    letters[..used_bytes.len()].copy_from_slice(&used_bytes);
    (HostPacked { number: 0, place: 0, records: all.len() as u32, letters: used.len() as u32 }, records, letters)
}

// "Scoring accepts either form with equal answers": 1, 4, 5 of this form, 7, 6.
fn scoring(text: &[u32], threshold: Option<f32>, lent: Tables) -> HostScore {
    let refusal = if text.len() > LONGEST_TEXT {
        Some((1, 0))
    } else if threshold.is_some_and(|t| !t.is_finite()) {
        Some((4, 0))
    } else {
        match whole_table(lent.records, lent.letters) {
            Err(refusal) => Some(refusal),
            Ok(table) => causes::scoring(text, threshold, &table, lent.pairs),
        }
    };
    refusal.map_or_else(|| oracle_score(text, threshold), causes::refused)
}

fn scoring_utf8(bytes: &[u8], threshold: Option<f32>, lent: Tables) -> HostScore {
    match causes::points(bytes) {
        Err(refusal) => causes::refused(refusal),
        Ok(text) => scoring(&text, threshold, lent),
    }
}

// Of many lines: 1, 4, 5 of this form, 7, 3; or the table.
fn burst_table(bytes: &[u8], threshold: f32, lent: Tables, room: usize) -> Result<Vec<u8>, Refusal> {
    if bytes.len() > LONGEST_BURST {
        return Err((1, 0));
    }
    if !threshold.is_finite() {
        return Err((4, 0));
    }
    let table = whole_table(lent.records, lent.letters)?;
    if lent.pairs.len() != PAIR_BYTES {
        return Err((7, 0));
    }
    if room < NUMBERS * lines(bytes).len() { Err((3, 0)) } else { Ok(table) }
}

// How much room an output of some need has: as much, one less, less, more.
fn room(run: &mut Run, need: usize) -> usize {
    match run.random.below(6) {
        0 => need.saturating_sub(1),
        1 => run.random.below(need + 1),
        2 => need + 1 + run.random.below(40),
        _ => need,
    }
}

impl Run {
    fn filling(&mut self, n: usize) -> Vec<u8> {
        (0..n).map(|_| self.random.next() as u8).collect()
    }

    fn packed(&mut self, classes: &[u8], records_room: usize, letters_room: usize) {
        self.counted();
        let (before, letters_before) = (self.filling(records_room), self.filling(letters_room));
        let (given, mut records, mut letters) =
            (Guarded::new(classes, BYTE), Guarded::new(&before, BYTE), Guarded::new(&letters_before, BYTE));
        let told = host::pack(given.list(), records.list_mut(), letters.list_mut());
        let (expected, after, letters_after) = packing(classes, &before, &letters_before);
        self.refused += (expected.number != 0) as u64;
        if told != expected || !records.holds(&after) || !letters.holds(&letters_after) || !given.whole() {
            let first = records.list().iter().zip(&after).position(|(a, b)| a != b);
            let first_letter = letters.list().iter().zip(&letters_after).position(|(a, b)| a != b);
            self.fail(|| {
                format!(
                    "packing {} bytes into {records_room} and {letters_room}\nlibrary  {told:?}\n02 says  {expected:?}\nfirst byte of records, of letters, that differs: {first:?}, {first_letter:?}",
                    classes.len()
                )
            });
        }
    }

    fn unpacked(&mut self, records: &[u8], letters: &[u8], room: usize) {
        self.counted();
        let before = self.filling(room);
        let (given, given_letters, mut out) = (Guarded::new(records, BYTE), Guarded::new(letters, BYTE), Guarded::new(&before, BYTE));
        let told = host::unpack(given.list(), given_letters.list(), out.list_mut());
        let (expected, after) = unpacking(records, letters, &before);
        self.refused += (expected.number != 0) as u64;
        if told != expected || !out.holds(&after) || !given.whole() || !given_letters.whole() {
            let first = out.list().iter().zip(&after).position(|(a, b)| a != b);
            self.fail(|| {
                format!(
                    "unpacking {} bytes of records and {} of letters into {room}: {:?}, {:?}\nlibrary  {told:?}\n02 says  {expected:?}\nfirst byte that differs: {first:?}",
                    records.len(),
                    letters.len(),
                    shorts(records).iter().take(20).collect::<Vec<_>>(),
                    letters_of(letters).iter().take(20).collect::<Vec<_>>()
                )
            });
        }
    }

    // A good table to the compact form and back, each with the bytes that it had, and through rooms of other sizes.
    fn both_ways(&mut self, classes: &[u8]) {
        let (all, used) = pack(&tables::records(classes));
        let (records, letters) = (bytes_of_shorts(&all), bytes_of_letters(&used));
        self.packed(classes, records.len(), letters.len());
        self.unpacked(&records, &letters, classes.len());
        let (a, b, c) = (room(self, records.len()), room(self, letters.len()), room(self, classes.len()));
        self.packed(classes, a, b);
        self.unpacked(&records, &letters, c);
        // by the library alone
        let (mut one, mut two, mut back) = (vec![0; records.len()], vec![0; letters.len()], vec![0; classes.len()]);
        let told = (host::pack(classes, &mut one, &mut two).number, host::unpack(&one, &two, &mut back).number);
        if told != (0, 0) || back != classes {
            self.fail(|| format!("a table of {} bytes does not come back: {told:?}", classes.len()));
        }
        let told = (host::unpack(&records, &letters, &mut back).number, host::pack(&back, &mut one, &mut two).number);
        if told != (0, 0) || one != records || two != letters {
            self.fail(|| format!("a compact table of {} and {} bytes does not come back: {told:?}", records.len(), letters.len()));
        }
    }

    // A good table whose records share letters: few of them, some that differ in one half or in the high bits alone.
    fn sharing_records(&mut self, most: usize) -> Vec<Record> {
        let mut all = tables::random_records(&mut self.random, most);
        let few = 1 + self.random.below(9);
        let mut pool = vec![(0, 0)];
        for _ in 0..few {
            let x = 0x400 + self.random.below(0x4000) as u32;
            let y = 0x100 + self.random.below(0x4000) as u32;
            pool.extend([(x, y), (y, x), (x, 0), (0, y), (x + 0x10000, y), (x, y + 0x10000), (x, x)]);
        }
        let keep = self.random.below(4);
        for r in &mut all {
            if self.random.below(4) >= keep {
                (r.base, r.lower) = *self.random.pick(&pool);
            }
        }
        all
    }

    fn some_table(&mut self, most: usize) -> Table {
        let (records, letters) = pack(&self.sharing_records(most));
        Table { records, letters, more: vec![], letters_more: vec![] }
    }

    fn tables_both_ways(&mut self, times: usize, classes: &[u8]) {
        self.both_ways(classes);
        self.both_ways(&[]);
        for at in 0..times {
            let most = [1, 3, 40, 300][at % 4];
            let classes = tables::bytes(&self.sharing_records(most));
            self.both_ways(&classes);
        }
    }

    // Every kind of damage by itself, and every two; the place is told by the table alone.
    fn damaged_compact(&mut self, times: usize) {
        for first in (0..times).flat_map(|_| 0..KINDS) {
            for second in first..KINDS {
                let mut table = self.some_table([2, 6, 30][first % 3]);
                damaged(&mut self.random, &mut table, first);
                if second != first {
                    damaged(&mut self.random, &mut table, second);
                }
                let (records, letters) = table.bytes();
                let need = records.len() / 16 * 24;
                let room = room(self, need);
                self.unpacked(&records, &letters, room);
            }
        }
    }

    // Bytes by chance beside a good table's: one changed, in either list.
    fn beside_a_good_table(&mut self, times: usize) {
        for _ in 0..times {
            let (mut records, mut letters) = self.some_table(12).bytes();
            for _ in 0..1 + self.random.below(2) {
                let list = if self.random.below(2) == 0 || letters.is_empty() { &mut records } else { &mut letters };
                let at = self.random.below(list.len());
                // the place of a record's letters is met more often than chance would have it
                let at = if self.random.below(2) == 0 { at } else { (at / 16 * 16 + 14).min(list.len() - 1) };
                list[at] = if self.random.below(2) == 0 { self.random.below(6) as u8 } else { self.random.next() as u8 };
            }
            let need = records.len() / 16 * 24;
            self.unpacked(&records, &letters, need);
        }
    }

    // A class table that packing refuses, with and without room.
    fn packing_refused(&mut self, times: usize, classes: &[u8]) {
        let real = tables::records(classes);
        for _ in 0..times {
            let bad = self.bad_classes(&real);
            let (a, b) = (room(self, bad.len() / 24 * 16), room(self, bad.len() / 24 * 8));
            self.packed(&bad, a, b);
        }
    }

    // So many records, each of one code point, with so many letters among them.
    fn long_table(n: usize, different: usize) -> Table {
        let one =
            |i: usize| Short { first: 0x10000 + i as u32, last: 0x10000 + i as u32, flags: 0, range: 0, place: i.min(different) as u16 };
        let records: Vec<Short> = (1..=n).map(|i| one(i)).collect();
        Table { records, letters: (1..=different as u32).map(|i| (i, i / 7)).collect(), more: vec![], letters_more: vec![] }
    }

    // Numbers of records and of letters, at and beside each limit.
    fn numbers(&mut self) {
        for n in [0, 1, MOST - 1, MOST, MOST + 1, 2 * MOST] {
            for different in [0, 1, n / 2, n.saturating_sub(1), n, 255, 256, 257].into_iter().filter(|d| *d <= n && *d < 65_536) {
                let table = Run::long_table(n, different);
                let (records, letters) = table.bytes();
                self.unpacked(&records, &letters, 24 * n);
                if n <= MOST {
                    let classes = tables::bytes(&unpack(&table.records, &table.letters));
                    self.packed(&classes, records.len(), letters.len());
                    self.packed(&classes, records.len() + 1, letters.len().saturating_sub(1));
                }
            }
        }
        // more letters than a u16 has places: the first that is unused is bad, whatever stands behind it
        for n in [65_534, 65_535, 65_536, 65_537, 131_073] {
            for used in [0, 1, 9, MOST] {
                let mut table = Run::long_table(MOST, used);
                table.letters.extend((used..n).map(|i| (i as u32 + 1, 1)));
                let (records, letters) = table.bytes();
                self.unpacked(&records, &letters, 24 * MOST);
                table.records[5].place = 65_535;
                let (records, letters) = table.bytes();
                self.unpacked(&records, &letters, 24 * MOST);
            }
        }
    }

    // One text with one compact table: the library, what is expected, and the library with the same table unpacked.
    fn compact_scored(&mut self, text: &[u32], threshold: Option<f32>, records: &[u8], letters: &[u8], pairs: &[u8]) {
        self.counted();
        let (given, r, l, p) = (text_of(text), Guarded::new(records, BYTE), Guarded::new(letters, BYTE), Guarded::new(pairs, BYTE));
        let lent = Tables { records: r.list(), letters: l.list(), pairs: p.list() };
        let (told, expected) = (host::score(given.list(), threshold, lent), scoring(text, threshold, lent));
        self.refused += (expected.number != 0) as u64;
        self.stopped += expected.stopped as u64;
        let whole = given.whole() && r.whole() && l.whole() && p.whole();
        let same = whole_table(records, letters).map_or(true, |table| library::score(text, threshold, &Lent::new(&table, pairs)) == told);
        if told != expected || !whole || !same {
            self.fail(|| {
                format!(
                    "threshold {threshold:?}, text {}\nlibrary  {}\nexpected {}",
                    hex(&text[..text.len().min(100)]),
                    told.shown(),
                    expected.shown()
                )
            });
        }
        if !text.iter().all(|point| char::from_u32(*point).is_some()) {
            return;
        }
        let bytes = chars(text).iter().collect::<String>().into_bytes();
        self.compact_scored_utf8(&bytes, threshold, lent);
    }

    fn compact_scored_utf8(&mut self, bytes: &[u8], threshold: Option<f32>, lent: Tables) {
        self.counted();
        let given = Guarded::new(bytes, BYTE);
        let (told, expected) = (host::score_utf8(given.list(), threshold, lent), scoring_utf8(bytes, threshold, lent));
        self.refused += (expected.number != 0) as u64;
        if told != expected || !given.whole() {
            self.fail(|| format!("threshold {threshold:?}, {}\nlibrary  {}\nexpected {}", shown(bytes), told.shown(), expected.shown()));
        }
    }

    fn compact_burst(&mut self, bytes: &[u8], threshold: f32, lent: Tables, room: usize) {
        self.counted();
        let before: Vec<u32> = (0..room).map(|_| self.random.next() as u32).collect();
        let (given, mut out) = (Guarded::new(bytes, BYTE), Guarded::new(&before, WORD));
        let told = host::score_lines(given.list(), threshold, lent, out.list_mut());
        let mut after = before;
        let expected = match burst_table(bytes, threshold, lent, room) {
            Err((number, place)) => HostRead { number, place, count: 0 },
            Ok(table) => {
                let lines = lines(bytes);
                for (line, row) in lines.iter().zip(after.chunks_exact_mut(NUMBERS)) {
                    row.copy_from_slice(&expected_line(line, threshold, &table, lent.pairs).words());
                }
                HostRead { number: 0, place: 0, count: lines.len() as u32 }
            }
        };
        self.refused += (expected.number != 0) as u64;
        if told != expected || !out.holds(&after) || !given.whole() {
            self.fail(|| {
                format!("threshold {threshold:?}, room {room}, a burst of {}\nlibrary  {told:?}\nexpected {expected:?}", shown(bytes))
            });
        }
    }

    // Texts, bytes and lines with the real table in its compact form.
    fn compact_real(&mut self, times: usize, classes: &[u8], pairs: &[u8]) {
        let real = tables::records(classes);
        let alphabet = Alphabet::new(&real);
        let (all, used) = pack(&real);
        let (records, letters) = (bytes_of_shorts(&all), bytes_of_letters(&used));
        let lent = Tables { records: &records, letters: &letters, pairs };
        for at in 0..times {
            let n = texts::length(&mut self.random);
            let text = alphabet.text(&mut self.random, n);
            let threshold = texts::threshold(&mut self.random);
            self.compact_scored(&text, threshold, &records, &letters, pairs);
            if at % 4 == 0 {
                let bytes = self.some_lines(&alphabet);
                let room = room(self, NUMBERS * lines(&bytes).len());
                self.compact_burst(&bytes, threshold.unwrap_or(DEFAULT_THRESHOLD), lent, room);
            }
        }
        self.compact_scored(&vec![0x61; LONGEST_TEXT], None, &records, &letters, pairs);
        self.compact_scored(&vec![0x61; LONGEST_TEXT + 1], None, &records, &letters, pairs);
        self.compact_burst(&vec![b'a'; LONGEST_BURST], 1.0, lent, NUMBERS);
        self.compact_burst(&vec![b'a'; LONGEST_BURST + 1], 1.0, lent, NUMBERS);
    }

    // Random tables, lent to the oracle too.
    fn compact_lent(&mut self, times: usize) {
        for _ in 0..times {
            let all = self.sharing_records(40);
            let pairs = tables::random_pairs(&mut self.random);
            LENT.with_borrow_mut(|l| {
                l.classes = Some(tables::for_oracle(&all));
                l.pairs = Some(pairs.clone());
            });
            let alphabet = Alphabet::new(&all);
            let (short, used) = pack(&all);
            let (records, letters) = (bytes_of_shorts(&short), bytes_of_letters(&used));
            for _ in 0..12 {
                let n = self.random.below(90);
                let text = alphabet.text(&mut self.random, n);
                let threshold = texts::threshold(&mut self.random);
                self.compact_scored(&text, threshold, &records, &letters, &pairs);
            }
            LENT.with_borrow_mut(|l| *l = oracle::open::Lent::default());
        }
    }

    // Every set of causes of scoring at once: 1, 4, 5 of the records, 5 of the letters, 7, 6 or 3, in all 64 sets; of text, bytes and lines.
    fn compact_causes(&mut self, times: usize, pairs: &[u8]) {
        for set in (0..times).flat_map(|_| 0..64) {
            let has = |n: usize| set >> n & 1 == 1;
            let mut text: Vec<u32> = vec![0x61; if has(0) { LONGEST_TEXT + 1 } else { self.random.below(40) }];
            let threshold = match has(1) {
                true => Some(*self.random.pick(&[f32::NAN, f32::INFINITY, f32::NEG_INFINITY])),
                false => texts::threshold(&mut self.random),
            };
            let mut table = self.some_table(9);
            // of the records, then of the letters
            for (n, kinds) in [(2, damage::OF_RECORDS), (3, damage::OF_LETTERS)] {
                if has(n) {
                    let kind = *self.random.pick(kinds);
                    damaged(&mut self.random, &mut table, kind);
                }
            }
            let (records, letters) = table.bytes();
            let pairs = if has(4) { &pairs[..7] } else { pairs };
            let lent = Tables { records: &records, letters: &letters, pairs };
            let bytes = if has(0) { vec![b'a'; 262_145] } else { b"one\ntwo".to_vec() };
            self.compact_burst(&bytes, threshold.unwrap_or(DEFAULT_THRESHOLD), lent, if has(5) { 1 } else { 2 * NUMBERS });
            if has(5) {
                let at = self.random.below(text.len() + 1);
                text.insert(at, *self.random.pick(&[0xD800, 0x110000, u32::MAX]));
            }
            self.compact_scored(&text, threshold, &records, &letters, pairs);
            let mut bytes = if has(0) { vec![b'a'; 262_145] } else { "a\u{10FFFF}".as_bytes().to_vec() };
            if has(5) {
                bytes.push(0xFF);
            }
            self.compact_scored_utf8(&bytes, threshold, lent);
        }
    }

    // The Rust package's own part: tables made of a compact one, and led back.
    fn package_compact(&mut self, times: usize, pairs: &[u8]) {
        for at in 0..times {
            self.counted();
            let mut table = self.some_table(30);
            if at % 2 == 0 {
                let kind = self.random.below(KINDS);
                damaged(&mut self.random, &mut table, kind);
            }
            let (records, letters) = table.bytes();
            let told = drasumira::Tables::from_compact(&records, &letters, pairs.to_vec());
            let lent = drasumira::Compact { records: &records, letters: &letters, pairs };
            let expected = fault(&records, &letters);
            let same = match (&told, expected) {
                (Err(refusal), Some(fault)) => (refusal.number, refusal.place) == fault && lent.score("a", None) == Err(*refusal),
                (Ok(tables), None) => {
                    tables.to_compact() == (records.clone(), letters.clone())
                        && lent.score("aé\u{1}", None) == drasumira::score("aé\u{1}", None, tables)
                }
                _ => false,
            };
            if !same {
                self.fail(|| {
                    format!("the package's tables of {} and {} bytes, of which 02 says {expected:?}", records.len(), letters.len())
                });
            }
        }
    }

    pub fn all_compact(&mut self, classes: &[u8], pairs: &[u8]) {
        self.during("compact tables, damaged", |run| run.damaged_compact(run.times(60, 1_200)));
        self.during("compact tables both ways", |run| run.tables_both_ways(run.times(600, 10_000), classes));
        self.during("compact tables beside a good one", |run| run.beside_a_good_table(run.times(20_000, 400_000)));
        self.during("class tables that are not packed", |run| run.packing_refused(run.times(600, 6_000), classes));
        self.during("numbers of compact records and letters", |run| run.numbers());
        self.during("causes of scoring with compact tables", |run| run.compact_causes(run.times(6, 60), pairs));
        self.during("scores with compact tables", |run| run.compact_lent(run.times(60, 1_000)));
        self.during("scores with the real compact table", |run| run.compact_real(run.times(250, 5_000), classes, pairs));
        self.during("the Rust package's compact tables", |run| run.package_compact(run.times(500, 10_000), pairs));
    }
}
