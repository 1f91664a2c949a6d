// oracle/differential/run quick|full [SEED [PART]]: the oracle and the proved library in one process, on the same texts, thresholds and tables.
// Compared: every bit of every ratio and of the sum, fed, stopped, number, place, and every lent byte. Where 01 refuses, what is expected
// comes from causes.rs, since the oracle refuses nothing. The first difference is printed as the smallest text found, with both answers,
// and ends the run with status 1. A survey is for wrong programs (oracle/differential/mutants): it tells the
// first phase, or the first two, to find a difference.
mod aimed;
mod causes;
mod coherence;
mod compact;
mod edges;
mod library;
mod lines;
mod pages;
mod random;
mod report;
mod reasons;
mod merge;
mod ring;
mod running;
mod second;
mod tables;
mod texts;
mod thresholds;
mod writing;

use aimed::{AIMS, Shelves};
use library::{Guarded, HostChosen, HostScore, HostVerdict, Lent, text_of, walls};
use oracle::open::LENT;
use random::Random;
use std::panic::{AssertUnwindSafe, catch_unwind, resume_unwind};
use std::time::Instant;
use tables::{BUILTIN_END, PAIR_BYTES, Record};
use texts::{Alphabet, BOUNDARIES};

const SEED: u64 = 20_261_115;
const LONGEST_TEXT: usize = 65_536;
const LONGEST_BYTES: usize = 262_144;
const TABLES_LOOKED_AT_EVERY: u64 = 1_024;
const PROGRESS_EVERY: u64 = 1_000_000;

// Lengths beside those at which the library takes a larger room for the text of bytes.
const ROOMS: [usize; 8] = [255, 256, 257, 258, 4095, 4096, 4097, 5000];

// Bytes of a line beside those of the longest that the library reads in one pass; a line that is cut there may end within a sequence.
const LINE_BYTES: [usize; 8] = [3, 8, 509, 510, 511, 512, 513, 514];

// A surrogate, a number past the last code point, overlong forms, and a byte that leads nothing.
const ILL_FORMED: [[u8; 4]; 7] = [
    [0xED, 0xA0, 0x80, 0x80],
    [0xF4, 0x90, 0x80, 0x80],
    [0xC0, 0xAF, 0xE0, 0x80],
    [0xF0, 0x8F, 0xBF, 0xBF],
    [0xC1, 0xBF, 0xC1, 0x80],
    [0xE0, 0x9F, 0xBF, 0x20],
    [0xF5, 0x80, 0x80, 0x80],
];

struct Run {
    seed: u64,
    full: bool,
    cases: u64,
    refused: u64,
    stopped: u64,
    met: [u64; 8], // the accepted texts of which a ratio is not 0, by ratio
    cut: [u64; 8],     // those of which it was cut off
    reasons: [u64; 9], // the texts whose reason is each detector, 0 for none
    newlines: u64,     // the lists that end with the newline
    coherence: coherence::Tally,
    random: Random,
    part: &'static str,
    phase: &'static str,
    began: u64,    // the cases before the phase
    survey: usize, // how many phases are to find a difference; 0: the first one ends the run
    found: usize,  // how many did
}

// What a survey throws.
struct Difference;

fn chars(text: &[u32]) -> Vec<char> {
    text.iter().map(|p| char::from_u32(*p).expect("a scalar value")).collect()
}

// 02 [5]: "A call without a threshold now uses f32 0.15". The crate's own default is another, so it is asked at this one.
pub const DEFAULT_THRESHOLD: f32 = 0.15;

// 02 [7]: the mark "holds exactly if both are above 0 and the ratio is 0".
fn told_counts(counts: &[[u64; 2]], ratios: &[f32]) -> [[u32; 3]; 8] {
    let one = |([over, under], ratio): (&[u64; 2], &f32)| [*over as u32, *under as u32, (*over > 0 && *under > 0 && *ratio == 0.0) as u32];
    let told: Vec<[u32; 3]> = counts.iter().zip(ratios).map(one).collect();
    told.try_into().expect("eight detectors")
}

// The oracle's answer in the library's form.
fn oracle_score(text: &[u32], threshold: Option<f32>) -> HostScore {
    let s = oracle::open::score(&chars(text), Some(threshold.unwrap_or(DEFAULT_THRESHOLD)), false);
    let counts = told_counts(&s.counts, &s.ratios);
    let ratios: [f32; 8] = s.ratios.try_into().expect("eight ratios");
    HostScore { number: 0, place: 0, ratios, sum: s.sum, fed: s.fed as u32, stopped: s.stopped as u32, counts }
}

// The sum after the first k characters.
fn sum_after(text: &[u32], k: usize) -> f32 {
    let newline_too = k > text.len();
    oracle::open::score(&chars(&text[..k.min(text.len())]), Some(f32::INFINITY), !newline_too).sum
}

fn expected_score(text: &[u32], threshold: Option<f32>, classes: &[u8], pairs: &[u8]) -> HostScore {
    match causes::scoring(text, threshold, classes, pairs) {
        Some(refusal) => causes::refused(refusal),
        None => oracle_score(text, threshold),
    }
}

// The smallest text found that still differs: parts left out, larger ones first.
fn smallest(text: &[u32], differs: impl Fn(&[u32]) -> bool) -> Vec<u32> {
    let mut text = text.to_vec();
    let mut part = text.len().div_ceil(2);
    while part > 0 {
        let mut at = 0;
        while at < text.len() {
            let mut less = text.clone();
            less.drain(at..(at + part).min(text.len()));
            if differs(&less) { text = less } else { at += part }
        }
        part = if part == 1 { 0 } else { part.div_ceil(2) };
    }
    text
}

fn hex(text: &[u32]) -> String {
    text.iter().map(|p| format!("{p:04X}")).collect::<Vec<_>>().join(",")
}

impl Run {
    fn times(&self, quick: usize, full: usize) -> usize {
        if self.full { full } else { quick }
    }

    // One phase. It draws from the seed and its name alone, so that it meets the same cases whatever is run before it.
    fn during(&mut self, name: &'static str, work: impl FnOnce(&mut Run)) {
        let (began, before) = (Instant::now(), self.cases);
        self.random = Random::new(name.bytes().fold(self.seed, |sum, byte| sum.wrapping_mul(0x100_0000_01B3) ^ byte as u64));
        (self.phase, self.began) = (name, before);
        LENT.with_borrow_mut(|lent| *lent = oracle::open::Lent::default());
        if self.survey == 0 {
            work(self)
        } else {
            self.surveyed(work)
        }
        eprintln!("{}, {name}: {} cases, {:.1} s", self.part, self.cases - before, began.elapsed().as_secs_f32());
    }

    // A phase of a survey: a difference ends it, and is told by phase and case; once so many phases found one the survey ends.
    fn surveyed(&mut self, work: impl FnOnce(&mut Run)) {
        let Err(thrown) = catch_unwind(AssertUnwindSafe(|| work(self))) else { return };
        let what = if thrown.is::<Difference>() { "found" } else { "panicked" };
        println!("{what}: {}: {}", self.phase, self.cases - self.began);
        self.found += 1;
        if self.found == self.survey {
            std::process::exit(1);
        }
    }

    fn counted(&mut self) {
        self.cases += 1;
        *walls::NOW.lock().expect("held by none") = (self.phase, self.cases - self.began);
        if self.cases.is_multiple_of(PROGRESS_EVERY) {
            eprintln!("{}: {} cases so far", self.phase, self.cases);
        }
    }

    // What is told of a difference is worked out only where it is printed.
    fn fail(&self, what: impl FnOnce() -> String) -> ! {
        if self.survey > 0 {
            resume_unwind(Box::new(Difference));
        }
        println!("DIFFERENCE in {}, case {}, seed {}: {}", self.phase, self.cases - self.began, self.seed, what());
        std::process::exit(1)
    }

    fn ended(&self, started: Instant) {
        println!(
            "{} cases, 0 differences ({} refused as 01 says, {} stopped early; {}; seed {}, {:.0} s), over {}",
            self.cases,
            self.refused,
            self.stopped,
            self.coherence,
            self.seed,
            started.elapsed().as_secs_f32(),
            env!("LIBRARY")
        );
    }

    // One text that all accept, scored by both.
    fn accepted(&mut self, text: &[u32], threshold: Option<f32>, lent: &Lent) {
        self.counted();
        let given = text_of(text);
        let (told, expected) = (library::score(given.list(), threshold, lent), oracle_score(text, threshold));
        self.stopped += expected.stopped as u64;
        self.met.iter_mut().zip(expected.ratios).for_each(|(met, ratio)| *met += (ratio != 0.0) as u64);
        self.cut.iter_mut().zip(expected.counts).for_each(|(cut, [_, _, mark])| *cut += mark as u64);
        if told != expected {
            self.fail(|| {
                let small = smallest(text, |t| library::score(t, threshold, lent) != oracle_score(t, threshold));
                let (told, expected) = (library::score(&small, threshold, lent), oracle_score(&small, threshold));
                format!("threshold {threshold:?}, text {}\nlibrary {}\noracle  {}", hex(&small), told.shown(), expected.shown())
            });
        }
        self.second(given.list(), threshold, lent, expected);
        if !given.whole() || (self.cases.is_multiple_of(TABLES_LOOKED_AT_EVERY) && !lent.whole()) {
            self.fail(|| format!("a lent slice was changed by text {}", hex(text)));
        }
    }

    // One call that may be refused.
    fn scored(&mut self, text: &[u32], threshold: Option<f32>, classes: &[u8], pairs: &[u8]) {
        self.counted();
        let (given, lent) = (text_of(text), Lent::new(classes, pairs));
        let (told, expected) = (library::score(given.list(), threshold, &lent), expected_score(text, threshold, classes, pairs));
        self.refused += (expected.number != 0) as u64;
        if told != expected {
            self.fail(|| {
                let small = smallest(text, |t| library::score(t, threshold, &lent) != expected_score(t, threshold, classes, pairs));
                format!(
                    "threshold {threshold:?}, {} bytes of classes, {} of pairs, text {}\nlibrary  {}\nexpected {}",
                    classes.len(),
                    pairs.len(),
                    hex(&small[..small.len().min(100)]),
                    library::score(&small, threshold, &lent).shown(),
                    expected_score(&small, threshold, classes, pairs).shown()
                )
            });
        }
        self.second(given.list(), threshold, &lent, expected);
        if !given.whole() || !lent.whole() {
            self.fail(|| format!("a lent slice was changed by text {}", hex(&text[..text.len().min(100)])));
        }
    }

    fn checked(&mut self, classes: &[u8]) {
        self.counted();
        let given = Guarded::new(classes, library::BYTE);
        let (told, expected) = (library::check_classes(given.list()), causes::checked(classes));
        self.refused += (expected.number != 0) as u64;
        if told != expected || !given.whole() {
            self.fail(|| format!("class table of {} bytes\nlibrary  {told:?}\nexpected {expected:?}", classes.len()));
        }
    }

    fn read(&mut self, bytes: &[u8], room: usize) {
        self.counted();
        let before: Vec<u32> = (0..room).map(|_| self.random.next() as u32).collect();
        let (given, mut out) = (Guarded::new(bytes, library::BYTE), Guarded::new(&before, library::WORD));
        let told = library::read(given.list(), &mut out);
        let (expected, after) = causes::reading(bytes, &before);
        self.refused += (expected.number != 0) as u64;
        if told != expected || !out.holds(&after) || !given.whole() {
            let shown: Vec<String> = bytes.iter().take(100).map(|b| format!("{b:02X}")).collect();
            self.fail(|| {
                format!(
                    "{} bytes, room {room}: {}\nlibrary  {told:?}\nexpected {expected:?}\nlent bytes as expected: {}",
                    bytes.len(),
                    shown.join(" "),
                    out.holds(&after) && given.whole()
                )
            });
        }
    }

    // Bytes read and scored in one call.
    fn scored_utf8(&mut self, bytes: &[u8], threshold: Option<f32>, classes: &[u8], pairs: &[u8]) {
        self.counted();
        let (given, lent) = (Guarded::new(bytes, library::BYTE), Lent::new(classes, pairs));
        let told = library::score_utf8(given.list(), threshold, &lent);
        let expected = match causes::points(bytes) {
            Err(refusal) => causes::refused(refusal),
            Ok(text) => expected_score(&text, threshold, classes, pairs),
        };
        self.refused += (expected.number != 0) as u64;
        if told != expected || !given.whole() || !lent.whole() {
            let shown: Vec<String> = bytes.iter().take(100).map(|b| format!("{b:02X}")).collect();
            self.fail(|| {
                format!(
                    "threshold {threshold:?}, {} bytes: {}\nlibrary  {}\nexpected {}",
                    bytes.len(),
                    shown.join(" "),
                    told.shown(),
                    expected.shown()
                )
            });
        }
    }

    fn judged(&mut self, first: &[u32], second: &[u32], classes: &[u8], pairs: &[u8]) {
        self.counted();
        let (a, b, lent) = (text_of(first), text_of(second), Lent::new(classes, pairs));
        let told = library::verdict(a.list(), b.list(), &lent);
        let whole = |t: &[u32]| oracle_score(t, Some(f32::INFINITY)).sum;
        let expected = causes::verdict_refusal(first, second, classes, pairs)
            .unwrap_or_else(|| HostVerdict { taken: if whole(second) < whole(first) { 2 } else { 1 }, ..HostVerdict::default() });
        self.refused += (expected.number != 0) as u64;
        if told != expected || !a.whole() || !b.whole() || !lent.whole() {
            self.fail(|| format!("verdict on {} and {}\nlibrary  {told:?}\nexpected {expected:?}", hex(first), hex(second)));
        }
        let taken: &[u32] = [&[], first, second][expected.taken as usize];
        let length = (taken.len() - taken.iter().rev().take_while(|p| **p == 0x0A).count()) as u32;
        let expected = HostChosen { taken: expected.taken, length, number: expected.number, place: expected.place };
        let told = library::choose(a.list(), b.list(), &lent);
        if told != expected || !a.whole() || !b.whole() || !lent.whole() {
            self.fail(|| format!("choice of {} and {}\nlibrary  {told:?}\nexpected {expected:?}", hex(first), hex(second)));
        }
    }

    // Every text of up to `most` characters over one representative of each flag word.
    fn short_texts(&mut self, representatives: &[u32], most: u32, lent: &Lent) {
        let n = representatives.len();
        for length in 0..=most {
            for mut at in 0..n.pow(length) {
                let mut text = [0; 4];
                for point in text.iter_mut().take(length as usize) {
                    (*point, at) = (representatives[at % n], at / n);
                }
                self.accepted(&text[..length as usize], None, lent);
            }
        }
    }

    fn random_texts(&mut self, alphabet: &Alphabet, times: usize, lent: &Lent) {
        for _ in 0..times {
            let n = texts::length(&mut self.random);
            let text = alphabet.text(&mut self.random, n);
            let threshold = texts::threshold(&mut self.random);
            self.accepted(&text, threshold, lent);
        }
    }

    // Each length at and beside a boundary, with a threshold that is never reached and with others.
    fn lengths(&mut self, alphabet: &Alphabet, times: usize, lent: &Lent) {
        for _ in 0..times {
            for n in BOUNDARIES {
                let text = alphabet.text(&mut self.random, n);
                let threshold = texts::threshold(&mut self.random);
                self.accepted(&text, Some(1000.0), lent);
                self.accepted(&text, threshold, lent);
            }
        }
    }

    fn longest(&mut self, alphabet: &Alphabet, times: usize, classes: &[u8], pairs: &[u8]) {
        for _ in 0..times {
            for n in LONGEST_TEXT - 1..=LONGEST_TEXT + 1 {
                let text = alphabet.text(&mut self.random, n);
                let lent = Lent::new(classes, pairs);
                if n > LONGEST_TEXT { self.scored(&text, Some(1000.0), classes, pairs) } else { self.accepted(&text, Some(1000.0), &lent) }
            }
        }
    }

    // The threshold at the sum of a checkpoint, and the floats beside it.
    fn at_a_checkpoint(&mut self, alphabet: &Alphabet, times: usize, lent: &Lent) {
        for _ in 0..times {
            let n = 31 + self.random.below(1200);
            let text = alphabet.text(&mut self.random, n);
            let period = edges::period(n);
            let checkpoints = (n + 1) / period;
            if checkpoints == 0 {
                continue;
            }
            let sum = sum_after(&text, period * (1 + self.random.below(checkpoints)));
            for threshold in [sum, sum.next_up(), sum.next_down()] {
                self.accepted(&text, Some(threshold), lent);
            }
        }
    }

    // Random good class tables and pair tables, lent to both sides, and the same tables damaged.
    fn lent_tables(&mut self, times: usize, texts: usize) {
        for _ in 0..times {
            let most = [3, 40, 300][self.random.below(3)];
            let records = tables::random_records(&mut self.random, most);
            let (classes, pairs) = (tables::bytes(&records), tables::random_pairs(&mut self.random));
            LENT.with_borrow_mut(|l| {
                l.classes = Some(tables::for_oracle(&records));
                l.pairs = Some(pairs.clone());
            });
            let alphabet = Alphabet::new(&records);
            let lent = Lent::new(&classes, &pairs);
            self.random_texts(&alphabet, texts, &lent);
            if !lent.whole() {
                self.fail(|| "a lent table was changed".into());
            }
            self.checked(&classes);
            for _ in 0..8 {
                let mut bad = records.clone();
                for _ in 0..1 + self.random.below(2) {
                    tables::damage(&mut self.random, &mut bad);
                }
                let n = self.random.below(4);
                let text = alphabet.text(&mut self.random, n);
                let bad = tables::bytes(&bad);
                self.checked(&bad);
                if causes::classes_fault(&bad).is_some() {
                    self.scored(&text, None, &bad, &pairs);
                }
            }
            LENT.with_borrow_mut(|l| *l = oracle::open::Lent::default());
        }
    }

    // Every set of causes of scoring at once: 1, 4, 5, 7, 6, in all 32 sets.
    fn causes_of_scoring(&mut self, times: usize, classes: &[u8], pairs: &[u8]) {
        let real = tables::records(classes);
        for set in (0..times).flat_map(|_| 0..32) {
            let has = |n: usize| set >> n & 1 == 1;
            let n = if has(0) { LONGEST_TEXT + 1 + self.random.below(3) } else { self.random.below(60) };
            let mut text: Vec<u32> = (0..n).map(|_| self.random.below(0x250) as u32).collect();
            if has(4) {
                let at = self.random.below(text.len() + 1);
                text.insert(at, *self.random.pick(&[0xD800, 0xDFFF, 0x110000, u32::MAX, 0xDABC]));
            }
            let threshold = match has(1) {
                true => Some(*self.random.pick(&[f32::NAN, -f32::NAN, f32::INFINITY, f32::NEG_INFINITY, f32::from_bits(0x7F80_0001)])),
                false => texts::threshold(&mut self.random),
            };
            let bad_classes = self.bad_classes(&real);
            let wrong = [0, 1, PAIR_BYTES - 1, PAIR_BYTES + 1, 2 * PAIR_BYTES][self.random.below(5)];
            let bad_pairs = vec![0; wrong];
            self.scored(&text, threshold, if has(2) { &bad_classes } else { classes }, if has(3) { &bad_pairs } else { pairs });
        }
    }

    // A class table of a wrong length, of too many records, or with a bad record.
    fn bad_classes(&mut self, real: &[Record]) -> Vec<u8> {
        match self.random.below(4) {
            0 => {
                let mut bytes = tables::bytes(&real[..3]);
                bytes.truncate(72 - 1 - self.random.below(23));
                bytes
            }
            1 => {
                let one = |i: u32| Record { first: 0x10000 + i, last: 0x10000 + i, flags: 0, range: 0, zero: 0, base: 0, lower: 0 };
                tables::bytes(&(0..8193).map(one).collect::<Vec<_>>())
            }
            _ => {
                let mut some = real[..1 + self.random.below(200)].to_vec();
                while causes::classes_fault(&tables::bytes(&some)).is_none() {
                    tables::damage(&mut self.random, &mut some);
                }
                tables::bytes(&some)
            }
        }
    }

    // The bytes of a text of n characters, in some cases damaged.
    fn bytes_of_text(&mut self, alphabet: &Alphabet, n: usize) -> Vec<u8> {
        let text: String = chars(&alphabet.text(&mut self.random, n)).iter().collect();
        let mut bytes = text.into_bytes();
        for _ in 0..self.random.below(4).saturating_sub(1) {
            let at = self.random.below(bytes.len() + 1);
            match self.random.below(3) {
                0 => bytes.truncate(at),
                1 => bytes.insert(at, self.random.next() as u8),
                _ => bytes.splice(at..at, *self.random.pick(&ILL_FORMED)).for_each(drop),
            }
        }
        bytes
    }

    // Bytes scored in one call: lengths on both sides of the rooms that the text goes through, thresholds, tables and damage of every kind.
    fn bytes_scored(&mut self, alphabet: &Alphabet, times: usize, classes: &[u8], pairs: &[u8]) {
        let real = tables::records(classes);
        for at in 0..times {
            let n = if at % 40 == 0 { *self.random.pick(&ROOMS) } else { texts::length(&mut self.random) };
            let bytes = self.bytes_of_text(alphabet, n);
            let threshold = if at % 16 == 1 { Some(f32::NAN) } else { texts::threshold(&mut self.random) };
            let bad = self.bad_classes(&real);
            let few = if at % 5 == 0 { &real[..self.random.below(2000)] } else { &real[..] };
            let classes = if at % 9 == 0 { bad } else { tables::bytes(few) };
            self.scored_utf8(&bytes, threshold, &classes, if at % 11 == 0 { &pairs[1..] } else { pairs });
        }
        for bytes in [vec![b'a'; LONGEST_TEXT + 1], vec![b'a'; LONGEST_BYTES + 1], vec![0xFF; LONGEST_BYTES + 1], vec![b'a'; LONGEST_TEXT]]
        {
            self.scored_utf8(&bytes, None, classes, pairs);
        }
    }

    // Reading: texts of every script, bytes damaged, and every set of its causes.
    fn reading(&mut self, alphabet: &Alphabet, times: usize) {
        for _ in 0..times {
            let n = self.random.below(90);
            let bytes = self.bytes_of_text(alphabet, n);
            let room = [n, n.saturating_sub(1), n + self.random.below(9), self.random.below(99)][self.random.below(4)];
            self.read(&bytes, room);
        }
        for set in 0..16 {
            let has = |n: usize| set >> n & 1 == 1;
            let n = if has(0) {
                LONGEST_BYTES + 1
            } else if has(2) {
                LONGEST_TEXT + 1
            } else {
                40
            };
            // where only the bytes are too many, each code point takes four of them
            let mut bytes = if has(0) && !has(2) { "\u{10348}".repeat(LONGEST_TEXT).into_bytes() } else { vec![b'a'; n] };
            if has(0) && !has(2) {
                bytes.push(b'a');
            }
            if has(1) {
                let at = self.random.below(bytes.len());
                bytes[at] = 0xFF;
            }
            self.read(&bytes, if has(3) { 3 } else { LONGEST_BYTES + 9 });
        }
        for n in LONGEST_TEXT - 1..=LONGEST_TEXT + 1 {
            self.read("é".repeat(n).as_bytes(), LONGEST_TEXT);
        }
        self.read("\u{10348}".repeat(LONGEST_TEXT).as_bytes(), LONGEST_TEXT);
    }

    // Verdicts on two texts, alike, alike but for newlines, or not; and every set of causes in either.
    fn verdicts(&mut self, alphabet: &Alphabet, shelves: &Shelves, times: usize, classes: &[u8], pairs: &[u8]) {
        let real = tables::records(classes);
        for at in 0..times {
            let (n, m) = (texts::length(&mut self.random), texts::length(&mut self.random));
            let (mut first, mut second) = (alphabet.text(&mut self.random, n), alphabet.text(&mut self.random, m));
            match at % 4 {
                0 => second = first.clone(),
                // aimed texts, whose sums are often near to one another, and fall as letters follow
                1 => {
                    first = self.random.pick(&AIMS)(&mut self.random, shelves);
                    second = first.clone();
                    second.extend(vec![0x61; self.random.below(60)]);
                }
                2 => (first, second) = (aimed::long(&mut self.random, shelves, n), aimed::long(&mut self.random, shelves, m)),
                _ => {}
            }
            first.extend(vec![0x0A; self.random.below(3)]);
            second.extend(vec![0x0A; self.random.below(3)]);
            self.judged(&first, &second, classes, pairs);
        }
        for set in (0..times.div_ceil(100)).flat_map(|_| 0..64) {
            let has = |n: usize| set >> n & 1 == 1;
            let mut texts = [vec![], vec![]];
            for (i, text) in texts.iter_mut().enumerate() {
                text.resize(if has(2 * i) { LONGEST_TEXT + 1 } else { 5 }, 0x61);
                if has(2 * i + 1) {
                    let at = self.random.below(5);
                    text[at] = 0xD900;
                }
            }
            let bad = self.bad_classes(&real);
            let short = [0u8; 7];
            self.judged(&texts[0], &texts[1], if has(4) { &bad } else { classes }, if has(5) { &short } else { pairs });
        }
    }

    // Scores of texts: what is aimed first, what is drawn or counted out after it.
    fn scoring(&mut self, classes: &[u8], pairs: &[u8], languages: &[u8]) {
        let (records, classes) = (tables::records(classes), &classes);
        let (alphabet, shelves) = (&Alphabet::new(&records), &Shelves::new(&records, pairs));
        let kept: Vec<Record> =
            records.iter().filter(|r| r.last >= BUILTIN_END && alphabet.representatives.contains(&r.first)).copied().collect();
        let (real, small) = (&Lent::new(classes, pairs), &Lent::new(&tables::bytes(&kept), pairs));
        eprintln!("{} flag words, {} records, {} kept for short texts", alphabet.representatives.len(), records.len(), kept.len());
        self.during("cut-offs and limits", |run| run.aimed_texts(run.times(500, 10_000), shelves, real));
        self.during("cut-offs and limits, lent tables", |run| run.aimed_lent(run.times(200, 4_000)));
        self.during("periods", |run| run.aimed_periods(run.times(30, 600), shelves, real));
        self.during("runs", |run| run.aimed_runs(run.times(30, 600), shelves, real));
        self.during("rests of stopped texts", |run| run.aimed_rests(run.times(30, 600), pairs));
        self.during("two thresholds", |run| run.two_thresholds(alphabet, run.times(3_000, 60_000), real));
        self.during("the default threshold", |run| run.aimed_default(run.times(70, 700), real));
        self.during("texts in real languages", |run| run.in_languages(run.times(600, 10_000), &records, languages, real));
        self.during("lengths", |run| run.lengths(alphabet, run.times(40, 500), real));
        self.during("words and gaps", |run| run.words_and_gaps(run.times(500, 10_000), real));
        self.during("longest texts", |run| run.longest(alphabet, run.times(3, 20), classes, pairs));
        self.during("thresholds at a checkpoint", |run| run.at_a_checkpoint(alphabet, run.times(1_000, 20_000), real));
        self.during("lent tables", |run| run.lent_tables(run.times(60, 1_000), 60));
        self.during("texts of every script", |run| run.random_texts(alphabet, run.times(10_000, 100_000), real));
        self.during("short texts, all tables", |run| run.short_texts(&alphabet.representatives, run.times(2, 3) as u32, real));
        self.during("short texts, their own records", |run| {
            run.short_texts(&alphabet.representatives, run.times(3, 4) as u32, small);
            if !real.whole() || !small.whole() {
                run.fail(|| "a lent table was changed".into());
            }
        });
        eprintln!("texts with a ratio that is not 0, by ratio: {:?}; that was cut off: {:?}", self.met, self.cut);
        if self.survey == 0 && self.met.contains(&0) {
            self.fail(|| "a ratio was 0 throughout".into());
        }
        // unprintables, doubled accents and archaic case have no cut-off
        if self.survey == 0 && (0..8).any(|at| (self.cut[at] == 0) != [2, 4, 7].contains(&at)) {
            self.fail(|| "a cut-off was never met, or one that is none".into());
        }
    }

    // Bytes, class tables, causes of refusal, verdicts, many lines, and the Rust package's own part.
    fn reading_and_choosing(&mut self, classes: &[u8], pairs: &[u8]) {
        let records = tables::records(classes);
        let (alphabet, shelves) = (&Alphabet::new(&records), &Shelves::new(&records, pairs));
        self.during("edges of class tables", |run| run.aimed_tables(run.times(2_000, 40_000), pairs));
        self.during("class tables beside a good one", |run| run.nearly_good(run.times(20_000, 400_000)));
        self.during("bytes at each bound", |run| run.aimed_bytes());
        self.during("longest texts with each cause", |run| run.aimed_lengths(classes, pairs));
        self.during("causes of scoring", |run| run.causes_of_scoring(run.times(20, 400), classes, pairs));
        self.during("reading", |run| run.reading(alphabet, run.times(40_000, 1_000_000)));
        self.during("bytes scored in one call", |run| run.bytes_scored(alphabet, run.times(2_000, 30_000), classes, pairs));
        self.during("verdicts", |run| run.verdicts(alphabet, shelves, run.times(1_000, 10_000), classes, pairs));
        self.during("the Rust package's lines and choices", |run| run.package(alphabet, run.times(500, 10_000), classes, pairs));
        self.during("causes of many lines", |run| run.causes_of_bursts(run.times(2, 20), classes, pairs));
        self.during("many lines in one call", |run| run.bursts(alphabet, run.times(1_000, 20_000), classes, pairs));
    }
}

fn main() {
    let words: Vec<String> = std::env::args().skip(1).collect();
    let number = |seed: &str| seed.parse().expect("a seed is a whole number");
    let (full, survey, dir, seed, part) = match words.iter().map(String::as_str).collect::<Vec<_>>()[..] {
        [how @ ("quick" | "full" | "survey-once" | "survey-twice"), dir, ref more @ ..] if more.len() < 3 => {
            let survey = ["survey-once", "survey-twice"].iter().position(|word| *word == how).map_or(0, |at| at + 1);
            (how == "full", survey, dir, more.first().map_or(SEED, |seed| number(seed)), more.get(1).copied())
        }
        _ => {
            eprintln!(
                "usage: differential quick|full|survey-once|survey-twice TABLES [SEED [scoring|reading|pages|writing|coherence|merges|reasons|reports|rings|running|compact]]"
            );
            std::process::exit(2)
        }
    };
    let table = |name: &str| std::fs::read(format!("{dir}/{name}.bin")).unwrap_or_else(|e| panic!("{dir}/{name}.bin: {e}"));
    let (classes, pairs, languages) = (table("classes"), table("pairs"), table("languages"));
    let coherence = coherence::Tally::default();
    let mut run = Run {
        seed,
        full,
        cases: 0,
        refused: 0,
        stopped: 0,
        met: [0; 8],
        cut: [0; 8],
        reasons: [0; 9],
        newlines: 0,
        coherence,
        random: Random::new(seed),
        part: "",
        phase: "",
        began: 0,
        survey,
        found: 0,
    };
    let started = Instant::now();
    walls::watch();
    eprintln!("seed {seed}, over {}", env!("LIBRARY"));
    for name in
        ["scoring", "reading", "pages", "writing", "coherence", "merges", "reasons", "reports", "rings", "running", "compact"].into_iter().filter(|name| part.is_none_or(|part| part == *name))
    {
        run.part = name;
        match name {
            "scoring" => run.scoring(&classes, &pairs, &languages),
            "reading" => run.reading_and_choosing(&classes, &pairs),
            "pages" => run.code_pages(dir),
            "writing" => run.all_writing(&classes),
            "coherence" => run.coherence(&classes, &pairs, &languages),
            "merges" => run.all_merges(),
            "reasons" => run.all_reasons(&classes, &pairs),
            "reports" => run.all_reports(&classes, &pairs),
            "rings" => run.all_rings(),
            "running" => run.all_running(&classes, &pairs),
            _ => run.all_compact(&classes, &pairs),
        }
    }
    if survey > 0 {
        println!("survey: {} cases, found in {} phases", run.cases, run.found);
        std::process::exit((run.found > 0) as i32);
    }
    run.ended(started);
}
