// The ranking of languages, compared as the scores are: number, place, count, every language and every bit of a score, the work area, the
// list of matches and every lent byte. What is accepted is answered by the oracle, with the crate's own tables or with lent ones; what is
// refused, which the oracle never does, by coherence/causes.rs.
mod aimed;
mod causes;
pub mod host;
mod languages;
mod texts;

use crate::library::{BYTE, Guarded, WORD};
use crate::tables::{self, PAIR_BYTES};
use crate::texts::Alphabet;
use crate::{Run, chars, hex, smallest};
use causes::{DOT_ABOVE, DOTTED_I, WORK_PER_POINT};
use host::{CoherenceMatch, HostRanking, Question};
use languages::Record;
use oracle::open::{LENT, Lent};
use texts::{LONGEST, Letters};

const CRATES_SMALL: u32 = 32;
const MOST_TRIES: usize = 3_000; // shorter texts that are tried once a difference is found
const ASTRAY: [u32; 5] = [0xD800, 0xDFFF, 0x110000, u32::MAX, 0xDABC];
const NOT_FINITE: [u32; 5] = [0x7FC0_0000, 0xFFC0_0000, 0x7F80_0000, 0xFF80_0000, 0x7F80_0001];

#[derive(Default)]
pub struct Tally {
    pub cases: u64,
    refused: u64,
    matches: u64,
}

impl std::fmt::Display for Tally {
    fn fmt(&self, f: &mut std::fmt::Formatter<'_>) -> std::fmt::Result {
        write!(f, "{} rankings, {} of them refused, {} matches", self.cases, self.refused, self.matches)
    }
}

// The tables that are lent to the library, over and over, and what the oracle is lent in their place.
struct Tables {
    classes: Guarded<u8>,
    pairs: Guarded<u8>,
    languages: Guarded<u8>,
    numbers: Vec<u32>,
    oracle: Option<Lent>, // nothing: the oracle answers from the crate's own data
}

impl Tables {
    // Tables that the oracle is not asked about, or that are made from the crate.
    fn new(classes: &[u8], pairs: &[u8], languages: &[u8]) -> Tables {
        let guarded = |bytes: &[u8]| Guarded::new(bytes, BYTE);
        Tables { classes: guarded(classes), pairs: guarded(pairs), languages: guarded(languages), numbers: vec![], oracle: None }
    }

    // Tables that are lent to the oracle too.
    fn lent(classes: &[tables::Record], pairs: &[u8], languages: &[Record]) -> Tables {
        let oracle = Lent {
            classes: Some(tables::for_oracle(classes)),
            pairs: Some(pairs.to_vec()),
            languages: Some(languages::for_oracle(languages)),
            ..Lent::default()
        };
        let numbers = languages.iter().map(|record| record.number).collect();
        Tables { numbers, oracle: Some(oracle), ..Tables::new(&tables::bytes(classes), pairs, &languages::bytes(languages)) }
    }

    fn whole(&self) -> bool {
        self.classes.whole() && self.pairs.whole() && self.languages.whole()
    }

    fn lend(&self) {
        LENT.with_borrow_mut(|lent| *lent = self.oracle.clone().unwrap_or_default());
    }

    fn records(&self) -> usize {
        self.languages.list().len() / 1_032
    }
}

// Text, threshold, small and included numbers of a case.
struct Case {
    text: Vec<u32>,
    threshold: Option<f32>,
    small: u32,
    included: Vec<u32>,
}

impl Case {
    fn question<'a>(&'a self, tables: &'a Tables) -> Question<'a> {
        Question {
            text: &self.text,
            threshold: self.threshold,
            small: self.small,
            classes: tables.classes.list(),
            pairs: tables.pairs.list(),
            languages: tables.languages.list(),
            included: &self.included,
        }
    }
}

// What a call answered and what it left.
#[derive(PartialEq)]
struct Outcome {
    told: HostRanking,
    work: Vec<u32>,
    matches: Vec<CoherenceMatch>,
    untouched: bool, // all that the call may not write, the canaries among it
}

impl Outcome {
    fn shown(&self) -> String {
        let zero = self.work.iter().take_while(|word| **word == 0).count();
        let first = &self.matches[..self.matches.len().min(self.told.count as usize + 1)];
        format!(
            "{:?}, {} words of work area, {zero} of 0 at the front, matches {first:?}, others untouched: {}",
            self.told,
            self.work.len(),
            self.untouched
        )
    }
}

fn oracle_ranking(q: &Question) -> Vec<CoherenceMatch> {
    let own = LENT.with_borrow_mut(|lent| {
        lent.small = lent.classes.is_some().then_some(q.small as usize);
        lent.small.is_none()
    });
    assert!(!own || q.small == CRATES_SMALL, "the crate's own tables go with its own small");
    let found = oracle::open::coherence(&chars(q.text), q.threshold, q.included).expect("a ranking");
    found.into_iter().map(|(language, score)| CoherenceMatch { language, score }).collect()
}

// What 01 says of a call, given what the work area and the list held before.
fn expected(q: &Question, work: &[u32], matches: &[CoherenceMatch]) -> Outcome {
    let (mut work, mut matches) = (work.to_vec(), matches.to_vec());
    let told = match causes::refusal(q, work.len(), matches.len()) {
        Some((number, place)) => HostRanking { number, place, count: 0 },
        None => {
            let ranking = oracle_ranking(q);
            work.iter_mut().take(WORK_PER_POINT * q.text.len()).for_each(|word| *word = 0);
            matches[..ranking.len()].copy_from_slice(&ranking);
            HostRanking { number: 0, place: 0, count: ranking.len() as u32 }
        }
    };
    Outcome { told, work, matches, untouched: true }
}

fn called(q: &Question, work: &[u32], matches: &[CoherenceMatch]) -> Outcome {
    let canary = CoherenceMatch { language: WORD, score: f32::from_bits(!WORD) };
    let (text, included) = (Guarded::new(q.text, WORD), Guarded::new(q.included, WORD));
    let (mut work, mut matches) = (Guarded::new(work, WORD), Guarded::new(matches, canary));
    let lent = Question { text: text.list(), included: included.list(), ..*q };
    let told = host::coherence(&lent, work.list_mut(), matches.list_mut());
    let untouched = text.whole() && included.whole() && work.holds(work.list()) && matches.holds(matches.list());
    Outcome { told, work: work.list().to_vec(), matches: matches.list().to_vec(), untouched }
}

// The smallest text found that the library and 01 still differ on, with both answers.
fn difference(q: &Question, tables: &Tables, work: &[u32], matches: &[CoherenceMatch]) -> String {
    let of = |text: &[u32]| {
        let q = Question { text, ..*q };
        (called(&q, work, matches), expected(&q, work, matches))
    };
    let tries = std::cell::Cell::new(0);
    let small = smallest(q.text, |text| {
        tries.set(tries.get() + 1);
        tries.get() <= MOST_TRIES && {
            let (told, should) = of(text);
            told != should
        }
    });
    let (told, should) = of(&small);
    format!(
        "threshold {:?}, small {}, included {:?}, {} tables of {} class and {} language records, text of {}: {}\nlibrary  {}\nexpected {}",
        q.threshold,
        q.small,
        q.included,
        if tables.oracle.is_none() { "the crate's or bad" } else { "lent" },
        tables.classes.list().len() / 24,
        tables.records(),
        small.len(),
        hex(&small[..small.len().min(400)]),
        told.shown(),
        should.shown()
    )
}

impl Run {
    // One call, accepted or refused, with a work area and a list of the given lengths that hold anything.
    fn ranked(&mut self, case: &Case, tables: &Tables, work: usize, matches: usize) {
        self.counted();
        let r = &mut self.random;
        let work: Vec<u32> = (0..work).map(|_| r.next() as u32).collect();
        let matches: Vec<CoherenceMatch> =
            (0..matches).map(|_| CoherenceMatch { language: r.next() as u32, score: f32::from_bits(r.next() as u32) }).collect();
        let question = case.question(tables);
        let (told, should) = (called(&question, &work, &matches), expected(&question, &work, &matches));
        self.coherence.cases += 1;
        self.coherence.refused += (should.told.number != 0) as u64;
        self.coherence.matches += should.told.count as u64;
        self.refused += (should.told.number != 0) as u64;
        if told != should {
            self.fail(|| difference(&question, tables, &work, &matches));
        }
        if !tables.whole() {
            self.fail(|| format!("a table was changed by text {}", hex(&case.text[..case.text.len().min(100)])));
        }
    }

    // The same with a work area and a list that are just long enough, or longer.
    fn accepted_ranking(&mut self, case: &Case, tables: &Tables) {
        let (more_work, more_matches) = (self.random.below(3) * self.random.below(9), self.random.below(3));
        self.ranked(case, tables, WORK_PER_POINT * case.text.len() + more_work, tables.records() + more_matches);
    }

    // The threshold at one of a ranking's scores, and the floats beside it.
    fn at_a_score(&mut self, case: &mut Case, tables: &Tables) {
        case.threshold = Some(-1.0);
        if causes::refusal(&case.question(tables), usize::MAX, usize::MAX).is_some() {
            return;
        }
        let scores: Vec<f32> = oracle_ranking(&case.question(tables)).iter().map(|m| m.score).collect();
        if scores.is_empty() {
            return;
        }
        let score = *self.random.pick(&scores);
        for threshold in [score, score.next_up(), score.next_down()] {
            case.threshold = Some(threshold);
            self.accepted_ranking(case, tables);
        }
    }

    // `small` at and beside a layer's number of letters, or any.
    fn small(&mut self, text: &[u32]) -> u32 {
        let known: String = text.iter().filter_map(|p| char::from_u32(*p)).collect();
        match self.random.below(10) {
            0 => *self.random.pick(&[u32::MAX, 0x1_0000, 0x8000_0000]),
            1 => self.random.below(100) as u32,
            2..=4 => {
                let layers = oracle::cd::alpha_unicode_split(&known);
                let letters = if layers.is_empty() { 0 } else { self.random.pick(&layers).chars().count() };
                (letters + self.random.below(3)).saturating_sub(1) as u32
            }
            _ => [0, CRATES_SMALL, self.random.below(6) as u32][self.random.below(3)],
        }
    }

    // Now and then some of a text's i become U+0130, each or every one.
    fn dot(&mut self, text: &mut [u32]) {
        let of = self.random.below(4);
        for p in text.iter_mut().filter(|p| matches!(**p, 0x49 | 0x69)) {
            if of == 0 || of == 1 && self.random.below(3) == 0 {
                *p = DOTTED_I;
            }
        }
    }

    // Texts in the crate's languages and of every script, U+0130 among them, with the crate's own tables and small.
    fn crates_tables(&mut self, times: usize, tables: &Tables, letters: &Letters, alphabet: &Alphabet, alphabets: &[Vec<u32>]) {
        for at in 0..times {
            let n = texts::length(&mut self.random);
            let mut text = if at % 4 == 0 { alphabet.text(&mut self.random, n) } else { letters.text(&mut self.random, alphabets, n) };
            self.dot(&mut text);
            let threshold = texts::threshold(&mut self.random);
            let included = texts::included(&mut self.random, &tables.numbers);
            let mut case = Case { text, threshold, small: CRATES_SMALL, included };
            self.accepted_ranking(&case, tables);
            if at % 3 == 0 {
                self.at_a_score(&mut case, tables);
            }
        }
    }

    // The same by the Rust package, of code points, of a str or of bytes, with the tables that it carries.
    fn by_the_package(&mut self, times: usize, tables: &Tables, letters: &Letters, alphabets: &[Vec<u32>]) {
        let (own, languages) = (drasumira::Tables::full(), drasumira::Languages::full());
        for at in 0..times {
            self.counted();
            let n = texts::length(&mut self.random) + if at % 50 == 0 { LONGEST } else { 0 };
            let mut text = letters.text(&mut self.random, alphabets, n);
            self.dot(&mut text);
            let threshold = if at % 9 == 0 { Some(f32::NAN) } else { texts::threshold(&mut self.random) };
            let included = self.included_or_not(at % 7 == 0, &tables.numbers);
            let case = Case { text, threshold, small: CRATES_SMALL, included };
            let question = case.question(tables);
            let should = match causes::refusal(&question, usize::MAX, usize::MAX) {
                Some((number, place)) => Err((number, place)),
                None => Ok(oracle_ranking(&question)),
            };
            let letters = chars(&case.text);
            let string: String = letters.iter().collect();
            let text: drasumira::Text = [(&letters[..]).into(), string.as_str().into(), string.as_bytes().into()][at % 3];
            let told = drasumira::coherence(text, threshold, CRATES_SMALL, &own, &languages, &case.included);
            let told = told
                .map(|found| found.into_iter().map(|m| CoherenceMatch { language: m.language, score: m.score }).collect::<Vec<_>>())
                .map_err(|refusal| (refusal.number, refusal.place));
            self.coherence.cases += 1;
            self.coherence.refused += should.is_err() as u64;
            self.refused += should.is_err() as u64;
            if told != should {
                let shown = hex(&case.text[..case.text.len().min(400)]);
                self.fail(|| {
                    format!("threshold {threshold:?}, included {:?}, text {shown}\npackage  {told:?}\nexpected {should:?}", case.included)
                });
            }
        }
    }

    // The same tables lent to the oracle, with any small, and more U+0130 among the letters.
    fn crates_tables_lent(&mut self, times: usize, tables: &Tables, letters: &Letters, alphabet: &Alphabet, alphabets: &[Vec<u32>]) {
        for at in 0..times {
            let n = texts::length(&mut self.random);
            let mut text = if at % 4 == 0 { alphabet.text(&mut self.random, n) } else { letters.text(&mut self.random, alphabets, n) };
            if at % 2 == 0 {
                text.iter_mut().filter(|p| matches!(**p, 0x49 | 0x69)).for_each(|p| *p = DOTTED_I);
            }
            let threshold = texts::threshold(&mut self.random);
            let included = texts::included(&mut self.random, &tables.numbers);
            let small = self.small(&text);
            self.accepted_ranking(&Case { text, threshold, small, included }, tables);
        }
    }

    // Random good tables of all three kinds, lent to both sides.
    fn lent_to_both(&mut self, times: usize, texts_each: usize) {
        for _ in 0..times {
            let classes = texts::random_classes(&mut self.random);
            let pairs = tables::random_pairs(&mut self.random);
            let letters = Letters::new(&classes);
            let alphabet = Alphabet::new(&classes);
            let alphabets: Vec<Vec<u32>> = (0..1 + self.random.below(4)).map(|_| letters.alphabet(&mut self.random)).collect();
            let languages = languages::random(&mut self.random, &alphabets, &letters.all);
            let tables = Tables::lent(&classes, &pairs, &languages);
            tables.lend();
            for at in 0..texts_each {
                let n = [0, self.random.below(40), self.random.below(400), self.random.below(400)][self.random.below(4)];
                let text = if at % 5 == 0 { alphabet.text(&mut self.random, n) } else { letters.text(&mut self.random, &alphabets, n) };
                let threshold = texts::threshold(&mut self.random);
                let included = texts::included(&mut self.random, &tables.numbers);
                let small = self.small_of_lent(&text, &tables);
                let mut case = Case { text, threshold, small, included };
                self.accepted_ranking(&case, &tables);
                if at % 4 == 0 {
                    self.at_a_score(&mut case, &tables);
                }
            }
        }
    }

    // `small` where a character may have no class, so that the oracle cannot be asked for the layers.
    fn small_of_lent(&mut self, text: &[u32], tables: &Tables) -> u32 {
        let q = Case { text: text.to_vec(), threshold: None, small: 0, included: vec![] };
        let whole = causes::refusal(&q.question(tables), usize::MAX, usize::MAX).is_none();
        self.small(if whole { text } else { &[] })
    }

    // Texts as long as they may be, one longer, of one letter, of as many different ones, and of as many layers as there are ranges.
    fn long_texts(&mut self, times: usize, tables: &Tables, alphabet: &Alphabet, letters: &Letters, alphabets: &[Vec<u32>]) {
        for n in (0..times).flat_map(|_| LONGEST - 1..=LONGEST + 1) {
            let mut text = match self.random.below(4) {
                0 => alphabet.text(&mut self.random, n),
                1 => vec![*self.random.pick(&letters.all); n],
                2 => letters.all.iter().copied().cycle().skip(self.random.below(letters.all.len())).take(n).collect(),
                _ => letters.text(&mut self.random, alphabets, n),
            };
            self.dot(&mut text);
            let threshold = texts::threshold(&mut self.random);
            let included = texts::included(&mut self.random, &tables.numbers);
            self.accepted_ranking(&Case { text, threshold, small: CRATES_SMALL, included }, tables);
        }
    }

    // As many layers as there can be: every range suspicious to every other, each with some letters.
    fn many_layers(&mut self, times: usize) {
        for at in 0..times {
            let one = |i: u32| tables::Record {
                first: 0x3400 + 20 * i,
                last: 0x3413 + 20 * i,
                flags: 1 << 24,
                range: 1 + i as u16,
                zero: 0,
                base: 0,
                lower: 0,
            };
            let classes: Vec<tables::Record> = (0..511).map(one).collect();
            let pairs = vec![[0xFF, 0xFE, 0x7F][at % 3]; PAIR_BYTES];
            let letters = Letters::new(&classes);
            let alphabets: Vec<Vec<u32>> = classes.iter().map(|c| (c.first..=c.last).collect()).collect();
            let languages = languages::random(&mut self.random, &alphabets, &letters.all);
            let tables = Tables::lent(&classes, &pairs, &languages);
            tables.lend();
            let n = LONGEST - self.random.below(3) * self.random.below(LONGEST / 2);
            let text: Vec<u32> = (0..n).map(|_| 0x3400 + self.random.below(20 * 511) as u32).collect();
            let included = texts::included(&mut self.random, &tables.numbers);
            let small = self.random.below(18) as u32;
            let threshold = texts::threshold(&mut self.random);
            self.accepted_ranking(&Case { text, threshold, small, included }, &tables);
        }
    }

    // Scores of just 0.8, and above and below it, in several layers: a layer of `a` letters, each once, against a record of `b` of which the
    // first `m` are the layer's first measures (m/a + m/b + 1)/3. With the first two swapped and no other it comes below 0.2.
    fn sufficient_scores(&mut self, times: usize) {
        let pairs = {
            let mut pairs = vec![0xFF; PAIR_BYTES];
            (0..512).for_each(|range: usize| pairs[64 * range + range / 8] &= !(1 << (range % 8)));
            pairs
        };
        let range = |i: u32| tables::Record {
            first: 0x3400 + 64 * i,
            last: 0x343F + 64 * i,
            flags: 1 << 24,
            range: 9 + i as u16,
            zero: 0,
            base: 0,
            lower: 0,
        };
        let classes: Vec<tables::Record> = (0..4).map(range).collect();
        for _ in 0..times {
            let (mut text, mut languages) = (vec![], vec![]);
            for class in &classes[..1 + self.random.below(4)] {
                let a = *self.random.pick(&[5, 10, 14, 15, 20, 21, 28, 30, 35, 40, 42]);
                text.extend(class.first..class.first + a);
                let at_the_edge: Vec<(u32, u32)> =
                    (1..=60).flat_map(|b| (1..=a.min(b)).map(move |m| (b, m))).filter(|(b, m)| 5 * m * (a + b) == 7 * a * b).collect();
                for _ in 0..self.random.below(6) {
                    let b = 1 + self.random.below(60) as u32;
                    let (b, m) = match self.random.below(6) {
                        0 => (b, 1 + self.random.below(a.min(b) as usize) as u32),
                        1 => (a + self.random.below(6) as u32, a),
                        2 => (60, 2),
                        _ if at_the_edge.is_empty() => (b, 1),
                        _ => *self.random.pick(&at_the_edge),
                    };
                    let mut letters: Vec<u32> = (class.first..class.first + m).chain(0x2000..0x2000 + b - m).collect();
                    if (b, m) == (60, 2) {
                        letters.swap(0, 1);
                    }
                    languages.push(Record { number: 1 + self.random.below(30) as u32, marks: 3, letters });
                }
            }
            texts::shuffle(&mut self.random, &mut languages);
            let tables = Tables::lent(&classes, &pairs, &languages);
            tables.lend();
            let included = texts::included(&mut self.random, &tables.numbers);
            let threshold = *self.random.pick(&[None, None, None, Some(0.8), Some(0.8f32.next_up()), Some(0.8f32.next_down()), Some(0.95)]);
            self.accepted_ranking(&Case { text, threshold, small: 0, included }, &tables);
        }
    }

    // Every set of the causes 1, 4, 5, 7, 8, 9, 3, 6, in all 256 sets, each cause in one of its kinds.
    fn causes_of_coherence(&mut self, times: usize, classes: &[u8], pairs: &[u8], records: &[Record]) {
        let real = tables::records(classes);
        let wrong = [0, 1, PAIR_BYTES - 1, PAIR_BYTES + 1, 2 * PAIR_BYTES].map(|n| vec![0; n]);
        for set in (0..times).flat_map(|_| 0..256) {
            let has = |n: usize| set >> n & 1 == 1;
            let few = if has(7) && self.random.below(2) == 0 { &real[..0] } else { &real[..self.random.below(300)] };
            let bad_classes = self.bad_classes(&real);
            let classes = if has(2) { bad_classes } else { tables::bytes(few) };
            let pairs = if has(3) { self.random.pick(&wrong) } else { pairs };
            let some = &records[..self.random.below(records.len() + 1)];
            let languages = if has(4) { languages::bad(&mut self.random, some) } else { languages::bytes(some) };
            let good = !(has(2) || has(3) || has(4));
            let tables = if good { Tables::lent(few, pairs, some) } else { Tables::new(&classes, pairs, &languages) };
            tables.lend();
            let n = if has(0) { LONGEST + 1 + self.random.below(3) } else { self.random.below(60) };
            let mut text: Vec<u32> = (0..n).map(|_| 0x20 + self.random.below(0x5F) as u32).collect();
            if has(7) {
                // in no record, or, with no record at all, lowered to a letter that is in none
                let lowered = few.is_empty() && self.random.below(2) == 0;
                let stray = *self.random.pick(if lowered { &[0x181, DOTTED_I] } else { &ASTRAY });
                let at = self.random.below(text.len() + 1);
                text.insert(at, stray);
            }
            let threshold = if has(1) { Some(f32::from_bits(*self.random.pick(&NOT_FINITE))) } else { texts::threshold(&mut self.random) };
            let included = self.included_or_not(has(5), &some.iter().map(|record| record.number).collect::<Vec<_>>());
            let (mut work, mut room) = (WORK_PER_POINT * text.len(), tables.records());
            if has(6) && work > 0 && (room == 0 || self.random.below(2) == 0) {
                work -= 1 + self.random.below(work.min(5 * text.len()));
            } else if has(6) {
                room = room.saturating_sub(1 + self.random.below(3));
            }
            self.ranked(&Case { text, threshold, small: CRATES_SMALL, included }, &tables, work, room);
        }
    }

    // The longest text and one more, with each other cause behind it.
    fn longest_rankings(&mut self, classes: &[u8], pairs: &[u8], own: &Tables) {
        let bad = [Tables::new(&classes[1..], pairs, own.languages.list()), Tables::new(classes, &pairs[1..], own.languages.list())];
        for n in [LONGEST, LONGEST + 1] {
            let case = |threshold| Case { text: vec![0x61; n], threshold, small: CRATES_SMALL, included: vec![] };
            self.accepted_ranking(&case(None), own);
            self.accepted_ranking(&case(Some(f32::NAN)), own);
            self.ranked(&case(None), own, WORK_PER_POINT * n - 1, own.records());
            self.ranked(&case(None), own, 4 * n, own.records());
            bad.iter().for_each(|tables| self.accepted_ranking(&case(None), tables));
        }
    }

    // Two or three characters of the kinds for which 6 is given, in each order, U+0130 beside a table without U+0307 among them.
    fn unclassed_of_both_kinds(&mut self, times: usize) {
        for _ in 0..times {
            let mut world = aimed::World::new(&mut self.random);
            if self.random.below(2) == 0 {
                world.classes.retain(|record| record.first != DOT_ABOVE);
            }
            let tables = Tables::lent(&world.classes, &world.pairs, &world.languages);
            tables.lend();
            let mut text = world.text;
            for _ in 0..2 + self.random.below(2) {
                let at = self.random.below(text.len() + 1);
                text.insert(at, if self.random.below(4) == 0 { DOTTED_I } else { *self.random.pick(&aimed::STRAYS) });
            }
            self.accepted_ranking(&Case { text, threshold: None, small: 0, included: vec![] }, &tables);
        }
    }

    // U+0130 (02 [4]): Turkish names; alone, so often that its letters, both counted, are at and beside `small`; as often as may be and once
    // more, with a work area that is just long enough, one word short, and of 4 words a character.
    fn capital_i(&mut self, times: usize, real: &Tables, lent: &Tables) {
        for at in 0..times {
            let n = texts::length(&mut self.random);
            let mut text = texts::turkish(&mut self.random, n);
            if at % 5 == 0 {
                texts::shuffle(&mut self.random, &mut text);
            }
            let threshold = texts::threshold(&mut self.random);
            let included = texts::included(&mut self.random, &real.numbers);
            let tables = if at % 2 == 0 { real } else { lent };
            tables.lend();
            let small = if at % 2 == 0 { CRATES_SMALL } else { self.small(&text) };
            let mut case = Case { text, threshold, small, included };
            self.accepted_ranking(&case, tables);
            if at % 4 == 0 {
                self.at_a_score(&mut case, tables);
            }
        }
        for n in [1, 2, 15, 16, 17, 18, LONGEST - 1, LONGEST, LONGEST + 1] {
            let case = |small| Case { text: vec![DOTTED_I; n], threshold: None, small, included: vec![] };
            real.lend();
            self.accepted_ranking(&case(CRATES_SMALL), real);
            self.ranked(&case(CRATES_SMALL), real, WORK_PER_POINT * n - 1, real.records());
            self.ranked(&case(CRATES_SMALL), real, 4 * n, real.records());
            lent.lend();
            for small in [0, n - 1, n, 2 * n - 1, 2 * n, 2 * n + 1] {
                self.accepted_ranking(&case(small as u32), lent);
            }
        }
    }

    // The same beside class tables that hold what is next to U+0307 and not itself, or nothing at all: 6 at the first U+0130.
    fn capital_i_without_the_dot(&mut self, times: usize, records: &[tables::Record], pairs: &[u8], languages: &[Record]) {
        for at in 0..times {
            let without = records.iter().flat_map(|record| {
                let (before, behind) = (record.last.min(DOT_ABOVE - 1), record.first.max(DOT_ABOVE + 1));
                [tables::Record { last: before, ..*record }, tables::Record { first: behind, ..*record }]
            });
            let good = |record: &tables::Record| record.first <= record.last;
            let classes: Vec<tables::Record> = if at % 3 == 0 { vec![] } else { without.filter(good).collect() };
            let tables = Tables::lent(&classes, pairs, languages);
            tables.lend();
            let n = 1 + self.random.below(60);
            let text = if at % 4 == 0 { vec![0x69; n] } else { texts::turkish(&mut self.random, n) };
            self.accepted_ranking(&Case { text, threshold: None, small: 0, included: vec![] }, &tables);
        }
    }

    // Language tables at the edges of each field, in the first record and in the second, and of 62 to 64 records.
    fn language_edges(&mut self, classes: &[u8], pairs: &[u8]) {
        let good = languages::bytes(&[Record { number: 1, marks: 0, letters: vec![0x61; 3] }]);
        let case = Case { text: vec![0x61; 40], threshold: None, small: CRATES_SMALL, included: vec![] };
        let mut all: Vec<Vec<u8>> = vec![vec![], good[1..].to_vec(), [&good[..], &[0]].concat()];
        for n in 62..=64 {
            all.push(good.repeat(n));
        }
        // number, count, marks, the fourth letter
        let counts = [0, 1, 2, 3, 4, 255, 256, 257, 0xFFFF];
        for ((number, count), (marks, letter)) in (0..2u32).flat_map(|number| counts.map(|count| (number, count))).flat_map(|one| {
            [0, 1, 2, 3, 4, 0x8000]
                .into_iter()
                .flat_map(move |marks| [0, 0x61, 0xD7FF, 0xD800, 0x110000].map(|letter| (one, (marks, letter))))
        }) {
            let words = [number, count | marks << 16].map(u32::to_le_bytes).concat();
            let record = [&words[..], &good[8..20], &u32::to_le_bytes(letter), &good[24..]].concat();
            let bare = [&words[..], &[0; 1_024]].concat();
            all.extend([record.clone(), bare, [&good[..], &record].concat()]);
        }
        // what a good one ranks is not asked here
        for languages in all {
            let tables = Tables::new(classes, pairs, &languages);
            let question = case.question(&tables);
            let (work, matches) = (vec![0; WORK_PER_POINT * case.text.len()], vec![CoherenceMatch { language: 0, score: 0.0 }; 64]);
            let should = causes::refusal(&question, work.len(), matches.len());
            let told = called(&question, &work, &matches).told;
            self.counted();
            self.coherence.cases += 1;
            self.coherence.refused += should.is_some() as u64;
            self.refused += should.is_some() as u64;
            if (told.number, told.place) != should.unwrap_or((0, 0)) {
                self.fail(|| format!("language table of {} bytes\nlibrary  {told:?}\nexpected {should:?}", languages.len()));
            }
        }
    }

    // Included numbers with or without a cause of refusal in them.
    fn included_or_not(&mut self, bad: bool, numbers: &[u32]) -> Vec<u32> {
        let mut included = texts::included(&mut self.random, numbers);
        if bad {
            let n = included.len();
            match self.random.below(4) {
                0 => included.resize(65 + self.random.below(3), *numbers.first().unwrap_or(&0)),
                1 => included = vec![0; 2],
                2 if n < 64 && n > 0 && included != [0] => included.insert(self.random.below(n + 1), 0),
                _ if n < 64 => included.insert(self.random.below(n + 1), 1_000_000 + self.random.below(9) as u32),
                _ => included[self.random.below(n)] = 1_000_000,
            }
        }
        included
    }

    // Tables of which one is damaged, with texts of their own.
    fn damaged_tables(&mut self, times: usize) {
        for at in 0..times {
            let mut classes = texts::random_classes(&mut self.random);
            let letters = Letters::new(&classes);
            let alphabets = vec![letters.alphabet(&mut self.random)];
            let languages = languages::random(&mut self.random, &alphabets, &letters.all);
            let mut bytes = languages::bytes(&languages);
            if at % 3 > 0 {
                bytes = languages::bad(&mut self.random, &languages);
            }
            if at % 3 < 2 {
                while crate::causes::classes_fault(&tables::bytes(&classes)).is_none() {
                    tables::damage(&mut self.random, &mut classes);
                }
            }
            let tables = Tables::new(&tables::bytes(&classes), &[0; PAIR_BYTES], &bytes);
            let n = self.random.below(50);
            let text = letters.text(&mut self.random, &alphabets, n);
            let threshold = texts::threshold(&mut self.random);
            let case = Case { text, threshold, small: CRATES_SMALL, included: vec![] };
            self.accepted_ranking(&case, &tables);
        }
    }

    // Small tables at each limit, with `small` at and beside a layer's letters, thresholds at a score, and included numbers of every kind.
    fn aimed_rankings(&mut self, times: usize) {
        for _ in 0..times {
            let world = aimed::World::new(&mut self.random);
            let tables = Tables::lent(&world.classes, &world.pairs, &world.languages);
            tables.lend();
            let included = aimed::included(&mut self.random, &tables.numbers);
            let threshold =
                *self.random.pick(&[None, None, Some(0.0), Some(-1.0), Some(0.8), Some(0.8f32.next_up()), Some(0.9), Some(0.2)]);
            let small = if self.random.below(3) == 0 { self.small_of_lent(&world.text, &tables) } else { self.random.below(2) as u32 };
            let mut case = Case { text: world.text, threshold, small, included };
            self.accepted_ranking(&case, &tables);
            if self.random.below(2) == 0 {
                self.at_a_score(&mut case, &tables);
            }
        }
    }

    // All of it, what is aimed first.
    pub fn coherence(&mut self, classes: &[u8], pairs: &[u8], languages: &[u8]) {
        let (records, own) = (tables::records(classes), languages::records(languages));
        let (letters, alphabet) = (Letters::new(&records), Alphabet::new(&records));
        let alphabets: Vec<Vec<u32>> = own.iter().map(|record| record.letters.clone()).collect();
        let lent = Tables::lent(&records, pairs, &own);
        let mut real = Tables::new(classes, pairs, languages);
        real.numbers = lent.numbers.clone();

        let (real, lent, letters, alphabet, alphabets) = (&real, &lent, &letters, &alphabet, &alphabets);
        self.during("rankings at limits", |run| run.aimed_rankings(run.times(3_000, 60_000)));
        self.during("rankings at the sufficient score", |run| run.sufficient_scores(run.times(400, 10_000)));
        self.during("causes of coherence", |run| run.causes_of_coherence(run.times(4, 80), classes, pairs, &own));
        self.during("edges of language tables", |run| run.language_edges(classes, pairs));
        self.during("characters without a class", |run| run.unclassed_of_both_kinds(run.times(100, 2_000)));
        self.during("rankings with U+0130", |run| run.capital_i(run.times(120, 4_000), real, lent));
        self.during("U+0130 without U+0307", |run| run.capital_i_without_the_dot(run.times(12, 200), &records, pairs, &own));
        self.during("rankings of the longest text", |run| run.longest_rankings(classes, pairs, real));
        self.during("rankings with the crate's tables", |run| {
            run.crates_tables(run.times(1_200, 24_000), real, letters, alphabet, alphabets)
        });
        self.during("rankings by the Rust package", |run| run.by_the_package(run.times(150, 3_000), real, letters, alphabets));
        self.during("rankings of long texts", |run| run.long_texts(run.times(8, 200), real, alphabet, letters, alphabets));
        self.during("rankings with the crate's tables lent", |run| {
            lent.lend();
            run.crates_tables_lent(run.times(600, 16_000), lent, letters, alphabet, alphabets);
        });
        self.during("rankings with lent tables", |run| run.lent_to_both(run.times(60, 2_000), 24));
        self.during("rankings of many layers", |run| run.many_layers(run.times(6, 200)));
        self.during("rankings with damaged tables", |run| run.damaged_tables(run.times(200, 5_000)));
    }

    // Scores of texts in the languages of the table: letters by their popularity, in words, in either case.
    pub fn in_languages(&mut self, times: usize, records: &[tables::Record], languages: &[u8], lent: &crate::library::Lent) {
        let letters = Letters::new(records);
        let alphabets: Vec<Vec<u32>> = languages::records(languages).into_iter().map(|record| record.letters).collect();
        for _ in 0..times {
            let n = crate::texts::length(&mut self.random);
            let text = letters.text(&mut self.random, &alphabets, n);
            let threshold = crate::texts::threshold(&mut self.random);
            self.accepted(&text, threshold, lent);
        }
    }
}
