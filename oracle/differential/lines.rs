// Many lines in one call. What is expected of a burst is written here a second time, from its description alone: the lines, the causes of
// refusal of the whole call, and for each line what the oracle, or causes.rs, says of it; and each accepted row is what drasumira_score_utf8
// answers for the line alone. Then what the Rust package does by itself: rows into scores, and the chooser's cut.
use crate::library::{self, BYTE, Guarded, HostRead, HostScore, Lent, SCORE_WORDS, WORD};
use crate::tables::PAIR_BYTES;
use crate::texts::{self, Alphabet};
use crate::{DEFAULT_THRESHOLD, LINE_BYTES, ROOMS, Run, causes, chars, expected_score, hex, oracle_score, tables};

const LONGEST_BURST: usize = 16_777_216;
pub const NUMBERS: usize = SCORE_WORDS;

// Lines end at 0A; a last line without one counts; no bytes are no lines.
pub fn lines(bytes: &[u8]) -> Vec<&[u8]> {
    let mut lines: Vec<&[u8]> = bytes.split(|b| *b == 0x0A).collect();
    if lines.last().is_some_and(|last| last.is_empty()) {
        lines.pop();
    }
    lines
}

pub fn expected_line(line: &[u8], threshold: f32, classes: &[u8], pairs: &[u8]) -> HostScore {
    match causes::points(line) {
        Err(refusal) => causes::refused(refusal),
        Ok(text) => expected_score(&text, Some(threshold), classes, pairs),
    }
}

// 1 (bytes), 4, 5, 7, 3.
fn refusal(bytes: &[u8], threshold: f32, classes: &[u8], pairs: &[u8], room: usize) -> Option<causes::Refusal> {
    if bytes.len() > LONGEST_BURST {
        return Some((1, 0));
    }
    if !threshold.is_finite() {
        return Some((4, 0));
    }
    if let Some(fault) = causes::classes_fault(classes) {
        return Some(fault);
    }
    if pairs.len() != PAIR_BYTES {
        return Some((7, 0));
    }
    (room < NUMBERS * lines(bytes).len()).then_some((3, 0))
}

pub fn shown(bytes: &[u8]) -> String {
    let shown: Vec<String> = bytes.iter().take(200).map(|b| format!("{b:02X}")).collect();
    format!("{} bytes: {}", bytes.len(), shown.join(" "))
}

impl Run {
    fn burst(&mut self, bytes: &[u8], threshold: f32, classes: &[u8], pairs: &[u8], room: usize) {
        self.counted();
        let before: Vec<u32> = (0..room).map(|_| self.random.next() as u32).collect();
        let (given, lent, mut out) = (Guarded::new(bytes, BYTE), Lent::new(classes, pairs), Guarded::new(&before, WORD));
        let told = library::score_lines(given.list(), threshold, &lent, out.list_mut());
        let (mut after, lines) = (before, lines(bytes));
        let expected = match refusal(bytes, threshold, classes, pairs, room) {
            Some((number, place)) => HostRead { number, place, count: 0 },
            None => {
                for (line, row) in lines.iter().zip(after.chunks_exact_mut(NUMBERS)) {
                    let expected = expected_line(line, threshold, classes, pairs);
                    self.refused += (expected.number != 0) as u64;
                    row.copy_from_slice(&expected.words());
                    if library::score_utf8(line, Some(threshold), &lent).words() != row {
                        self.fail(|| format!("threshold {threshold:?}, drasumira_score_utf8 on the line of {}", shown(line)));
                    }
                }
                HostRead { number: 0, place: 0, count: lines.len() as u32 }
            }
        };
        self.refused += (expected.number != 0) as u64;
        if told != expected || !out.holds(&after) || !given.whole() || !lent.whole() {
            let at = out.list().iter().zip(&after).position(|(a, b)| a != b);
            self.fail(|| format!(
                "threshold {threshold:?}, room {room}, a burst of {}\nlibrary  {told:?}\nexpected {expected:?}\nfirst number that differs: {at:?}",
                shown(bytes)
            ));
        }
    }

    // The bytes of some lines, many of them empty or damaged, the last with its 0A or without.
    pub fn some_lines(&mut self, alphabet: &Alphabet) -> Vec<u8> {
        let mut bytes = vec![];
        for _ in 0..self.random.below(12) {
            let n = match self.random.below(8) {
                0 | 1 => 0,
                2 => *self.random.pick(&ROOMS),
                _ => texts::length(&mut self.random),
            };
            let mut line = self.bytes_of_text(alphabet, n);
            if self.random.below(6) == 0 {
                line = self.bytes_of_text(alphabet, 520);
                line.truncate(*self.random.pick(&LINE_BYTES));
            }
            bytes.extend(line);
            bytes.push(0x0A);
        }
        if self.random.below(2) == 0 {
            bytes.pop();
        }
        bytes
    }

    pub fn bursts(&mut self, alphabet: &Alphabet, times: usize, classes: &[u8], pairs: &[u8]) {
        let real = tables::records(classes);
        for at in 0..times {
            let bytes = self.some_lines(alphabet);
            let threshold = if at % 16 == 1 { f32::NAN } else { texts::threshold(&mut self.random).unwrap_or(DEFAULT_THRESHOLD) };
            let few = if at % 5 == 0 { &real[..self.random.below(2000)] } else { &real[..] };
            let classes = if at % 19 == 0 { self.bad_classes(&real) } else { tables::bytes(few) };
            let needed = NUMBERS * lines(&bytes).len();
            let room = match self.random.below(8) {
                0 => needed.saturating_sub(1),
                1 => self.random.below(99),
                2 | 3 => needed + self.random.below(30),
                _ => needed,
            };
            self.burst(&bytes, threshold, &classes, if at % 23 == 0 { &pairs[1..] } else { pairs }, room);
        }
    }

    // Every set of causes of the whole call at once: 1, 4, 5, 7, 3, in all 32 sets; and bursts at and beside the longest.
    pub fn causes_of_bursts(&mut self, times: usize, classes: &[u8], pairs: &[u8]) {
        let real = tables::records(classes);
        let mut long = vec![b'a'; LONGEST_BURST + 1];
        for set in (0..times).flat_map(|_| 0..32) {
            let has = |n: usize| set >> n & 1 == 1;
            let bytes = if has(0) { &long[..] } else { b"one\n\ntwo\nthree" };
            let threshold = if has(1) { *self.random.pick(&[f32::NAN, f32::INFINITY, f32::NEG_INFINITY]) } else { DEFAULT_THRESHOLD };
            let bad = self.bad_classes(&real);
            let (classes, pairs) = (if has(2) { &bad } else { classes }, if has(3) { &pairs[..7] } else { pairs });
            self.burst(bytes, threshold, classes, pairs, if has(4) { 4 * NUMBERS - 1 } else { 4 * NUMBERS });
        }
        // one line, which is too long to be read; then lines of the longest text, and of one more
        self.burst(&long[1..], DEFAULT_THRESHOLD, classes, pairs, NUMBERS);
        long.truncate(1 + 2 * (crate::LONGEST_TEXT + 1));
        long[crate::LONGEST_TEXT] = 0x0A;
        self.burst(&long, DEFAULT_THRESHOLD, classes, pairs, 2 * NUMBERS);
        self.burst(&long, f32::MAX, classes, pairs, 2 * NUMBERS);
    }

    // The Rust package's own part: rows into scores, and the cut of the text that the chooser takes.
    pub fn package(&mut self, alphabet: &Alphabet, times: usize, classes: &[u8], pairs: &[u8]) {
        let real = tables::records(classes);
        for at in 0..times {
            self.counted();
            let few = if at % 4 == 0 { &real[..self.random.below(3000)] } else { &real[..] };
            let classes = tables::bytes(few);
            let lent = drasumira::Tables::new(classes.clone(), pairs.to_vec()).expect("good tables");
            let (bytes, threshold) = (self.some_lines(alphabet), texts::threshold(&mut self.random));
            let told = drasumira::score_lines(&bytes, threshold, &lent).expect("a burst that is not refused");
            let expected = lines(&bytes).into_iter().map(|l| expected_line(l, threshold.unwrap_or(DEFAULT_THRESHOLD), &classes, pairs));
            if !told.into_iter().map(words).eq(expected.map(|score| score.words())) {
                self.fail(|| format!("threshold {threshold:?}, the package's score_lines on {}", shown(&bytes)));
            }
            self.choice(alphabet, at, &classes, pairs, &lent);
        }
    }

    fn choice(&mut self, alphabet: &Alphabet, at: usize, classes: &[u8], pairs: &[u8], lent: &drasumira::Tables) {
        let mut pair = [0, 1].map(|_| {
            let n = texts::length(&mut self.random);
            let mut text = alphabet.text(&mut self.random, n);
            text.extend(vec![0x0A; self.random.below(4)]);
            text
        });
        if at % 4 == 1 {
            pair[1] = pair[0].clone();
            pair[1].push(0x0A);
        }
        let [first, second] = &pair;
        let whole = |t: &[u32]| oracle_score(t, Some(f32::INFINITY)).sum;
        let taken: &[u32] = match causes::verdict_refusal(first, second, classes, pairs) {
            Some(_) => &[],
            None if whole(second) < whole(first) => second,
            None => first,
        };
        let cut = taken.len() - taken.iter().rev().take_while(|p| **p == 0x0A).count();
        let (a, b) = (chars(first), chars(second));
        let told = drasumira::choose(&a[..], &b[..], lent);
        if !told.iter().map(|c| *c as u32).eq(taken[..cut].iter().copied()) {
            self.fail(|| format!("the package's choice of {} and {}", hex(first), hex(second)));
        }
    }
}

// What the package tells of a line, as the numbers of its row.
fn words(told: Result<drasumira::Score, drasumira::Refusal>) -> [u32; NUMBERS] {
    let score = match told {
        Err(refusal) => causes::refused((refusal.number, refusal.place)),
        Ok(s) => HostScore {
            ratios: [s.symbols, s.accents, s.unprintable, s.ranges, s.doubled, s.words, s.stops, s.archaic],
            sum: s.sum,
            fed: s.fed,
            stopped: s.stopped as u32,
            counts: drasumira::Detector::ALL.map(|d| {
                let share = s.share(d);
                [share.numerator, share.denominator, share.cut_off as u32]
            }),
            ..HostScore::default()
        },
    };
    score.words()
}
