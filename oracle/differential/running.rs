// Lines that are scored while they arrive. What a call must answer and leave is written here a second time, from 02 [6]: which 48 numbers are refused (19), in which order the causes come, how
// many were received and fed, where the scan stopped, and where each detector last grew, by the oracle's counts of every front of the line; what closing answers is the oracle's score of the whole
// line. Compared after each call: the answer and every number. Of numbers that no feeding reaches only this is expected: which calls are refused and that they change nothing, how many were
// received, that a stopped line changes in nothing else, and that a chunk leaves what its characters leave one by one.
use crate::library::{self, Guarded, HostOpened, HostRead, Lent, RUNNING, WORD};
use crate::texts::{Alphabet, BOUNDARIES};
use crate::{Run, causes, hex, oracle_score, tables, texts};

const LENGTH: usize = 0;
const RECEIVED: usize = 1;
const FED: usize = 2;
const THRESHOLD: usize = 3;
const STOPPED: usize = 4;
const RANGE: usize = 16;
const GROWN: usize = 40;

// fed; symbols' characters, punctuation, symbols; accents' characters, accentuated; unprintable's; ranges' characters, suspicious; doubled accents' characters, successive; words'
// characters, words, foreign, spoilt, accents, uppercase, length; stops' wrong, cjk; archaic case's characters, since, run, total
const COUNTS: [usize; 25] = [2, 5, 6, 7, 9, 10, 11, 12, 13, 14, 17, 18, 21, 22, 23, 24, 27, 28, 29, 31, 32, 33, 34, 35, 36];

// the marks, which feeding writes as 1 or 0
const MARKS: [usize; 6] = [STOPPED, 15, 25, 26, 38, 39];

type State = [u32; RUNNING];

// 19.
fn bad(s: &State) -> bool {
    let twice = 2 * s[RECEIVED] as u64;
    !f32::from_bits(s[THRESHOLD]).is_finite()
        || s[LENGTH] > 65_536
        || s[RECEIVED] > s[LENGTH]
        || s[RANGE] > 511
        || COUNTS.iter().any(|at| s[*at] as u64 > twice)
}

// Why n more characters are refused, the first of them at `received`: 19, 13, 5, 7, 6.
fn feeding(s: &State, text: &[u32], classes: &[u8], pairs: &[u8]) -> Option<(u32, u32)> {
    if bad(s) {
        return Some((19, 0));
    }
    if ((s[LENGTH] - s[RECEIVED]) as usize) < text.len() {
        return Some((13, 0));
    }
    // of scoring's causes 1 and 4 are not there
    match causes::scoring(text, Some(0.0), classes, pairs) {
        Some((6, place)) => Some((6, s[RECEIVED] + place)),
        other => other,
    }
}

fn answer(refusal: Option<(u32, u32)>, count: u32) -> HostRead {
    match refusal {
        Some((number, place)) => HostRead { number, place, count: 0 },
        None => HostRead { number: 0, place: 0, count },
    }
}

fn guarded(s: &State) -> Guarded<u32> {
    Guarded::new(s, WORD)
}

fn numbers(g: &Guarded<u32>) -> State {
    g.list().try_into().expect("48 numbers")
}

// Where each detector's numerator last grew in the first n characters: index and 1.
fn last_growths(text: &[u32], n: usize) -> [u32; 8] {
    let mut last = [0; 8];
    let mut before = [0; 8];
    for i in 0..n {
        let told = oracle::open::score(&crate::chars(&text[..i + 1]), Some(f32::INFINITY), true);
        for (at, [over, _]) in told.counts.iter().enumerate() {
            if *over > before[at] {
                last[at] = i as u32 + 1;
            }
            before[at] = *over;
        }
    }
    last
}

impl Run {
    fn running_differs(&self, what: &str, before: &State, told: &dyn std::fmt::Debug, expected: &dyn std::fmt::Debug, after: &State) -> ! {
        self.fail(|| format!("{what} of the line {before:?}\nlibrary  {told:?}\nexpected {expected:?}\nleft     {after:?}"))
    }

    fn opened(&mut self, length: u32, threshold: f32, lent: &Lent) -> State {
        self.counted();
        let (classes, pairs) = (lent.classes.list(), lent.pairs.list());
        let told = library::open_line(length, threshold, lent);
        let refusal = if length > 65_536 { Some((1, 0)) } else { causes::scoring(&[], Some(threshold), classes, pairs) };
        let mut state = [0; RUNNING];
        if refusal.is_none() {
            (state[LENGTH], state[THRESHOLD]) = (length, threshold.to_bits());
            state[38] = 1; // archaic case's current_ascii_only starts true
        }
        let (number, place) = refusal.unwrap_or((0, 0));
        let expected = HostOpened { number, place, state };
        self.refused += (number != 0) as u64;
        if told != expected || !lent.whole() {
            self.running_differs("opening", &state, &told, &expected, &told.state);
        }
        told.state
    }

    // One call with one character or a chunk, whatever the state: what is refused, what a refusal leaves, how many were received.
    fn fed_some(&mut self, before: &State, text: &[u32], single: bool, lent: &Lent) -> (HostRead, State) {
        self.counted();
        let mut state = guarded(before);
        let given = library::text_of(text);
        let told = if single { library::feed(&mut state, text[0], lent) } else { library::feed_all(&mut state, given.list(), lent) };
        let refusal = feeding(before, text, lent.classes.list(), lent.pairs.list());
        let mut expected = answer(refusal, before[RECEIVED].wrapping_add(text.len() as u32));
        let after = numbers(&state);
        // a chunk of a line that feeding does not reach may come to numbers that are refused
        let within = !single && refusal.is_none_or(|(number, _)| number == 6) && told == answer(Some((19, 0)), 0);
        if within {
            expected = told;
        }
        self.refused += (expected.number != 0) as u64;
        if told != expected || !state.holds(&after) || !given.whole() || (expected.number != 0 && after != *before) {
            self.running_differs(if single { "feeding" } else { "a chunk" }, before, &told, &expected, &after);
        }
        if told.number == 0 {
            if after[RECEIVED] != before[RECEIVED] + text.len() as u32 {
                self.running_differs("the number received", before, &told, &expected, &after);
            }
            let mut only = *before;
            only[RECEIVED] = after[RECEIVED];
            let fed = before[STOPPED] == 0 && !text.is_empty();
            if !fed && after != only {
                self.running_differs("feeding without a character fed", before, &told, &expected, &after);
            }
            if fed && MARKS.iter().any(|at| after[*at] > 1) {
                self.running_differs("a mark after feeding", before, &told, &expected, &after);
            }
        }
        (told, after)
    }

    fn closed(&mut self, state: &State, expected: library::HostScore) {
        self.counted();
        let given = guarded(state);
        let told = library::close_line(&given);
        self.refused += (expected.number != 0) as u64;
        if told != expected || !given.whole() {
            self.running_differs("closing", state, &told.shown(), &expected.shown(), &numbers(&given));
        }
    }

    // A line fed one by one, its growths looked at where `growths`; and in chunks; closed too early, and at its end.
    fn line_fed(&mut self, text: &[u32], threshold: f32, lent: &Lent, growths: bool) {
        let whole = oracle_score(text, Some(threshold));
        self.stopped += whole.stopped as u64;
        let fresh = self.opened(text.len() as u32, threshold, lent);
        let mut state = fresh;
        for (i, point) in text.iter().enumerate() {
            if i % 50 == 3 {
                self.closed(&state, causes::refused((14, 0)));
            }
            state = self.fed_some(&state, &[*point], true, lent).1;
            let stopped = whole.stopped == 1 && whole.fed as usize <= i + 1;
            let fed = if stopped { whole.fed } else { i as u32 + 1 };
            if (state[FED], state[STOPPED], state[LENGTH], state[THRESHOLD]) != (fed, stopped as u32, text.len() as u32, threshold.to_bits())
                || (growths && state[GROWN..] != last_growths(text, fed as usize))
            {
                self.running_differs(&format!("after {} of {}", i + 1, hex(text)), &fresh, &state, &(fed, stopped), &state);
            }
        }
        self.closed(&state, whole);
        let mut chunked = fresh;
        let mut at = 0;
        while at < text.len() {
            let n = (1 + self.random.below(60)).min(text.len() - at);
            chunked = self.fed_some(&chunked, &text[at..at + n], false, lent).1;
            at += n;
        }
        if chunked != state {
            self.running_differs("chunks", &fresh, &chunked, &state, &chunked);
        }
    }

    // Lines of every length beside a boundary and of others, with tables that hold their characters.
    fn lines_fed(&mut self, alphabet: &Alphabet, times: usize, classes: &[u8], pairs: &[u8]) {
        let real = tables::records(classes);
        for at in 0..times {
            let n = if at % 2 == 0 { BOUNDARIES[at / 2 % BOUNDARIES.len()] } else { self.random.below(140) };
            let text = alphabet.text(&mut self.random, n);
            let threshold = texts::threshold(&mut self.random).unwrap_or(crate::DEFAULT_THRESHOLD);
            let few: Vec<_> = real.iter().filter(|r| text.iter().any(|p| (r.first..=r.last).contains(p))).copied().collect();
            self.line_fed(&text, threshold, &Lent::new(&tables::bytes(&few), pairs), n < 40);
        }
    }

    // Every cause of a call, alone and with the others, over lines under way; feeding goes on behind a refusal.
    fn causes_of_feeding(&mut self, times: usize, classes: &[u8], pairs: &[u8]) {
        let real = tables::records(classes);
        for _ in 0..times {
            let n = self.random.below(40);
            let text: Vec<u32> = (0..n).map(|_| 0x20 + self.random.below(0x200) as u32).collect();
            let good = Lent::new(&[], pairs);
            let mut state = self.opened(n as u32, 1000.0, &good);
            let mut fed = vec![];
            for point in &text {
                for set in 0..16 {
                    if self.random.below(4) > 0 {
                        continue;
                    }
                    let has = |at: usize| set >> at & 1 == 1;
                    let mut given = state;
                    if has(0) {
                        given[RANGE] = 512;
                    }
                    let bad_classes = self.bad_classes(&real);
                    let lent = Lent::new(if has(1) { &bad_classes } else { &[] }, if has(2) { &pairs[1..] } else { pairs });
                    let point = if has(3) { 0xD900 } else { *point };
                    let (told, after) = self.fed_some(&given, &[point], true, &lent);
                    if told.number != 0 && after != given {
                        self.running_differs("a refused feeding", &given, &told, &"nothing stored", &after);
                    }
                    self.fed_some(&given, &[0x61, point], false, &lent);
                }
                state = self.fed_some(&state, &[*point], true, &good).1;
                fed.push(*point);
            }
            self.fed_some(&state, &[0x61], true, &good);
            self.fed_some(&state, &[0x61, 0xD900], false, &good);
            self.fed_some(&state, &[], false, &good);
            self.closed(&state, oracle_score(&fed, Some(1000.0)));
        }
        for length in [0, 65_535, 65_536, 65_537, u32::MAX] {
            for threshold in [0.0, f32::NAN, f32::INFINITY, f32::NEG_INFINITY] {
                for set in 0..4 {
                    let bad_classes = self.bad_classes(&real);
                    let lent = Lent::new(if set & 1 == 1 { &bad_classes } else { &[] }, if set & 2 == 2 { &pairs[1..] } else { pairs });
                    self.opened(length, threshold, &lent);
                }
            }
        }
    }

    // Numbers of every kind: each random, or a line's with some of them at the edge of a cause.
    fn hostile(&mut self, s: &State, received: u32) -> State {
        let edges = [0, 1, 2 * received, 2 * received + 1, 511, 512, 65_536, 65_537, u32::MAX, 0x7F80_0000, 0x7F7F_FFFF, 0xFF80_0000, 0x7FC0_0001];
        let mut s = *s;
        match self.random.below(4) {
            0 => s = s.map(|_| self.random.next() as u32),
            1 => {
                for number in &mut s {
                    if self.random.below(3) == 0 {
                        *number = *self.random.pick(&edges);
                    }
                }
            }
            2 => s[self.random.below(RUNNING)] = *self.random.pick(&edges),
            _ => {
                for at in COUNTS {
                    s[at] = 2 * received - self.random.below(2).min(2 * received as usize) as u32;
                }
                s[MARKS[self.random.below(6)]] = 1 + self.random.below(9) as u32;
                s[COUNTS[self.random.below(25)]] += self.random.below(2) as u32;
            }
        }
        s
    }

    fn hostile_lines(&mut self, alphabet: &Alphabet, times: usize, classes: &[u8], pairs: &[u8]) {
        let real = Lent::new(classes, pairs);
        let (mut passed, mut refused) = (0u64, 0u64);
        for _ in 0..times {
            let n = 1 + self.random.below(200);
            let received = if self.random.below(3) == 0 { n } else { self.random.below(n + 1) };
            let text = alphabet.text(&mut self.random, n);
            let mut state = self.opened(n as u32, 1000.0, &real);
            state = self.fed_some(&state, &text[..received], false, &real).1;
            let mut hostile = self.hostile(&state, received as u32);
            match self.random.below(8) {
                0 => {
                    hostile = state;
                    hostile[STOPPED] = 1 + self.random.below(9) as u32;
                }
                1 => {
                    hostile = state;
                    hostile[LENGTH] = (received as u32 + 1).saturating_sub(self.random.below(3) as u32);
                }
                _ => {}
            }
            if bad(&hostile) { refused += 1 } else { passed += 1 }
            self.fed_some(&hostile, &[text[0]], true, &real);
            // a chunk leaves what its characters leave one by one, or is refused where one of them is
            let more = self.random.below(6);
            let (told, after) = self.fed_some(&hostile, &text[..more.min(n)], false, &real);
            let (mut single, mut number) = (hostile, 0);
            for point in &text[..more.min(n)] {
                let (told, next) = self.fed_some(&single, &[*point], true, &real);
                if told.number != 0 {
                    number = told.number;
                    break;
                }
                single = next;
            }
            if told.number == 0 && (number != 0 || after != single) {
                self.running_differs("a chunk beside single calls", &hostile, &after, &single, &after);
            }
            let given = guarded(&hostile);
            let closed = library::close_line(&given);
            let short = hostile[RECEIVED] < hostile[LENGTH];
            let expected = if bad(&hostile) { 19 } else { 14 * short as u32 };
            if closed.number != expected || !given.whole() {
                self.running_differs("closing", &hostile, &closed.shown(), &expected, &numbers(&given));
            }
            if expected == 0 && hostile[STOPPED] != 0 && (closed.fed, closed.stopped) != (hostile[FED], 1) {
                self.running_differs("closing a stopped line", &hostile, &closed.shown(), &hostile[FED], &numbers(&given));
            }
        }
        if self.survey == 0 && (passed < times as u64 / 20 || refused < times as u64 / 20) {
            self.fail(|| format!("{passed} hostile lines passed and {refused} did not"));
        }
    }

    // The Rust package's lines beside the whole call.
    fn package_running(&mut self, times: usize) {
        let tables = drasumira::Tables::builtin_only();
        for _ in 0..times {
            self.counted();
            let n = texts::length(&mut self.random);
            let text: Vec<char> = (0..n).map(|_| char::from_u32(self.random.below(0x250) as u32).expect("built in")).collect();
            let threshold = texts::threshold(&mut self.random);
            let mut line = drasumira::Running::open(n, threshold, &tables).expect("a good opening");
            let mut at = 0;
            while at < n {
                let size = (1 + self.random.below(90)).min(n - at);
                let told = match self.random.below(3) {
                    0 => line.feed_str(&text[at..at + size].iter().collect::<String>()),
                    1 => line.feed_chars(&text[at..at + size]),
                    _ => text[at..at + size].iter().map(|c| line.feed(*c)).last().expect("one at least"),
                };
                at += size;
                if told != Ok(at) || line.received() != at {
                    self.fail(|| format!("the package's line: {told:?} after {at}"));
                }
            }
            if line.close() != drasumira::score(&text, threshold, &tables) {
                self.fail(|| format!("the package's line and score differ on {text:?}"));
            }
        }
    }

    pub fn all_running(&mut self, classes: &[u8], pairs: &[u8]) {
        let alphabet = &Alphabet::new(&tables::records(classes));
        self.during("lines fed", |run| run.lines_fed(alphabet, run.times(240, 6_000), classes, pairs));
        self.during("causes of feeding", |run| run.causes_of_feeding(run.times(100, 2_000), classes, pairs));
        self.during("hostile lines", |run| run.hostile_lines(alphabet, run.times(4_000, 80_000), classes, pairs));
        self.during("the Rust package's lines", |run| run.package_running(run.times(500, 10_000)));
    }
}
