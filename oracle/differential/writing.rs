// UTF-8 out. What is expected of a call is written here a second time, from 02 [3] alone: std writes the bytes (char::encode_utf8, String), and char::from_u32 says
// what a scalar value is. Compared after each call: the answer, every byte of the output, the text, and what stands beside them; and where the call was accepted,
// std and the library's own reader give the text back.
use crate::library::{self, BYTE, Guarded, HostRead, WORD, text_of};
use crate::texts::Alphabet;
use crate::{LONGEST_TEXT, Run, chars, hex, smallest, tables};

const LAST: u32 = 0x10FFFF;
const PART: usize = 65_536; // scalar values in one call

// The numbers on both sides of each edge of Table 3-6, of the surrogates and of what a u32 holds.
const EDGES: [u32; 26] = [
    0,
    1,
    0x7E,
    0x7F,
    0x80,
    0x81,
    0x7FE,
    0x7FF,
    0x800,
    0x801,
    0xD7FE,
    0xD7FF,
    0xD800,
    0xD801,
    0xDBFF,
    0xDC00,
    0xDFFE,
    0xDFFF,
    0xE000,
    0xFFFE,
    0xFFFF,
    0x10000,
    0x10FFFF,
    0x110000,
    0x8000_0041,
    u32::MAX,
];

// What 02 [3] says: 1, 12 at the index, 3; else the bytes in the first places and the rest as it was.
fn expected(text: &[u32], before: &[u8]) -> (HostRead, Vec<u8>) {
    let refused = |number, place| (HostRead { number, place, count: 0 }, before.to_vec());
    if text.len() > LONGEST_TEXT {
        return refused(1, 0);
    }
    if let Some(at) = text.iter().position(|p| char::from_u32(*p).is_none()) {
        return refused(12, at as u32);
    }
    let bytes: String = text.iter().filter_map(|p| char::from_u32(*p)).collect();
    if bytes.len() > before.len() {
        return refused(3, 0);
    }
    let mut after = before.to_vec();
    after[..bytes.len()].copy_from_slice(bytes.as_bytes());
    (HostRead { number: 0, place: 0, count: bytes.len() as u32 }, after)
}

fn bytes_of(text: &[u32]) -> usize {
    text.iter().map(|p| char::from_u32(*p).map_or(3, char::len_utf8)).sum()
}

impl Run {
    pub fn all_writing(&mut self, classes: &[u8]) {
        let alphabet = &Alphabet::new(&tables::records(classes));
        self.during("every scalar value written", |run| run.every_scalar());
        self.during("edges of writing", |run| run.writing_edges());
        self.during("texts written and read", |run| run.random_writing(alphabet, run.times(2_000, 40_000)));
        self.during("the Rust package's writing", |run| run.package_writing(alphabet, run.times(1_000, 20_000)));
    }

    fn written(&mut self, text: &[u32], room: usize) {
        self.counted();
        let before: Vec<u8> = (0..room).map(|_| self.random.next() as u8).collect();
        let (given, mut out) = (text_of(text), Guarded::new(&before, BYTE));
        let told = library::write_utf8(given.list(), &mut out);
        let (answer, after) = expected(text, &before);
        self.refused += (answer.number != 0) as u64;
        if told != answer || !out.holds(&after) || !given.whole() {
            self.fail(|| {
                let differs = |t: &[u32]| {
                    let mut out = Guarded::new(&before, BYTE);
                    let told = library::write_utf8(t, &mut out);
                    let (answer, after) = expected(t, &before);
                    told != answer || !out.holds(&after)
                };
                let small = if differs(text) { smallest(text, differs) } else { text.to_vec() };
                format!(
                    "room {room}, text {}\nlibrary  {told:?}\nexpected {answer:?} (both of the whole text)",
                    hex(&small[..small.len().min(100)])
                )
            });
        }
        if answer.number == 0 {
            self.read_back(text, &after[..answer.count as usize]);
        }
    }

    // What was written, read again by the library, is the text.
    fn read_back(&mut self, text: &[u32], bytes: &[u8]) {
        let mut room = Guarded::new(&vec![WORD; text.len()], WORD);
        let told = library::read(bytes, &mut room);
        if told != (HostRead { number: 0, place: 0, count: text.len() as u32 }) || !room.holds(text) {
            self.fail(|| format!("what was written for {} is read as something else: {told:?}", hex(&text[..text.len().min(100)])));
        }
    }

    // Every scalar value: alone, and all in a row; and every number just outside.
    fn every_scalar(&mut self) {
        let all: Vec<u32> = (0..=LAST).filter(|p| char::from_u32(*p).is_some()).collect();
        assert_eq!(all.len(), 1_112_064);
        for part in all.chunks(PART) {
            self.written(part, bytes_of(part));
        }
        let mut out = Guarded::new(&[0u8; 5], BYTE);
        for p in all {
            self.cases += 1;
            let mut form = [0; 4];
            let form = char::from_u32(p).expect("a scalar value").encode_utf8(&mut form).as_bytes();
            let mut after = [0; 5];
            after[..form.len()].copy_from_slice(form);
            out.list_mut().fill(0);
            let told = library::write_utf8(&[p], &mut out);
            if told != (HostRead { number: 0, place: 0, count: form.len() as u32 }) || !out.holds(&after) {
                self.fail(|| format!("U+{p:04X}: {told:?}"));
            }
        }
        for p in (0xD800..=0xDFFF)
            .chain(LAST + 1..LAST + 0x1001)
            .chain((0..32).map(|bit| (1u32 << bit) + LAST))
            .chain((11..32).map(|bit| 1u32 << bit))
        {
            self.written(&[p], 4);
            self.written(&[0x61, p, 0x61], 0);
        }
    }

    // The edges of each row, at each place of short texts, with every room from none to one more than enough.
    fn writing_edges(&mut self) {
        for a in EDGES {
            for b in EDGES {
                for text in [vec![], vec![a], vec![a, b], vec![0x61, a, b], vec![a, 0x61, 0x62, b], vec![b, 0x7A, a, a]] {
                    for room in 0..=bytes_of(&text) + 1 {
                        self.written(&text, room);
                    }
                }
            }
        }
        // runs of ASCII of each length round eight, with each edge behind them and before them
        for n in (0..40).chain([63, 64, 65, 127, 128, 129]) {
            for edge in EDGES {
                let mut text: Vec<u32> = (0..n).map(|i| 0x20 + i % 0x5F).collect();
                text.push(edge);
                text.extend((0..n / 2).map(|i| 0x20 + i % 0x5F));
                for room in [bytes_of(&text), bytes_of(&text).saturating_sub(1), bytes_of(&text) + 9] {
                    self.written(&text, room);
                }
            }
        }
        // the longest text, of each size, and one more; a number that is no scalar value past the limit, and at the end
        for n in LONGEST_TEXT - 1..=LONGEST_TEXT + 1 {
            for p in [0x61, 0xE9, 0x4E2D, 0x1F600] {
                let mut text = vec![p; n];
                let room = bytes_of(&text);
                self.written(&text, room);
                self.written(&text, room - 1);
                *text.last_mut().expect("a text") = 0xD800;
                self.written(&text, room);
                self.written(&text, 0);
            }
        }
    }

    // Texts of every script, some with a number that is no scalar value; and bytes that are read and written again.
    fn random_writing(&mut self, alphabet: &Alphabet, times: usize) {
        for _ in 0..times {
            let n = crate::texts::length(&mut self.random);
            let mut text = alphabet.text(&mut self.random, n);
            if self.random.below(2) == 0 {
                text.iter_mut().for_each(|p| *p = if self.random.below(3) > 0 { 0x20 + (*p % 0x5F) } else { *p });
            }
            if !text.is_empty() && self.random.below(4) == 0 {
                let at = self.random.below(text.len());
                text[at] = *self.random.pick(&EDGES);
            }
            let enough = bytes_of(&text);
            for room in [enough, enough.saturating_sub(1), enough + self.random.below(9), self.random.below(enough + 1)] {
                self.written(&text, room);
            }
            let bytes: String = text.iter().filter_map(|p| char::from_u32(*p)).collect();
            self.written_again(bytes.as_bytes());
        }
    }

    // Well-formed bytes, read and then written, are the bytes.
    fn written_again(&mut self, bytes: &[u8]) {
        self.counted();
        let (mut room, mut out) = (Guarded::new(&vec![WORD; bytes.len()], WORD), Guarded::new(&vec![BYTE; bytes.len()], BYTE));
        let read = library::read(bytes, &mut room);
        let told = library::write_utf8(&room.list()[..read.count as usize], &mut out);
        if read.number != 0 || told != (HostRead { number: 0, place: 0, count: bytes.len() as u32 }) || !out.holds(bytes) {
            self.fail(|| format!("{} bytes read and written again: {read:?}, {told:?}", bytes.len()));
        }
    }

    // The Rust package: write_utf8 over chars, and a String of a text, held to std.
    fn package_writing(&mut self, alphabet: &Alphabet, times: usize) {
        for _ in 0..times {
            self.counted();
            let n = crate::texts::length(&mut self.random);
            let text = chars(&alphabet.text(&mut self.random, n));
            let string: String = text.iter().collect();
            let room = (string.len() + 2).saturating_sub(self.random.below(4));
            let mut out = vec![BYTE; room];
            let told = drasumira::write_utf8(&text, &mut out);
            let right = if room < string.len() {
                told == Err(drasumira::Refusal::new(drasumira::Refusal::NO_ROOM, 0)) && out.iter().all(|b| *b == BYTE)
            } else {
                told == Ok(string.len()) && out[..string.len()] == *string.as_bytes() && out[string.len()..].iter().all(|b| *b == BYTE)
            };
            if !right || drasumira::to_string(&text).as_ref() != Ok(&string) {
                self.fail(|| format!("the package writes {} otherwise: {told:?}", string));
            }
        }
    }
}
