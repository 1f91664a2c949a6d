// Code pages, read and written. What is expected is written here a second time, from the words of 02 [1] alone. Every lent slice stands between canaries
// or against a wall, and what was accepted is handed back to the other call, which must give what came first.
use crate::library::{BYTE, Guarded, HostRead, WORD, read_page as read, write_page as write};
use crate::{LONGEST_TEXT, Run};

const ENTRIES: usize = 128;
const UNUSED: u16 = 0xFFFF;
const CANARY: u16 = 0xA5C3;
const NAMES: [&str; 3] = ["windows-1251", "windows-1252", "iso-8859-2"];

// Numbers that no page has: FFFF, past it, numbers that are no scalar value.
const NEVER: [u32; 8] = [0xFFFF, 0x1_0000, 0x1_FFFF, 0x11_0000, u32::MAX, 0xD800, 0xDFFF, 0x8000_0000];

// Entries that a good page may not have, and the lowest, the highest and others at an edge that it may.
const BAD: [u16; 6] = [0, 0x41, 0x7F, 0xD800, 0xDABC, 0xDFFF];
const EDGES: [u16; 6] = [0x80, 0xFF, 0x100, 0xD7FF, 0xE000, 0xFFFE];

// "used entries at least 0080, distinct, no surrogate"; of two equal ones the later is bad.
fn bad_entry(page: &[u16], i: usize) -> bool {
    let surrogate = char::from_u32(page[i] as u32).is_none();
    page[i] != UNUSED && (page[i] < 0x80 || surrogate || page.iter().position(|e| *e == page[i]) != Some(i))
}

fn page_fault(page: &[u16]) -> Option<(u32, u32)> {
    if page.len() != ENTRIES {
        return Some((10, 0));
    }
    (0..ENTRIES).find(|i| bad_entry(page, *i)).map(|i| (10, i as u32))
}

// "bytes below 80 stand for themselves"; the code points of all bytes, none for an unused one.
fn points(page: &[u16]) -> Vec<Option<u32>> {
    (0..0x80).map(Some).chain(page.iter().map(|e| (*e != UNUSED).then_some(*e as u32))).collect()
}

type Expected<T> = Result<Vec<T>, (u32, u32)>;

// 1, 10, then each element's image or the refusal of the first that has none, then 3.
fn expected<A: Copy, B>(page: &[u16], list: &[A], room: usize, number: u32, image: impl Fn(&[Option<u32>], A) -> Option<B>) -> Expected<B> {
    if list.len() > LONGEST_TEXT {
        return Err((1, 0));
    }
    if let Some(fault) = page_fault(page) {
        return Err(fault);
    }
    let points = points(page);
    let images = list.iter().enumerate().map(|(i, x)| image(&points, *x).ok_or((number, i as u32)));
    let images = images.collect::<Result<Vec<B>, _>>()?;
    if room < list.len() { Err((3, 0)) } else { Ok(images) }
}

fn expected_text(page: &[u16], bytes: &[u8], room: usize) -> Expected<u32> {
    expected(page, bytes, room, 2, |points, byte| points[byte as usize])
}

fn expected_bytes(page: &[u16], text: &[u32], room: usize) -> Expected<u8> {
    expected(page, text, room, 11, |points, point| points.iter().position(|p| *p == Some(point)).map(|byte| byte as u8))
}

fn told_of<T>(expected: &Expected<T>) -> HostRead {
    match expected {
        Ok(list) => HostRead { number: 0, place: 0, count: list.len() as u32 },
        Err((number, place)) => HostRead { number: *number, place: *place, count: 0 },
    }
}

// The output after the call: the list in its first places.
fn after<T: Copy>(expected: &Expected<T>, before: &[T]) -> Vec<T> {
    let front = expected.as_deref().unwrap_or(&[]);
    [front, &before[front.len()..]].concat()
}

impl Run {
    fn page_read(&mut self, page: &[u16], bytes: &[u8], room: usize) {
        self.counted();
        let before: Vec<u32> = (0..room).map(|_| self.random.next() as u32).collect();
        let (lent, given, mut out) = (Guarded::new(page, CANARY), Guarded::new(bytes, BYTE), Guarded::new(&before, WORD));
        let told = read(lent.list(), given.list(), out.list_mut());
        let expected = expected_text(page, bytes, room);
        self.refused += expected.is_err() as u64;
        if told != told_of(&expected) || !out.holds(&after(&expected, &before)) || !given.whole() || !lent.whole() {
            self.fail(|| {
                format!("page {page:04X?}\nroom {room}, bytes {:02X?}\nlibrary  {told:?}\nexpected {:?}", first(bytes), told_of(&expected))
            });
        }
        if let Ok(text) = expected {
            let mut back = vec![0; text.len()];
            let again = write(lent.list(), &out.list()[..told.count as usize], &mut back);
            if again != told || back != bytes {
                self.fail(|| format!("page {page:04X?}\nbytes {:02X?} were read, and written {again:?}", first(bytes)));
            }
        }
    }

    fn page_written(&mut self, page: &[u16], text: &[u32], room: usize) {
        self.counted();
        let before: Vec<u8> = (0..room).map(|_| self.random.next() as u8).collect();
        let (lent, given, mut out) = (Guarded::new(page, CANARY), Guarded::new(text, WORD), Guarded::new(&before, BYTE));
        let told = write(lent.list(), given.list(), out.list_mut());
        let expected = expected_bytes(page, text, room);
        self.refused += expected.is_err() as u64;
        if told != told_of(&expected) || !out.holds(&after(&expected, &before)) || !given.whole() || !lent.whole() {
            self.fail(|| {
                format!("page {page:04X?}\nroom {room}, text {:04X?}\nlibrary  {told:?}\nexpected {:?}", first(text), told_of(&expected))
            });
        }
        if let Ok(bytes) = expected {
            let mut back = vec![0; bytes.len()];
            let again = read(lent.list(), &out.list()[..told.count as usize], &mut back);
            if again != told || back != text {
                self.fail(|| format!("page {page:04X?}\ntext {:04X?} was written, and read {again:?}", first(text)));
            }
        }
    }

    pub fn code_pages(&mut self, dir: &str) {
        self.during("code pages, the three tables", |run| run.page_tables(dir));
        self.during("code pages, good and bad", |run| run.pages(run.times(5_000, 200_000)));
        self.during("code pages, causes", |run| run.page_causes(run.times(2, 40)));
    }

    // Every byte of the three tables, alone and together, and every code point up to past the last u16, alone.
    fn page_tables(&mut self, dir: &str) {
        let bytes: Vec<u8> = (0..=255).collect();
        for name in NAMES {
            let file = std::fs::read(format!("{dir}/pages/{name}.bin")).unwrap_or_else(|e| panic!("{name}: {e}"));
            let page: Vec<u16> = file.chunks_exact(2).map(|two| u16::from_le_bytes([two[0], two[1]])).collect();
            self.page_read(&page, &bytes, 256);
            bytes.iter().for_each(|byte| self.page_read(&page, &[*byte], 1));
            (0..0x1_0400).chain(NEVER).for_each(|point| self.page_written(&page, &[point], 1));
        }
    }

    // A good page: used entries from all of the numbers allowed, the edges often, in any order, and some or many unused.
    fn good_page(&mut self) -> Vec<u16> {
        let unused = [0, 1, 40, 128][self.random.below(4)];
        let mut page = vec![];
        while page.len() < ENTRIES {
            let near = 0x80 + self.random.below(0x400) as u16;
            let any = self.random.next() as u16;
            let entry = *self.random.pick(&[near, near, any, EDGES[any as usize % EDGES.len()]]);
            if self.random.below(ENTRIES) < unused {
                page.push(UNUSED);
            } else if entry != UNUSED && entry >= 0x80 && char::from_u32(entry as u32).is_some() && !page.contains(&entry) {
                page.push(entry);
            }
        }
        page
    }

    // One or two entries that are bad, or another number of entries.
    fn bad_page(&mut self) -> Vec<u16> {
        let mut page = self.good_page();
        for _ in 0..1 + self.random.below(2) {
            let (at, other) = (self.random.below(ENTRIES), self.random.below(ENTRIES));
            match self.random.below(5) {
                0 => page.truncate([127, 0, 1, 64][other % 4]),
                1 => page.resize(ENTRIES + 1 + other, 0x2000),
                2 if page.len() == ENTRIES => page[at] = page[other],
                _ if at < page.len() => page[at] = BAD[other % BAD.len()],
                _ => page.push(BAD[0]),
            }
        }
        page
    }

    // Bytes that the page has, and in some cases one that it has not.
    fn page_bytes(&mut self, page: &[u16], n: usize, fault: bool) -> Vec<u8> {
        let used = |byte: &u8| *byte < 0x80 || page.get(*byte as usize - 0x80).is_some_and(|e| *e != UNUSED);
        let (has, lacks): (Vec<u8>, Vec<u8>) = (0..=255).partition(used);
        let mut bytes: Vec<u8> = (0..n).map(|_| *self.random.pick(&has)).collect();
        if fault && !lacks.is_empty() && n > 0 {
            let at = self.random.below(n);
            bytes[at] = *self.random.pick(&lacks);
        }
        bytes
    }

    fn page_text(&mut self, page: &[u16], n: usize, fault: bool) -> Vec<u32> {
        let has: Vec<u32> = (0..0x80).chain(page.iter().filter(|e| **e != UNUSED).map(|e| *e as u32)).collect();
        let mut text: Vec<u32> = (0..n).map(|_| *self.random.pick(&has)).collect();
        if fault && n > 0 {
            let at = self.random.below(n);
            // never on a page; one that a cut to sixteen bits would find; one beside; any u16
            let cut = *self.random.pick(&has) + 0x1_0000 * (1 + self.random.below(0xFFFF) as u32);
            let (beside, any) = (self.random.pick(&has) + 1, self.random.below(0x1_0000) as u32);
            text[at] = *self.random.pick(&[NEVER[at % NEVER.len()], cut, beside, any]);
        }
        text
    }

    fn pages(&mut self, times: usize) {
        for _ in 0..times {
            let page = if self.random.below(4) == 0 { self.bad_page() } else { self.good_page() };
            for _ in 0..4 {
                let n = [self.random.below(4), self.random.below(40), self.random.below(600)][self.random.below(3)];
                let room = [n, n, n + self.random.below(5), n.saturating_sub(1 + self.random.below(3))][self.random.below(4)];
                let fault = self.random.below(3) == 0;
                let bytes = self.page_bytes(&page, n, fault);
                self.page_read(&page, &bytes, room);
                let text = self.page_text(&page, n, fault);
                self.page_written(&page, &text, room);
            }
        }
    }

    // Every set of causes at once, 1, 10, 2 or 11, and 3, at the longest length and past it.
    fn page_causes(&mut self, times: usize) {
        for set in (0..times).flat_map(|_| 0..16) {
            let has = |n: usize| set >> n & 1 == 1;
            let good = self.good_page();
            let page = if has(1) { self.bad_page() } else { good };
            let n = LONGEST_TEXT + has(0) as usize - self.random.below(2) * !has(0) as usize;
            let room = if has(3) { n - 1 - self.random.below(9) } else { n + self.random.below(9) };
            let bytes = self.page_bytes(&page, n, has(2));
            self.page_read(&page, &bytes, room);
            let text = self.page_text(&page, n, has(2));
            self.page_written(&page, &text, room);
        }
    }
}

fn first<T>(list: &[T]) -> &[T] {
    &list[..list.len().min(100)]
}
