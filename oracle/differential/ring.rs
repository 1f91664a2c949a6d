// The verdict ring. What is expected of a call is written here a second time, from 02 [11] alone: a queue of records (VecDeque) for what was put and not yet flushed, and the bytes that the
// ring must hold. A history is one ring from its opening on; its calls get the head and count of the last accepted answer, and between them stand calls that get a wrong size, head, count or
// output. Compared after each call: the answer, every byte of the ring, every byte of the output, and what stands beside them.
use crate::Run;
use crate::library::{self, BYTE, Guarded, HostRing, ring_flush as flush, ring_open as open};
use crate::random::Random;
use std::collections::VecDeque;

const RECORD: usize = 32;
const MOST: usize = 2_048;
const CALLS: usize = 200; // of a history

#[derive(Clone, Copy, Debug)]
struct Numbers {
    line: u64,
    words: [u32; 4],
}

impl Numbers {
    // Line number u64, score bits u32, fed u32, stopped u32, refusal u32, 8 zero bytes, little-endian.
    fn record(&self) -> [u8; RECORD] {
        let mut record = [0; RECORD];
        record[..8].copy_from_slice(&self.line.to_le_bytes());
        for (at, word) in self.words.iter().enumerate() {
            record[8 + 4 * at..12 + 4 * at].copy_from_slice(&word.to_le_bytes());
        }
        record
    }
}

fn put(ring: &mut [u8], head: u32, count: u32, n: &Numbers) -> HostRing {
    library::ring_put(ring, head, count, n.line, n.words)
}

fn refused(number: u32) -> HostRing {
    HostRing { number, ..HostRing::default() }
}

// Not 1 to 2,048 whole records.
fn wrong_size(bytes: usize) -> bool {
    bytes % RECORD != 0 || bytes == 0 || bytes > RECORD * MOST
}

// 15: such a size, a head not below it or a count above it.
fn wrong(bytes: usize, head: u32, count: u32) -> bool {
    wrong_size(bytes) || head as usize >= bytes / RECORD || count as usize > bytes / RECORD
}

// A number that a host may hand over by mistake: small, beside the size, or large.
fn hostile(random: &mut Random, slots: usize) -> u32 {
    let near = [0, 1, 2, slots.wrapping_sub(1), slots, slots + 1, 2 * slots, MOST, u32::MAX as usize, u32::MAX as usize - 1, 1 << 31];
    if random.below(3) == 0 { random.next() as u32 } else { *random.pick(&near) as u32 }
}

fn numbers(random: &mut Random) -> Numbers {
    let edges = [0, 1, u32::MAX, 0x3E99_999A, 1 << 31];
    let words = [0; 4].map(|_: u32| if random.below(2) == 0 { *random.pick(&edges) } else { random.next() as u32 });
    let line = if random.below(2) == 0 { random.below(9) as u64 } else { random.next() };
    Numbers { line, words }
}

fn bytes(random: &mut Random, n: usize) -> Vec<u8> {
    (0..n).map(|_| random.next() as u8).collect()
}

// A ring, the bytes that it must hold, and the records that are in it.
struct History {
    ring: Guarded<u8>,
    holds: Vec<u8>,
    head: u32,
    count: u32,
    queue: VecDeque<[u8; RECORD]>,
}

impl Run {
    fn ring_differs(&self, what: &str, h: &History, told: HostRing, expected: HostRing) -> ! {
        self.fail(|| {
            format!(
                "{what} of a ring of {} bytes, head {}, count {}\nlibrary  {told:?}\nexpected {expected:?}\nring bytes as expected: {}",
                h.holds.len(),
                h.head,
                h.count,
                h.ring.holds(&h.holds)
            )
        })
    }

    // The accepted answer is kept; a refusal leaves the host's own.
    fn ring_kept(&mut self, what: &str, h: &mut History, told: HostRing, expected: HostRing) {
        self.counted();
        self.refused += (expected.number != 0) as u64;
        if told != expected || !h.ring.holds(&h.holds) {
            self.ring_differs(what, h, told, expected);
        }
        if told.number == 0 {
            (h.head, h.count) = (told.head, told.count);
        }
    }

    fn ring_put(&mut self, h: &mut History) {
        let (n, slots) = (numbers(&mut self.random), h.holds.len() / RECORD);
        let expected = match h.queue.len() == slots {
            true => refused(16),
            false => {
                let free = (h.head as usize + h.queue.len()) % slots;
                h.holds[RECORD * free..][..RECORD].copy_from_slice(&n.record());
                h.queue.push_back(n.record());
                HostRing { head: h.head, count: h.queue.len() as u32, ..HostRing::default() }
            }
        };
        let told = put(h.ring.list_mut(), h.head, h.count, &n);
        self.ring_kept("a put", h, told, expected);
    }

    fn ring_flush(&mut self, h: &mut History) {
        let slots = h.holds.len() / RECORD;
        let most = if self.random.below(8) == 0 { hostile(&mut self.random, slots) } else { self.random.below(5) as u32 };
        let n = (most as usize).min(h.queue.len());
        let room = match self.random.below(6) {
            0 => (RECORD * n).saturating_sub(1 + self.random.below(40)),
            1 => RECORD * n + self.random.below(70),
            _ => RECORD * n,
        };
        let before = bytes(&mut self.random, room);
        let mut after = before.clone();
        let expected = match room < RECORD * n {
            true => refused(3),
            false => {
                for place in after.chunks_exact_mut(RECORD).take(n) {
                    place.copy_from_slice(&h.queue.pop_front().expect("as many as are taken"));
                }
                HostRing { head: ((h.head as usize + n) % slots) as u32, count: h.queue.len() as u32, ..HostRing::default() }
            }
        };
        let mut out = Guarded::new(&before, BYTE);
        let told = flush(h.ring.list(), h.head, h.count, most, out.list_mut());
        if !out.holds(&after) {
            self.ring_differs("the output of a flush", h, told, expected);
        }
        self.ring_kept("a flush", h, told, expected);
    }

    // A call beside the history: a part of the ring, a head and a count of any kind. It is accepted or not; what is in the ring is then what its slots hold. The ring is put back.
    fn ring_hostile(&mut self, h: &mut History) {
        let slots = h.holds.len() / RECORD;
        let (mut head, mut count) = (h.head, h.count);
        let mut size = h.holds.len();
        match self.random.below(4) {
            0 => head = hostile(&mut self.random, slots),
            1 => count = hostile(&mut self.random, slots),
            2 => size -= self.random.below(size.min(70) + 1),
            _ => (head, count) = (self.random.below(slots + 1) as u32, self.random.below(slots + 2) as u32),
        }
        let (bad, size_slots) = (wrong(size, head, count), size / RECORD);
        let mut at =
            History { ring: Guarded::new(&h.holds[..size], BYTE), holds: h.holds[..size].to_vec(), head, count, queue: VecDeque::new() };
        if self.random.below(8) == 0 {
            let told = open(at.ring.list());
            return self.ring_kept("an opening", &mut at, told, if wrong_size(size) { refused(15) } else { HostRing::default() });
        }
        if bad {
            let (n, most, room) = (numbers(&mut self.random), hostile(&mut self.random, slots), self.random.below(99));
            let told = put(at.ring.list_mut(), head, count, &n);
            self.ring_kept("a put", &mut at, told, refused(15));
            let mut out = Guarded::new(&bytes(&mut self.random, room), BYTE);
            let told = flush(at.ring.list(), head, count, most, out.list_mut());
            if !out.whole() {
                self.ring_differs("the output of a flush", &at, told, refused(15));
            }
            return self.ring_kept("a flush", &mut at, told, refused(15));
        }
        // a good head and count over any bytes: the records are those of the slots from head on
        at.queue = (0..count as usize)
            .map(|i| at.holds[RECORD * ((head as usize + i) % size_slots)..][..RECORD].try_into().expect("a record"))
            .collect();
        if self.random.below(2) == 0 { self.ring_put(&mut at) } else { self.ring_flush(&mut at) }
    }

    // Histories of rings of 1 to a few slots, and of sizes up to the most.
    fn rings(&mut self, times: usize) {
        for at in 0..times {
            let slots = match at % 16 {
                0 => MOST - self.random.below(3),
                1 => 1 + self.random.below(MOST),
                n => 1 + n / 2 % 7,
            };
            let holds = bytes(&mut self.random, RECORD * slots);
            let mut h = History { ring: Guarded::new(&holds, BYTE), holds, head: 7, count: 7, queue: VecDeque::new() };
            let told = open(h.ring.list());
            self.ring_kept("an opening", &mut h, told, HostRing::default());
            // a burst fills large rings, so that 16 and the last slot are met there too
            for _ in 0..if slots > 100 && at % 32 < 2 { slots + 2 } else { 0 } {
                self.ring_put(&mut h);
            }
            let full = self.random.below(4);
            for _ in 0..CALLS {
                match self.random.below(8) {
                    0 => self.ring_hostile(&mut h),
                    n if n <= 2 + full => self.ring_put(&mut h),
                    _ => self.ring_flush(&mut h),
                }
            }
        }
    }

    // Every size from none to past the most, for opening; every head and count beside a small size, for the other two.
    fn ring_edges(&mut self) {
        let all = vec![0x5A; RECORD * (MOST + 2)];
        for size in (0..200).chain(RECORD * MOST - 40..=RECORD * (MOST + 2)) {
            let mut h =
                History { ring: Guarded::new(&all[..size], BYTE), holds: all[..size].to_vec(), head: 0, count: 0, queue: VecDeque::new() };
            let told = open(h.ring.list());
            self.ring_kept("an opening", &mut h, told, if wrong_size(size) { refused(15) } else { HostRing::default() });
        }
        for slots in 1..5 {
            for (head, count) in (0..slots as u32 + 2).flat_map(|head| (0..slots as u32 + 2).map(move |count| (head, count))) {
                for put_it in [true, false] {
                    let holds = bytes(&mut self.random, RECORD * slots);
                    let mut h = History { ring: Guarded::new(&holds, BYTE), holds, head, count, queue: VecDeque::new() };
                    if wrong(RECORD * slots, head, count) {
                        let n = numbers(&mut self.random);
                        let told =
                            if put_it { put(h.ring.list_mut(), head, count, &n) } else { flush(h.ring.list(), head, count, 0, &mut []) };
                        self.ring_kept("a call", &mut h, told, refused(15));
                        continue;
                    }
                    h.queue = (0..count as usize)
                        .map(|i| h.holds[RECORD * ((head as usize + i) % slots)..][..RECORD].try_into().expect("a record"))
                        .collect();
                    if put_it { self.ring_put(&mut h) } else { self.ring_flush(&mut h) }
                }
            }
        }
    }

    // The Rust package's ring beside the same queue.
    fn package_rings(&mut self, times: usize) {
        for _ in 0..times {
            let slots = 1 + self.random.below(9);
            let mut ring = drasumira::Ring::open(bytes(&mut self.random, RECORD * slots)).expect("a good size");
            let mut queue: VecDeque<(u64, f32, u32, bool, u32)> = VecDeque::new();
            for _ in 0..60 {
                self.counted();
                let line = self.random.below(5) as u64 + (self.random.below(2) as u64) * u64::MAX / 2;
                if self.random.below(5) < 3 {
                    let number = 1 + self.random.below(9) as u32;
                    let text = *self.random.pick(&["plain", "\u{1}\u{2}", "", "A line."]);
                    let told =
                        if self.random.below(3) == 0 { Err(drasumira::Refusal::new(number, 4)) } else { Ok(self.package_score(text)) };
                    let full = queue.len() == slots;
                    let answer = ring.put(line, &told);
                    if answer.is_err() != full || answer.is_err_and(|r| (r.number, r.place) != (16, 0)) {
                        self.fail(|| format!("the package's put into {} of {slots}", queue.len()));
                    }
                    if !full {
                        queue.push_back(match told {
                            Ok(s) => (line, s.sum, s.fed, s.stopped, 0),
                            Err(r) => (line, 0.0, 0, false, r.number),
                        });
                    }
                } else {
                    let most = self.random.below(4);
                    let told: Vec<_> =
                        ring.flush(most).expect("never refused").iter().map(|r| (r.line, r.sum, r.fed, r.stopped, r.refusal)).collect();
                    let expected: Vec<_> = queue.drain(..most.min(queue.len())).collect();
                    if told != expected {
                        self.fail(|| format!("the package's flush of {most}: {told:?}, expected {expected:?}"));
                    }
                }
                if ring.len() != queue.len() || ring.is_empty() != queue.is_empty() {
                    self.fail(|| format!("the package's ring has {} records, expected {}", ring.len(), queue.len()));
                }
            }
        }
    }

    pub fn all_rings(&mut self) {
        self.during("edges of rings", |run| run.ring_edges());
        self.during("histories of rings", |run| run.rings(run.times(1_500, 30_000)));
        self.during("the Rust package's rings", |run| run.package_rings(run.times(500, 10_000)));
    }

    fn package_score(&self, text: &str) -> drasumira::Score {
        thread_local!(static TABLES: drasumira::Tables = drasumira::Tables::builtin_only());
        TABLES.with(|tables| drasumira::score(text, None, tables)).expect("built-in characters")
    }
}
