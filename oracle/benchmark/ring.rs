// The verdict ring beside what a Rust host would write instead, a VecDeque of records of 32 bytes: nanoseconds a record of putting and of flushing, through a ring of 2,048
// slots whose head wanders. Both sides hand the same bytes out.
use crate::{library, nanoseconds};
use std::collections::VecDeque;
use std::hint::black_box;

const RECORD: usize = 32;
const SLOTS: usize = 2_048;
const BURST: usize = 1_000;

pub struct Ring {
    bytes: Vec<u8>,
    head: u32,
    count: u32,
    out: Vec<u8>,
    queue: VecDeque<[u8; RECORD]>,
}

impl Ring {
    pub fn new() -> Ring {
        Ring { bytes: vec![0; RECORD * SLOTS], head: 0, count: 0, out: vec![0; RECORD * BURST], queue: VecDeque::with_capacity(SLOTS) }
    }

    pub fn put(&mut self) {
        for line in 0..BURST as u64 {
            let told = library::ring_put(&mut self.bytes, self.head, self.count, black_box(line), black_box([0x3E99_999A, 81, 0, 0]));
            assert_eq!(told.number, 0);
            (self.head, self.count) = (told.head, told.count);
        }
    }

    // In flushes of so many records.
    pub fn flush(&mut self, most: usize) {
        for out in self.out.chunks_mut(RECORD * most) {
            let told = library::ring_flush(&self.bytes, self.head, self.count, most as u32, out);
            assert_eq!(told.number, 0);
            (self.head, self.count) = (told.head, told.count);
        }
        black_box(&self.out);
    }

    pub fn put_queue(&mut self) {
        for line in 0..BURST as u64 {
            let (line, words) = (black_box(line), black_box([0x3E99_999Au32, 81, 0, 0]));
            assert!(self.queue.len() < SLOTS);
            let mut record = [0; RECORD];
            record[..8].copy_from_slice(&line.to_le_bytes());
            words.iter().enumerate().for_each(|(at, word)| record[8 + 4 * at..12 + 4 * at].copy_from_slice(&word.to_le_bytes()));
            self.queue.push_back(record);
        }
    }

    pub fn flush_queue(&mut self, most: usize) {
        for out in self.out.chunks_mut(RECORD * most) {
            for place in out.chunks_exact_mut(RECORD) {
                place.copy_from_slice(&self.queue.pop_front().expect("as many as were put"));
            }
        }
        black_box(&self.out);
    }
}

pub fn table() {
    let mut ring = Ring::new();
    println!("\n| records of a burst of {BURST}, ring of {SLOTS} | VecDeque ns/record | library ns/record |");
    println!("|---|---|---|");
    for most in [BURST, 10, 1] {
        let theirs = nanoseconds(|| {
            ring.put_queue();
            ring.flush_queue(most);
        });
        let ours = nanoseconds(|| {
            ring.put();
            ring.flush(most);
        });
        println!("| put one by one and flushed by {most} | {:.1} | {:.1} |", theirs / BURST as f64, ours / BURST as f64);
    }
}
