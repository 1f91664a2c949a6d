// The lines of a log, scored and nothing else: the oracle line by line, and the library in bursts of the command's size, in turns and in one thread. Both by
// the library's default threshold, as the command scores them.
use crate::{library, now};
use drasumira::{DEFAULT_THRESHOLD, NUMBERS_PER_LINE};
use library::Lent;
use oracle::open::Opened;
use ordered_float::OrderedFloat;
use std::hint::black_box;

const BURST: usize = 262_144;
const TURNS: usize = 3;

pub fn table(log: &[u8], lent: &Lent) {
    let text = std::str::from_utf8(log).expect("a log that is UTF-8");
    let mut rows = vec![0; NUMBERS_PER_LINE * BURST];
    let mut fastest = [f64::MAX; 2];
    for _ in 0..TURNS {
        let mut time = |side: usize, call: &mut dyn FnMut()| {
            let began = now();
            call();
            fastest[side] = fastest[side].min(now() - began);
        };
        time(0, &mut || text.lines().for_each(oracle_scores));
        time(1, &mut || library_scores(log, lent, &mut rows));
    }
    println!("| {} bytes, {} lines | processor seconds | MB to a processor second |", log.len(), text.lines().count());
    println!("|---|---|---|");
    for (side, took) in ["oracle", "library"].iter().zip(fastest) {
        println!("| {side} | {:.2} | {:.1} |", took / 1e9, log.len() as f64 * 1e3 / took);
    }
}

fn oracle_scores(line: &str) {
    let mut opened = Opened::default();
    black_box(oracle::md::mess_ratio(black_box(line).to_string(), Some(OrderedFloat(DEFAULT_THRESHOLD)), &mut opened));
}

fn library_scores(log: &[u8], lent: &Lent, rows: &mut [u32]) {
    let mut rest = log;
    while !rest.is_empty() {
        let end = rest.len().min(BURST);
        let cut = rest[..end].iter().rposition(|b| *b == b'\n').map_or(end, |at| at + 1);
        let told = library::score_lines(black_box(&rest[..cut]), DEFAULT_THRESHOLD, lent, rows);
        assert_eq!(black_box(told).number, 0);
        rest = &rest[cut..];
    }
}
