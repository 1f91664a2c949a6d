// A month's report. What is expected is written here a second time, from 02 [13] alone: each line's bin is looked for among the 513, not divided for, and the
// text is put together from a sorted list. Compared byte by byte: the answer, every byte of the output, and what stands beside the lent rows.
use crate::Run;
use crate::library::{self, BYTE, Guarded, HostRead, Lent, WORD};
use crate::tables;
use crate::texts::{self, Alphabet};
use std::collections::BTreeMap;

const ROW: usize = 37;
const MOST: usize = 65_535;
const DETECTORS: usize = 8;
const LAST_BIN: u128 = 512;
// bytes that hold every text
const LONGEST: usize = 40_336;

// A detector's three words in a row: its ratio's bits, its numerator and its denominator.
fn numbers(row: &[u32], detector: usize) -> (u32, u32, u32) {
    (row[2 + detector], row[13 + 3 * detector], row[14 + 3 * detector])
}

// The largest bin k of the 513 for which k 64ths are not above the numerator over the denominator.
fn bin(row: &[u32], detector: usize) -> u128 {
    let (ratio, numerator, denominator) = numbers(row, detector);
    if f32::from_bits(ratio) == 0.0 || denominator == 0 {
        return 0;
    }
    (0..=LAST_BIN).rev().find(|k| k * denominator as u128 <= 64 * numerator as u128).expect("0 is not above it")
}

// The lines of the text, each detector's bins with the lines that name them; then the totals.
fn text(rows: &[u32]) -> String {
    let lines: Vec<&[u32]> = rows.chunks_exact(ROW).collect();
    let accepted: Vec<&&[u32]> = lines.iter().filter(|row| row[0] == 0).collect();
    let mut bins: BTreeMap<(usize, u128), u32> = BTreeMap::new();
    for row in &accepted {
        for detector in 0..DETECTORS {
            *bins.entry((detector + 1, bin(row, detector))).or_default() += 1;
        }
    }
    let mut told: Vec<String> = bins.iter().map(|((detector, bin), count)| format!("{detector} {bin} {count}\n")).collect();
    told.push(format!("lines {}\naccepted {}\nrefused {}\n", lines.len(), accepted.len(), lines.len() - accepted.len()));
    told.concat()
}

impl Run {
    fn reported(&mut self, rows: &[u32], expected: &str, room: usize) {
        self.counted();
        let before: Vec<u8> = (0..room).map(|_| self.random.next() as u8).collect();
        let (given, mut out) = (Guarded::new(rows, WORD), Guarded::new(&before, BYTE));
        let told = library::report(given.list(), out.list_mut());
        let mut holds = before;
        let answer = if rows.len() / ROW > MOST {
            HostRead { number: 17, place: 0, count: 0 }
        } else if room < expected.len() {
            HostRead { number: 3, place: 0, count: 0 }
        } else {
            holds[..expected.len()].copy_from_slice(expected.as_bytes());
            HostRead { number: 0, place: 0, count: expected.len() as u32 }
        };
        self.refused += (answer.number != 0) as u64;
        if told != answer || !out.holds(&holds) || !given.whole() {
            let at = out.list().iter().zip(&holds).position(|(a, b)| a != b);
            let few = &rows[..rows.len().min(3 * ROW)];
            self.fail(|| {
                format!("report of {} words, room {room}: {told:?}, 02 says {answer:?}; byte {at:?}; first rows {few:08X?}", rows.len())
            });
        }
    }

    // Rows with the rooms beside what the text needs.
    fn report_rooms(&mut self, rows: &[u32]) {
        let expected = text(rows);
        let n = expected.len();
        let more = n + self.random.below(40);
        for room in [n, n.saturating_sub(1), more] {
            self.reported(rows, &expected, room);
        }
    }

    // A numerator and a denominator whose quotient is at an edge of a bin or beside it, or anything.
    fn fraction(&mut self) -> (u32, u32) {
        let edges = [0, 1, 2, 63, 64, 65, 127, 512, 513, 0xFFFF, 0x3FF_FFFF, 0x400_0000, 0x400_0001, 0x7FFF_FFFF, 0x8000_0000, u32::MAX];
        match self.random.below(4) {
            0 => (*self.random.pick(&edges), *self.random.pick(&edges)),
            1 => (self.random.next() as u32, self.random.next() as u32),
            2 => {
                let denominator = 1 + self.random.below(70_000) as u64;
                let bin = self.random.below(515) as u64;
                let numerator = (bin * denominator).div_ceil(64) + self.random.below(3) as u64;
                (numerator.saturating_sub(1) as u32, denominator as u32)
            }
            _ => (self.random.below(9) as u32, self.random.below(9) as u32),
        }
    }

    // A row of anything: most lines accepted, ratios of either zero and of numbers that are none.
    fn hostile_row(&mut self) -> Vec<u32> {
        let mut row: Vec<u32> = (0..ROW).map(|_| self.random.next() as u32).collect();
        row[0] = if self.random.below(4) == 0 { *self.random.pick(&[1, 2, 3, 6, 18, 19, 20, 21, 1 << 31, u32::MAX]) } else { 0 };
        for detector in 0..DETECTORS {
            row[2 + detector] =
                *self.random.pick(&[0, 0x8000_0000, 1, 0x8000_0001, 0x3F80_0000, 0x7F80_0000, 0x7FC0_0000, u32::MAX, 0x3E99_999A]);
            (row[13 + 3 * detector], row[14 + 3 * detector]) = self.fraction();
            row[15 + 3 * detector] = *self.random.pick(&[0, 1, u32::MAX]);
        }
        row
    }

    fn hostile_rows(&mut self, times: usize) {
        for at in 0..times {
            let lines = *self.random.pick(&[0, 1, 1, 2, 3, 9, 40]);
            let mut rows: Vec<u32> = (0..lines).flat_map(|_| self.hostile_row()).collect();
            let beyond = if at % 3 == 0 { self.random.below(ROW) } else { 0 };
            rows.extend((0..beyond).map(|_| self.random.next() as u32));
            self.report_rooms(&rows);
        }
    }

    // Every bin of a detector, its first and its last numerator, over several denominators.
    fn every_bin(&mut self) {
        for detector in 0..DETECTORS {
            let mut rows = vec![];
            for (bin, denominator) in (0..=514u64).flat_map(|bin| [1u64, 3, 64, 1_000, 65_537].map(|d| (bin, d))) {
                for numerator in [(bin * denominator).div_ceil(64), ((bin + 1) * denominator).div_ceil(64).saturating_sub(1)] {
                    let mut row = vec![0; ROW];
                    row[2 + detector] = 0x3F80_0000;
                    (row[13 + 3 * detector], row[14 + 3 * detector]) = (numerator as u32, denominator as u32);
                    rows.extend(row);
                }
            }
            self.report_rooms(&rows);
        }
    }

    // Months of as many lines as may be, and one more; one whose text is the longest.
    fn longest_months(&mut self) {
        let kinds: Vec<Vec<u32>> = (0..50).map(|_| self.hostile_row()).collect();
        for (lines, beyond) in [(MOST, 0), (MOST, ROW - 1), (MOST + 1, 0), (MOST + 2, 5), (MOST - 1, 0)] {
            let mut rows: Vec<u32> = (0..lines).flat_map(|at| kinds[at * at % kinds.len()].clone()).collect();
            rows.extend(vec![0; beyond]);
            self.report_rooms(&rows);
        }
        // 498 bins of 100 lines and 15 of 1,000, and 735 lines refused
        let mut rows = vec![];
        for bin in 0..=LAST_BIN as u32 {
            let mut row = vec![0; ROW];
            for detector in 0..DETECTORS {
                (row[2 + detector], row[13 + 3 * detector], row[14 + 3 * detector]) = (1, bin, 64);
            }
            rows.extend(row.repeat(if bin < 498 { 100 } else { 1_000 }));
        }
        let mut refused = vec![0; ROW];
        refused[0] = 6;
        rows.extend(refused.repeat(MOST - rows.len() / ROW));
        let expected = text(&rows);
        self.reported(&rows, &expected, LONGEST);
        if expected.len() != 40_319 {
            self.fail(|| format!("the longest text has {} bytes", expected.len()));
        }
    }

    // Rows that the library left, of a month in bursts; and the Rust package's report of them.
    fn real_months(&mut self, times: usize, classes: &[u8], pairs: &[u8]) {
        let records = tables::records(classes);
        let alphabet = Alphabet::new(&records);
        let lent = Lent::new(classes, pairs);
        for _ in 0..times {
            let (mut month, mut package) = (vec![], drasumira::Report::new());
            for _ in 0..self.random.below(4) {
                let bytes = self.some_lines(&alphabet);
                let mut rows = vec![0; ROW * bytes.iter().filter(|b| **b == 0x0A).count() + ROW];
                let threshold = texts::threshold(&mut self.random).filter(|t| t.is_finite()).unwrap_or(0.2);
                let told = library::score_lines(&bytes, threshold, &lent, &mut rows);
                rows.truncate(ROW * told.count as usize);
                package.add_rows(&rows).expect("few lines");
                month.extend(rows);
            }
            self.report_rooms(&month);
            if package.to_string() != text(&month) {
                self.fail(|| format!("the Rust package's report of {} lines", month.len() / ROW));
            }
        }
    }

    pub fn all_reports(&mut self, classes: &[u8], pairs: &[u8]) {
        self.during("rows of anything", |run| run.hostile_rows(run.times(3_000, 60_000)));
        self.during("every bin", |run| run.every_bin());
        self.during("longest months", |run| run.longest_months());
        self.during("months of real lines", |run| run.real_months(run.times(300, 6_000), classes, pairs));
    }
}
