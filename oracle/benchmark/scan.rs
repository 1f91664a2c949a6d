// Scoring: the oracle and the proved library on the texts of texts.rs, in three shapes: one long text; a thousand short ones, each in a call of its own; and the same thousand as lines of one call of
// drasumira_score_lines, whose ends the library finds, while the oracle is handed each. Every call that is lent class records checks them first; what that costs is timed beside the rest.
// The short ones are a thousand so that none is learnt. The texts are lent as u32, `bytes` is each as UTF-8 in a call of its own. The oracle takes its text as a String, whose copy is counted.
use crate::library::{self, HostScore, Lent};
use crate::texts::{Records, TEXTS, text};
use crate::timing::in_turns;
use drasumira::{DEFAULT_THRESHOLD, NUMBERS_PER_LINE, SUMMER_RULE};
use oracle::open::Opened;
use ordered_float::OrderedFloat;
use std::cell::RefCell;
use std::hint::black_box;

const LONG: usize = 65_536;
const SHORT: usize = 80;
const MANY: usize = 1_000;
const NEVER: f32 = f32::MAX;

#[derive(Clone, Copy, PartialEq)]
enum Shape {
    Long,
    Short,
    Lines,
}

impl Shape {
    const ALL: [(&'static str, Shape); 3] = [("65,536", Shape::Long), ("80", Shape::Short), ("1,000 lines of 80", Shape::Lines)];

    fn texts(self, name: &str, records: &Records) -> Vec<Vec<char>> {
        match self {
            Shape::Long => vec![text(name, LONG, records)],
            // no newline may stand in a line
            _ => text(name, MANY * SHORT, records)
                .chunks(SHORT)
                .map(|line| line.iter().map(|c| if *c == '\n' { ' ' } else { *c }).collect())
                .collect(),
        }
    }

    // Calls of the library, each of which checks the table.
    fn calls(self) -> usize {
        if self == Shape::Short { MANY } else { 1 }
    }
}

// Texts in each form that a side takes.
pub struct Subject {
    shape: Shape,
    texts: Vec<String>,
    points: Vec<Vec<u32>>,
    burst: Vec<u8>,
    rows: RefCell<Vec<u32>>,
}

impl Subject {
    fn new(name: &str, shape: Shape, records: &Records) -> Subject {
        let chars = shape.texts(name, records);
        let texts: Vec<String> = chars.iter().map(|text| text.iter().collect()).collect();
        Subject {
            shape,
            points: chars.iter().map(|text| text.iter().map(|c| *c as u32).collect()).collect(),
            burst: texts.iter().flat_map(|text| text.bytes().chain([b'\n'])).collect(),
            rows: RefCell::new(vec![0; NUMBERS_PER_LINE * texts.len()]),
            texts,
        }
    }

    fn characters(&self) -> usize {
        self.points.iter().map(Vec::len).sum()
    }

    fn oracle(&self, threshold: f32) {
        for text in &self.texts {
            let (text, mut opened) = (black_box(text).to_string(), Opened::default());
            black_box(oracle::md::mess_ratio(text, Some(OrderedFloat(threshold)), &mut opened));
        }
    }

    fn library(&self, threshold: f32, lent: &Lent) {
        if self.shape == Shape::Lines {
            let told = library::score_lines(black_box(&self.burst), threshold, lent, &mut self.rows.borrow_mut());
            assert_eq!(black_box(told).count as usize, self.texts.len());
            return;
        }
        for text in &self.points {
            black_box(library::score(black_box(text), Some(threshold), lent));
        }
    }

    fn bytes(&self, threshold: f32, lent: &Lent) {
        for text in &self.texts {
            black_box(library::score_utf8(black_box(text.as_bytes()), Some(threshold), lent));
        }
    }

    // The rows of lines are the answers of the lines one by one.
    fn rows_are(&self, told: &[HostScore], threshold: f32, lent: &Lent) -> bool {
        self.library(threshold, lent);
        self.rows.borrow().iter().copied().eq(told.iter().flat_map(|score| score.words()))
    }

    // The library's answers, each of which must be the oracle's.
    fn answers(&self, name: &str, threshold: f32, lent: &Lent) -> Vec<HostScore> {
        let answer = |(text, points): (&String, &Vec<u32>)| {
            let (chars, told): (Vec<char>, _) = (text.chars().collect(), library::score(points, Some(threshold), lent));
            let theirs = oracle::open::score(&chars, Some(threshold), false);
            let theirs = (0, theirs.sum.to_bits(), theirs.fed as u32, theirs.stopped as u32);
            assert_eq!((told.number, told.sum.to_bits(), told.fed, told.stopped), theirs, "{name}: the answers differ");
            told
        };
        let told: Vec<HostScore> = self.texts.iter().zip(&self.points).map(answer).collect();
        assert!(self.shape != Shape::Lines || self.rows_are(&told, threshold, lent), "{name}: the rows differ");
        told
    }

    // How many of the texts are stopped at this threshold.
    fn stopped(&self, name: &str, threshold: f32, lent: &Lent) -> usize {
        self.answers(name, threshold, lent).iter().filter(|score| score.stopped == 1).count()
    }

    fn row(&self, name: &str, shape: &str, threshold: f32, lent: &Lent) {
        let stopped = self.stopped(name, threshold, lent);
        let [theirs, ours, bytes, check] = in_turns([
            &mut || self.oracle(threshold),
            &mut || self.library(threshold, lent),
            &mut || self.bytes(threshold, lent),
            &mut || check(lent),
        ]);
        let calls = self.shape.calls() as f64;
        let [a_call, a_char] = [calls * 1e3, self.characters() as f64];
        println!(
            "| {name} | {shape} | {} | {stopped} of {} | {:.1} | {:.1} | {:.1} | {:.2} | {:.2} | {:.2} | {:.2} | {:.2} |",
            if threshold == NEVER { "never".to_string() } else { threshold.to_string() },
            self.texts.len(),
            theirs / a_call,
            ours / a_call,
            check / 1e3,
            theirs / ours,
            theirs / (ours - calls * check),
            theirs / a_char,
            ours / a_char,
            bytes / a_char,
        );
    }
}

fn check(lent: &Lent) {
    black_box(library::check_classes(black_box(lent.classes.list())));
}

// What a call costs before its first character: the check of the records, a text of none, and a character that is fed to a running line by itself.
fn calls_alone(lent: &Lent) {
    let opened = library::open_line(1, NEVER, lent).state;
    let mut state = library::Guarded::new(&opened, library::WORD);
    let mut feed = || {
        state.list_mut().copy_from_slice(&opened);
        assert_eq!(library::feed(&mut state, black_box('a' as u32), lent).number, 0);
    };
    let mut nothing = || {
        black_box(library::score(black_box(&[]), Some(NEVER), lent));
    };
    let [check, empty, fed] = in_turns([&mut || check(lent), &mut nothing, &mut feed]).map(|time| time / 1e3);
    let records = lent.classes.list().len() / RECORD;
    println!("check of {records} records: {check:.2} us; a call on an empty text: {empty:.2} us; a character fed singly: {fed:.2} us\n");
}

const RECORD: usize = 24;

fn records_of(lent: &Lent) -> Records {
    let word = |record: &[u8], at: usize| u32::from_le_bytes(record[at..at + 4].try_into().expect("four bytes"));
    lent.classes.list().chunks_exact(RECORD).map(|record| (word(record, 0), word(record, 4))).collect()
}

const HEAD: [&str; 12] = [
    "text",
    "characters",
    "threshold",
    "stopped",
    "oracle us",
    "library us",
    "check us",
    "times as fast",
    "the check not counted",
    "oracle ns/char",
    "library ns/char",
    "bytes ns/char",
];

// Of all texts, or of those that are named. The rule of last summer has a row only where the default threshold, which is lower, stops a text.
pub fn table(lent: &Lent, names: &[&str]) {
    calls_alone(lent);
    let records = records_of(lent);
    println!("| {} |\n|{}", HEAD.join(" | "), "---|".repeat(HEAD.len()));
    for (name, _) in TEXTS.iter().filter(|t| names.is_empty() || names.contains(&t.0)) {
        for (shape_name, shape) in Shape::ALL {
            let subject = Subject::new(name, shape, &records);
            subject.row(name, shape_name, NEVER, lent);
            subject.row(name, shape_name, DEFAULT_THRESHOLD, lent);
            if subject.stopped(name, DEFAULT_THRESHOLD, lent) > 0 {
                subject.row(name, shape_name, SUMMER_RULE, lent);
            }
        }
    }
}

// For callgrind: just so many calls of a side, on a text as long or short as `shape` says, at the highest threshold.
pub fn calls(lent: &Lent, side: &str, name: &str, shape: &str, calls: usize) {
    let (_, shape) = Shape::ALL.iter().find(|s| s.0 == shape).expect("a shape");
    let subject = Subject::new(name, *shape, &records_of(lent));
    for _ in 0..calls {
        match side {
            "oracle" => subject.oracle(NEVER),
            "library" => subject.library(NEVER, lent),
            "bytes" => subject.bytes(NEVER, lent),
            _ => check(lent),
        }
    }
}
