// Rankings: what a call costs in the oracle and in the proved library, with all tables, the crate's small and threshold, no included
// number. The library's text, work area and list are lent; the oracle takes its text as a String, whose copy is counted.
#[path = "../differential/coherence/host.rs"]
mod host;

use crate::{CHINESE, ENGLISH, FRENCH, RUSSIAN, nanoseconds, repeated};
use host::{CoherenceMatch, Question};
use ordered_float::OrderedFloat;
use std::hint::black_box;

const LENGTHS: [usize; 2] = [1_000, 8_192];
const THRESHOLD: f32 = 0.1;
const SMALL: u32 = 32;
const RECORD: usize = 1_032;

const NAMES: [&str; 6] = ["ASCII", "French", "Russian", "Chinese", "mixed", "ideographs"];

fn text(name: &str, n: usize) -> String {
    match name {
        "ASCII" => repeated(ENGLISH, n),
        "French" => repeated(FRENCH, n),
        "Russian" => repeated(RUSSIAN, n),
        "Chinese" => repeated(CHINESE, n),
        "mixed" => repeated(&[ENGLISH, RUSSIAN, CHINESE, FRENCH].concat(), n),
        // every one different
        "ideographs" => ('\u{4E00}'..).take(n).collect(),
        _ => panic!("no text of the name {name}"),
    }
}

pub struct Tables {
    pub classes: Vec<u8>,
    pub pairs: Vec<u8>,
    pub languages: Vec<u8>,
}

struct Subject<'a> {
    text: String,
    points: Vec<u32>,
    tables: &'a Tables,
    work: Vec<u32>,
    matches: Vec<CoherenceMatch>,
}

impl Subject<'_> {
    fn new<'a>(name: &str, n: usize, tables: &'a Tables) -> Subject<'a> {
        let text = text(name, n);
        let matches = vec![CoherenceMatch { language: 0, score: 0.0 }; tables.languages.len() / RECORD];
        Subject { points: text.chars().map(|c| c as u32).collect(), text, tables, work: vec![0; 8 * n], matches }
    }

    fn oracle(&self) -> Vec<(u32, u32)> {
        let text = black_box(&self.text).to_string();
        let found = oracle::cd::coherence_ratio(text, Some(OrderedFloat(THRESHOLD)), None).expect("a ranking");
        found.iter().map(|m| (oracle::open::number(m.language), m.score.0.to_bits())).collect()
    }

    fn library(&mut self) -> Vec<(u32, u32)> {
        let Tables { classes, pairs, languages } = self.tables;
        let question =
            Question { text: black_box(&self.points), threshold: Some(THRESHOLD), small: SMALL, classes, pairs, languages, included: &[] };
        let told = host::coherence(&question, &mut self.work, &mut self.matches);
        assert_eq!(told.number, 0, "a text that is not refused");
        self.matches[..told.count as usize].iter().map(|m| (m.language, m.score.to_bits())).collect()
    }
}

pub fn table(tables: &Tables) {
    println!("| text | characters | oracle us | library us | oracle ns/char | library ns/char | times as fast |");
    println!("|---|---|---|---|---|---|---|");
    for (name, n) in NAMES.iter().flat_map(|name| LENGTHS.map(|n| (*name, n))) {
        let mut subject = Subject::new(name, n, tables);
        assert_eq!(subject.oracle(), subject.library(), "{name}, {n} characters: the answers differ");
        let theirs = nanoseconds(|| drop(black_box(subject.oracle())));
        let ours = nanoseconds(|| drop(black_box(subject.library())));
        let a_char = |ns: f64| ns / n as f64;
        println!(
            "| {name} | {n} | {:.1} | {:.1} | {:.1} | {:.1} | {:.2} |",
            theirs / 1e3,
            ours / 1e3,
            a_char(theirs),
            a_char(ours),
            theirs / ours
        );
    }
}

// For callgrind: just so many calls of a side.
pub fn calls(tables: &Tables, side: &str, name: &str, n: usize, calls: usize) {
    let mut subject = Subject::new(name, n, tables);
    for _ in 0..calls {
        drop(black_box(if side == "oracle" { subject.oracle() } else { subject.library() }));
    }
}
