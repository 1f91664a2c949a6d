// Answers request lines on standard input: one line for each request that asks.
// Code points, flags, thresholds and f32s are hex (an f32 by its 8 digits of bits), all other numbers decimal. TEXT is code points joined
// by ',', or u: and UTF-8 in hex, or - for the empty text; a threshold THR of - is the crate's default.
//   class CP                 FLAGS RANGE BASE LOWER             bit 24 added; base, lower 0: itself
//   mess THR TEXT            SUM R1 .. R8 FED STOPPED A1:B1 .. A8:B8      each detector's counters, A over B
//   alone TEXT               the same, fed without the newline and never stopped
//   coh THR INCLUDED TEXT    N NUMBER:SCORE ..                  INCLUDED: - or numbers joined by ','; 0 is pure Latin
//   layers TEXT              the lowered letters of each layer, in making order
//   jaro TEXT TEXT           the f32
//   merge RANKING ..         NUMBER:SCORE ..                    RANKING: NUMBER:SCORE joined by ',', or -
// These lend a table, so that it stands for the crate's own data until `reset`, and are not answered:
//   set CP FLAGS RANGE BASE LOWER | classes FILE | pairs FILE | languages FILE | small N | reset
use crate::tables::point;
use oracle::entity::{CoherenceMatch, CoherenceMatches, Language};
use oracle::open::*;
use ordered_float::OrderedFloat;
use std::io::{BufRead, Write};

fn hex(word: &str) -> u32 {
    u32::from_str_radix(word, 16).expect("a hex number")
}

fn decimal<T: std::str::FromStr>(word: &str) -> T {
    word.parse().ok().expect("a decimal number")
}

fn bits(x: f32) -> String {
    format!("{:08X}", x.to_bits())
}

fn threshold(word: &str) -> Option<f32> {
    (word != "-").then(|| f32::from_bits(hex(word)))
}

fn list(word: &str) -> Vec<&str> {
    if word == "-" { vec![] } else { word.split(',').collect() }
}

fn text(word: &str) -> Vec<char> {
    match word.strip_prefix("u:") {
        Some(digits) => {
            let bytes = (0..digits.len() / 2).map(|i| hex(&digits[2 * i..2 * i + 2]) as u8).collect();
            String::from_utf8(bytes).expect("UTF-8").chars().collect()
        }
        None => list(word).iter().map(|w| point(hex(w))).collect(),
    }
}

fn string(word: &str) -> String {
    text(word).into_iter().collect()
}

fn shown(s: &Score) -> String {
    let ratios: Vec<String> = s.ratios.iter().map(|r| bits(*r)).collect();
    let counts: Vec<String> = s.counts.iter().map(|[over, under]| format!("{over}:{under}")).collect();
    format!("{} {} {} {} {}", bits(s.sum), ratios.join(" "), s.fed, s.stopped as u8, counts.join(" "))
}

fn class(word: &str) -> String {
    let c = point(hex(word));
    let k = lent_class(c).unwrap_or_else(|| crate_class(c));
    format!("{:07X} {} {:X} {:X}", k.flags, k.range, k.base, k.lower)
}

fn ranking(found: impl Iterator<Item = (u32, f32)>) -> Vec<String> {
    found.map(|(n, s)| format!("{n}:{}", bits(s))).collect()
}

fn coherent(thr: &str, included: &str, words: &str) -> String {
    let included: Vec<u32> = list(included).into_iter().map(decimal).collect();
    match coherence(&text(words), threshold(thr), &included) {
        Ok(found) => std::iter::once(found.len().to_string()).chain(ranking(found.into_iter())).collect::<Vec<_>>().join(" "),
        Err(e) => format!("error {e}"),
    }
}

fn layers(word: &str) -> String {
    let layer = |l: &String| l.chars().map(|c| format!("{:X}", c as u32)).collect::<Vec<_>>().join(",");
    oracle::cd::alpha_unicode_split(&string(word)).iter().map(layer).collect::<Vec<_>>().join(" ")
}

fn merged(rankings: &[&str]) -> String {
    let one = |m: &str| {
        let (n, s) = m.split_once(':').expect("NUMBER:SCORE");
        CoherenceMatch { language: language(decimal(n)).expect("a language"), score: OrderedFloat(f32::from_bits(hex(s))) }
    };
    let rankings: Vec<CoherenceMatches> = rankings.iter().map(|r| list(r).into_iter().map(one).collect()).collect();
    ranking(oracle::cd::merge_coherence_ratios(&rankings).iter().map(|m| (number(m.language), m.score.0))).join(" ")
}

fn word_at(bytes: &[u8], at: usize) -> u32 {
    u32::from_le_bytes(bytes[at..at + 4].try_into().expect("four bytes"))
}

fn class_record(r: &[u8]) -> (u32, u32, Class) {
    let class = Class { flags: word_at(r, 8), range: word_at(r, 12) as u16, base: word_at(r, 16), lower: word_at(r, 20) };
    (word_at(r, 0), word_at(r, 4), class)
}

fn language_record(r: &[u8]) -> LanguageRow {
    let (count, marks) = (word_at(r, 4) & 0xFFFF, word_at(r, 4) >> 16);
    let letters: String = (0..count as usize).map(|i| point(word_at(r, 8 + 4 * i))).collect();
    (Language::Lent(word_at(r, 0)), letters.leak(), marks & 1 != 0, marks & 2 != 0)
}

fn lend(change: impl FnOnce(&mut Lent)) -> Option<String> {
    LENT.with_borrow_mut(change);
    None
}

// The answer to a request, or None where it only lends.
fn answer(words: &[&str]) -> std::io::Result<Option<String>> {
    Ok(match *words {
        ["class", c] => Some(class(c)),
        ["mess", thr, t] => Some(shown(&score(&text(t), threshold(thr), false))),
        ["alone", t] => Some(shown(&score(&text(t), Some(f32::INFINITY), true))),
        ["coh", thr, included, t] => Some(coherent(thr, included, t)),
        ["layers", t] => Some(layers(t)),
        ["jaro", a, b] => Some(bits(strsim::jaro(&string(a), &string(b)) as f32)),
        ["merge", ref rankings @ ..] => Some(merged(rankings)),
        ["set", c, flags, range, base, lower] => lend(|o| {
            o.single.insert(hex(c), Class { flags: hex(flags), range: decimal(range), base: hex(base), lower: hex(lower) });
        }),
        ["classes", file] => {
            let bytes = std::fs::read(file)?;
            lend(|o| o.classes = Some(bytes.chunks(24).map(class_record).collect()))
        }
        ["pairs", file] => {
            let bytes = std::fs::read(file)?;
            lend(|o| o.pairs = Some(bytes))
        }
        ["languages", file] => {
            let bytes = std::fs::read(file)?;
            let records: Vec<LanguageRow> = bytes.chunks(1032).map(language_record).collect();
            lend(|o| o.languages = Some(records.leak()))
        }
        ["small", n] => lend(|o| o.small = Some(decimal(n))),
        ["reset"] => lend(|o| *o = Lent::default()),
        _ => return Err(std::io::Error::other(format!("unknown request: {}", words.join(" ")))),
    })
}

pub fn run() -> std::io::Result<()> {
    let mut out = std::io::BufWriter::new(std::io::stdout().lock());
    for line in std::io::stdin().lock().lines() {
        let line = line?;
        if line.is_empty() || line.starts_with('#') {
            continue;
        }
        let words: Vec<&str> = line.split(' ').collect();
        if let Some(said) = answer(&words)? {
            writeln!(out, "{said}")?;
            out.flush()?;
        }
    }
    Ok(())
}
