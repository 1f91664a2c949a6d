// `drasumira score`: a row for each line.
use crate::bursts::{Line, Shared, Teller, Told, each_line};
use crate::input::{Burst, Name};
use crate::options::Options;
use crate::shown::json;
use drasumira::{Detector, Refusal, Score};
use std::io::Write;

pub struct Rows;

impl Teller for Rows {
    fn head(&self, options: &Options) -> &'static str {
        if options.json { "" } else { "file\tline\tscore\tfed\tstopped\tdetector\tnumerator\tdenominator\n" }
    }

    fn tell(&self, shared: &Shared<'_>, burst: &Burst, rows: &mut Vec<u32>, told: &mut Told) {
        each_line(shared, burst, rows, told, |told, line| {
            let out = &mut told.out;
            match (line.score, shared.options.json) {
                (Ok(score), false) => put_row(out, &burst.file, &line, &score),
                (Ok(score), true) => put_object(out, shared, &burst.file, &line, &score),
                (Err(refusal), false) => {
                    let words = shared.reading().words(refusal);
                    put(out, format_args!("{}\t{}\t-\t-\t-\trefused: {words}\t-\t-\n", burst.file.shown, line.number));
                }
                (Err(refusal), true) => put_refused(out, shared, &burst.file, &line, refusal),
            }
        });
    }
}

/// Puts words; memory takes all of them.
pub fn put(out: &mut Vec<u8>, words: std::fmt::Arguments<'_>) {
    out.write_fmt(words).expect("memory can be written");
}

// Most of what `score` costs on top of the scoring is this: numbers are put digit by digit, without the machinery of formats, where no format is needed.
fn put_row(out: &mut Vec<u8>, file: &Name, line: &Line<'_>, score: &Score) {
    out.extend_from_slice(file.shown.as_bytes());
    out.push(b'\t');
    put_number(out, line.number);
    put(out, format_args!("\t{}\t", score.sum));
    put_number(out, score.fed.into());
    out.extend_from_slice(if score.stopped { b"\tyes\t" } else { b"\tno\t" });
    match score.greatest() {
        Some(detector) => {
            let share = score.share(detector);
            put(out, format_args!("{detector}\t{}\t{}\n", share.numerator, share.denominator));
        }
        None => out.extend_from_slice(b"-\t-\t-\n"),
    }
}

fn put_number(out: &mut Vec<u8>, number: u64) {
    let (mut digits, mut at, mut rest) = ([0; 20], 20, number);
    loop {
        at -= 1;
        digits[at] = b'0' + (rest % 10) as u8;
        rest /= 10;
        if rest == 0 {
            break out.extend_from_slice(&digits[at..]);
        }
    }
}

// Without its closing brace: `why` has more to say.
pub fn put_verdict(out: &mut Vec<u8>, shared: &Shared<'_>, file: &Name, line: &Line<'_>, score: &Score, detector: Option<Detector>) {
    let (number, noise) = (line.number, score.sum >= shared.threshold());
    put(out, format_args!("{{\"file\":{},\"line\":{number},\"noise\":{noise},\"score\":{}", file.json, score.sum));
    put(out, format_args!(",\"threshold\":{},\"fed\":{},\"stopped\":{}", shared.threshold(), score.fed, score.stopped));
    match detector {
        Some(detector) => {
            let share = score.share(detector);
            put(out, format_args!(",\"detector\":\"{detector}\",\"numerator\":{},\"denominator\":{}", share.numerator, share.denominator));
        }
        None => out.extend_from_slice(b",\"detector\":null,\"numerator\":null,\"denominator\":null"),
    }
}

fn put_object(out: &mut Vec<u8>, shared: &Shared<'_>, file: &Name, line: &Line<'_>, score: &Score) {
    put_verdict(out, shared, file, line, score, score.greatest());
    out.extend_from_slice(b"}\n");
}

/// A refused line as an object of JSON.
pub fn put_refused(out: &mut Vec<u8>, shared: &Shared<'_>, file: &Name, line: &Line<'_>, refusal: Refusal) {
    let words = shared.reading().words(refusal);
    put(out, format_args!("{{\"file\":{},\"line\":{},\"refused\":{},\"place\":{}", file.json, line.number, refusal.number, refusal.place));
    put(out, format_args!(",\"words\":{}}}\n", json(&words)));
}

#[cfg(test)]
mod tests {
    #[test]
    fn digits() {
        for number in [0, 9, 10, 65_537, u64::MAX] {
            let mut out = vec![];
            super::put_number(&mut out, number);
            assert_eq!(out, number.to_string().into_bytes());
        }
    }
}
