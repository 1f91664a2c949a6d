// `drasumira languages`: the ranking of a whole file, in pieces of what the library ranks at once, merged into one.
use crate::input::{Burst, Given, Lines, Name, read_all};
use crate::options::Options;
use crate::output::Output;
use crate::score::put;
use crate::shown::thousands;
use drasumira::{CoherenceMatch, Languages, Refusal, TOO_SMALL_SEQUENCE, Tables, coherence, language_name, merge};

/// Characters that the library ranks at once.
const LONGEST_RANKED: usize = 8_192;
/// Rankings that the library merges into one. What comes behind so many pieces is not ranked, and the answer says so.
const MOST_RANKINGS: usize = 64;

struct Ranker<'a> {
    options: &'a Options,
    tables: &'a Tables,
    languages: Languages,
    // of the file at hand
    file: Name,
    rankings: Vec<Vec<CoherenceMatch>>,
    piece: Vec<char>,
    parts: Vec<Part>,
    characters: u64,
    first: u64,
    last: u64,
    left_out: u64,
    // whether there was more than could be ranked
    cut: bool,
}

// A line in a piece, or a part of one that is longer than a piece: where it begins in the piece, and which characters of its line these are.
struct Part {
    start: usize,
    line: u64,
    from: usize,
}

pub fn run(options: &Options, tables: &Tables, output: &mut Output) {
    // a file at a time: the answer is of the whole file
    for path in &options.files {
        let mut ranker = Ranker::new(options, tables, Name::of(path));
        let mut failed = false;
        read_all(std::slice::from_ref(path), &mut |given| match given {
            Given::Burst(burst) => ranker.take(&burst, output),
            Given::Failed(words) => {
                output.fail(&words);
                failed = true;
                false
            }
        });
        if !failed {
            let told = ranker.told(output);
            output.put(&told);
        }
    }
}

impl<'a> Ranker<'a> {
    fn new(options: &'a Options, tables: &'a Tables, file: Name) -> Ranker<'a> {
        Ranker {
            options,
            tables,
            languages: Languages::full(),
            file,
            rankings: vec![],
            piece: vec![],
            parts: vec![],
            characters: 0,
            first: 0,
            last: 0,
            left_out: 0,
            cut: false,
        }
    }

    // Answers whether more is wanted.
    fn take(&mut self, burst: &Burst, output: &mut Output) -> bool {
        for (number, line) in (burst.first..).zip(Lines(&burst.bytes)) {
            match self.options.readings[0].characters(line) {
                Ok(mut characters) => {
                    characters.push('\n');
                    self.add(number, &characters, output);
                }
                Err(refusal) => self.refused(number, refusal, output),
            }
            if self.cut {
                return false;
            }
            self.first = if self.first == 0 { number } else { self.first };
            self.last = number;
        }
        true
    }

    // A piece ends before the line that it has no room for; only a line that is longer than a piece is cut. A line for which there are not enough
    // pieces left is not begun: what was ranked is whole lines.
    fn add(&mut self, number: u64, line: &[char], output: &mut Output) {
        if self.piece.len() + line.len() > LONGEST_RANKED {
            self.rank(output);
        }
        if self.rankings.len() + line.len().div_ceil(LONGEST_RANKED) > MOST_RANKINGS {
            self.cut = true;
            return;
        }
        for (at, part) in line.chunks(LONGEST_RANKED).enumerate() {
            self.parts.push(Part { start: self.piece.len(), line: number, from: at * LONGEST_RANKED });
            self.piece.extend_from_slice(part);
            if self.piece.len() == LONGEST_RANKED {
                self.rank(output);
            }
        }
    }

    // The piece at hand. A line that has a character in no record is left out, and the rest is ranked.
    fn rank(&mut self, output: &mut Output) {
        while !self.piece.is_empty() {
            match coherence(&self.piece, self.options.threshold, TOO_SMALL_SEQUENCE, self.tables, &self.languages, &[]) {
                Ok(ranking) => {
                    self.characters += self.piece.len() as u64;
                    self.rankings.push(ranking);
                    self.piece.clear();
                }
                Err(refusal) => self.leave_out(refusal, output),
            }
        }
        self.parts.clear();
    }

    // Takes the line that a refusal is about out of the piece.
    fn leave_out(&mut self, refusal: Refusal, output: &mut Output) {
        let at = self.parts.partition_point(|part| part.start <= refusal.place as usize) - 1;
        let Part { start, line, from } = self.parts.remove(at);
        let end = self.parts.get(at).map_or(self.piece.len(), |next| next.start);
        self.piece.drain(start..end);
        self.parts[at..].iter_mut().for_each(|later| later.start -= end - start);
        let place = refusal.place - start as u32 + from as u32;
        self.refused(line, Refusal::new(refusal.number, place), output);
    }

    fn refused(&mut self, number: u64, refusal: Refusal, output: &mut Output) {
        self.left_out += 1;
        let words = self.options.readings[0].words(refusal);
        output.fail(&format!("{}:{number}: left out: {words}", self.file.shown));
    }

    fn told(mut self, output: &mut Output) -> Vec<u8> {
        self.rank(output);
        let rankings: Vec<&[CoherenceMatch]> = self.rankings.iter().map(Vec::as_slice).collect();
        let ranking = merge(&rankings).expect("no more rankings are made than can be merged");
        let mut out = vec![];
        if self.options.json {
            self.put_object(&mut out, &ranking)
        } else {
            self.put_list(&mut out, &ranking)
        }
        out
    }

    fn put_list(&self, out: &mut Vec<u8>, ranking: &[CoherenceMatch]) {
        let without = if self.left_out == 0 { String::new() } else { format!(" without the {} left out", thousands(self.left_out)) };
        let part = match (self.first, self.cut) {
            (0, _) => "nothing to rank".to_string(),
            (first, true) => format!("lines {first} to {}{without} ranked, and the rest not", self.last),
            (first, false) if without.is_empty() => format!("lines {first} to {}, all of it", self.last),
            (first, false) => format!("lines {first} to {}{without}", self.last),
        };
        let pieces = match self.rankings.len() {
            0 | 1 => String::new(),
            n => format!(", in {n} pieces whose rankings are merged"),
        };
        put(out, format_args!("{}: {part}: {} characters{pieces}\n", self.file.shown, thousands(self.characters)));
        for entry in ranking {
            put(out, format_args!("  {:<12} {}\n", name(entry), entry.score));
        }
        if ranking.is_empty() {
            out.extend_from_slice(b"  no language found\n");
        }
    }

    fn put_object(&self, out: &mut Vec<u8>, ranking: &[CoherenceMatch]) {
        put(out, format_args!("{{\"file\":{},\"first\":{},\"last\":{},\"whole\":{}", self.file.json, self.first, self.last, !self.cut));
        put(out, format_args!(",\"left_out\":{}", self.left_out));
        put(out, format_args!(",\"characters\":{},\"pieces\":{},\"languages\":[", self.characters, self.rankings.len()));
        for (at, entry) in ranking.iter().enumerate() {
            let comma = if at == 0 { "" } else { "," };
            put(out, format_args!("{comma}{{\"language\":\"{}\",\"score\":{}}}", name(entry), entry.score));
        }
        out.extend_from_slice(b"]}\n");
    }
}

fn name(entry: &CoherenceMatch) -> &'static str {
    language_name(entry.language).unwrap_or("?")
}

#[cfg(test)]
mod tests {
    use super::*;
    use crate::options::{Asked, asked};
    use std::path::Path;
    use std::sync::Arc;

    // The tables that the package carries have every scalar value, so only others refuse a character: here those that have no record at all.
    #[test]
    fn a_line_with_a_character_in_no_record_is_left_out() {
        let Ok(Asked::Run(options)) = asked(["languages".into()].into_iter()) else { panic!("a command") };
        let (tables, mut output) = (Tables::builtin_only(), Output::new());
        let told = |text: &str, output: &mut Output| {
            let mut ranker = Ranker::new(&options, &tables, Name::of(Path::new("-")));
            let burst =
                Burst { file: Arc::new(Name::of(Path::new("-"))), first: 1, bytes: text.into(), lines: text.lines().count(), read: 0 };
            assert!(ranker.take(&burst, output));
            String::from_utf8(ranker.told(output)).unwrap()
        };
        let line = "the recorder keeps every line that the console prints, and a line that looks like noise is marked\n";
        let whole = told(&line.repeat(3), &mut output);
        assert_eq!(output.status(), 0);
        let (head, ranking) = whole.split_once('\n').unwrap();
        assert_eq!(head, format!("-: lines 1 to 3, all of it: {} characters", 3 * line.len()));
        assert!(!ranking.contains("no language found"));
        // at the front of a piece, inside it, and at its end; two in a row; at the end of a piece that has no other line
        let (bad, long) = ("a\u{4E00}b\u{4E00}\n", "a".repeat(8_190) + "\u{4E00}\n");
        for (text, lines) in [
            (format!("{bad}{line}{line}{line}"), vec![(1, 1)]),
            (format!("{line}{bad}{bad}{line}{line}"), vec![(2, 1), (3, 1)]),
            (format!("{line}{line}{line}\u{4E00}"), vec![(4, 0)]),
            (format!("{bad}{line}{bad}{line}{line}{bad}"), vec![(1, 1), (3, 1), (6, 1)]),
            (format!("{long}{line}{line}{line}"), vec![(1, 8_190)]),
        ] {
            let mut output = Output::new();
            let told = told(&text, &mut output);
            let without =
                format!("-: lines 1 to {} without the {} left out: {} characters", text.lines().count(), lines.len(), 3 * line.len());
            assert_eq!(told, format!("{without}\n{ranking}"));
            let words = "counted from 0, is in no class record: it is newer than the tables; try without it";
            let said: Vec<String> = lines.iter().map(|(n, at)| format!("-:{n}: left out: the character at index {at}, {words}")).collect();
            assert_eq!((output.status(), output.said), (2, said));
        }
    }
}
