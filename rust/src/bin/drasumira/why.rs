// `drasumira why`: of each noisy line the detector, its counts, and the characters behind the verdict, marked in the line itself.
use crate::bursts::{Line, Shared, Teller, Told, each_line};
use crate::input::{Burst, Name};
use crate::options::Options;
use crate::score::{put, put_refused, put_verdict};
use crate::shown::{self, is_combining, is_plain, put_char, thousands};
use drasumira::{Class, Detector, Score, Tables, class, why_into};
use std::io::{IsTerminal, stdout};

/// How marked characters are told from the others: reverse video, or brackets where there are no colours.
#[derive(Clone, Copy)]
enum Marks {
    Reverse,
    Brackets,
}

pub struct Why {
    marks: Marks,
}

impl Why {
    pub fn of(_options: &Options) -> Why {
        let set = |name| std::env::var_os(name).filter(|value| !value.is_empty());
        let dumb = set("TERM").is_none_or(|term| term == "dumb");
        let marks = if stdout().is_terminal() && set("NO_COLOR").is_none() && !dumb { Marks::Reverse } else { Marks::Brackets };
        Why { marks }
    }

    #[cfg(test)]
    pub fn in_brackets() -> Why {
        Why { marks: Marks::Brackets }
    }
}

impl Teller for Why {
    fn tell(&self, shared: &Shared<'_>, burst: &Burst, rows: &mut Vec<u32>, told: &mut Told) {
        each_line(shared, burst, rows, told, |told, line| match line.score {
            Ok(score) if shared.options.all || score.sum >= shared.threshold() => {
                let reason = Reason::of(shared, &line);
                if shared.options.json {
                    reason.put_object(&mut told.out, shared, &burst.file, &line, &score);
                } else {
                    reason.put_words(&mut told.out, shared, &burst.file, &line, &score, self.marks);
                }
            }
            Ok(_) => (),
            Err(refusal) if shared.options.json => put_refused(&mut told.out, shared, &burst.file, &line, refusal),
            Err(refusal) => {
                let words = shared.reading().words(refusal);
                put(&mut told.out, format_args!("{}:{}: refused: {words}\n", burst.file.shown, line.number));
            }
        });
    }
}

// A line's characters, with the newline that is fed after them, the detector, and the indexes of the characters behind the verdict, rising.
struct Reason {
    fed: Vec<char>,
    detector: Option<Detector>,
    indexes: Vec<u32>,
}

// A marked character, and how often it is marked.
struct Marked {
    character: char,
    count: u64,
    // the first of its indexes
    first: u32,
}

impl Reason {
    fn of(shared: &Shared<'_>, line: &Line<'_>) -> Reason {
        let mut fed: Vec<char> = String::from_utf8_lossy(line.text).chars().collect();
        fed.push('\n');
        let mut indexes = vec![0; fed.len()];
        let told = why_into(line.text, shared.options.threshold, shared.tables, &mut indexes);
        let (detector, count) = told.expect("the line was scored, and there is a place for each character");
        indexes.truncate(count);
        Reason { fed, detector, indexes }
    }

    // The most frequent first; of equal ones the one that comes first in the line.
    fn marked(&self) -> Vec<Marked> {
        let mut found: Vec<(char, u32)> = self.indexes.iter().map(|at| (self.fed[*at as usize], *at)).collect();
        found.sort_unstable();
        let runs = found.chunk_by(|a, b| a.0 == b.0);
        let mut marked: Vec<Marked> = runs.map(|run| Marked { character: run[0].0, count: run.len() as u64, first: run[0].1 }).collect();
        marked.sort_unstable_by_key(|m| (std::cmp::Reverse(m.count), m.first));
        marked
    }

    fn put_words(&self, out: &mut Vec<u8>, shared: &Shared<'_>, file: &Name, line: &Line<'_>, score: &Score, marks: Marks) {
        let threshold = shared.threshold();
        let verdict = if score.sum >= threshold { "noise" } else { "readable" };
        put(out, format_args!("{}:{}: {verdict}: score {}, threshold {threshold}", file.shown, line.number, score.sum));
        match self.detector {
            Some(detector) => put(out, format_args!("; {detector}: {}\n", score.share(detector))),
            None => out.extend_from_slice(b"; no detector found anything\n"),
        }
        out.extend_from_slice(b"    ");
        self.put_marked(out, marks);
        out.push(b'\n');
        if score.stopped {
            let length = self.fed.len() as u64 - 1;
            put(out, format_args!("    stopped at character {} of {}\n", thousands(score.fed.into()), thousands(length)));
        }
        for marked in self.marked() {
            let times = if marked.count == 1 { "once".to_string() } else { format!("{} times", thousands(marked.count)) };
            put(out, format_args!("    U+{:04X} {times}, {}", marked.character as u32, self.what(&marked, shared.tables)));
            if is_plain(marked.character) && !marked.character.is_whitespace() {
                out.extend_from_slice(b": ");
                put_alone(out, marked.character);
            }
            out.push(b'\n');
        }
    }

    fn what(&self, marked: &Marked, tables: &Tables) -> String {
        if marked.first as usize + 1 == self.fed.len() {
            return "the end of the line".to_string();
        }
        class(marked.character, tables).map_or("in no record".to_string(), word_for)
    }

    // The line, each run of marked characters between marks. The newline stands there only where it is marked.
    fn put_marked(&self, out: &mut Vec<u8>, marks: Marks) {
        let (open, close) = match marks {
            Marks::Reverse => ("\x1b[7m".to_string(), "\x1b[0m".to_string()),
            Marks::Brackets => (brackets("[", &self.fed), brackets("]", &self.fed)),
        };
        let (mut inside, mut alone) = (false, true);
        let mut marks = self.indexes.iter().peekable();
        for (at, c) in self.fed.iter().enumerate() {
            let marked = marks.next_if(|index| **index as usize == at).is_some();
            if at + 1 == self.fed.len() && !marked {
                break;
            }
            if marked != inside {
                out.extend_from_slice(if marked { open.as_bytes() } else { close.as_bytes() });
                (inside, alone) = (marked, true);
            }
            if alone {
                put_alone(out, *c)
            } else {
                put_char(out, *c)
            }
            alone = !is_plain(*c);
        }
        if inside {
            out.extend_from_slice(close.as_bytes());
        }
    }

    fn put_object(&self, out: &mut Vec<u8>, shared: &Shared<'_>, file: &Name, line: &Line<'_>, score: &Score) {
        put_verdict(out, shared, file, line, score, self.detector);
        put(out, format_args!(",\"indexes\":{:?},\"characters\":[", self.indexes));
        for (at, marked) in self.marked().iter().enumerate() {
            let (comma, what) = (if at == 0 { "" } else { "," }, shown::json(&self.what(marked, shared.tables)));
            put(out, format_args!("{comma}{{\"point\":\"U+{:04X}\",\"what\":{what},\"count\":{}}}", marked.character as u32, marked.count));
        }
        let text: String = self.fed[..self.fed.len() - 1].iter().collect();
        put(out, format_args!("],\"text\":{}}}\n", shown::json(&text)));
    }
}

// What a character is in a word or two: the first of its flags in this order, which goes from what the detectors mind to what they do not.
fn word_for(class: Class) -> String {
    const WORDS: [(&str, &str); 17] = [
        ("unprintable", "unprintable"),
        ("accented", "accented letter"),
        ("emoticon", "emoticon"),
        ("symbol", "symbol"),
        ("punctuation", "punctuation"),
        ("white space", "white space"),
        ("separator", "separator"),
        ("number", "number"),
        ("CJK", "CJK character"),
        ("Hangul", "Hangul"),
        ("Katakana", "Katakana"),
        ("Hiragana", "Hiragana"),
        ("Thai", "Thai"),
        ("upper case", "capital letter"),
        ("lower case", "small letter"),
        ("letter", "letter"),
        ("alphabetic", "letter"),
    ];
    let set = |flag: &str| class.names().any(|name| name == flag);
    WORDS.into_iter().find(|(flag, _)| set(flag)).map_or("other".to_string(), |(_, word)| word.to_string())
}

// One bracket more than the longest run of brackets in the line, so that the line's own are not taken for marks.
fn brackets(bracket: &str, text: &[char]) -> String {
    let runs = text.split(|c| !matches!(c, '[' | ']'));
    bracket.repeat(1 + runs.map(<[char]>::len).max().unwrap_or(0))
}

// A combining character that has none of its own side before it stands on a dotted circle.
fn put_alone(out: &mut Vec<u8>, c: char) {
    if is_combining(c) {
        put_char(out, '\u{25CC}');
    }
    put_char(out, c);
}
