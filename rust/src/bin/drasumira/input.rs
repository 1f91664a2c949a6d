// Files, read in pieces and cut into bursts of whole lines, so that memory stays bounded and no character is cut.
use crate::shown;
use std::fs::File;
use std::io::{BufRead, ErrorKind, Read, stdin};
use std::path::{Path, PathBuf};
use std::sync::Arc;

/// How much is read at once.
const PIECE: usize = 262_144;
/// Lines in a burst: what the library writes for each is some two times a line, and of a file of newlines alone 148 times.
const MOST_LINES: usize = 16_384;
/// The most bytes of a line that the library takes. Of a longer one this many and one more are kept: the library refuses it by their number,
/// whatever the rest is.
pub const LONGEST_LINE: usize = 262_144;

/// Whole lines of a file.
pub struct Burst {
    pub file: Arc<Name>,
    /// The number of its first line, from 1.
    pub first: u64,
    /// The lines, each with its newline but perhaps the last of a file, and how many they are: counted once, since that reads all of them.
    pub bytes: Vec<u8>,
    pub lines: usize,
    /// How many of the file's bytes came in for it.
    pub read: u64,
}

/// A file's name, as it may be shown and as a string of JSON.
pub struct Name {
    pub shown: String,
    pub json: String,
}

impl Name {
    pub fn of(path: &Path) -> Name {
        let name = path.to_string_lossy();
        Name { shown: shown::text(&name), json: shown::json(&name) }
    }
}

/// What a file gave.
pub enum Given {
    Burst(Burst),
    /// It could not be read, and why.
    Failed(String),
}

/// The lines of a burst or of a text, without their newlines.
pub struct Lines<'a>(pub &'a [u8]);

impl<'a> Iterator for Lines<'a> {
    type Item = &'a [u8];

    fn next(&mut self) -> Option<&'a [u8]> {
        let rest = self.0;
        let length = self.0.skip_until(b'\n').expect("memory can be read");
        let line = &rest[..length];
        if length == 0 { None } else { Some(line.strip_suffix(b"\n").unwrap_or(line)) }
    }
}

/// Reads each file and gives what it holds, in order, until `give` wants no more.
pub fn read_all(files: &[PathBuf], give: &mut dyn FnMut(Given) -> bool) {
    for path in files {
        let name = Arc::new(Name::of(path));
        let failed = |e: std::io::Error| Given::Failed(format!("{}: {e}", name.shown));
        let going = match open(path) {
            Ok(file) => match read_one(file, &name, give) {
                Ok(going) => going,
                Err(e) => give(failed(e)),
            },
            Err(e) => give(failed(e)),
        };
        if !going {
            return;
        }
    }
}

fn open(path: &Path) -> std::io::Result<Box<dyn Read>> {
    if path.as_os_str() == "-" { Ok(Box::new(stdin().lock())) } else { Ok(Box::new(File::open(path)?)) }
}

// Each piece is handed on as soon as it has a whole line: what comes from a pipe is scored as it arrives.
fn read_one(mut file: Box<dyn Read>, name: &Arc<Name>, give: &mut dyn FnMut(Given) -> bool) -> std::io::Result<bool> {
    let mut cutter = Cutter { file: name.clone(), line: 1, held: vec![], passing: false, read: 0 };
    let mut piece = vec![0; PIECE];
    loop {
        match file.read(&mut piece) {
            Ok(0) => return Ok(cutter.end(give)),
            Ok(n) if !cutter.take(&piece[..n], give) => return Ok(false),
            Ok(_) => (),
            Err(e) if e.kind() == ErrorKind::Interrupted => (),
            Err(e) => return Err(e),
        }
    }
}

struct Cutter {
    file: Arc<Name>,
    line: u64,
    // the beginning of a line whose end has not come
    held: Vec<u8>,
    // whether the rest of a line that is too long is being passed over
    passing: bool,
    read: u64,
}

impl Cutter {
    fn take(&mut self, new: &[u8], give: &mut dyn FnMut(Given) -> bool) -> bool {
        self.read += new.len() as u64;
        let mut rest = new;
        if self.passing {
            let mut behind = rest;
            let passed = behind.skip_until(b'\n').expect("memory can be read");
            if !rest[..passed].ends_with(b"\n") {
                return true;
            }
            rest = &rest[passed - 1..];
            self.passing = false;
        }
        let before = self.held.len();
        self.held.extend_from_slice(rest);
        let last = self.held[before..].iter().rposition(|b| *b == b'\n');
        if let Some(last) = last {
            let behind = self.held.split_off(before + last + 1);
            let whole = std::mem::replace(&mut self.held, behind);
            if !self.give_lines(whole, give) {
                return false;
            }
        }
        if self.held.len() > LONGEST_LINE {
            self.held.truncate(LONGEST_LINE + 1);
            self.passing = true;
        }
        true
    }

    fn end(&mut self, give: &mut dyn FnMut(Given) -> bool) -> bool {
        let whole = std::mem::take(&mut self.held);
        whole.is_empty() || self.give_lines(whole, give)
    }

    fn give_lines(&mut self, mut bytes: Vec<u8>, give: &mut dyn FnMut(Given) -> bool) -> bool {
        let mut lines = count_lines(&bytes);
        while lines > MOST_LINES {
            let length = Lines(&bytes).take(MOST_LINES).map(|line| line.len() + 1).sum();
            let rest = bytes.split_off(length);
            if !self.give_burst(bytes, MOST_LINES, give) {
                return false;
            }
            (bytes, lines) = (rest, lines - MOST_LINES);
        }
        self.give_burst(bytes, lines, give)
    }

    fn give_burst(&mut self, bytes: Vec<u8>, lines: usize, give: &mut dyn FnMut(Given) -> bool) -> bool {
        let (first, read) = (self.line, std::mem::take(&mut self.read));
        self.line += lines as u64;
        give(Given::Burst(Burst { file: self.file.clone(), first, bytes, lines, read }))
    }
}

fn count_lines(bytes: &[u8]) -> usize {
    // a u8 holds the count of so few bytes, and the compiler then counts sixteen and more at once
    let newlines = |few: &[u8]| few.iter().map(|b| u8::from(*b == b'\n')).sum::<u8>();
    let ended: usize = bytes.chunks(u8::MAX.into()).map(|few| usize::from(newlines(few))).sum();
    ended + usize::from(bytes.last().is_some_and(|b| *b != b'\n'))
}

#[cfg(test)]
mod tests {
    use super::*;

    // What comes out, whatever the pieces are: the lines with their numbers.
    fn cut(pieces: &[&[u8]]) -> Vec<(u64, Vec<u8>)> {
        let mut lines = vec![];
        let mut give = |given: Given| {
            let Given::Burst(burst) = given else { panic!("nothing can fail here") };
            assert_eq!(burst.lines, Lines(&burst.bytes).count());
            lines.extend((burst.first..).zip(Lines(&burst.bytes).map(<[u8]>::to_vec)));
            true
        };
        let mut cutter = Cutter { file: Arc::new(Name::of(Path::new("-"))), line: 1, held: vec![], passing: false, read: 0 };
        assert!(pieces.iter().all(|piece| cutter.take(piece, &mut give)));
        assert!(cutter.end(&mut give));
        lines
    }

    #[test]
    fn lines_do_not_depend_on_the_pieces() {
        let text = "état\n\nде\r\n日本\u{1F600}".as_bytes();
        let whole = cut(&[text]);
        assert_eq!(whole.len(), 4);
        assert_eq!(whole[1], (2, vec![]));
        assert_eq!(whole[3], (4, "日本\u{1F600}".as_bytes().to_vec()));
        for at in 0..=text.len() {
            assert_eq!(cut(&[&text[..at], &text[at..]]), whole);
        }
        assert_eq!(cut(&text.chunks(1).collect::<Vec<_>>()), whole);
        assert_eq!(cut(&[]), []);
        assert_eq!(cut(&[b"\n"]), [(1, vec![])]);
    }

    #[test]
    fn of_a_long_line_the_beginning_is_kept() {
        let long = vec![b'a'; LONGEST_LINE];
        let exact = cut(&[&long, b"\nb"]);
        assert_eq!((exact[0].1.len(), &exact[1]), (LONGEST_LINE, &(2, b"b".to_vec())));
        for rest in [&[&b"a"[..], b"a", b"aa\nb"][..], &[b"aaaa\nb"], &[b"a", b"\n", b"b"]] {
            let told = cut(&[&[&long[..]], rest].concat());
            assert!(told[0].1.len() > LONGEST_LINE);
            assert_eq!(told[1..], [(2, b"b".to_vec())]);
        }
        assert_eq!(cut(&[&long, b"aaa", b"aaa"])[0].1.len(), LONGEST_LINE + 1);
    }

    #[test]
    fn many_lines_are_many_bursts() {
        let newlines = vec![b'\n'; 3 * MOST_LINES + 5];
        let lines = cut(&[&newlines]);
        assert_eq!(lines.len(), newlines.len());
        assert!(lines.iter().zip(1..).all(|(line, number)| *line == (number, vec![])));
    }
}
