// Bursts of lines, scored on all processors, their answers written in the order of the input.
use crate::input::{Burst, Given, Lines, read_all};
use crate::options::Options;
use crate::output::Output;
use crate::reading::Reading;
use drasumira::{NUMBERS_PER_LINE, Refusal, Score, Tables, score_in, score_lines_into};
use std::borrow::Cow;
use std::path::{Path, PathBuf};
use std::sync::Mutex;
use std::sync::mpsc::{Receiver, SyncSender, sync_channel};
use std::thread;

/// What all bursts share.
pub struct Shared<'a> {
    pub options: &'a Options,
    pub tables: &'a Tables,
}

impl Shared<'_> {
    pub fn threshold(&self) -> f32 {
        self.options.noise_threshold()
    }

    pub fn reading(&self) -> &Reading {
        &self.options.readings[0]
    }
}

/// What is told of a burst.
#[derive(Default)]
pub struct Told {
    pub out: Vec<u8>,
    pub noise: bool,
    pub refused: bool,
    // whether a line ends in U+000D
    pub returns: bool,
    // for a report of all lines
    pub scores: Vec<Result<Score, Refusal>>,
    lines: u64,
    read: u64,
}

/// What a command makes of a burst, whichever processor it is on.
pub trait Teller: Sync {
    /// What stands above all else.
    fn head(&self, _options: &Options) -> &'static str {
        ""
    }

    /// Tells of a burst. `rows` is room that the bursts of a thread use one after the other.
    fn tell(&self, shared: &Shared<'_>, burst: &Burst, rows: &mut Vec<u32>, told: &mut Told);
}

/// A scored line.
pub struct Line<'a> {
    pub number: u64,
    /// Its text, as UTF-8 where it was accepted.
    pub text: &'a [u8],
    pub score: Result<Score, Refusal>,
}

/// Reads all files, has each burst told of, and writes what was told.
pub fn run(options: &Options, tables: &Tables, output: &mut Output, teller: impl Teller) {
    run_with(options, tables, output, teller, |_, _| ());
}

/// The same, and what was told of each burst is handed on besides, in order.
pub fn run_with(options: &Options, tables: &Tables, output: &mut Output, teller: impl Teller, mut keep: impl FnMut(&Told, &mut Output)) {
    output.put(teller.head(options).as_bytes());
    output.expect(bytes_of(&options.files));
    let shared = Shared { options, tables };
    let work = |given: Given, rows: &mut Vec<u32>| match given {
        Given::Failed(words) => Err(words),
        Given::Burst(burst) => {
            let mut told = Told { read: burst.read, lines: burst.lines as u64, ..Told::default() };
            teller.tell(&shared, &burst, rows, &mut told);
            Ok(told)
        }
    };
    let mut returns = false;
    in_order(
        |give| read_all(&options.files, give),
        work,
        |answer| match answer {
            Err(words) => output.fail(&words),
            Ok(told) => {
                if told.returns && !std::mem::replace(&mut returns, true) {
                    output.note(
                        "lines end in U+000D before their newline: it is scored as a character of its line, as the library scores it",
                    );
                }
                if told.noise {
                    output.found_noise();
                }
                if told.refused {
                    output.found_refused();
                }
                output.put(&told.out);
                keep(&told, output);
                output.went_on(told.read, told.lines);
            }
        },
    );
}

// The bytes of all files, where each is a file that has a length.
fn bytes_of(files: &[PathBuf]) -> Option<u64> {
    let length = |path: &Path| std::fs::metadata(path).ok().filter(|told| told.is_file()).map(|told| told.len());
    files.iter().map(|path| length(path)).sum()
}

// `source` gives jobs, `work` answers them on all processors, `take` has the answers in the order of the jobs. As many jobs are under way as there
// are places in the two queues, so memory is bounded whatever comes in.
fn in_order<J: Send, A: Send>(
    source: impl FnOnce(&mut dyn FnMut(J) -> bool) + Send,
    work: impl Fn(J, &mut Vec<u32>) -> A + Sync,
    mut take: impl FnMut(A),
) {
    let processors = thread::available_parallelism().map_or(1, |n| n.get());
    let (to_do, jobs) = sync_channel::<(J, SyncSender<A>)>(processors);
    let (to_take, answers) = sync_channel::<Receiver<A>>(2 * processors);
    let jobs = Mutex::new(jobs);
    thread::scope(|scope| {
        scope.spawn(move || {
            source(&mut |job| {
                let (tell, told) = sync_channel(1);
                to_take.send(told).is_ok() && to_do.send((job, tell)).is_ok()
            });
        });
        for _ in 0..processors {
            scope.spawn(|| {
                let mut rows = vec![];
                loop {
                    let job = jobs.lock().expect("no thread ends with the queue in hand").recv();
                    let Ok((job, tell)) = job else { return };
                    let _ = tell.send(work(job, &mut rows));
                }
            });
        }
        for answer in answers {
            take(answer.recv().expect("every job is answered"));
        }
    });
}

/// Scores the lines of a burst in one call of the library and hands each on.
pub fn each_line(shared: &Shared<'_>, burst: &Burst, rows: &mut Vec<u32>, told: &mut Told, mut tell: impl FnMut(&mut Told, Line<'_>)) {
    let (text, refused) = read_lines(shared.reading(), &burst.bytes);
    let room = NUMBERS_PER_LINE * burst.lines;
    if rows.len() < room {
        rows.resize(room, 0);
    }
    let count =
        score_lines_into(&text, shared.options.threshold, shared.tables, rows).expect("a burst is short, and the threshold was tried");
    let mut refused = refused.into_iter().peekable();
    for ((at, line), row) in Lines(&text).enumerate().zip(rows.chunks_exact(NUMBERS_PER_LINE)).take(count) {
        let by_page = refused.next_if(|(place, _)| *place == at).map(|(_, refusal)| Err(refusal));
        let score = by_page.unwrap_or_else(|| score_in(row.try_into().expect("a whole row")));
        told.noise |= score.is_ok_and(|score| score.sum >= shared.threshold());
        told.refused |= score.is_err();
        told.returns |= line.ends_with(b"\r");
        tell(told, Line { number: burst.first + at as u64, text: line, score });
    }
}

// The lines as UTF-8. One that its page refuses is left empty, and told by its place among them with its refusal.
fn read_lines<'a>(reading: &Reading, bytes: &'a [u8]) -> (Cow<'a, [u8]>, Vec<(usize, Refusal)>) {
    if reading.is_utf_8() {
        return (Cow::Borrowed(bytes), vec![]);
    }
    let (mut text, mut refused) = (Vec::with_capacity(2 * bytes.len()), vec![]);
    for (at, line) in Lines(bytes).enumerate() {
        match reading.bytes(line) {
            Ok(read) => text.extend_from_slice(&read),
            Err(refusal) => refused.push((at, refusal)),
        }
        text.push(b'\n');
    }
    (Cow::Owned(text), refused)
}

#[cfg(test)]
mod tests {
    use super::*;
    use crate::input::Name;
    use crate::options::{Asked, asked};
    use std::sync::Arc;

    // What a command tells of these bytes over tables that have no record: those that the package carries have every scalar value.
    fn told(teller: impl Teller, words: &[&str], bytes: &[u8]) -> Told {
        let Ok(Asked::Run(options)) = asked(words.iter().map(Into::into)) else { panic!("{words:?}") };
        let shared = Shared { options: &options, tables: &Tables::builtin_only() };
        let burst =
            Burst { file: Arc::new(Name::of(Path::new("-"))), first: 1, bytes: bytes.to_vec(), lines: Lines(bytes).count(), read: 0 };
        let mut told = Told::default();
        teller.tell(&shared, &burst, &mut vec![], &mut told);
        assert!(told.refused && !told.noise);
        told
    }

    #[test]
    fn a_character_in_no_record() {
        let words = "the character at index 2, counted from 0, is in no class record: it is newer than the tables; try without it";
        let out = |teller: &dyn Fn() -> Told| String::from_utf8(teller().out).unwrap();
        let text = "plain\nab\u{4E00}c\nplain\n".as_bytes();
        let score = out(&|| told(crate::score::Rows, &["score"], text));
        let plain = "0\t6\tno\t-\t-\t-";
        assert_eq!(score, format!("-\t1\t{plain}\n-\t2\t-\t-\t-\trefused: {words}\t-\t-\n-\t3\t{plain}\n"));
        // by a page it is the character of a byte: 80 is U+20AC
        assert_eq!(out(&|| told(crate::score::Rows, &["score", "--page", "windows-1252"], b"plain\nab\x80c\nplain\n")), score);
        let object = format!("{{\"file\":\"-\",\"line\":2,\"refused\":6,\"place\":2,\"words\":\"{words}\"}}\n");
        let ask = &["why", "--json"][..];
        assert_eq!(out(&|| told(crate::why::Why::in_brackets(), ask, text)), object);
        assert_eq!(out(&|| told(crate::why::Why::in_brackets(), &ask[..1], text)), format!("-:2: refused: {words}\n"));
        let both = &["compare", "--page", "utf-8", "--page", "utf-8"];
        let rows = format!("-\t1\tutf-8\tplain\n-\t2\t-\trefused as utf-8: {words}\n-\t3\tutf-8\tplain\n");
        assert_eq!(out(&|| told(crate::compare::Compare, both, text)), rows);
        let scores = told(crate::report::Lines, &["report"], text).scores;
        assert_eq!(scores[1], Err(Refusal::new(Refusal::UNCLASSED, 2)));
        assert!(scores.len() == 3 && scores[0].is_ok() && scores[2].is_ok());
    }
}
