// The command for people, run as a program: what it writes is compared whole.
use drasumira::{
    CoherenceMatch, DEFAULT_THRESHOLD, Detector, Languages, Page, Refusal, Report, Score, TOO_SMALL_SEQUENCE, Tables, Which, coherence,
    language_name, merge, score, score_lines, verdict, why_into,
};
use std::io::{Read, Write};
use std::path::PathBuf;
use std::process::{Command, Stdio};

const HEAD: &str = "file\tline\tscore\tfed\tstopped\tdetector\tnumerator\tdenominator\n";

#[derive(Debug, PartialEq)]
struct Ran {
    status: i32,
    out: String,
    err: String,
}

fn command(words: &[&str]) -> Command {
    let mut command = Command::new(env!("CARGO_BIN_EXE_drasumira"));
    command.args(words).env_remove("NO_COLOR").current_dir(env!("CARGO_MANIFEST_DIR"));
    command
}

// Runs it over these parts of standard input, each written by itself.
fn run_over(words: &[&str], parts: &[&[u8]]) -> Ran {
    let mut command = command(words);
    let mut child = command.stdin(Stdio::piped()).stdout(Stdio::piped()).stderr(Stdio::piped()).spawn().unwrap();
    let mut stdin = child.stdin.take().unwrap();
    std::thread::scope(|scope| {
        scope.spawn(move || {
            for part in parts {
                // it may have ended without reading all
                let _ = stdin.write_all(part).and_then(|()| stdin.flush());
            }
        });
        let said = child.wait_with_output().unwrap();
        let text = |bytes| String::from_utf8(bytes).unwrap();
        Ran { status: said.status.code().unwrap(), out: text(said.stdout), err: text(said.stderr) }
    })
}

fn run(words: &[&str], input: &[u8]) -> Ran {
    run_over(words, &[input])
}

fn ran(status: i32, out: &str, err: &str) -> Ran {
    Ran { status, out: out.to_string(), err: err.to_string() }
}

fn file(name: &str, bytes: &[u8]) -> String {
    let path = PathBuf::from(env!("CARGO_TARGET_TMPDIR")).join(name);
    std::fs::write(&path, bytes).unwrap();
    path.to_str().unwrap().to_string()
}

#[test]
fn readme_begins_with_it() {
    let readme = include_str!("../README.md");
    let shown: Vec<&str> = readme.lines().skip_while(|line| *line != "    $ drasumira why rust/examples/console.log").skip(1).collect();
    let shown: Vec<&str> = shown.into_iter().map_while(|line| line.strip_prefix("    ")).collect();
    // README's commands are run one folder up
    let told = run(&["why", "examples/console.log"], b"");
    assert_eq!(told.out.replace("examples/console.log", "rust/examples/console.log").lines().collect::<Vec<_>>(), shown);
    assert_eq!((told.status, &*told.err), (1, ""));
}

#[test]
fn a_row_for_each_line() {
    let told = run(&["score"], b"plain\n\x01\n\nab\xFF\n  ");
    let rows = "-\t1\t0\t6\tno\t-\t-\t-
-\t2\t4\t2\tno\tunprintable characters\t8\t2
-\t3\t0\t1\tno\t-\t-\t-
-\t4\t-\t-\t-\trefused: not UTF-8 at byte 2, counted from 0; try --page windows-1252, windows-1251 or iso-8859-2\t-\t-
-\t5\t0\t3\tno\t-\t-\t-
";
    assert_eq!(told, ran(2, &format!("{HEAD}{rows}"), ""));
    assert_eq!(run(&["score", "-"], b""), ran(0, HEAD, ""));
}

#[test]
fn why_in_words() {
    let noise = "-:2: noise: score 4, threshold 0.15; unprintable characters: 8 of 2
    [\\u{1}]
    U+0001 once, unprintable
";
    assert_eq!(run(&["why"], b"plain\n\x01\n"), ran(1, noise, ""));
    let all = "-:1: readable: score 0, threshold 0.15; no detector found anything\n    plain\n";
    assert_eq!(run(&["why", "--all"], b"plain\n\x01\n"), ran(1, &format!("{all}{noise}"), ""));
    assert_eq!(run(&["why"], b"plain\n"), ran(0, "", ""));
    let refused = "-:1: refused: not UTF-8 at byte 0, counted from 0; try --page windows-1252, windows-1251 or iso-8859-2\n";
    assert_eq!(run(&["why"], b"\xFF\n"), ran(2, refused, ""));
}

#[test]
fn noise_at_the_end_without_a_stop() {
    // 8 of 47 behind the last character: the only checkpoint, at 32, has seen nothing
    let line = format!("{}\u{1}", " ".repeat(45));
    assert!(!score(&*line, None, &Tables::full()).unwrap().stopped);
    let told = run(&["why"], line.as_bytes());
    let words = format!(
        "-:1: noise: score 0.17021276, threshold 0.15; unprintable characters: 8 of 47
    {}[\\u{{1}}]
    U+0001 once, unprintable
",
        " ".repeat(45)
    );
    assert_eq!(told, ran(1, &words, ""));
    assert_eq!(run(&["why", "--threshold", "0.2"], line.as_bytes()), ran(0, "", ""));
    assert_eq!(run(&["why", "--threshold=0.2"], line.as_bytes()), ran(0, "", ""));
}

#[test]
fn marks_end_where_the_scan_stopped() {
    let line = "\u{1}".repeat(40);
    let words = format!(
        "-:1: noise: score 8, threshold 0.15; unprintable characters: 256 of 32
    [{}]{}
    stopped at character 32 of 40
    U+0001 32 times, unprintable
",
        "\\u{1}".repeat(32),
        "\\u{1}".repeat(8)
    );
    assert_eq!(run(&["why"], line.as_bytes()), ran(1, &words, ""));
}

#[test]
fn marks_beside_wide_combining_and_right_to_left() {
    // the marked control characters stand between; a combining character behind a mark gets a circle of its own
    let told = run(&["why"], "日\u{1}本 e\u{301}\u{2}\u{301} ש\u{3}לום [x]\n".as_bytes());
    let line = told.out.lines().nth(1).unwrap();
    assert_eq!(line, "    日[[\\u{1}]]本 e\u{301}[[\\u{2}]]\u{25CC}\u{301} ש[[\\u{3}]]לום [x]");
}

#[test]
fn what_a_character_is() {
    let text = "a!? ;:.,%$ ((((((( §§§ ++\nééééé èèèè àààà ùùùù\n日本。。 あア한ไ\n";
    let words = "-:1: noise: score 0.3846154, threshold 0.15; symbols and punctuation: 10 of 26
    a[!?] ;:[.],[%$] [(](((((( [§]§§ [+]+
    U+0021 once, punctuation: !
    U+003F once, punctuation: ?
    U+002E once, punctuation: .
    U+0025 once, punctuation: %
    U+0024 once, symbol: $
    U+0028 once, punctuation: (
    U+00A7 once, punctuation: §
    U+002B once, symbol: +
-:2: noise: score 2.647059, threshold 0.15; doubled accents: 28 of 17
    é[éééé] [èèèè] à[ààà] ù[ùùù]
    U+00E9 4 times, accented letter: é
    U+00E8 4 times, accented letter: è
    U+00E0 3 times, accented letter: à
    U+00F9 3 times, accented letter: ù
-:3: noise: score 0.4, threshold 0.15; suspicious neighbours: 4 of 10
    日本。。 あア[한ไ]
    U+D55C once, Hangul: 한
    U+0E44 once, Thai: ไ
";
    assert_eq!(run(&["why"], text.as_bytes()), ran(1, words, ""));
}

#[test]
fn nothing_raw() {
    // every control character, what turns the direction, what has no width, what is not assigned
    let points = (0..0x20).chain(0x7F..0xA1).chain([0xAD, 0x61C, 0x180E]).chain(0x200B..0x2010).chain(0x2028..0x202F).chain(0x2060..0x2070);
    let points = points.chain([0xFEFF, 0xFFF9, 0xFFFE, 0xE000, 0x378, 0xE0001, 0xE0041, 0x10FFFF]).filter(|point| *point != 0x0A);
    let text: String = points.flat_map(char::from_u32).flat_map(|c| [c, 'a', '\n']).collect();
    let name = file("raw \u{1B}[2J.log", text.as_bytes());
    for words in [
        &["why", &*name][..],
        &["why", "--all", "--json", &name],
        &["score", &name],
        &["compare", "--page", "utf-8", "--page", "utf-8", &name],
    ] {
        let told = run(words, b"");
        assert_eq!(told.status, if words[0] == "compare" { 0 } else { 1 });
        let raw = |c: &char| !matches!(c, '\t' | '\n') && c.escape_debug().next() != Some(*c) && !matches!(c, '\\' | '"' | '\'');
        assert_eq!(told.out.chars().find(raw), None, "{words:?}");
        assert!(told.out.contains("raw \\u{1B}[2J.log") || told.out.contains("raw \\u001B[2J.log"));
    }
}

#[test]
fn objects() {
    let told = run(&["why", "--json", "--all"], b"plain\n\x01\"\n\xFF\n");
    let lines = r#"{"file":"-","line":1,"noise":false,"score":0,"threshold":0.15,"fed":6,"stopped":false,"detector":null,"numerator":null,"denominator":null,"indexes":[],"characters":[],"text":"plain"}
{"file":"-","line":2,"noise":true,"score":2.6666667,"threshold":0.15,"fed":3,"stopped":false,"detector":"unprintable characters","numerator":8,"denominator":3,"indexes":[0],"characters":[{"point":"U+0001","what":"unprintable","count":1}],"text":"\u0001\""}
{"file":"-","line":3,"refused":2,"place":0,"words":"not UTF-8 at byte 0, counted from 0; try --page windows-1252, windows-1251 or iso-8859-2"}
"#;
    assert_eq!(told, ran(2, lines, ""));
    let told = run(&["score", "--json"], b"\x01");
    let line = r#"{"file":"-","line":1,"noise":true,"score":4,"threshold":0.15,"fed":2,"stopped":false,"detector":"unprintable characters","numerator":8,"denominator":2}
"#;
    assert_eq!(told, ran(1, line, ""));
}

#[test]
fn a_missing_file_and_the_next() {
    let there = file("there.log", b"plain\n");
    let told = run(&["score", "no/such.log", &there, "src"], b"");
    let row = format!("{there}\t1\t0\t6\tno\t-\t-\t-\n");
    let err = "drasumira: no/such.log: No such file or directory (os error 2)\ndrasumira: src: Is a directory (os error 21)\n";
    assert_eq!(told, ran(2, &format!("{HEAD}{row}"), err));
    assert_eq!(run(&["why", "--", "--no-such"], b""), ran(2, "", "drasumira: --no-such: No such file or directory (os error 2)\n"));
    // a name is not written raw either, and every command goes on
    let raw = "drasumira: no/\\u{1B}[2J: No such file or directory (os error 2)\n";
    for (words, out) in [
        (&["why", "no/\u{1B}[2J", &*there][..], "".to_string()),
        (&["languages", "no/\u{1B}[2J", &there], format!("{there}: lines 1 to 1, all of it: 6 characters\n  no language found\n")),
        (
            &["compare", "--page", "utf-8", "--page", "utf-8", "no/\u{1B}[2J", &there],
            format!("file\tline\tpage\ttext\n{there}\t1\tutf-8\tplain\n"),
        ),
        (&["report", "no/\u{1B}[2J", &there], format!("{}lines 1\naccepted 1\nrefused 0\n", empty_bins())),
    ] {
        assert_eq!(run(words, b""), ran(2, &out, raw));
    }
}

// The report's bins of one line that no detector finds anything in.
fn empty_bins() -> String {
    let mut month = Report::new();
    month.add(&score("plain", None, &Tables::full())).unwrap();
    month.to_string().trim_end_matches("lines 1\naccepted 1\nrefused 0\n").to_string()
}

#[test]
fn files_and_standard_input() {
    // line numbers begin anew in each; a file without a newline at its end does not run into the next
    let name = file("one.log", b"plain\nab");
    let told = run(&["score", &name, "-", &name], b"a");
    let rows = |name: &str| format!("{name}\t1\t0\t6\tno\t-\t-\t-\n{name}\t2\t0\t3\tno\t-\t-\t-\n");
    assert_eq!(told, ran(0, &format!("{HEAD}{}-\t1\t0\t2\tno\t-\t-\t-\n{}", rows(&name), rows(&name)), ""));
}

#[test]
fn bad_words() {
    let said = |words: &[&str]| {
        let told = run(words, b"");
        assert_eq!((told.status, &*told.out), (2, ""));
        told.err
    };
    let tells = "; drasumira --help tells more\n";
    assert_eq!(said(&[]), format!("drasumira: a command is missing: why, score, languages, compare or report{tells}"));
    assert_eq!(said(&["whi\u{1B}"]), format!("drasumira: there is no command whi\\u{{1B}}{tells}"));
    assert_eq!(said(&["why", "--al"]), format!("drasumira: why has no option --al{tells}"));
    assert_eq!(said(&["score", "--all"]), format!("drasumira: score has no option --all{tells}"));
    assert_eq!(said(&["why", "--threshold"]), format!("drasumira: --threshold wants a word behind it{tells}"));
    assert_eq!(said(&["why", "--threshold", "a"]), format!("drasumira: --threshold wants a number, and a is none{tells}"));
    assert_eq!(said(&["why", "--threshold", "NaN"]), "drasumira: --threshold must be a finite number\n");
    assert_eq!(said(&["why", "--threshold", "1e39"]), "drasumira: --threshold must be a finite number\n");
    let page = "drasumira: there is no page koi8-r: utf-8, windows-1251, windows-1252 and iso-8859-2 are there";
    assert_eq!(said(&["why", "--page", "koi8-r"]), format!("{page}{tells}"));
    assert_eq!(said(&["compare", "--page", "utf-8"]), format!("drasumira: compare wants --page twice: the two readings to compare{tells}"));
    assert_eq!(
        said(&["why", "--page", "utf-8", "--page", "utf-8"]),
        format!("drasumira: --page stands there twice: only compare takes two{tells}")
    );
}

#[test]
fn help_and_version() {
    let help = run(&["--help"], b"");
    assert!(help.out.starts_with("drasumira: which lines of a log are noise, and why\n") && help.out.matches("console.log").count() == 2);
    assert_eq!(run(&["why", "--help"], b""), help);
    let version = run(&["--version"], b"");
    let (first, second) = version.out.split_once('\n').unwrap();
    assert_eq!((first, version.status), (concat!("drasumira ", env!("CARGO_PKG_VERSION")), 0));
    // the kit and the logic, as the build found them
    assert!(second.starts_with("the library behind it is proved: ") && second.contains(" logic ") && second.ends_with('\n'), "{second}");
}

#[test]
fn lines_that_end_in_a_return() {
    let told = run(&["score"], b"plain\r\n\r\nplain\r\n");
    let tables = Tables::full();
    let rows: String = ["plain\r", "\r", "plain\r"]
        .iter()
        .zip(1..)
        .map(|(line, n)| row("-", n, &score(*line, None, &tables), line.as_bytes(), &tables))
        .collect();
    let note = "drasumira: lines end in U+000D before their newline: it is scored as a character of its line, as the library scores it\n";
    assert_eq!(told, ran(0, &format!("{HEAD}{rows}"), note));
}

// The row of a line, written a second time. Which detector is named is what `why_into` says of the text.
fn row(file: &str, number: usize, told: &Result<Score, Refusal>, text: &[u8], tables: &Tables) -> String {
    match told {
        Ok(score) => {
            let stopped = if score.stopped { "yes" } else { "no" };
            let behind = match why_into(text, None, tables, &mut vec![0; text.len() + 1]).unwrap() {
                (Some(detector), _) => format!("{detector}\t{}\t{}", score.share(detector).numerator, score.share(detector).denominator),
                (None, _) => "-\t-\t-".to_string(),
            };
            format!("{file}\t{number}\t{}\t{}\t{stopped}\t{behind}\n", score.sum, score.fed)
        }
        Err(refusal) => {
            assert_eq!(refusal.number, Refusal::ILL_FORMED);
            let hint = "try --page windows-1252, windows-1251 or iso-8859-2";
            format!("{file}\t{number}\t-\t-\t-\trefused: not UTF-8 at byte {}, counted from 0; {hint}\t-\t-\n", refusal.place)
        }
    }
}

#[test]
fn a_character_at_the_edge_of_a_piece() {
    // pieces of a file are 262,144 bytes: a character of 4 bytes lies over the edge of the first, at each of its bytes
    for before in 1..4 {
        let mut text = format!("{}\n", "a".repeat(99)).repeat(2_621);
        text.push_str(&"b".repeat(262_144 - before - text.len()));
        text.push_str("\u{1F600}\nplain\n");
        let name = file(&format!("edge{before}.log"), text.as_bytes());
        let told = run(&["score", &name], b"");
        let rows: Vec<&str> = told.out.lines().collect();
        assert_eq!((told.status, rows.len()), (0, 1 + 2_623), "{}", told.err);
        let line = text.lines().nth(2_621).unwrap();
        let score = score(line, None, &Tables::full()).unwrap();
        assert!(rows[2_622].starts_with(&format!("{name}\t2622\t{}\t{}\t", score.sum, score.fed)));
        assert!(rows[2_623].starts_with(&format!("{name}\t2623\t0\t6\t")));
    }
    // and in a pipe that is written in parts
    let told = run_over(&["score"], &[b"plain \xF0\x9F", b"\x98\x80\npl", b"ain"]);
    assert_eq!(told, ran(0, &format!("{HEAD}-\t1\t0\t8\tno\t-\t-\t-\n-\t2\t0\t6\tno\t-\t-\t-\n"), ""));
}

#[test]
fn lines_at_each_limit() {
    let refused = |n: usize, words: &str| format!("-\t{n}\t-\t-\t-\trefused: {words}; try it split into shorter lines\t-\t-");
    let (points, bytes) = ("a".repeat(65_536), "\u{1F600}".repeat(65_536));
    assert_eq!(bytes.len(), 262_144);
    let far = "a".repeat(3_000_000);
    let text = format!("{points}\n{points}a\n{bytes}\n{bytes}a\n{far}\nplain\n{far}");
    let told = run(&["score"], text.as_bytes());
    let rows: Vec<&str> = told.out.lines().skip(1).collect();
    let long = "over 65,536 characters or 262,144 bytes";
    assert!(rows[0].starts_with("-\t1\t0\t65537\tno\t") && rows[2].starts_with("-\t3\t"));
    assert!(!rows[2].contains("refused"));
    assert_eq!([rows[1], rows[3], rows[4], rows[6]], [2, 4, 5, 7].map(|n| refused(n, long)).each_ref().map(String::as_str));
    assert_eq!((rows[5], rows.len(), told.status), ("-\t6\t0\t6\tno\t-\t-\t-", 7, 2));
    // by a code page
    let told = run(&["score", "--page", "windows-1252"], format!("{points}\n{points}a\nplain").as_bytes());
    let rows: Vec<&str> = told.out.lines().skip(1).collect();
    assert!(rows[0].starts_with("-\t1\t0\t65537\tno\t"));
    assert_eq!(rows[1], refused(2, "over 65,536 bytes"));
    assert_eq!((rows[2], rows.len()), ("-\t3\t0\t6\tno\t-\t-\t-", 3));
    // and in the other commands
    let (text, hint) = (format!("{points}\n{points}a\nplain"), "; try it split into shorter lines\n");
    assert_eq!(run(&["why"], text.as_bytes()), ran(2, &format!("-:2: refused: {long}{hint}"), ""));
    let told = run(&["languages"], text.as_bytes());
    assert_eq!((told.status, told.err), (2, format!("drasumira: -:2: left out: {long}{hint}")));
    assert!(
        told.out.starts_with("-: lines 1 to 3 without the 1 left out: 65,543 characters, in 9 pieces whose rankings are merged\n"),
        "{}",
        told.out
    );
    let told = run(&["compare", "--page", "utf-8", "--page", "windows-1252"], text.as_bytes());
    let rows: Vec<&str> = told.out.lines().collect();
    assert_eq!((told.status, rows.len(), rows[1]), (2, 4, &*format!("-\t1\tutf-8\t{points}")));
    assert_eq!(rows[2], format!("-\t2\t-\trefused as utf-8: {long}{}", hint.trim_end()));
    assert!(run(&["report"], text.as_bytes()).out.ends_with("lines 3\naccepted 2\nrefused 1\n"));
}

#[test]
fn bytes_of_a_page() {
    let (tables, page) = (Tables::full(), Page::windows_1251());
    let text = "Съешь же ещё этих мягких французских булок, да выпей чаю.";
    let bytes = page.write(text).unwrap();
    let right = page.score(&bytes, None, &tables).unwrap();
    assert!(right.sum < DEFAULT_THRESHOLD);
    assert_eq!(run(&["why", "--page", "windows-1251"], &bytes), ran(0, "", ""));
    let wrong = run(&["why", "--page=windows-1252"], &bytes);
    let told = Page::windows_1252().score(&bytes, None, &tables).unwrap();
    assert!(wrong.out.starts_with(&format!("-:1: noise: score {}, threshold 0.15; ", told.sum)), "{}", wrong.out);
    let read = Page::windows_1252().read(&bytes).unwrap();
    let marked: String = wrong.out.lines().nth(1).unwrap().trim_start().chars().filter(|c| !matches!(c, '[' | ']')).collect();
    assert_eq!(marked, read);
}

#[test]
fn every_page() {
    let tables = Tables::full();
    let pages = [("windows-1251", Page::windows_1251()), ("windows-1252", Page::windows_1252()), ("iso-8859-2", Page::iso_8859_2())];
    // every byte of a page but the newline, in lines of sixteen: those that stand for nothing are refused, the others scored as the library scores them
    let lines: Vec<Vec<u8>> = (0..16).map(|row| (16 * row..=16 * row + 15).filter(|b| *b != b'\n').collect()).collect();
    for (name, page) in pages {
        let told = run(&["score", "--page", name], &lines.join(&b'\n'));
        for ((at, line), row) in lines.iter().enumerate().zip(told.out.lines().skip(1)) {
            let wanted = match page.score(line, None, &tables) {
                Ok(score) => format!("-\t{}\t{}\t{}\t", at + 1, score.sum, score.fed),
                Err(refusal) => {
                    let words = format!("byte {}, counted from 0, stands for nothing in {name}; try another --page", refusal.place);
                    format!("-\t{}\t-\t-\t-\trefused: {words}\t-\t-", at + 1)
                }
            };
            assert!(row.starts_with(&wanted), "{row}");
        }
        let refused = lines.iter().any(|line| page.read(line).is_err());
        assert_eq!((told.out.lines().count(), told.status, &*told.err), (17, if refused { 2 } else { 1 }, ""));
    }
    assert_eq!(run(&["score", "--page", "utf-8"], "é\n".as_bytes()), run(&["score"], "é\n".as_bytes()));
}

#[test]
fn a_reader_that_goes_away() {
    let name = file("long.log", "plain\n\u{1}\n".repeat(200_000).as_bytes());
    for words in [["score", &name], ["why", &name]] {
        let mut child = command(&words).stdout(Stdio::piped()).stderr(Stdio::piped()).spawn().unwrap();
        let mut some = [0; 100];
        child.stdout.take().unwrap().read_exact(&mut some).unwrap();
        let mut said = String::new();
        child.stderr.take().unwrap().read_to_string(&mut said).unwrap();
        assert_eq!((&*said, child.wait().unwrap().code()), ("", Some(1)));
    }
}

// What a line of the shell writes on a terminal of its own, by script(1), where that is there.
fn on_a_terminal(line: &str, set: &[(&str, &str)]) -> Option<String> {
    let mut script = Command::new("script");
    script.args(["-qec", line, "/dev/null"]).env_remove("NO_COLOR").env("TERM", "xterm").env("SHELL", "/bin/sh").stdin(Stdio::null());
    let said = script.envs(set.iter().copied()).output().ok()?;
    Some(String::from_utf8(said.stdout).unwrap())
}

#[test]
fn marks_on_a_terminal() {
    let name = file("terminal.log", "plain\na\u{1B}[2Jb\n".as_bytes());
    let line = format!("{} why {name}", env!("CARGO_BIN_EXE_drasumira"));
    let Some(said) = on_a_terminal(&line, &[]) else { return };
    let words = |open: &str, close: &str| {
        let head = format!("{name}:2: noise: score 1.1428572, threshold 0.15; unprintable characters: 8 of 7");
        format!("{head}\r\n    a{open}\\u{{1B}}{close}[2Jb\r\n    U+001B once, unprintable\r\n")
    };
    assert_eq!(said, words("\x1b[7m", "\x1b[0m"));
    assert_eq!(on_a_terminal(&line, &[("NO_COLOR", "1")]).unwrap(), words("[[", "]]"));
    assert_eq!(on_a_terminal(&line, &[("TERM", "dumb")]).unwrap(), words("[[", "]]"));
    assert_eq!(on_a_terminal(&line, &[("NO_COLOR", "")]).unwrap(), words("\x1b[7m", "\x1b[0m"));
    // not a terminal: a pipe
    assert_eq!(on_a_terminal(&format!("{line} | cat"), &[]).unwrap(), words("[[", "]]"));
}

#[test]
fn progress_where_somebody_sits() {
    // work that takes long, since its input does: told of on standard error alone
    let slow = format!("(echo plain; sleep 1.3; echo plain) | {} why -", env!("CARGO_BIN_EXE_drasumira"));
    let Some(said) = on_a_terminal(&slow, &[]) else { return };
    assert!(said.starts_with("\r\x1b[K12 bytes, ") && said.ends_with(" lines a second\r\x1b[K"), "{said:?}");
    assert_eq!(on_a_terminal(&format!("({slow}) 2>&1 | cat"), &[]).unwrap(), "");
    assert_eq!(on_a_terminal(&format!("echo plain | {} why -", env!("CARGO_BIN_EXE_drasumira")), &[]).unwrap(), "");
}

// Lines of all kinds: words, letters of many scripts, control characters, bytes that are no UTF-8.
fn random_lines(count: usize) -> Vec<u8> {
    let mut state = 0x9E37_79B9_7F4A_7C15_u64;
    let mut next = move |below: u64| {
        state ^= state << 13;
        state ^= state >> 7;
        state ^= state << 17;
        (state >> 11) % below
    };
    let mut text = vec![];
    for _ in 0..count {
        let kind = next(16);
        for _ in 0..next(70) {
            let wild = next(8) == 0;
            let point = match kind {
                0..6 => b"  etaoinshrdlu.,"[next(16) as usize].into(),
                6..8 => 0x20 + next(0x5F),
                8 => next(0x250),
                9 => 0x400 + next(0x100),
                10 => 0x4E00 + next(0x5000),
                11 if wild => next(0x20),
                12 if wild => 0xC0 + next(0x40),
                13 if wild => next(0x11_0000),
                14 => 0x300 + next(0x400),
                _ => 0x61 + next(26),
            };
            match char::from_u32(point as u32).filter(|c| *c != '\n') {
                Some(c) => text.extend_from_slice(c.encode_utf8(&mut [0; 4]).as_bytes()),
                None => text.push(b' '),
            }
        }
        if next(50) == 0 {
            text.push(0x80 + next(0x80) as u8);
        }
        text.push(b'\n');
    }
    text
}

#[test]
fn random_lines_as_the_library_says() {
    let (text, tables) = (random_lines(100_000), Tables::full());
    let name = file("random.log", &text);
    let told = score_lines(&text, None, &tables).unwrap();
    let lines: Vec<&[u8]> = text.split(|b| *b == b'\n').collect();
    let rows: Vec<String> = (0..told.len()).map(|at| row(&name, at + 1, &told[at], lines[at], &tables)).collect();
    let said = run(&["score", &name], b"");
    let mut kinds = [0; 3];
    for ((said, row), told) in said.out.lines().skip(1).zip(&rows).zip(&told) {
        assert_eq!(said, row.trim_end_matches('\n'));
        kinds[told.map_or(2, |score| (score.sum >= DEFAULT_THRESHOLD) as usize)] += 1;
    }
    assert_eq!((said.out.lines().count(), said.status, kinds.iter().sum()), (100_001, 2, 100_000));
    assert!(kinds.iter().all(|count| *count > 1_000), "readable, noise and refused: {kinds:?}");

    // and `why` tells of the noisy and the refused ones, of each the characters that the library names
    let said = run(&["why", "--json", &name], b"");
    let mut objects = said.out.lines();
    for (at, told) in told.iter().enumerate() {
        let head = format!("{{\"file\":\"{name}\",\"line\":{},", at + 1);
        match told {
            Ok(score) if score.sum < DEFAULT_THRESHOLD => continue,
            Ok(_) => {
                let object = objects.next().unwrap();
                let mut indexes = vec![0; lines[at].len() + 1];
                let (_, count) = why_into(lines[at], None, &tables, &mut indexes).unwrap();
                indexes.truncate(count);
                assert!(object.starts_with(&format!("{head}\"noise\":true,")) && object.contains(&format!(",\"indexes\":{indexes:?},")));
            }
            Err(_) => assert!(objects.next().unwrap().starts_with(&format!("{head}\"refused\":2,"))),
        }
    }
    assert_eq!((objects.next(), said.status), (None, 2));
}

#[test]
fn languages_of_a_file() {
    let (tables, languages) = (Tables::full(), Languages::full());
    let greek = "Το σήμα στη βόρεια διασταύρωση είναι κλειστό και το τρένο περιμένει\n";
    let ranked = |text: &str| coherence(text, None, TOO_SMALL_SEQUENCE, &tables, &languages, &[]).unwrap();
    let list = |ranking: &[CoherenceMatch]| -> String {
        ranking.iter().map(|entry| format!("  {:<12} {}\n", language_name(entry.language).unwrap(), entry.score)).collect()
    };
    let told = run(&["languages"], greek.as_bytes());
    let head = format!("-: lines 1 to 1, all of it: {} characters\n", greek.chars().count());
    assert_eq!(told, ran(0, &format!("{head}{}", list(&ranked(greek))), ""));
    assert!(told.out.contains("  Greek "));
    assert_eq!(run(&["languages"], b"").out, "-: nothing to rank: 0 characters\n  no language found\n");
    // more than the library ranks at once: pieces of whole lines, merged
    let lines = 8_192 / greek.chars().count();
    let text = greek.repeat(2 * lines + 1);
    let pieces = [ranked(&greek.repeat(lines)), ranked(&greek.repeat(lines)), ranked(greek)];
    let merged = merge(&[&pieces[0], &pieces[1], &pieces[2]]).unwrap();
    let told = run(&["languages"], text.as_bytes());
    let head = format!(
        "-: lines 1 to {}, all of it: {} characters, in 3 pieces whose rankings are merged\n",
        2 * lines + 1,
        commas(text.chars().count())
    );
    assert_eq!(told, ran(0, &format!("{head}{}", list(&merged)), ""));
    // more than it merges: the rest is not ranked, and that is said
    let text = greek.repeat(64 * lines + 1);
    let told = run(&["languages"], text.as_bytes());
    let head =
        format!("-: lines 1 to {} ranked, and the rest not: {} characters, ", 64 * lines, commas(64 * lines * greek.chars().count()));
    assert!(told.out.starts_with(&format!("{head}in 64 pieces whose rankings are merged\n")), "{}", told.out);
    let told = run(&["languages", "--json"], b"ab\xFF\n");
    let hint = "try --page windows-1252, windows-1251 or iso-8859-2";
    let err = format!("drasumira: -:1: left out: not UTF-8 at byte 2, counted from 0; {hint}\n");
    assert_eq!(
        told,
        ran(
            2,
            "{\"file\":\"-\",\"first\":1,\"last\":1,\"whole\":true,\"left_out\":1,\"characters\":0,\"pieces\":0,\"languages\":[]}\n",
            &err
        )
    );
    // a line for which there are not enough pieces left is not begun: 63 are full, and the next line wants two
    let text = format!("{}{}\n{greek}", greek.repeat(63 * lines), "a".repeat(8_192));
    let told = run(&["languages"], text.as_bytes());
    let head =
        format!("-: lines 1 to {} ranked, and the rest not: {} characters, ", 63 * lines, commas(63 * lines * greek.chars().count()));
    assert!(told.out.starts_with(&format!("{head}in 63 pieces whose rankings are merged\n")), "{}", told.out);
    // by a page, and from another score on
    let polish = "Pociąg czeka przed semaforem, ponieważ zwrotnica przy wjeździe na stację nie została jeszcze przestawiona\n";
    let bytes = Page::iso_8859_2().write(polish).unwrap();
    let told = run(&["languages", "--page", "iso-8859-2", "--threshold", "0.7"], &bytes);
    let ranking = coherence(polish, Some(0.7), TOO_SMALL_SEQUENCE, &tables, &languages, &[]).unwrap();
    assert!(!ranking.is_empty() && ranking.len() < ranked(polish).len());
    let head = format!("-: lines 1 to 1, all of it: {} characters\n", polish.chars().count());
    assert_eq!(told, ran(0, &format!("{head}{}", list(&ranking)), ""));
}

fn commas(number: usize) -> String {
    let digits = number.to_string();
    let groups: Vec<&[u8]> = digits.as_bytes().rchunks(3).rev().collect();
    groups.iter().map(|group| std::str::from_utf8(group).unwrap()).collect::<Vec<_>>().join(",")
}

#[test]
fn a_report_of_all_files() {
    let tables = Tables::full();
    let text = b"plain\n\x01\x02\n\xFF\nd\xC3\xA9j\xC3\xA0 vu\n";
    let mut month = Report::new();
    for told in score_lines(text, None, &tables).unwrap().iter().chain(&score_lines("more", None, &tables).unwrap()) {
        month.add(told).unwrap();
    }
    let (first, second) = (file("first <a>.log", text), file("second.log", b"more"));
    assert_eq!(run(&["report", &first, &second], b""), ran(2, &month.to_string(), ""));
    assert!(month.to_string().ends_with("lines 5\naccepted 4\nrefused 1\n"));
    assert_eq!(run(&["report"], b""), ran(0, "lines 0\naccepted 0\nrefused 0\n", ""));
    let told = run(&["report", "--json", "-"], b"\x01\n");
    let bins: String = month_of(b"\x01\n", &tables);
    assert_eq!(told, ran(1, &format!("{bins}{{\"lines\":1,\"accepted\":1,\"refused\":0}}\n"), ""));
}

#[test]
fn a_page_for_a_browser() {
    // two lines of noise, one of them all unprintable, so that its scan stops at a ratio of 8; two refused, for two causes
    let text = [b"plain\n\x01\x02\n\xFF\nd\xC3\xA9j\xC3\xA0 vu\n", &b"\x01".repeat(40)[..], b"\n", &b"a".repeat(65_537)].concat();
    let (first, second, page) = (file("shift <b>.log", &text), file("other.log", b"more"), file("page.html", b""));
    let page_of = |words: &[&str], status: i32| {
        assert_eq!(run(&[&["report", "--html", &page], words].concat(), b"").status, status);
        std::fs::read_to_string(&page).unwrap()
    };
    let told = page_of(&[&first, &second], 2);
    // eight histograms, the totals, each cause; nothing from elsewhere
    assert_eq!((told.matches("<svg").count(), told.matches("<script").count(), told.matches("http").count()), (8, 0, 0));
    assert!(told.contains("shift &lt;b&gt;.log, "));
    let totals = "<tr><td>lines<td>7\n<tr><td>accepted<td>5\n<tr><td>noise: a score of 0.15 or above<td>2\n<tr><td>refused<td>2\n";
    assert!(told.contains(&format!("<table>\n{totals}</table>\n")));
    assert!(told.contains("<h2>Refused lines by cause</h2>\n<table>\n<tr><td>too long<td>1\n<tr><td>not utf-8<td>1\n</table>\n"));
    // 8 times 2 of 3 characters: bin 341 of unprintable characters; the last bin is 512
    assert!(told.contains("<b>unprintable characters</b>: 3 lines with nothing, 2 with something; the highest bar is 1 line<"));
    assert!(told.contains("<rect x=\"341\" y=\"0\" width=\"1\" height=\"100\"><title>from 5.328125 to 5.34375: 1 line</title></rect>"));
    assert!(
        told.contains("<svg viewBox=\"0 0 513 100\"")
            && told.contains("<rect x=\"512\" y=\"0\" width=\"1\" height=\"100\"><title>8 and above: 1 line<")
    );
    assert!(told.contains("<b>CJK stops</b>: 5 lines with nothing, 0 with something</figcaption>\n<svg class=\"none\""));
    // the noise is that of the threshold; nothing refused, nothing told of it; nothing at all
    let told = page_of(&["--threshold", "6", &second, &file("noisy.log", b"\x01\x02\n")], 0);
    assert!(told.contains("<tr><td>noise: a score of 6 or above<td>0\n") && !told.contains("by cause"));
    let told = page_of(&[], 0);
    assert!(told.contains("<p>standard input</p>\n<table>\n<tr><td>lines<td>0\n") && told.matches("<svg class=\"none\"").count() == 8);
    let told = run(&["report", "--html", "no/such/page.html"], b"");
    assert_eq!(told, ran(2, "lines 0\naccepted 0\nrefused 0\n", "drasumira: no/such/page.html: No such file or directory (os error 2)\n"));
}

// The bins of lines as objects of JSON.
fn month_of(text: &[u8], tables: &Tables) -> String {
    let mut month = Report::new();
    score_lines(text, None, tables).unwrap().iter().for_each(|told| month.add(told).unwrap());
    let bins = Detector::ALL.into_iter().flat_map(|detector| month.bins(detector).into_iter().map(move |bin| (detector, bin)));
    bins.map(|(detector, (bin, count))| format!("{{\"detector\":\"{detector}\",\"bin\":{bin},\"lines\":{count}}}\n")).collect()
}

#[test]
fn more_lines_than_a_report_takes() {
    let told = run(&["report"], &b"a\n".repeat(65_536));
    let words = "drasumira: a report takes 65535 lines at most: the lines behind them are left out; try fewer files at once\n";
    assert_eq!((told.status, &*told.err), (2, words));
    assert!(told.out.ends_with("lines 65535\naccepted 65535\nrefused 0\n"));
    assert_eq!(run(&["report"], &b"a\n".repeat(65_535)).status, 0);
}

#[test]
fn two_readings_compared() {
    let tables = Tables::full();
    let (page, other) = (Page::windows_1251(), Page::windows_1252());
    let text = "Съешь же ещё этих мягких французских булок, да выпей чаю.";
    let bytes = page.write(text).unwrap();
    assert_eq!(verdict(other.read(&bytes).unwrap().as_str(), text, &tables), Ok(Which::Second));
    let input = [&bytes[..], b"\nplain\n"].concat();
    let told = run(&["compare", "--page", "windows-1252", "--page", "windows-1251"], &input);
    // of equal scores the first is taken
    assert_eq!(told, ran(0, &format!("file\tline\tpage\ttext\n-\t1\twindows-1251\t{text}\n-\t2\twindows-1252\tplain\n"), ""));
    let told = run(&["compare", "--page", "utf-8", "--page", "windows-1251", "--json"], &input);
    let hint = "try --page windows-1252, windows-1251 or iso-8859-2";
    let refused =
        format!(r#"{{"file":"-","line":1,"page":"utf-8","refused":2,"place":0,"words":"not UTF-8 at byte 0, counted from 0; {hint}"}}"#);
    assert_eq!(told, ran(2, &format!("{refused}\n{}\n", r#"{"file":"-","line":2,"page":"utf-8","text":"plain"}"#), ""));
}
