// The Unicode properties of every scalar value that the ICU side of the crate asks for, read from the runs of unicode/properties-15.0.txt
// (the variable UNICODE_PROPERTIES names the file when this is compiled).
use std::sync::LazyLock;

pub struct Properties {
    pub category: [u8; 2], // general category, by its two letters
    pub script: u8,        // 0 other, 1 Latin, 2 Han, 3 Hangul, 4 Katakana, 5 Hiragana, 6 Thai
    pub emoji: u8,         // bits: 1 component, 2 modifier, 4 modifier base, 8 presentation
    pub unified_ideograph: bool,
    pub accentuated: bool, // the name holds one of the six patterns of is_accentuated
    pub decomposed: char,  // the first character of the NFD form
}

struct Run {
    last: u32,
    first: u32,
    line: usize,
}

static TEXT: &str = include_str!(env!("UNICODE_PROPERTIES"));

// "Unicode 15.0.0 ICU 72.1"
pub fn version() -> &'static str {
    TEXT.lines().next().and_then(|l| l.strip_prefix("# ")).expect("a first line that names the version")
}

fn hex(word: &str) -> u32 {
    u32::from_str_radix(word, 16).expect("a hex number")
}

static LINES: LazyLock<Vec<Vec<&str>>> =
    LazyLock::new(|| TEXT.lines().filter(|l| !l.starts_with('#')).map(|l| l.split(' ').collect()).collect());

static RUNS: LazyLock<Vec<Run>> =
    LazyLock::new(|| LINES.iter().enumerate().map(|(line, words)| Run { first: hex(words[0]), last: hex(words[1]), line }).collect());

pub fn of(c: char) -> Properties {
    let at = RUNS.partition_point(|r| r.last < c as u32);
    assert!(RUNS[at].first <= c as u32, "the runs hold every scalar value");
    let words = &LINES[RUNS[at].line];
    Properties {
        category: words[2].as_bytes().try_into().expect("two letters"),
        script: words[3].parse().expect("a script"),
        emoji: words[4].parse().expect("emoji bits"),
        unified_ideograph: words[5] == "1",
        accentuated: words[6] == "1",
        decomposed: match hex(words[7]) {
            0 => c,
            first => char::from_u32(first).expect("a scalar value"),
        },
    }
}
