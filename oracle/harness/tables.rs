// The lent tables of document 01, made by asking the crate, and a readable twin of each.
use oracle::assets::LANGUAGES;
use oracle::consts::UNICODE_RANGES_COMBINED;
use oracle::md::structs::MessDetectorCharFlags as Flags;
use oracle::open::{Class, crate_class, number, pair};
use std::fmt::Write;

pub const BUILTIN_END: u32 = 0x250;
pub const CHAR_ALPHABETIC: u32 = 1 << 24;
const RANGES: usize = 512;
const LETTERS: usize = 256;

pub fn scalars() -> impl Iterator<Item = char> {
    '\0'..=char::MAX
}

pub fn point(n: u32) -> char {
    char::from_u32(n).expect("a scalar value")
}

// A base is read only where ACCENTUATED is set, so elsewhere it is left out: fewer records.
pub fn base_if_accented(class: Class) -> Class {
    let accented = class.flags & Flags::ACCENTUATED.bits() != 0;
    Class { base: if accented { class.base } else { 0 }, ..class }
}

struct Record {
    first: u32,
    last: u32,
    class: Class,
}

// Every scalar value from U+0250 up, in runs of one class. A surrogate never stands inside a run, since no scalar value is one.
fn class_records() -> Vec<Record> {
    let mut records: Vec<Record> = vec![];
    for c in scalars().filter(|c| *c as u32 >= BUILTIN_END) {
        let (n, class) = (c as u32, base_if_accented(crate_class(c)));
        match records.last_mut() {
            Some(r) if r.last + 1 == n && r.class == class => r.last = n,
            _ => records.push(Record { first: n, last: n, class }),
        }
    }
    records
}

fn flag_names(flags: u32) -> String {
    let mut names: Vec<&str> = Flags::NAMES.iter().filter(|(_, bit)| flags & bit != 0).map(|(name, _)| *name).collect();
    if flags & CHAR_ALPHABETIC != 0 {
        names.push("CHAR_ALPHABETIC");
    }
    names.join(" ")
}

fn classes() -> (Vec<u8>, String) {
    let mut bytes = vec![];
    let mut text = String::from(
        "# FIRST LAST FLAGS RANGE BASE LOWER NAMES: code points and flags hex, range decimal; base or lower 0: the character itself\n",
    );
    for Record { first, last, class } in class_records() {
        for word in [first, last, class.flags] {
            bytes.extend(word.to_le_bytes());
        }
        bytes.extend(class.range.to_le_bytes());
        bytes.extend([0, 0]);
        for word in [class.base, class.lower] {
            bytes.extend(word.to_le_bytes());
        }
        let line = format!(
            "{first:04X} {last:04X} {:07X} {} {:X} {:X} {}",
            class.flags,
            class.range,
            class.base,
            class.lower,
            flag_names(class.flags)
        );
        writeln!(text, "{}", line.trim_end()).unwrap();
    }
    (bytes, text)
}

// 1 2 3 7 as "1-3 7"
fn runs(numbers: &[usize]) -> String {
    let mut runs: Vec<(usize, usize)> = vec![];
    for &n in numbers {
        match runs.last_mut() {
            Some(r) if r.1 + 1 == n => r.1 = n,
            _ => runs.push((n, n)),
        }
    }
    let words: Vec<String> = runs.iter().map(|(a, b)| if a == b { a.to_string() } else { format!("{a}-{b}") }).collect();
    words.join(" ")
}

fn pairs() -> (Vec<u8>, String) {
    let mut bytes = vec![0u8; RANGES * RANGES / 8];
    let mut text = String::from(
        "# A: the ranges B for which B after A is suspicious (numbers as in ranges.txt; 0 is no range; a row without any is left out)\n",
    );
    for a in 0..RANGES {
        let row: Vec<usize> = (0..RANGES).filter(|b| pair(a, *b)).collect();
        for b in &row {
            let bit = RANGES * a + b;
            bytes[bit / 8] |= 1 << (bit % 8);
        }
        if !row.is_empty() {
            writeln!(text, "{a}: {}", runs(&row)).unwrap();
        }
    }
    (bytes, text)
}

fn languages() -> (Vec<u8>, String) {
    let mut bytes = vec![];
    let mut text = String::from("# NUMBER COUNT ACCENTS LATIN NAME LETTERS: letters by popularity\n");
    for (language, letters, accents, latin) in LANGUAGES.iter() {
        let letters: Vec<char> = letters.chars().collect();
        assert!(letters.len() <= LETTERS);
        bytes.extend(number(language).to_le_bytes());
        bytes.extend((letters.len() as u16).to_le_bytes());
        bytes.extend((*accents as u16 | (*latin as u16) << 1).to_le_bytes());
        for i in 0..LETTERS {
            bytes.extend(letters.get(i).map_or(0, |c| *c as u32).to_le_bytes());
        }
        let shown: String = letters.iter().collect();
        writeln!(text, "{} {} {} {} {language} {shown}", number(language), letters.len(), *accents as u8, *latin as u8).unwrap();
    }
    (bytes, text)
}

fn ranges() -> String {
    let mut text = String::from("# NUMBER FIRST LAST NAME: the crate's ranges, numbered from 1 by first code point\n");
    for (i, (name, range)) in UNICODE_RANGES_COMBINED.iter().enumerate() {
        writeln!(text, "{} {:04X} {:04X} {name}", i + 1, range.start(), range.end()).unwrap();
    }
    text
}

pub fn write(dir: &str) -> std::io::Result<()> {
    std::fs::create_dir_all(dir)?;
    for (name, (bytes, text)) in [("classes", classes()), ("pairs", pairs()), ("languages", languages())] {
        std::fs::write(format!("{dir}/{name}.bin"), bytes)?;
        std::fs::write(format!("{dir}/{name}.txt"), text)?;
    }
    std::fs::write(format!("{dir}/ranges.txt"), ranges())
}
