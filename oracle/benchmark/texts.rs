// The texts that scoring is timed on. Each is drawn by its name and length, the same in each run, and none comes again: a processor learns the branches of a sentence that is repeated every hundred
// characters, and the times of such a text are those of no log. Lists stand in words.rs; texts made against the library's short ways in traps.rs.
use crate::random::Random;
use crate::traps;
use crate::words::{ENGLISH, FINALS, FRENCH, GREEK, HIRAGANA, IDEOGRAPHS, INITIALS, KANJI, KATAKANA, PLACES, RUSSIAN, STATES, VOWELS};

// The first and the last code point of each class record that is lent.
pub type Records = Vec<(u32, u32)>;

type Make = fn(&mut Random, usize, &Records) -> Vec<char>;

pub const TEXTS: [(&str, Make); 16] = [
    ("ASCII", |random, n, _| words(random, n, ENGLISH)),
    ("French", |random, n, _| words(random, n, FRENCH)),
    ("Russian", |random, n, _| words(random, n, RUSSIAN)),
    ("Greek", |random, n, _| words(random, n, GREEK)),
    ("Chinese", |random, n, _| chinese(random, n)),
    ("Japanese", |random, n, _| japanese(random, n)),
    ("Korean", |random, n, _| korean(random, n)),
    ("log", |random, n, _| log(random, n)),
    ("noise-00FF", |random, n, _| noise(random, n, 0, 0xFF)),
    ("noise-0400-05FF", |random, n, _| noise(random, n, 0x400, 0x5FF)),
    ("noise-all", |random, n, _| noise(random, n, 0, char::MAX as u32)),
    ("two-records", |random, n, _| traps::two_records(random, n)),
    ("other-records", traps::other_records),
    ("records-in-turn", traps::records_in_turn),
    ("lone-letters", |random, n, _| traps::lone_letters(random, n)),
    ("hexadecimal", |random, n, _| traps::hexadecimal(random, n)),
];

// How many characters at a text's beginning may not come again.
const OWN: usize = 100;

// The text of this name, of n characters.
pub fn text(name: &str, n: usize, records: &Records) -> Vec<char> {
    let at = TEXTS.iter().position(|t| t.0 == name).expect("a text's name");
    let text = TEXTS[at].1(&mut Random::new(((at as u64) << 32) + n as u64), n, records);
    assert_eq!(text.len(), n, "{name}");
    assert!(text.len() < OWN || !text[1..].windows(OWN).any(|part| part == &text[..OWN]), "{name}: it comes again");
    text
}

// Piece after piece, until there are n characters.
fn filled(n: usize, mut piece: impl FnMut(&mut Vec<char>)) -> Vec<char> {
    let mut text = vec![];
    while text.len() < n {
        piece(&mut text);
    }
    text.truncate(n);
    text
}

// One of a list, the first ones oftenest.
fn skewed<'a, T>(random: &mut Random, list: &'a [T]) -> &'a T {
    let most = 1 + random.below(list.len());
    &list[random.below(most)]
}

fn one_in(random: &mut Random, n: usize) -> bool {
    random.below(n) == 0
}

// Sentences of 4 to 15 words: a capital first, commas, now and then a number.
fn words(random: &mut Random, n: usize, list: &str) -> Vec<char> {
    let list: Vec<&str> = list.split_whitespace().collect();
    filled(n, |text| {
        let mut first = random.pick(&list).chars();
        text.extend(first.next().into_iter().flat_map(char::to_uppercase).chain(first));
        for _ in 0..3 + random.below(12) {
            text.extend(if one_in(random, 8) { ", " } else { " " }.chars());
            match one_in(random, 40) {
                true => text.extend(random.below(3_000).to_string().chars()),
                false => text.extend(random.pick(&list).chars()),
            }
        }
        text.extend(if one_in(random, 6) { "? " } else { ". " }.chars());
    })
}

fn ideograph(random: &mut Random, common: &[char]) -> char {
    // one in five is rare
    if one_in(random, 5) { drawn(random, 0x4E00, 0x9FA5) } else { *skewed(random, common) }
}

// Clauses of 3 to 14 ideographs, no spaces.
fn chinese(random: &mut Random, n: usize) -> Vec<char> {
    let common: Vec<char> = IDEOGRAPHS.chars().filter(|c| !c.is_whitespace()).collect();
    filled(n, |text| {
        text.extend((0..3 + random.below(12)).map(|_| ideograph(random, &common)));
        text.push(if one_in(random, 3) { '。' } else { '，' });
    })
}

// Clauses of kanji, each with kana behind them, and now and then a word of katakana.
fn japanese(random: &mut Random, n: usize) -> Vec<char> {
    let [kanji, hiragana, katakana] = [KANJI, HIRAGANA, KATAKANA].map(|list| list.chars().collect::<Vec<char>>());
    filled(n, |text| {
        for _ in 0..2 + random.below(5) {
            if one_in(random, 6) {
                text.extend((0..3 + random.below(4)).map(|_| *skewed(random, &katakana)));
            } else {
                text.extend((0..1 + random.below(2)).map(|_| ideograph(random, &kanji)));
            }
            text.extend((0..1 + random.below(4)).map(|_| *skewed(random, &hiragana)));
        }
        text.push(if one_in(random, 3) { '。' } else { '、' });
    })
}

// The syllable of three parts.
fn syllable(random: &mut Random) -> char {
    let [initial, vowel, end] = [skewed(random, &INITIALS), skewed(random, &VOWELS), skewed(random, &FINALS)];
    char::from_u32(0xAC00 + (initial * 21 + vowel) * 28 + end).expect("a syllable")
}

// Sentences of 4 to 11 words of 1 to 5 syllables.
fn korean(random: &mut Random, n: usize) -> Vec<char> {
    filled(n, |text| {
        for at in 0..4 + random.below(8) {
            text.extend((at > 0).then_some(' '));
            text.extend((0..1 + random.below(5)).map(|_| syllable(random)));
        }
        text.extend(". ".chars());
    })
}

fn log(random: &mut Random, n: usize) -> Vec<char> {
    filled(n, |text| {
        let [day, hour, minute, second] = [28, 24, 60, 60].map(|most| random.below(most));
        let (console, signal) = (1 + random.below(8), random.below(1_000));
        let (place, state) = (random.pick(&PLACES), random.pick(&STATES));
        let line =
            format!("2026-11-{:02} {hour:02}:{minute:02}:{second:02} console {console}: signal {signal} at {place} {state}\n", day + 1);
        text.extend(line.chars());
    })
}

// One of these code points that is a scalar value.
pub fn drawn(random: &mut Random, first: u32, last: u32) -> char {
    loop {
        if let Some(c) = char::from_u32(first + random.below((last - first + 1) as usize) as u32) {
            return c;
        }
    }
}

fn noise(random: &mut Random, n: usize, first: u32, last: u32) -> Vec<char> {
    (0..n).map(|_| drawn(random, first, last)).collect()
}
