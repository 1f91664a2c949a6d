// Holds the crate's data to the rules of document 01, over every scalar value, and notes what else was seen.
// A rule stands in 01 and must hold; an observation stands nowhere, and our code may not lean on it.
use crate::tables::{BUILTIN_END, CHAR_ALPHABETIC, point, scalars};
use oracle::assets::LANGUAGES;
use oracle::consts::UNICODE_RANGES_COMBINED;
use oracle::md::structs::MessDetectorCharFlags as Flags;
use oracle::open::{crate_class, number, pair, range_number};
use std::collections::{BTreeMap, BTreeSet};

const MOST_SHOWN: usize = 40;

// For each sentence the code points at which it fails, in the order in which the sentences were first asked.
#[derive(Default)]
struct Sentences {
    order: Vec<&'static str>,
    fails: BTreeMap<&'static str, Vec<u32>>,
}

impl Sentences {
    fn ask(&mut self, sentence: &'static str, c: char, holds: bool) {
        let fails = self.fails.entry(sentence).or_insert_with(|| {
            self.order.push(sentence);
            vec![]
        });
        if !holds {
            fails.push(c as u32);
        }
    }

    fn failing(&self) -> usize {
        self.fails.values().filter(|v| !v.is_empty()).count()
    }

    fn say(&self, yes: &str, no: &str) {
        for sentence in &self.order {
            let fails = &self.fails[sentence];
            if fails.is_empty() {
                println!("{yes}: {sentence}");
            } else {
                let points: Vec<String> = fails.iter().take(MOST_SHOWN).map(|c| format!("{c:04X}")).collect();
                println!("{no}: {sentence}: {} code points: {}", fails.len(), points.join(" "));
            }
        }
    }
}

fn lower(c: char) -> char {
    c.to_lowercase().next().expect("a lower-case letter")
}

// 01, "Tables": what every class must meet.
fn rules(c: char, rules: &mut Sentences) {
    let class = crate_class(c);
    let has = |f: Flags| class.flags & f.bits() != 0;
    let few = |fs: &[Flags]| fs.iter().filter(|f| has(**f)).count() <= 1;
    let mut rule = |sentence, holds| rules.ask(sentence, c, holds);
    rule("UPPERCASE and LOWERCASE not both", !(has(Flags::UPPERCASE) && has(Flags::LOWERCASE)));
    rule("CASE_VARIABLE exactly with one of them", has(Flags::CASE_VARIABLE) == (has(Flags::UPPERCASE) || has(Flags::LOWERCASE)));
    rule("and then ALPHABETIC", !has(Flags::CASE_VARIABLE) || has(Flags::ALPHABETIC));
    rule(
        "ALPHABETIC, NUMERIC, WHITESPACE and UNPRINTABLE at most one",
        few(&[Flags::ALPHABETIC, Flags::NUMERIC, Flags::WHITESPACE, Flags::UNPRINTABLE]),
    );
    rule("WHITESPACE brings SEPARATOR", !has(Flags::WHITESPACE) || has(Flags::SEPARATOR));
    rule(
        "WHITESPACE excludes COMMON_SAFE, WEIRD_SAFE and EMOTICON",
        !has(Flags::WHITESPACE) || !(has(Flags::COMMON_SAFE) || has(Flags::WEIRD_SAFE) || has(Flags::EMOTICON)),
    );
    rule("at most one of the six scripts", few(&[Flags::LATIN, Flags::CJK, Flags::HANGUL, Flags::KATAKANA, Flags::HIRAGANA, Flags::THAI]));
    rule("ASCII exactly on the ASCII characters", has(Flags::ASCII) == c.is_ascii());
    rule("ASCII_ALPHABETIC exactly on the ASCII letters", has(Flags::ASCII_ALPHABETIC) == c.is_ascii_alphabetic());
    rule("ASCII_GRAPHIC exactly on U+0021 to U+007E", has(Flags::ASCII_GRAPHIC) == c.is_ascii_graphic());
    rule("ASCII_DIGIT exactly on the ASCII digits", has(Flags::ASCII_DIGIT) == c.is_ascii_digit());
    rule("ASCII letters are LATIN and not ACCENTUATED", !c.is_ascii_alphabetic() || has(Flags::LATIN) && !has(Flags::ACCENTUATED));
    rule("bit 24 means char::is_alphabetic", (class.flags & CHAR_ALPHABETIC != 0) == c.is_alphabetic());
    rule("bits 25 to 31 are clear", class.flags >> 25 == 0);
    rule("range at most 511", class.range <= 511);
    rule(
        "each letter has one lower-case letter; U+0130 has U+0069, and U+0307 behind it",
        if c == '\u{130}' { class.lower == 0x69 && c.to_lowercase().eq(['\u{69}', '\u{307}']) } else { c.to_lowercase().count() == 1 },
    );
}

fn observations(c: char, seen: &mut Sentences) {
    let class = crate_class(c);
    let has = |f: Flags| class.flags & f.bits() != 0;
    let taken = |c: char| c.is_alphabetic() && range_number(c) != 0;
    let mut see = |sentence, holds| seen.ask(sentence, c, holds);
    see("the lower-case letter is its own lower-case letter", lower(lower(c)) == lower(c));
    see("the lower-case letter of a taken letter is taken too", !taken(c) || taken(lower(c)));
    see("only characters of bit 24 have another lower-case letter", class.lower == 0 || c.is_alphabetic());
    see("ALPHABETIC brings bit 24", !has(Flags::ALPHABETIC) || c.is_alphabetic());
    see("ACCENTUATED brings ALPHABETIC", !has(Flags::ACCENTUATED) || has(Flags::ALPHABETIC));
    see("ACCENTUATED brings another base", !has(Flags::ACCENTUATED) || class.base != 0);
}

fn counts() {
    let mut counts: BTreeMap<&str, (usize, usize)> = BTreeMap::new();
    for c in scalars() {
        let class = crate_class(c);
        let mut count = |name, holds: bool| {
            let (builtin, all) = counts.entry(name).or_default();
            *builtin += (holds && (c as u32) < BUILTIN_END) as usize;
            *all += holds as usize;
        };
        for (name, bit) in Flags::NAMES {
            count(*name, class.flags & bit != 0);
        }
        count("CHAR_ALPHABETIC", class.flags & CHAR_ALPHABETIC != 0);
        count("of no range", class.range == 0);
        count("of no flag", class.flags == 0);
        count("with another lower-case letter", class.lower != 0);
        count("with another base, ACCENTUATED", class.base != 0 && class.flags & Flags::ACCENTUATED.bits() != 0);
    }
    for (name, (builtin, all)) in counts {
        println!("count: {name}: {all}, {builtin} of them below U+0250");
    }
}

// Range numbers stand for names, so 01's "by first code point" needs the list to be ascending and apart.
fn ranges_numbered() -> bool {
    let ranges: Vec<(u32, u32)> = UNICODE_RANGES_COMBINED.iter().map(|(_, r)| (*r.start(), *r.end())).collect();
    let apart = ranges.windows(2).all(|w| w[0].1 < w[1].0);
    let names: BTreeSet<&str> = UNICODE_RANGES_COMBINED.iter().map(|(name, _)| *name).collect();
    println!("{}: the {} ranges are ascending, apart and of distinct names", if apart { "rule" } else { "RULE FAILS" }, ranges.len());
    apart && names.len() == ranges.len()
}

fn pairs() {
    let last = UNICODE_RANGES_COMBINED.len();
    let all = || (0..=last).flat_map(|a| (0..=last).map(move |b| (a, b)));
    let suspicious = all().filter(|(a, b)| pair(*a, *b)).count();
    let one_way = all().filter(|(a, b)| pair(*a, *b) != pair(*b, *a)).count();
    println!(
        "seen: of the pairs of 0 to {last}, {suspicious} are suspicious; {one_way} are so one way only; a range after itself: {}",
        (1..=last).filter(|a| pair(*a, *a)).count()
    );
}

fn lowered_out() {
    let out: Vec<String> =
        (0..BUILTIN_END).map(point).filter(|c| lower(*c) as u32 >= BUILTIN_END).map(|c| format!("{:04X}", c as u32)).collect();
    println!("seen: {} built-in letters have a lower-case letter past U+024F: {}", out.len(), out.join(" "));
}

fn languages() {
    let numbers: BTreeSet<u32> = LANGUAGES.iter().map(|r| number(&r.0)).collect();
    let most = LANGUAGES.iter().map(|r| r.1.chars().count()).max().unwrap_or(0);
    println!("seen: {} language records, {} languages, at most {most} letters", LANGUAGES.len(), numbers.len());
    for (language, letters, _, _) in LANGUAGES.iter() {
        let letters: Vec<char> = letters.chars().collect();
        let distinct: BTreeSet<char> = letters.iter().copied().collect();
        let never: Vec<char> = letters.iter().copied().filter(|c| lower(*c) != *c || !c.is_alphabetic() || range_number(*c) == 0).collect();
        if distinct.len() != letters.len() || !never.is_empty() {
            println!("seen: {language}: {} letters, {} distinct, never met in a layer: {never:?}", letters.len(), distinct.len());
        }
    }
}

pub fn run() -> bool {
    let (major, minor, update) = char::UNICODE_VERSION;
    println!("Unicode of rustc's char: {major}.{minor}.{update}; of the ICU side: {}", properties::version());
    let (mut must, mut seen) = (Sentences::default(), Sentences::default());
    for c in scalars() {
        rules(c, &mut must);
        observations(c, &mut seen);
    }
    must.say("rule", "RULE FAILS");
    let numbered = ranges_numbered();
    seen.say("seen", "seen, not everywhere");
    pairs();
    lowered_out();
    languages();
    counts();
    let failing = must.failing() + !numbered as usize;
    println!("rules of 01 that fail: {failing}");
    failing == 0
}
