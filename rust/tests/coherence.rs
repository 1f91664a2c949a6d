// The ranking of languages: the oracle's answers to some texts, the refusals in their order, thresholds, included numbers and lent tables.
use drasumira::{CoherenceMatch, Languages, Refusal, TOO_SMALL_SEQUENCE, Tables, coherence, language_name};

const ENGLISH: &str =
    "The recorder keeps every line that the console prints, and a line that looks like noise is marked before it is stored.";
const GREEK: &str = "Το σήμα στη βόρεια διασταύρωση είναι κλειστό και το τρένο περιμένει στην πλατφόρμα μέχρι το πρωί.";

fn ranked(text: &str, threshold: Option<f32>, included: &[u32]) -> Result<Vec<CoherenceMatch>, Refusal> {
    coherence(text, threshold, TOO_SMALL_SEQUENCE, &Tables::full(), &Languages::full(), included)
}

fn bits(found: &[CoherenceMatch]) -> Vec<(u32, u32)> {
    found.iter().map(|m| (m.language, m.score.to_bits())).collect()
}

fn refusal(number: u32, place: u32) -> Refusal {
    Refusal::new(number, place)
}

// A record of these letters.
fn record(number: u32, marks: u16, letters: &str) -> Vec<u8> {
    let mut bytes = number.to_le_bytes().to_vec();
    bytes.extend((letters.chars().count() as u16).to_le_bytes());
    bytes.extend(marks.to_le_bytes());
    letters.chars().for_each(|c| bytes.extend((c as u32).to_le_bytes()));
    bytes.resize(1_032, 0);
    bytes
}

#[test]
fn the_oracles_answers() {
    assert_eq!(bits(&ranked(GREEK, None, &[]).unwrap()), [(36, 0x3F47_A959)]);
    let both = ranked(&format!("{ENGLISH}{GREEK}"), Some(0.77), &[]).unwrap();
    let latin = 0x3F49_9649;
    assert_eq!(bits(&both), [(4, latin), (11, latin), (14, latin), (25, latin), (28, latin), (36, 0x3F47_A959)]);
    assert_eq!(ranked(ENGLISH, None, &[]).unwrap().len(), 23);
}

#[test]
fn thresholds_and_included_numbers() {
    let found = ranked(ENGLISH, Some(0.0), &[8, 1, 1, 3]).unwrap();
    assert_eq!(found.iter().map(|m| m.language).collect::<Vec<_>>(), [1, 3, 8]);
    assert_eq!(found[2].score.to_bits(), 0); // no letter of Russian
    let best = found[0].score;
    assert_eq!(ranked(ENGLISH, Some(best), &[1]).unwrap().len(), 1);
    assert!(ranked(ENGLISH, Some(f32::from_bits(best.to_bits() + 1)), &[1]).unwrap().is_empty());
    assert!(ranked(ENGLISH, Some(2.0), &[]).unwrap().is_empty());
    assert!(ranked(GREEK, None, &[0]).unwrap().is_empty());
    assert_eq!(language_name(ranked(GREEK, None, &[]).unwrap()[0].language), Some("Greek"));
}

#[test]
fn bytes_chars_and_str_agree() {
    let (tables, languages) = (Tables::full(), Languages::full());
    let chars: Vec<char> = GREEK.chars().collect();
    let of_str = ranked(GREEK, None, &[]);
    assert_eq!(coherence(&chars[..], None, TOO_SMALL_SEQUENCE, &tables, &languages, &[]), of_str);
    assert_eq!(coherence(GREEK.as_bytes(), None, TOO_SMALL_SEQUENCE, &tables, &languages, &[]), of_str);
    assert_eq!(coherence(&b"ab\xFF"[..], Some(f32::NAN), 0, &tables, &languages, &[]), Err(refusal(2, 2)));
}

#[test]
fn refusals_in_their_order() {
    let few = Tables::builtin_only();
    let none = Languages::new(vec![]).unwrap();
    let long = "a".repeat(8_193);
    assert_eq!(ranked(&long, Some(f32::NAN), &[99]), Err(refusal(1, 0)));
    assert!(ranked(&long[1..], None, &[]).is_ok());
    assert_eq!(ranked("a".repeat(65_537).as_str(), None, &[]), Err(refusal(1, 0)));
    assert_eq!(ranked("a".repeat(262_145).as_str(), None, &[]), Err(refusal(1, 0)));
    assert_eq!(coherence(&vec!['a'; 8_193], Some(f32::NAN), 0, &few, &none, &[1]), Err(refusal(1, 0)));
    assert_eq!(coherence("Ж", Some(f32::INFINITY), 0, &few, &none, &[1]), Err(refusal(4, 0)));
    assert_eq!(coherence("Ж", None, 0, &few, &none, &[1]), Err(refusal(9, 0)));
    assert_eq!(coherence("aЖ", None, 0, &few, &none, &[0]), Err(refusal(6, 1)));
    assert_eq!(coherence("aƁ", None, 0, &few, &none, &[]), Err(refusal(6, 1))); // U+0181, whose lower case is U+0253
    assert_eq!(ranked("a", None, &[1; 65]), Err(refusal(9, 0)));
    assert_eq!(ranked("a", None, &[1, 0]), Err(refusal(9, 1)));
    assert!(ranked("a", None, &[1; 64]).is_ok());
}

#[test]
fn capital_i_with_dot() {
    let (tables, both) = (Tables::full(), Languages::new(record(7, 1, "i\u{307}")).unwrap());
    let of = |n: usize, small: u32| coherence("\u{130}".repeat(n).as_str(), None, small, &tables, &both, &[7]).unwrap();
    // two letters each: 34 of them are more than 32, and 32 are not
    assert_eq!(bits(&of(17, TOO_SMALL_SEQUENCE)), [(7, 1f32.to_bits())]);
    assert!(of(16, TOO_SMALL_SEQUENCE).is_empty());
    assert_eq!(of(8_192, 16_383).len(), 1);
    assert!(of(8_192, 16_384).is_empty());
    // equal counts stand by code point, U+0069 first: the other way round neither letter stands in its place
    let turned = Languages::new(record(7, 1, "\u{307}i")).unwrap();
    assert!(coherence("\u{130}".repeat(17).as_str(), None, 0, &tables, &turned, &[7]).unwrap().is_empty());
    // U+0307 is past the built-in table; scoring does not lower
    let few = Tables::builtin_only();
    assert_eq!(coherence("Di\u{130}", None, 0, &few, &both, &[]), Err(refusal(6, 2)));
    assert!(drasumira::score("Di\u{130}", None, &few).is_ok());
}

#[test]
fn language_tables() {
    let mut two = record(9, 0, "et");
    two.extend(record(0, 0, "a"));
    assert_eq!(Languages::new(two).err(), Some(refusal(8, 1)));
    assert_eq!(Languages::new(vec![0; 1_031]).err(), Some(refusal(8, 0)));
    assert_eq!(Languages::new(record(1, 0, "a").repeat(64)).err(), Some(refusal(8, 0)));
    assert!(Languages::new(record(1, 0, "a").repeat(63)).is_ok());
    assert_eq!(refusal(8, 3).to_string(), "refusal 8: the language table is not good: record 3, counted from 0, is the first bad one");
}

#[test]
fn lent_languages_and_small() {
    // the second record of 7 is found by its own letters and measured by the first record's; equal scores stand by first records
    let mut records = record(7, 2, "xyz");
    records.extend(record(9, 2, "etaoin"));
    records.extend(record(7, 2, "etaoin"));
    records.extend(record(2, 2, "etaoin"));
    let languages = Languages::new(records).unwrap();
    let of = |small| coherence("eeeeee ttttt aaaa ooo ii n", Some(0.0), small, &Tables::builtin_only(), &languages, &[0]).unwrap();
    let (none, full) = (0.0f32.to_bits(), 1.0f32.to_bits());
    assert_eq!(bits(&of(20)), [(9, full), (2, full), (7, none)]);
    assert_eq!(of(21), []);
}
