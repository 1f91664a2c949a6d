// Why a text is noise, as a host asks it: the detector, its counts, where it grew and which characters stand there; and what a character is.
use drasumira::{Detector, Refusal, Tables, class, score, why, why_into};

fn named(text: &str, tables: &Tables) -> Option<(Detector, Vec<usize>)> {
    why(text, Some(1000.0), tables).unwrap().map(|why| (why.detector, why.indexes))
}

#[test]
fn nothing_to_say() {
    let tables = Tables::full();
    for text in ["", "A line of plain text.", "Zwei Zeilen,\nnichts weiter."] {
        assert_eq!(why(text, None, &tables).unwrap(), None, "{text}");
        assert_eq!(why_into(text, None, &tables, &mut []), Ok((None, 0)));
    }
}

#[test]
fn each_unprintable_once() {
    let tables = Tables::builtin_only();
    assert_eq!(named("a\u{1}\u{1}b\u{7F}", &tables), Some((Detector::Unprintable, vec![1, 2, 4])));
    let told = why("a\u{1}\u{1}b\u{7F}", Some(1000.0), &tables).unwrap().unwrap();
    assert_eq!(told.share.numerator as usize, 8 * told.indexes.len());
    assert_eq!(told.characters, ['\u{1}', '\u{1}', '\u{7F}']);
}

#[test]
fn a_repeated_symbol_once() {
    let tables = Tables::full();
    assert_eq!(named("\u{2190}\u{2190}\u{2190}\u{2191}", &tables), Some((Detector::Symbols, vec![0, 3])));
}

#[test]
fn doubled_accents_listed_once() {
    // both upper case and of one base: 4 at once
    let told = why("ÉÈ", Some(1000.0), &Tables::builtin_only()).unwrap().unwrap();
    assert_eq!((told.detector, told.share.numerator, &told.indexes[..]), (Detector::Doubled, 4, &[1][..]));
}

#[test]
fn a_stop_in_cjk() {
    let text: String = (0..16).map(|i| char::from_u32(0x4E10 + i).unwrap()).chain("\u{4E04}\u{4E05}\u{4E04}".chars()).collect();
    let told = why(&text, Some(1000.0), &Tables::full()).unwrap().unwrap();
    assert_eq!((told.detector, &told.indexes[..]), (Detector::Stops, &[16, 17, 18][..]));
    assert_eq!(told.share.numerator as usize, told.indexes.len());
}

// A bad word that nothing closes before is closed by the newline, whose index is the length of the text.
#[test]
fn the_newline_listed() {
    let tables = Tables::full();
    let text = "a\u{2190} ".repeat(11) + "a\u{2190}";
    let told = why(&text, Some(1000.0), &tables).unwrap().unwrap();
    assert_eq!((told.detector, told.share.ratio), (Detector::Words, 1.0));
    assert_eq!(told.indexes, (1..=12).map(|word| 3 * word - 1).collect::<Vec<_>>());
    assert_eq!((told.indexes.last(), told.characters.last()), (Some(&text.chars().count()), Some(&'\n')));
}

#[test]
fn past_the_stop_nothing() {
    let text = "\u{1}".repeat(200);
    let tables = Tables::builtin_only();
    let told = why(&text, Some(0.5), &tables).unwrap().unwrap();
    assert_eq!(told.indexes, (0..32).collect::<Vec<_>>());
    assert_eq!(score(&text, Some(0.5), &tables).unwrap().fed, 32);
}

#[test]
fn refusals_and_room() {
    let tables = Tables::builtin_only();
    let mut out = [9; 3];
    assert_eq!(why_into("\u{1}\u{1}\u{1}\u{1}", None, &tables, &mut out), Err(Refusal::new(Refusal::NO_ROOM, 0)));
    assert_eq!(out, [9; 3]);
    assert_eq!(why_into("\u{1}\u{1}\u{1}", None, &tables, &mut out), Ok((Some(Detector::Unprintable), 3)));
    assert_eq!(why("a\u{416}", None, &tables), Err(Refusal::new(Refusal::UNCLASSED, 1)));
    assert_eq!(why(b"\x01\xFF", None, &tables), Err(Refusal::new(Refusal::ILL_FORMED, 1)));
    assert_eq!(why("\u{1}", Some(f32::NAN), &tables), Err(Refusal::new(Refusal::NOT_FINITE, 0)));
    assert_eq!(why("é".repeat(65_537).as_bytes(), None, &tables), Err(Refusal::new(Refusal::TOO_LONG, 0)));
}

#[test]
fn classes_in_words() {
    let tables = Tables::full();
    let named = |c: char| class(c, &tables).unwrap().names().collect::<Vec<_>>();
    assert!(named('A').contains(&"upper case") && named('A').contains(&"ASCII letter"));
    assert!(named('\u{4E10}').contains(&"CJK") && named('\u{E01}').contains(&"Thai"));
    assert_eq!(class(' ', &tables).unwrap().names().next(), Some("white space"));
    assert_eq!(class('\u{416}', &Tables::builtin_only()), Err(Refusal::new(Refusal::UNCLASSED, 0)));
}
