// The class table in its compact form: the crate's table both ways, equal scores in either form, and damaged ones refused with their place.
use drasumira::{
    COMPACT_RECORD, Compact, LETTERS_RECORD, NUMBERS_PER_LINE, Refusal, Tables, score, score_in, score_lines, score_lines_into,
};

const RECORDS: &[u8] = include_bytes!("../tables/compact/records.bin");
const LETTERS: &[u8] = include_bytes!("../tables/compact/letters.bin");
const PAIRS: &[u8] = include_bytes!("../tables/pairs.bin");

const TEXTS: [&str; 7] = [
    "",
    "A line of plain text.",
    "Ночь на путях: всё тихо",
    "东京都渋谷区、丄丅。",
    "ÀÉÎ ŵŷž Ǆǅǆ İI",
    "\u{1}\u{2}noise\u{7F}",
    "ệ ḃ ﬁ 𝔘 \u{10FFFF}",
];

fn of(records: &[u8], letters: &[u8]) -> Result<Tables, Refusal> {
    Tables::from_compact(records, letters, PAIRS.to_vec())
}

// The place of a refusal 5.
fn bad(records: &[u8], letters: &[u8]) -> u32 {
    let refusal = of(records, letters).expect_err("it is not good");
    assert_eq!(refusal.number, Refusal::BAD_CLASSES);
    // scoring with what is lent refuses the same
    let lent = Compact { records, letters, pairs: PAIRS };
    assert_eq!(lent.score("a", None), Err(refusal));
    assert_eq!(lent.score(&['a'], None), Err(refusal));
    assert_eq!(lent.score_lines_into("a\nb", None, &mut [0; 2 * NUMBERS_PER_LINE]), Err(refusal));
    refusal.place
}

// The place of the letters of a record, as its u16 has it.
fn place_of(records: &[u8], i: usize) -> u16 {
    u16::from_le_bytes([records[COMPACT_RECORD * i + 14], records[COMPACT_RECORD * i + 15]])
}

fn with_place(i: usize, place: u16) -> Vec<u8> {
    let mut records = RECORDS.to_vec();
    records[COMPACT_RECORD * i + 14..][..2].copy_from_slice(&place.to_le_bytes());
    records
}

// The first record that uses the letters at a place.
fn first_use(place: u16) -> usize {
    (0..RECORDS.len() / COMPACT_RECORD).find(|i| place_of(RECORDS, *i) == place).expect("it is used")
}

#[test]
fn the_crates_table_goes_both_ways() {
    let (records, letters) = Tables::full().to_compact();
    assert!(records == RECORDS && letters == LETTERS);
    let back = of(RECORDS, LETTERS).unwrap();
    assert!(back.to_compact() == (records, letters));
    assert_eq!((RECORDS.len() / COMPACT_RECORD, LETTERS.len() / LETTERS_RECORD), (4_154, 1_293));
    assert_eq!(RECORDS.len() + LETTERS.len(), 76_808);
}

#[test]
fn scores_are_equal_in_either_form() {
    let (full, back, lent) = (Tables::full(), of(RECORDS, LETTERS).unwrap(), Compact { records: RECORDS, letters: LETTERS, pairs: PAIRS });
    for text in TEXTS {
        let chars: Vec<char> = text.chars().collect();
        for threshold in [None, Some(0.2), Some(0.0), Some(f32::MAX), Some(f32::NAN)] {
            let told = score(text, threshold, &full);
            assert_eq!(told, score(text, threshold, &back));
            assert_eq!(told, lent.score(text, threshold));
            assert_eq!(told, lent.score(&chars[..], threshold));
        }
    }
}

#[test]
fn lines_are_equal_in_either_form() {
    let lent = Compact { records: RECORDS, letters: LETTERS, pairs: PAIRS };
    let bytes = [TEXTS.join("\n").as_bytes(), b"\n\xFF\n\n"].concat();
    let expected = score_lines(&bytes, None, &Tables::full()).unwrap();
    let mut out = vec![7; NUMBERS_PER_LINE * expected.len() + 5];
    assert_eq!(lent.score_lines_into(&bytes, None, &mut out), Ok(expected.len()));
    let told: Vec<_> = out.chunks_exact(NUMBERS_PER_LINE).map(|row| score_in(row.try_into().unwrap())).collect();
    assert_eq!(told, expected);
    assert_eq!(out[NUMBERS_PER_LINE * expected.len()..], [7; 5]);
    // what has no room is refused in either form, and changes nothing
    let mut short = vec![7; NUMBERS_PER_LINE * expected.len() - 1];
    let refusal = score_lines_into(&bytes, None, &Tables::full(), &mut short);
    assert_eq!(lent.score_lines_into(&bytes, None, &mut short), refusal);
    assert!(refusal == Err(Refusal::new(Refusal::NO_ROOM, 0)) && short.iter().all(|n| *n == 7));
}

#[test]
fn lengths_and_numbers_are_refused_at_0() {
    assert_eq!(bad(&RECORDS[1..], LETTERS), 0);
    assert_eq!(bad(&RECORDS[..RECORDS.len() - 1], LETTERS), 0);
    // records come before letters, and a place past the last whole letters is a record's fault
    let last = (LETTERS.len() / LETTERS_RECORD) as u16;
    assert_eq!(bad(RECORDS, &LETTERS[..LETTERS.len() - 1]), first_use(last) as u32);
    assert_eq!(bad(RECORDS, &[LETTERS, &[0]].concat()), 0);
    assert_eq!(bad(&vec![0; COMPACT_RECORD * 8_193], &[]), 0);
}

#[test]
fn a_bad_record_is_refused_at_its_place() {
    // first, last, flags and range of the record 5, each one over what is allowed
    for at in [3, 7, 11, 13] {
        let mut records = RECORDS.to_vec();
        records[COMPACT_RECORD * 5 + at] = 0xFF;
        assert_eq!(bad(&records, LETTERS), 5);
    }
    // a place that there is not, by one
    let last = (LETTERS.len() / LETTERS_RECORD) as u16;
    assert_eq!(bad(&with_place(9, last + 1), LETTERS), 9);
    // letters that are no scalar value: the first record that uses them has a bad expansion
    let mut letters = LETTERS.to_vec();
    letters[LETTERS_RECORD * 3 + 1] = 0xD8;
    letters[LETTERS_RECORD * 3 + 2] = 0;
    assert_eq!(bad(RECORDS, &letters), first_use(4) as u32);
}

#[test]
fn bad_letters_are_refused_at_their_place() {
    let last = LETTERS.len() / LETTERS_RECORD;
    // unused: one behind the last
    assert_eq!(bad(RECORDS, &[LETTERS, &[1, 0, 0, 0, 0, 0, 0, 0]].concat()), last as u32);
    // (0, 0), and a repeat, of which the later is bad
    let (mut none, mut twice) = (LETTERS.to_vec(), LETTERS.to_vec());
    none[LETTERS_RECORD * 7..][..LETTERS_RECORD].fill(0);
    twice.copy_within(0..LETTERS_RECORD, LETTERS_RECORD * 11);
    assert_eq!((bad(RECORDS, &none), bad(RECORDS, &twice)), (7, 11));
    // used first before their predecessor: two that change places, with their letters
    let (a, b) = (first_use(20), first_use(21));
    assert!(a < b);
    let mut records = with_place(a, 21);
    records[COMPACT_RECORD * b + 14..][..2].copy_from_slice(&20u16.to_le_bytes());
    assert_eq!(bad(&records, LETTERS), 20);
}

#[test]
fn a_table_without_letters() {
    let tables = of(&[], &[]).unwrap();
    assert_eq!(score("a\u{1}", None, &tables), score("a\u{1}", None, &Tables::builtin_only()));
    assert_eq!(bad(&[], &[1, 0, 0, 0, 0, 0, 0, 0]), 0);
    assert_eq!(Tables::from_compact(RECORDS, LETTERS, vec![]).err(), Some(Refusal::new(Refusal::BAD_PAIRS, 0)));
}
