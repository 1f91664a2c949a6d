// What 01 marks of the whole scan, the refusals in their order, and that nothing lent is changed.
use drasumira::{
    LONGEST_BURST, NUMBERS_PER_LINE, Refusal, RefusedText, Tables, Which, choose, read, score, score_in, score_lines, score_lines_into,
    verdict,
};

fn chars(text: &str) -> Vec<char> {
    text.chars().collect()
}

fn refusal(number: u32, place: u32) -> Refusal {
    Refusal::new(number, place)
}

#[test]
fn the_cases_of_01() {
    let tables = Tables::full();
    let empty = score("", None, &tables).unwrap();
    assert_eq!((empty.sum.to_bits(), empty.fed, empty.stopped), (0, 1, false));
    let j = score("a".repeat(31).as_str(), Some(0.0), &tables).unwrap();
    assert_eq!((j.fed, j.stopped), (32, true));
    let k = score("a".repeat(511).as_str(), Some(0.0), &tables).unwrap();
    assert_eq!((k.fed, k.stopped), (64, true));
    let program = score("\u{1}", Some(0.2), &Tables::builtin_only()).unwrap();
    assert_eq!((program.sum.to_bits(), program.fed, program.stopped), (0x4080_0000, 2, false));
}

#[test]
fn str_and_chars_agree() {
    let tables = Tables::full();
    for text in ["", "Voix ambiguë d'un cœur", "Съешь же ещё этих мягких", "\u{1}\u{FFFD}日本語"] {
        assert_eq!(score(text, Some(9.0), &tables), score(&chars(text)[..], Some(9.0), &tables));
    }
}

#[test]
fn refusals_in_their_order() {
    let (full, few) = (Tables::full(), Tables::builtin_only());
    let long = "a".repeat(65_537);
    assert_eq!(score(long.as_str(), Some(f32::NAN), &full), Err(refusal(1, 0)));
    assert_eq!(score("Ж", Some(f32::INFINITY), &few), Err(refusal(4, 0)));
    assert_eq!(score("abЖ", None, &few), Err(refusal(6, 2)));
    assert_eq!(score(&b"ab\xFF"[..], Some(f32::NAN), &few), Err(refusal(2, 2)));
    assert!(score(&long[1..], None, &full).is_ok());
    let mut classes = vec![0; 24];
    classes[0..8].copy_from_slice(&[0x50, 2, 0, 0, 0x50, 2, 0, 0]);
    assert!(Tables::new(classes.clone(), vec![0; 32_768]).is_ok());
    classes.extend(classes.clone());
    assert_eq!(Tables::new(classes, vec![0; 32_768]).err(), Some(refusal(5, 1)));
}

#[test]
fn a_refused_reading_changes_nothing() {
    let mut out = [7; 3];
    assert_eq!(read(b"abcd", &mut out), Err(refusal(3, 0)));
    assert_eq!(read(b"ab\xE2\x82", &mut out), Err(refusal(2, 2)));
    assert_eq!(out, [7; 3]);
    assert_eq!(read("€".as_bytes(), &mut out), Ok(1));
    assert_eq!(out, [0x20AC, 7, 7]);
}

#[test]
fn lines() {
    let tables = Tables::builtin_only();
    let told = |lines: &[u8]| score_lines(lines, None, &tables).unwrap();
    assert!(told(b"").is_empty());
    assert_eq!(told(b"\n"), [score("", None, &tables)]);
    assert_eq!(told(b"a\n\x01"), [score("a", None, &tables), score("\u{1}", None, &tables)]);
    assert_eq!(told("a\n\nbЖ\n\n".as_bytes())[1..], [score("", None, &tables), Err(refusal(6, 1)), score("", None, &tables)]);
    assert_eq!(told(b"ab\xE2\x82\nc"), [Err(refusal(2, 2)), score("c", None, &tables)]);
    let long = "a".repeat(65_537);
    assert_eq!(told(format!("{long}\n{}", &long[1..]).as_bytes()), [Err(refusal(1, 0)), score(&long[1..], None, &tables)]);
}

#[test]
fn lines_into_what_is_lent() {
    let tables = Tables::builtin_only();
    let mut out = [7; 3 * NUMBERS_PER_LINE];
    assert_eq!(score_lines_into("a\nb\nc\nd", None, &tables, &mut out), Err(refusal(3, 0)));
    assert_eq!(out, [7; 3 * NUMBERS_PER_LINE]);
    assert_eq!(score_lines_into("\u{1}\nЖ", None, &tables, &mut out), Ok(2));
    let rows: Vec<&[u32; NUMBERS_PER_LINE]> = out.chunks_exact(NUMBERS_PER_LINE).map(|row| row.try_into().unwrap()).collect();
    assert_eq!((score_in(rows[0]), score_in(rows[1])), (score("\u{1}", None, &tables), Err(refusal(6, 0))));
    assert_eq!(rows[2], &[7; NUMBERS_PER_LINE]);
}

#[test]
fn lines_as_alone() {
    let tables = Tables::full();
    let all = "Voix ambiguë d'un cœur\n\nСъешь же ещё этих мягких\n\u{1}\u{FFFD}日本語\nplain plain plain plain plain plain plain";
    for threshold in [None, Some(0.0), Some(-1.0), Some(9.0)] {
        let alone: Vec<_> = all.split('\n').map(|line| score(line, threshold, &tables)).collect();
        assert_eq!(score_lines(all, threshold, &tables), Ok(alone));
    }
}

#[test]
fn a_burst_refused() {
    let tables = Tables::builtin_only();
    assert_eq!(score_lines("a", Some(f32::NAN), &tables), Err(refusal(4, 0)));
    let longest = vec![b'a'; LONGEST_BURST + 1];
    assert_eq!(score_lines(&longest, Some(f32::NAN), &tables), Err(refusal(1, 0)));
    // one line, which is too long for a text
    assert_eq!(score_lines(&longest[1..], None, &tables), Ok(vec![Err(refusal(1, 0))]));
}

#[test]
fn the_chooser() {
    let tables = Tables::builtin_only();
    let (plain, noise, foreign) = (chars("plain\n\n"), chars("\u{1}\u{2}\n"), chars("Ж"));
    assert_eq!(choose(&noise[..], &plain[..], &tables), &plain[..5]);
    assert_eq!(choose(&chars("\n\n")[..], &noise[..], &tables), &[]);
    assert_eq!(verdict(&plain, &plain, &tables), Ok(Which::First));
    let second = RefusedText::new(Which::Second, refusal(6, 0));
    assert_eq!(verdict(&plain, &foreign, &tables), Err(second));
    assert_eq!(
        second.to_string(),
        "of the second text: refusal 6: the code point at index 0 of the text, or in a ranking its lower case, is in no record of the class table"
    );
    assert!(choose(&plain[..], &foreign[..], &tables).is_empty());
    assert_eq!(std::error::Error::source(&second).unwrap().to_string(), refusal(6, 0).to_string());
}

#[test]
fn the_chooser_of_str_bytes_and_chars() {
    let tables = Tables::full();
    let texts = ["", "\n", "plain\n\n", "\u{1}\u{2}\n", "Съешь же ещё\n", "日本語\n\n\n", "é\nè"];
    for (first, second) in texts.iter().flat_map(|a| texts.iter().map(move |b| (*a, *b))) {
        let (a, b) = (chars(first), chars(second));
        assert_eq!(verdict(first, second, &tables), verdict(&a, &b, &tables));
        assert_eq!(verdict(first.as_bytes(), &b, &tables), verdict(&a, second, &tables));
        let part = choose(first, second, &tables);
        assert_eq!(choose(first.as_bytes(), second.as_bytes(), &tables), part.as_bytes());
        assert_eq!(choose(&a[..], &b[..], &tables).iter().collect::<String>(), part);
    }
}

#[test]
fn refusals_of_two_texts() {
    let tables = Tables::builtin_only();
    let of = |which, number, place| Err(RefusedText::new(which, refusal(number, place)));
    assert_eq!(verdict(b"a\xFF", "Ж", &tables), of(Which::First, 2, 1));
    assert_eq!(verdict("aЖ", b"\xFF", &tables), of(Which::First, 6, 1));
    assert_eq!(verdict("a", b"\xFF", &tables), of(Which::Second, 2, 0));
    assert_eq!(verdict("a", vec![b'a'; 262_145].as_slice(), &tables), of(Which::Second, 1, 0));
    assert_eq!(verdict("a", &vec!['a'; 65_537], &tables), of(Which::Second, 1, 0));
    let (bad, good) = (&b"a\xFF"[..], &b"good\n"[..]);
    assert_eq!((choose(bad, good, &tables), choose(good, bad, &tables)), (&b""[..], &b""[..]));
    assert_eq!(choose(bad, good, &tables).as_ptr(), bad.as_ptr());
    assert_eq!(choose(good, bad, &tables).as_ptr(), good.as_ptr());
}

#[test]
fn the_part_lies_in_the_text_taken() {
    let tables = Tables::builtin_only();
    let (plain, noise, foreign) = (chars("plain\n"), chars("\u{1}\u{2}\n"), chars("Ж"));
    let lies = |first: &[char], second: &[char]| choose(first, second, &tables).as_ptr();
    assert_eq!(lies(&noise, &plain), plain.as_ptr());
    assert_eq!(lies(&plain, &plain.clone()), plain.as_ptr());
    assert_eq!(lies(&plain, &foreign), plain.as_ptr());
    assert_eq!(lies(&foreign, &plain), foreign.as_ptr());
}

#[test]
fn the_cut_is_what_01_says() {
    let tables = Tables::builtin_only();
    for text in ["", "\n", "a", "a\n", "\na\n\n", "a\nb", "a \n", "\r\n"] {
        let text = chars(text);
        let expected = text.iter().collect::<String>();
        assert_eq!(choose(&text[..], &text[..], &tables).iter().collect::<String>(), expected.trim_end_matches('\n'));
    }
}
