// The second engine beside the first: the same answers, the same refusals, its own length, and the stack of an ordinary thread.
use drasumira::{NotAgreed, Refusal, SECOND_LONGEST, Tables, agreed, score, second_score};

const TEXTS: [&str; 9] = [
    "",
    "plain",
    " leading and trailing ",
    "one.two,three;four five-six seven (eight) nine ten eleven twelve",
    "Voix ambiguë d'un cœur qui au zéphyr préfère les jattes de kiwis",
    "ÀÉÎÕÜ ààéé aBcDeF ÀbÇdÈ ÀbÇdÈ",
    "Съешь же ещё этих мягких французских булок",
    "\u{1}\u{2}\u{3}",
    "日本語 \u{4E04}\u{4E05} 中文字 日本語 中文字 日本語 中文字",
];

#[test]
fn the_two_agree() {
    let tables = Tables::full();
    for text in TEXTS {
        for threshold in [None, Some(0.0), Some(-1.0), Some(9.0)] {
            let told = score(text, threshold, &tables);
            assert_eq!(second_score(text, threshold, &tables), told, "{text}");
            assert_eq!(agreed(text, threshold, &tables), Ok(told.unwrap()), "{text}");
            let chars: Vec<char> = text.chars().collect();
            assert_eq!(second_score(&chars[..], threshold, &tables), told, "{text}");
        }
    }
}

// Each text over and over, so that there are checkpoints of all three periods.
#[test]
fn long_texts_agree() {
    let tables = Tables::full();
    for text in TEXTS.iter().filter(|t| !t.is_empty()) {
        for n in [510, 511, 1023, 1024, SECOND_LONGEST] {
            let chars: Vec<char> = text.chars().cycle().take(n).collect();
            for threshold in [None, Some(9.0)] {
                assert_eq!(second_score(&chars[..], threshold, &tables), score(&chars[..], threshold, &tables), "{n} of {text}");
            }
        }
    }
}

#[test]
fn refusals_agree() {
    let few = Tables::builtin_only();
    for (text, threshold, number, place) in [("abЖ", None, 6, 2), ("Ж", Some(f32::NAN), 4, 0), ("a", Some(f32::INFINITY), 4, 0)] {
        let refusal = Refusal::new(number, place);
        assert_eq!(second_score(text, threshold, &few), Err(refusal));
        assert_eq!(agreed(text, threshold, &few), Err(NotAgreed::Refused(refusal)));
        assert_eq!(score(text, threshold, &few), Err(refusal));
    }
    assert_eq!(second_score(&b"ab\xFF"[..], None, &few), Err(Refusal::new(Refusal::ILL_FORMED, 2)));
    assert_eq!(agreed(&b"ab\xFF"[..], None, &few), Err(NotAgreed::Refused(Refusal::new(Refusal::ILL_FORMED, 2))));
}

#[test]
fn its_own_length() {
    let tables = Tables::builtin_only();
    let text = "a".repeat(SECOND_LONGEST + 1);
    let too_long = Refusal::new(Refusal::TOO_LONG, 0);
    assert!(second_score(&text[1..], None, &tables).is_ok());
    assert_eq!(second_score(text.as_str(), None, &tables), Err(too_long));
    // before the threshold, and where the first engine has an answer
    assert_eq!(second_score(text.as_str(), Some(f32::NAN), &tables), Err(too_long));
    assert_eq!(agreed(text.as_str(), None, &tables), Err(NotAgreed::Refused(too_long)));
    assert!(score(text.as_str(), None, &tables).is_ok());
}

// A letter and a space in turn nest the readers deepest; an ordinary thread has 2 MiB.
#[test]
fn in_an_ordinary_thread() {
    let deepest = |first: char, second: char| {
        let text: Vec<char> = (0..SECOND_LONGEST).map(|i| if i % 2 == 0 { first } else { second }).collect();
        agreed(&text[..], Some(9.0), &Tables::builtin_only()).map(|told| told.fed)
    };
    let thread = std::thread::Builder::new().stack_size(2 << 20).spawn(move || (deepest('a', ' '), deepest(' ', 'a'))).unwrap();
    assert_eq!(thread.join().unwrap(), (Ok(4097), Ok(4097)));
}
