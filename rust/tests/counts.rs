// The counts of each ratio: the mark on both sides of each cut-off, the factors, and that the ratio is the quotient of the two.
use drasumira::{Detector, NEW_ROOMS, SUMMER_RULE, Score, Tables, score, score_lines};

// Never stopped, so that the whole text is counted.
fn whole(text: &str) -> Score {
    score(text, Some(f32::MAX), &Tables::full()).unwrap()
}

fn said(text: &str, detector: Detector) -> (u32, u32, bool, f32) {
    let share = whole(text).share(detector);
    (share.numerator, share.denominator, share.cut_off, share.ratio)
}

#[test]
fn both_sides_of_each_cut_off() {
    // 3 of 10 is kept, 3 of 11 is not; the newline is printable
    assert_eq!(said("!?!aaaaaa", Detector::Symbols), (3, 10, false, 0.3));
    assert_eq!(said("!?!aaaaaaa", Detector::Symbols), (3, 11, true, 0.0));
    // 8 letters are enough, 7 are not
    assert_eq!(said("éaéaéaéa", Detector::Accents), (4, 8, false, 0.5));
    assert_eq!(said("éaéaéaé", Detector::Accents), (4, 7, true, 0.0));
    // a Cyrillic letter behind a Latin one: 2 of 20, and 2 of 21
    assert_eq!(said(&format!("aж{}", " ".repeat(17)), Detector::Ranges), (2, 20, false, 0.1));
    assert_eq!(said(&format!("aж{}", " ".repeat(18)), Detector::Ranges), (2, 21, true, 0.0));
    // 16 CJK characters are enough, 15 are not
    assert_eq!(said(&format!("丄{}", "北".repeat(16)), Detector::Stops), (1, 16, false, 0.0625));
    assert_eq!(said(&format!("丄{}", "北".repeat(15)), Detector::Stops), (1, 15, true, 0.0));
}

#[test]
fn factors_are_in_the_numerator() {
    assert_eq!(said("a\u{1}", Detector::Unprintable), (8, 3, false, 8.0 / 3.0));
    assert_eq!(said("aéèa", Detector::Doubled), (2, 4, false, 0.5));
    // "©" is a symbol and counts twice, "§" is punctuation
    assert_eq!((said("©a", Detector::Symbols).0, said("§a", Detector::Symbols).0), (2, 1));
}

#[test]
fn nothing_over_nothing_is_not_marked() {
    for (detector, share) in whole("").shares() {
        assert!(!share.cut_off && share.ratio == 0.0 && share.numerator == 0, "{detector}: {share}");
    }
    // no accent among 5 letters: below 8 letters, yet nothing was cut off
    assert_eq!(said("abcde", Detector::Accents), (0, 5, false, 0.0));
    // a stop and no CJK character beside it: over 0
    assert_eq!(said("丄", Detector::Stops), (1, 0, false, 0.0));
}

#[test]
fn the_ratio_is_the_quotient() {
    let texts = ["Voix ambiguë d'un cœur!!!", "aBcDeF §§§§ \u{1}\u{2}", "ÀÉÎÕÜ àéîõü ŠŽšž", "丄丅北北北北北北北北北北北北北北北北", "wwwwwww éééééé QQQQ"];
    for text in texts {
        let told = whole(text);
        for (detector, share) in told.shares() {
            let zero = share.cut_off || share.denominator == 0;
            let quotient = if zero { 0.0 } else { share.numerator as f32 / share.denominator as f32 };
            assert_eq!(share.ratio.to_bits(), quotient.to_bits(), "{detector} of {text}");
        }
        let sum = told.shares().map(|(_, share)| share.ratio).reduce(|a, b| a + b).unwrap();
        assert_eq!(sum.to_bits(), told.sum.to_bits());
        // a row tells the same
        assert_eq!(score_lines(text, Some(f32::MAX), &Tables::full()).unwrap(), [Ok(told)]);
    }
}

#[test]
fn detectors_by_number_and_name() {
    for (at, detector) in Detector::ALL.into_iter().enumerate() {
        assert_eq!(detector.number() as usize, at + 1);
        assert_eq!(Detector::from_number(detector.number()), Some(detector));
    }
    assert_eq!(Detector::from_number(9), None);
    assert_eq!(format!("{}: {}", Detector::Unprintable, whole("\u{1}").share(Detector::Unprintable)), "unprintable characters: 8 of 2");
}

#[test]
fn rooms_and_summer() {
    assert_eq!((NEW_ROOMS.to_bits(), SUMMER_RULE.to_bits()), (0x3E19_999A, 0x3E4C_CCCD));
    // three control characters spread over 160: 24 of 160 at the last checkpoint, exactly 0.15
    let line: String = (0..160).map(|i| if i * 3 / 160 < (i + 1) * 3 / 160 { '\u{1}' } else { ' ' }).collect();
    let tables = Tables::full();
    let (rooms, summer) = (score(&*line, None, &tables).unwrap(), score(&*line, Some(SUMMER_RULE), &tables).unwrap());
    assert_eq!((rooms.sum, rooms.fed, rooms.stopped), (NEW_ROOMS, 160, true));
    assert_eq!((summer.fed, summer.stopped), (161, false));
}
