// A month's report, by the package.
use drasumira::{Detector, LONGEST_REPORT, MOST_LINES, NUMBERS_PER_LINE, Refusal, Report, Tables, score, score_lines, score_lines_into};

#[test]
fn no_lines() {
    let month = Report::new();
    assert!(month.is_empty());
    assert_eq!(month.to_string(), "lines 0\naccepted 0\nrefused 0\n");
    assert!(Detector::ALL.iter().all(|d| month.bins(*d).is_empty()));
}

// Each line alone, and all in one burst.
#[test]
fn lines_and_bursts() -> Result<(), Refusal> {
    let tables = Tables::full();
    let lines = "A line of plain text.\n\u{1}\u{2}\u{3}\n\ncafé, naïve\n(*&^%$#@!)\nпривет\n\u{3042}\u{30A2}漢\n";
    let (mut alone, mut at_once) = (Report::new(), Report::new());
    for told in score_lines(lines, Some(0.2), &tables)? {
        alone.add(&told)?;
    }
    alone.add(&score(b"\xFF", None, &tables))?;
    let mut rows = vec![0; 8 * NUMBERS_PER_LINE + 5];
    score_lines_into([lines.as_bytes(), b"\xFF"].concat(), Some(0.2), &tables, &mut rows)?;
    at_once.add_rows(&rows)?;
    assert_eq!(alone.to_string(), at_once.to_string());
    assert!(alone.to_string().ends_with("lines 8\naccepted 7\nrefused 1\n"));
    assert_eq!(alone.len(), 8);
    for detector in Detector::ALL {
        assert_eq!(alone.bins(detector).iter().map(|(_, count)| count).sum::<u32>(), 7);
    }
    assert!(alone.bins(Detector::Unprintable).iter().any(|(bin, _)| *bin > 64));
    Ok(())
}

// The bins of a row written by hand: below a bin, at it, and above the last; a ratio of 0 and of -0.0; a denominator of 0.
#[test]
fn bins_of_rows() -> Result<(), Refusal> {
    let row = |ratio: u32, numerator: u32, denominator: u32| {
        let mut row = [0; NUMBERS_PER_LINE];
        (row[9], row[34], row[35]) = (ratio, numerator, denominator);
        row
    };
    let mut month = Report::new();
    let one = 1.0f32.to_bits();
    for numbers in [
        (one, 1, 65),
        (one, 1, 64),
        (one, 8, 1),
        (one, u32::MAX, 1),
        (one, 1 << 26, 1 << 26),
        (0, 5, 5),
        ((-0.0f32).to_bits(), 5, 5),
        (one, 5, 0),
    ] {
        month.add_rows(&row(numbers.0, numbers.1, numbers.2))?;
    }
    assert_eq!(month.bins(Detector::Archaic), [(0, 4), (1, 1), (64, 1), (512, 2)]);
    assert_eq!(month.bins(Detector::Symbols), [(0, 8)]);
    Ok(())
}

// The 65,535th line is taken and the next is not; the longest text is as long as the package says that one can be, to some bytes.
#[test]
fn the_longest_month() -> Result<(), Refusal> {
    let mut month = Report::new();
    for bin in 0..513 {
        let mut row = [0; NUMBERS_PER_LINE];
        for detector in 0..8 {
            (row[2 + detector], row[13 + 3 * detector], row[14 + 3 * detector]) = (1, bin, 64);
        }
        month.add_rows(&row.repeat(if bin < 498 { 100 } else { 1_000 }))?;
    }
    let refused = Err(Refusal::new(Refusal::ILL_FORMED, 3));
    while month.len() < MOST_LINES {
        month.add(&refused)?;
    }
    let text = month.to_string();
    assert_eq!(text.len(), LONGEST_REPORT - 17);
    assert_eq!(month.add(&refused), Err(Refusal::new(Refusal::MANY_LINES, 0)));
    assert_eq!(month.add_rows(&[0; 2 * NUMBERS_PER_LINE]), Err(Refusal::new(Refusal::MANY_LINES, 0)));
    assert_eq!(month.to_string(), text);
    Ok(())
}
