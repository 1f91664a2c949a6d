// A line that is scored while it arrives: fed one by one and in chunks it answers what the whole line answers; a refusal changes nothing; and what no line can be is refused.
use drasumira::{Detector, RUNNING_NUMBERS, Refusal, Running, Score, Tables, score};

fn number<T>(told: Result<T, Refusal>) -> u32 {
    told.err().map_or(0, |refusal| refusal.number)
}

// A line of n characters: words, some noise, controls now and then.
fn line(n: usize, noise: usize) -> Vec<char> {
    let each = ['a', 'b', ' ', 'É', 'é', '!', '\u{1}', 'Z', '.', 'x'];
    (0..n).map(|i| each[if i * 7 % 100 < noise { 3 + i % 4 } else { [0, 1, 2, 7, 9][i * 3 % 5] }]).collect()
}

fn whole(text: &[char], threshold: f32, tables: &Tables) -> Score {
    score(text, Some(threshold), tables).unwrap()
}

const LENGTHS: [usize; 20] = [0, 1, 2, 31, 32, 33, 63, 64, 65, 127, 128, 129, 509, 510, 511, 512, 1022, 1023, 1024, 1025];

#[test]
fn one_by_one_and_in_chunks() {
    let tables = Tables::builtin_only();
    for n in LENGTHS {
        for (noise, threshold) in [(0, 0.2), (40, 0.2), (90, 0.2), (40, 1000.0), (40, -1.0)] {
            let text = line(n, noise);
            let expected = whole(&text, threshold, &tables);
            let mut single = Running::open(n, Some(threshold), &tables).unwrap();
            for (i, c) in text.iter().enumerate() {
                assert_eq!(single.feed(*c), Ok(i + 1));
                let fed = (i + 1).min(if expected.stopped { expected.fed as usize } else { n });
                assert_eq!((single.received(), single.fed(), single.stopped()), (i + 1, fed, expected.stopped && expected.fed as usize <= i + 1));
            }
            assert_eq!(single.close(), Ok(expected), "{n} {noise} {threshold}");
            for size in [1, 3, 32, 100, 2000] {
                let mut chunked = Running::open(n, Some(threshold), &tables).unwrap();
                for chunk in text.chunks(size) {
                    chunked.feed_chars(chunk).unwrap();
                }
                assert_eq!(chunked.numbers(), single.numbers());
            }
        }
    }
}

#[test]
fn a_refusal_changes_nothing() {
    let tables = Tables::builtin_only();
    let mut line = Running::open(3, None, &tables).unwrap();
    line.feed('a').unwrap();
    let before = *line.numbers();
    assert_eq!(line.feed('\u{416}'), Err(Refusal::new(Refusal::UNCLASSED, 1)));
    assert_eq!(line.feed_str("b\u{416}"), Err(Refusal::new(Refusal::UNCLASSED, 2)));
    assert_eq!(number(line.feed_str("bcd")), Refusal::LINE_FULL);
    assert_eq!(number(line.close()), Refusal::LINE_SHORT);
    assert_eq!(*line.numbers(), before);
    assert_eq!(line.feed_str(""), Ok(1));
    assert_eq!(line.feed_str("bc"), Ok(3));
    assert_eq!(number(line.feed('d')), Refusal::LINE_FULL);
    assert_eq!(line.close(), score("abc", None, &tables));
}

#[test]
fn openings() {
    let tables = Tables::builtin_only();
    assert_eq!(number(Running::open(65_536, None, &tables)), 0);
    assert_eq!(number(Running::open(65_537, Some(f32::NAN), &tables)), Refusal::TOO_LONG);
    assert_eq!(number(Running::open(usize::MAX, None, &tables)), Refusal::TOO_LONG);
    assert_eq!(number(Running::open(1, Some(f32::INFINITY), &tables)), Refusal::NOT_FINITE);
    assert_eq!(Running::open(0, None, &tables).unwrap().close(), score("", None, &tables));
}

// Once the scan has stopped a character is received and changes nothing else.
#[test]
fn behind_the_stop() {
    let tables = Tables::builtin_only();
    let mut line = Running::open(100, Some(0.0), &tables).unwrap();
    line.feed_str(&"\u{1}".repeat(32)).unwrap();
    assert!(line.stopped());
    let mut expected = *line.numbers();
    for received in 33..=100 {
        assert_eq!(line.feed('é'), Ok(received));
        expected[1] = received as u32;
        assert_eq!(*line.numbers(), expected);
    }
    assert_eq!(number(line.feed('\u{416}')), Refusal::LINE_FULL);
    let told = line.close().unwrap();
    assert_eq!((told.fed, told.stopped), (32, true));
    assert_eq!((line.last_growth(Detector::Unprintable), line.last_growth(Detector::Stops)), (Some(31), None));
}

// 19, each cause alone and at its edge.
#[test]
fn states_that_are_none() {
    let tables = Tables::builtin_only();
    let mut line = Running::open(70, Some(1000.0), &tables).unwrap();
    line.feed_chars(&line_of(40)).unwrap();
    let good = *line.numbers();
    let with = |at: usize, number: u32| {
        let mut numbers = good;
        numbers[at] = number;
        numbers
    };
    let refused = |numbers: [u32; RUNNING_NUMBERS]| {
        let mut line = Running::resume(numbers, &tables);
        let told = number(line.feed('a'));
        assert_eq!(told == Refusal::BAD_STATE, number(line.close()) == Refusal::BAD_STATE);
        assert!(told == 0 || *line.numbers() == numbers);
        told == Refusal::BAD_STATE
    };
    assert!(!refused(good));
    assert!(refused(with(3, f32::INFINITY.to_bits())) && refused(with(3, f32::NAN.to_bits())) && !refused(with(3, f32::MAX.to_bits())));
    assert!(!refused(with(0, 65_536)) && refused(with(0, 65_537)));
    assert!(refused(with(0, 39)) && !refused(with(0, 41)) && refused(with(1, 71)));
    assert!(!refused(with(16, 511)) && refused(with(16, 512)));
    let counts = [2, 5, 6, 7, 9, 10, 11, 12, 13, 14, 17, 18, 21, 22, 23, 24, 27, 28, 29, 31, 32, 33, 34, 35, 36];
    for at in 5..RUNNING_NUMBERS {
        assert_eq!(refused(with(at, 81)), counts.contains(&at), "number {at}");
        assert!(!refused(with(at, 80)), "number {at}");
    }
    // a mark is true where it is not 0, and only a step that feeds writes it
    let mut stopped = Running::resume(with(4, 7), &tables);
    stopped.feed('a').unwrap();
    assert_eq!(stopped.numbers()[4], 7);
}

fn line_of(n: usize) -> Vec<char> {
    line(n, 20)
}
