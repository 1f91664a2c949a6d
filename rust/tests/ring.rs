// The ring as a host uses it: what is put comes out once and in order, whatever the burst and the flusher; a refusal loses nothing and changes nothing.
use drasumira::{MOST_RECORDS, RECORD, Record, Refusal, Ring, Score, Tables, score};

fn verdict(text: &str) -> Result<Score, Refusal> {
    score(text, None, &Tables::builtin_only())
}

fn number<T>(told: Result<T, Refusal>) -> u32 {
    told.err().map_or(0, |refusal| refusal.number)
}

#[test]
fn sizes() {
    for (bytes, refused) in [(0, 15), (31, 15), (32, 0), (33, 15), (RECORD * MOST_RECORDS, 0), (RECORD * (MOST_RECORDS + 1), 15)] {
        assert_eq!(number(Ring::open(vec![7; bytes])), refused, "{bytes} bytes");
    }
    for (head, count, refused) in [(0, 0, 0), (2, 3, 0), (3, 0, 15), (0, 4, 15), (u32::MAX, 0, 15), (0, u32::MAX, 15)] {
        assert_eq!(number(Ring::resume(vec![0; 3 * RECORD], head, count)), refused, "{head} {count}");
    }
}

#[test]
fn a_burst_through_few_slots() {
    let told = [verdict("plain"), verdict("\u{1}\u{1}"), verdict("\u{416}")];
    for slots in 1..6 {
        for at_a_time in 1..8 {
            let mut bytes = vec![0xEE; slots * RECORD];
            let mut ring = Ring::open(&mut bytes[..]).unwrap();
            let mut flushed: Vec<Record> = vec![];
            for line in 0..100u64 {
                while let Err(refusal) = ring.put(line << 32 | line, &told[line as usize % 3]) {
                    assert_eq!((refusal.number, ring.len()), (16, slots));
                    flushed.extend(ring.flush(at_a_time).unwrap());
                }
            }
            flushed.extend(ring.flush(usize::MAX).unwrap());
            assert!(ring.is_empty() && flushed.len() == 100);
            for (line, record) in flushed.iter().enumerate() {
                let line = line as u64;
                let expected = match &told[line as usize % 3] {
                    Ok(s) => (s.sum, s.fed, s.stopped, 0),
                    Err(r) => (0.0, 0, false, r.number),
                };
                assert_eq!((record.sum, record.fed, record.stopped, record.refusal), expected);
                assert_eq!(record.line, line << 32 | line);
            }
        }
    }
}

#[test]
fn a_refusal_changes_nothing() {
    let mut ring = Ring::open(vec![0; 2 * RECORD]).unwrap();
    ring.put(1, &verdict("plain")).unwrap();
    ring.put(2, &verdict("plain")).unwrap();
    let before = ring.clone().into_parts();
    assert_eq!(number(ring.put(3, &verdict("plain"))), 16);
    let mut out = [5; 2 * RECORD - 1];
    assert_eq!(number(ring.flush_into(2, &mut out)), 3);
    assert_eq!(out, [5; 2 * RECORD - 1]);
    assert_eq!(ring.clone().into_parts(), before);
    assert_eq!(ring.flush(2).unwrap().iter().map(|record| record.line).collect::<Vec<_>>(), [1, 2]);
}
