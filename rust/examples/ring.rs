//! A burst of more lines than the ring has slots, and a flusher that takes a few at a time: `cargo run --example ring`. A put that finds the ring full is refused, and tried
//! again once the flusher has come round: nothing is lost, and the records come out in the order of the lines.
use drasumira::{RECORD, Record, Refusal, Ring, Tables, score_lines};

const SLOTS: usize = 8;
const AT_A_TIME: usize = 3;

fn main() -> Result<(), Refusal> {
    let burst: String =
        (0..100).map(|line| if line % 7 == 0 { "\u{1}\u{2}\n".into() } else { format!("Line {line} of the burst.\n") }).collect();
    let told = score_lines(&burst, None, &Tables::builtin_only())?;
    let mut buffer = [0; SLOTS * RECORD];
    let mut ring = Ring::open(&mut buffer[..])?;
    let (mut flushed, mut full): (Vec<Record>, usize) = (vec![], 0);
    for (line, verdict) in told.iter().enumerate() {
        while let Err(refusal) = ring.put(line as u64, verdict) {
            assert_eq!(refusal.number, Refusal::RING_FULL);
            full += 1;
            flushed.extend(ring.flush(AT_A_TIME)?);
        }
    }
    while !ring.is_empty() {
        flushed.extend(ring.flush(AT_A_TIME)?);
    }
    assert!(flushed.iter().map(|record| record.line).eq(0..told.len() as u64));
    let noise = flushed.iter().filter(|record| record.sum > 1.0).count();
    println!(
        "{} lines through {SLOTS} slots: {} records flushed in order, {noise} of them noise; the ring was full {full} times",
        told.len(),
        flushed.len()
    );
    Ok(())
}
