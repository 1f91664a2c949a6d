// The scoring of a log alone, in one thread and in bursts of the command's size: what the command's own time is held against (docs/BENCHMARKS.md).
//     cargo run --release --example bursts -- FILE
use drasumira::{NUMBERS_PER_LINE, Tables, score_in, score_lines_into};

const BURST: usize = 262_144;

fn main() -> Result<(), Box<dyn std::error::Error>> {
    let bytes = std::fs::read(std::env::args().nth(1).ok_or("which file?")?)?;
    let tables = Tables::full();
    let (mut rest, mut rows, mut lines, mut noise) = (&bytes[..], vec![0; NUMBERS_PER_LINE * BURST], 0, 0);
    let began = std::time::Instant::now();
    while !rest.is_empty() {
        // whole lines, as many as a burst takes
        let end = rest.len().min(BURST);
        let cut = rest[..end].iter().rposition(|b| *b == b'\n').map_or(end, |at| at + 1);
        let count = score_lines_into(&rest[..cut], None, &tables, &mut rows)?;
        let scores = rows.chunks_exact(NUMBERS_PER_LINE).take(count).map(|row| score_in(row.try_into().expect("a whole row")));
        noise += scores.filter(|told| told.is_ok_and(|score| score.sum >= drasumira::DEFAULT_THRESHOLD)).count();
        lines += count;
        rest = &rest[cut..];
    }
    let seconds = began.elapsed().as_secs_f64();
    println!("{lines} lines, {noise} of them noise, {:.1} MB a second", bytes.len() as f64 / seconds / 1e6);
    Ok(())
}
