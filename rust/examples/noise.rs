//! Which lines of a file of up to 16 MiB are noise: `cargo run --example noise -- FILE`. It writes what c/lines.c of the package writes.
use drasumira::{DEFAULT_THRESHOLD, Tables, score_lines};

fn main() -> Result<(), Box<dyn std::error::Error>> {
    let file = std::env::args().nth(1).ok_or("usage: noise FILE")?;
    for (told, line) in score_lines(std::fs::read(file)?, None, &Tables::full())?.iter().zip(1..) {
        match told {
            Ok(score) if score.sum >= DEFAULT_THRESHOLD => println!("{line} noise {:.6}", score.sum),
            Ok(score) => println!("{line} readable {:.6}", score.sum),
            Err(refusal) => println!("{line} {refusal}"),
        }
    }
    Ok(())
}
