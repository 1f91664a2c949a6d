//! Scores each line of a file of up to 16 MiB: `cargo run --example lines -- FILE [THRESHOLD]`. Prints the sum, the characters fed, and the line,
//! or why the line was refused.
use drasumira::{Tables, score_lines};

fn main() -> Result<(), Box<dyn std::error::Error>> {
    let words: Vec<String> = std::env::args().skip(1).collect();
    let (file, threshold) = match &words[..] {
        [file] => (file, None),
        [file, threshold] => (file, Some(threshold.parse()?)),
        _ => return Err("usage: lines FILE [THRESHOLD]".into()),
    };
    let bytes = std::fs::read(file)?;
    let told = score_lines(&bytes, threshold, &Tables::full())?;
    for (line, told) in bytes.split(|b| *b == b'\n').map(String::from_utf8_lossy).zip(told) {
        match told {
            Ok(s) => println!("{:8.6} fed {:5}{} {line}", s.sum, s.fed, if s.stopped { " stopped" } else { "" }),
            Err(refusal) => println!("{refusal}"),
        }
    }
    Ok(())
}
