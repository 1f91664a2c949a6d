//! Ranks the languages of a file's first characters: `cargo run --example languages -- FILE [THRESHOLD]`.
use drasumira::{Languages, TOO_SMALL_SEQUENCE, Tables, coherence, language_name};

const MOST: usize = 8_192; // a ranking takes no more code points

fn main() -> Result<(), Box<dyn std::error::Error>> {
    let words: Vec<String> = std::env::args().skip(1).collect();
    let (file, threshold) = match &words[..] {
        [file] => (file, None),
        [file, threshold] => (file, Some(threshold.parse()?)),
        _ => return Err("usage: languages FILE [THRESHOLD]".into()),
    };
    let text: Vec<char> = std::fs::read_to_string(file)?.chars().take(MOST).collect();
    for found in coherence(&text[..], threshold, TOO_SMALL_SEQUENCE, &Tables::full(), &Languages::full(), &[])? {
        println!("{:8.6} {}", found.score, language_name(found.language).unwrap_or("?"));
    }
    Ok(())
}
