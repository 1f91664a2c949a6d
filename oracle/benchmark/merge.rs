// Rankings merged, beside the crate's merge_coherence_ratios: microseconds a call. The crate's entries hold a reference to a language, and its answer is a Vec of its own; it checks nothing
// and leaves ties in no order.
use crate::{library, nanoseconds};
use oracle::assets::LANGUAGES;
use oracle::entity::{CoherenceMatch, CoherenceMatches, Language};
use ordered_float::OrderedFloat;
use std::hint::black_box;

// The crate's languages, each once.
fn languages() -> Vec<&'static Language> {
    let mut each: Vec<&Language> = Vec::new();
    for row in LANGUAGES.iter() {
        if !each.contains(&&row.0) {
            each.push(&row.0);
        }
    }
    each
}

// So many rankings of so many entries each; the languages are taken in turn, and so are 1,000 scores.
fn entries(rankings: usize, longest: usize, languages: usize) -> Vec<(u32, f32)> {
    (0..rankings * longest).map(|at| ((at * 11 % languages) as u32, (at * 37 % 1_000) as f32 / 1_000.0)).collect()
}

pub fn table() {
    let known = languages();
    println!("\n| rankings | entries of each | languages | crate us/call | library us/call |");
    println!("|---|---|---|---|---|");
    for (rankings, longest, languages) in [(2, 3, 5), (8, 10, 10), (64, 10, 38), (64, 63, 38), (64, 63, 63), (64, 63, 4_032)] {
        let list = entries(rankings, longest, languages);
        let words: Vec<u32> = list.iter().flat_map(|(language, score)| [*language, score.to_bits()]).collect();
        let lengths = vec![longest as u32; rankings];
        let mut out = vec![0; words.len()];
        let ours = nanoseconds(|| assert_eq!(library::merge(black_box(&words), black_box(&lengths), &mut out).number, 0));
        let theirs = if languages > known.len() {
            "-".to_string()
        } else {
            let given: Vec<CoherenceMatches> = list
                .chunks(longest)
                .map(|part| {
                    part.iter().map(|(at, score)| CoherenceMatch { language: known[*at as usize], score: OrderedFloat(*score) }).collect()
                })
                .collect();
            format!("{:.1}", nanoseconds(|| drop(black_box(oracle::cd::merge_coherence_ratios(black_box(&given))))) / 1_000.0)
        };
        println!("| {rankings} | {longest} | {languages} | {theirs} | {:.1} |", ours / 1_000.0);
    }
}
