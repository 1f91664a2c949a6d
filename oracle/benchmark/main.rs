// oracle/benchmark/run: nanoseconds, or under callgrind instructions, of the oracle and of the proved library, on the same texts in one run. timing.rs has the rule by which a figure is taken,
// scan.rs what is measured of scoring; each other file has a part of its own.
mod coherence;
#[path = "../differential/library.rs"]
#[allow(dead_code)]
mod library;
mod log;
mod merge;
mod pages;
#[path = "../differential/random.rs"]
mod random;
mod ring;
mod scan;
mod texts;
mod timing;
mod traps;
mod words;
mod writing;

use library::Lent;
use timing::{nanoseconds, now};

const LENGTHS: [usize; 3] = [80, 1_000, 65_536];

// Sentences that are repeated, for what does not hang on the processor's guesses: code pages, UTF-8 out, rankings.
const ENGLISH: &str =
    "The recorder keeps every line that the console prints, and a line that looks like noise is marked before it is stored. ";
const FRENCH: &str =
    "Dès Noël, où un zéphyr haï me vêt de glaçons würmiens, je dîne d'exquis rôtis de bœuf au kir, à l'aÿ d'âge mûr, &cætera. ";
const RUSSIAN: &str = "Съешь же ещё этих мягких французских булок, да выпей чаю; в чащах юга жил бы цитрус? Да, но фальшивый экземпляр! ";
const CHINESE: &str = "天地玄黄，宇宙洪荒。日月盈昃，辰宿列张。寒来暑往，秋收冬藏。闰余成岁，律吕调阳。云腾致雨，露结为霜。";

const SAMPLES: [(&str, &str); 5] = [("ASCII", ENGLISH), ("French", FRENCH), ("Russian", RUSSIAN), ("Chinese", CHINESE), ("noise", "")];

fn repeated(text: &str, n: usize) -> String {
    text.chars().cycle().take(n).collect()
}

// Bytes by chance, each as the code point of its number: what a binary file looks like when it is decoded as Latin-1.
fn noise(n: usize) -> String {
    let mut state = 1u64;
    let byte = |_| {
        state = state.wrapping_mul(6_364_136_223_846_793_005).wrapping_add(1_442_695_040_888_963_407);
        (state >> 56) as u8 as char
    };
    (0..n).map(byte).collect()
}

// The sample of this name, so long.
fn sample(name: &str, n: usize) -> String {
    let sample = SAMPLES.iter().find(|s| s.0 == name).expect("a text's name").1;
    if sample.is_empty() { noise(n) } else { repeated(sample, n) }
}

fn main() {
    let words: Vec<String> = std::env::args().skip(1).collect();
    let words: Vec<&str> = words.iter().map(String::as_str).collect();
    let usage = "usage: benchmark TABLES [ring | pages | writing | merge | log FILE | coherence [SIDE NAME LENGTH CALLS] | scan [NAME ..] | calls SIDE NAME SHAPE CALLS]";
    let dir = words.first().expect(usage);
    let file = |name: &str| std::fs::read(format!("{dir}/{name}.bin")).expect(name);
    let (classes, pairs) = (file("classes"), file("pairs"));
    let all = Lent::new(&classes, &pairs);
    let rankings = coherence::Tables { classes: classes.clone(), pairs: pairs.clone(), languages: file("languages") };
    match words[1..] {
        ["coherence"] => coherence::table(&rankings),
        ["ring"] => ring::table(),
        ["pages"] => pages::table(dir),
        ["writing"] => writing::table(),
        ["merge"] => merge::table(),
        ["log", name] => log::table(&std::fs::read(name).expect(name), &all),
        ["coherence", side, name, n, calls] => {
            coherence::calls(&rankings, side, name, n.parse().expect("a length"), calls.parse().expect("a number of calls"))
        }
        ["scan", ref names @ ..] => scan::table(&all, names),
        ["calls", side, name, shape, calls] => scan::calls(&all, side, name, shape, calls.parse().expect("a number of calls")),
        _ => {
            scan::table(&all, &[]);
            ring::table();
            writing::table();
            merge::table();
            println!();
            coherence::table(&rankings);
            println!();
            pages::table(dir)
        }
    }
}
