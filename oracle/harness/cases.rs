// Cases (a) to (l) of document 01 ("Marked and run") and the program's example, on the crate's own code.
use oracle::open::score;

const SYMBOLS: usize = 0;
const ACCENTS: usize = 1;
const RANGES: usize = 3;
const STOPS: usize = 6;
const ARCHAIC: usize = 7;

fn bits(x: f32) -> String {
    format!("{:08X}", x.to_bits())
}

// One detector's ratio, fed just this text without the newline.
fn alone(text: &str, detector: usize) -> String {
    bits(score(&text.chars().collect::<Vec<_>>(), None, true).ratios[detector])
}

fn whole(text: &[char], threshold: Option<f32>) -> String {
    let s = score(text, threshold, false);
    format!("score {} fed {} stopped {}", bits(s.sum), s.fed, s.stopped as u8)
}

fn stop(text: &[char]) -> String {
    let s = score(text, Some(0.0), false);
    format!("fed {} stopped {}", s.fed, s.stopped as u8)
}

pub fn run() -> bool {
    let mut wrong = 0;
    let mut say = |name: &str, got: String, want: String| {
        let same = got == want;
        wrong += !same as u32;
        println!("{} {name}: {got}{}", if same { "ok " } else { "NOT" }, if same { String::new() } else { format!(", 01 says {want}") });
    };
    let zero = || bits(0.0);
    let cjk = |n: usize| "的一是不了在人有我他这个们中来上".chars().take(n).collect::<String>() + "丄丅丄丅";
    say("(a) empty text", whole(&[], None), "score 00000000 fed 1 stopped 0".into());
    say("(b) 10 different characters, 3 counted punctuation", alone("abcdefg!?.", SYMBOLS), "3E99999A".into());
    say("(c) 11, 3", alone("abcdefgh!?.", SYMBOLS), zero());
    say("(d) 7 accents of 7", alone("éèàùâêî", ACCENTS), zero());
    say("(e) 7 of 20", alone("éèàùâêîabcdefghijklm", ACCENTS), bits(0.35));
    say("(f) 1 suspicious of 20", alone("abcdefghijabcdefghiд", RANGES), bits(0.1));
    say("(g) of 21", alone("abcdefghijabcdefghijд", RANGES), zero());
    say("(h) 15 CJK, 4 stops", alone(&cjk(15), STOPS), zero());
    say("(i) 16, 4", alone(&cjk(16), STOPS), bits(0.25));
    say("(j) threshold 0, 31 characters", stop(&['a'; 31]), "fed 32 stopped 1".into());
    say("(k) threshold 0, 511 characters", stop(&['a'; 511]), "fed 64 stopped 1".into());
    say("(l) non-ASCII upper, lower, upper, space", alone("ÉéÉ ", ARCHAIC), bits(0.5));
    say("(l) in Cyrillic", alone("ДдД ", ARCHAIC), bits(0.5));
    say("the program's byte 01", whole(&['\u{1}'], Some(0.2)), "score 40800000 fed 2 stopped 0".into());
    println!("cases that disagree with 01: {wrong}");
    wrong == 0
}
