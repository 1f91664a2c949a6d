// UTF-8 out beside what a Rust host would write instead, the chars collected into a String: nanoseconds a character. The library is lent the code points and a
// buffer that is kept from call to call; the String is made anew each time, as `collect` does, and once more into a String that is cleared and kept.
use crate::{LENGTHS, library, nanoseconds, sample};
use library::Guarded;
use std::hint::black_box;

pub fn table() {
    println!("\n| text written | characters | String collected ns/char | String kept ns/char | library ns/char |");
    println!("|---|---|---|---|---|");
    for name in ["ASCII", "French", "Russian", "Chinese", "noise"] {
        for n in LENGTHS {
            let string = sample(name, n);
            let chars: Vec<char> = string.chars().collect();
            let points: Vec<u32> = chars.iter().map(|c| *c as u32).collect();
            let collected = nanoseconds(|| {
                black_box(black_box(&chars).iter().collect::<String>());
            });
            let mut kept = String::new();
            let again = nanoseconds(|| {
                kept.clear();
                kept.extend(black_box(&chars).iter());
                black_box(&kept);
            });
            let mut out = Guarded::new(&vec![0u8; string.len()], library::BYTE);
            let ours = nanoseconds(|| {
                let told = library::write_utf8(black_box(&points), &mut out);
                assert_eq!((told.number, told.count as usize), (0, string.len()));
            });
            assert!(out.holds(string.as_bytes()));
            println!("| {name} | {n} | {:.2} | {:.2} | {:.2} |", collected / n as f64, again / n as f64, ours / n as f64);
        }
    }
}
