// The words of refusals as the Rust package's Display has them: numbers 0 to 40 at five places, as oracle/link/refusals.c writes them. house/unpacked.py holds the two together.
use drasumira::Refusal;

fn main() {
    for number in 0..=40 {
        for place in [0, 1, 7, 10, u32::MAX] {
            println!("{}", Refusal::new(number, place));
        }
    }
}
