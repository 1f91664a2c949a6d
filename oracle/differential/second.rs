// The second engine (02 [10]), held to the same expectation as the first on every text that a phase scores; and texts of words and gaps, of its own length too.
use crate::library::{self, HostScore, Lent};
use crate::{Run, causes, hex};

const SECOND_LONGEST: usize = 4_096;

// What stands in words and what in gaps: letters with and without accents and case, digits, symbols that are counted and some that are not; then spaces,
// punctuation, a newline, a no-break space.
const INSIDE: &[char] = &['a', 'e', 'Z', 'é', 'É', 'ß', 'ж', 'Ж', '7', '+', '~', '$', '|', '中', '丄', 'ก', '\u{AD}', '\u{1}'];
const BETWEEN: &[char] = &[' ', '.', ',', '-', '\n', '\u{A0}', '(', '"', '\u{3000}', '!'];

impl Run {
    // "On every text of at most 4,096 code points its answers, refusals and stop equal the main engine's. Refusals: 1 above 4,096, then as scoring."
    pub fn second(&mut self, text: &[u32], threshold: Option<f32>, lent: &Lent, expected: HostScore) {
        let expected = if text.len() > SECOND_LONGEST { causes::refused((1, 0)) } else { expected };
        let told = library::second_score(text, threshold, lent);
        if told != expected {
            self.fail(|| {
                let shown = hex(&text[..text.len().min(4_100)]);
                format!("second engine, threshold {threshold:?}, text {shown}\nlibrary  {}\nexpected {}", told.shown(), expected.shown())
            });
        }
    }

    // Words and gaps in turn, each a run of one to a few characters, or of many.
    fn words_in_turn(&mut self, n: usize) -> Vec<u32> {
        let most = *self.random.pick(&[1, 2, 5, 12, 40, 90]);
        let (mut text, mut word) = (vec![], self.random.below(2) == 0);
        while text.len() < n {
            let run = 1 + self.random.below(if word { most } else { 2 });
            for _ in 0..run {
                text.push(*self.random.pick(if word { INSIDE } else { BETWEEN }) as u32);
            }
            word = !word;
        }
        text.truncate(n);
        text
    }

    pub fn words_and_gaps(&mut self, times: usize, real: &Lent) {
        for at in 0..times {
            let n = if at % 50 == 0 { SECOND_LONGEST - 2 + at / 50 % 5 } else { self.random.below(400) };
            let text = self.words_in_turn(n);
            let threshold = if at % 3 == 0 { Some(1000.0) } else { crate::texts::threshold(&mut self.random) };
            self.accepted(&text, threshold, real);
        }
        // the readers nested deepest
        for first in [0x61, 0x20] {
            for n in SECOND_LONGEST - 1..=SECOND_LONGEST + 1 {
                let text: Vec<u32> = (0..n).map(|i| if i % 2 == 0 { first } else { 0x81 - first }).collect();
                self.accepted(&text, Some(1000.0), real);
            }
        }
    }
}
