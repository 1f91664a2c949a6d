// Two thresholds (02 [12]): what the library answers at the lower and at the higher one, held to the three sentences, by the whole call, by UTF-8 bytes, by
// two lines that are opened, fed and closed, and by the crate's own answers.
use crate::library::{self, Guarded, HostScore, Lent, WORD};
use crate::texts::{self, Alphabet};
use crate::{Run, hex, oracle_score, sum_after};

// No sum of ratios lies above this.
const HIGHEST: f32 = 4115.0;

// The three sentences, and that a text that stops early at the higher one does so at the lower.
fn fault(low: &HostScore, high: &HostScore) -> Option<&'static str> {
    if high.fed < low.fed {
        return Some("the higher one feeds fewer characters");
    }
    if low.stopped == 0 && high != low {
        return Some("the lower one does not stop early, and the answers differ");
    }
    if low.stopped == 1 && high.stopped == 1 && low.fed == high.fed && high != low {
        return Some("both stop early at the same place, and the answers differ");
    }
    (low.stopped == 0 && high.stopped == 1).then_some("the higher one stops early and the lower one does not")
}

// The answer of a line that is opened, fed in one call and closed.
fn fed(text: &[u32], threshold: f32, lent: &Lent) -> HostScore {
    let mut state = Guarded::new(&library::open_line(text.len() as u32, threshold, lent).state, WORD);
    library::feed_all(&mut state, text, lent);
    library::close_line(&state)
}

impl Run {
    // Two finite thresholds in order: drawn, next to each other, equal, zeros of both signs, at the sum of a checkpoint and beside it.
    fn two(&mut self, text: &[u32]) -> (f32, f32) {
        let at = sum_after(text, (self.random.below(text.len() + 2) / 32 * 32).min(text.len() + 1));
        let (a, b) = match self.random.below(6) {
            0 => (-0.0, 0.0),
            1 => (0.0, -0.0),
            2 => (at, at.next_up()),
            3 => (at.next_down(), at),
            4 => (at, at),
            _ => {
                let mut drawn = || texts::threshold(&mut self.random).unwrap_or(crate::DEFAULT_THRESHOLD);
                (drawn(), drawn())
            }
        };
        if a <= b { (a, b) } else { (b, a) }
    }

    pub fn two_thresholds(&mut self, alphabet: &Alphabet, times: usize, lent: &Lent) {
        let (mut both, mut one) = (0, 0);
        for _ in 0..times {
            let n = texts::length(&mut self.random);
            let text = alphabet.text(&mut self.random, n);
            let (t, u) = self.two(&text);
            self.counted();
            let (low, high) = (library::score(&text, Some(t), lent), library::score(&text, Some(u), lent));
            both += (low.stopped & high.stopped) as u64;
            one += (low.stopped & (1 - high.stopped)) as u64;
            let bytes: String = crate::chars(&text).into_iter().collect();
            let of_bytes = [t, u].map(|x| library::score_utf8(bytes.as_bytes(), Some(x), lent));
            let of_lines = [t, u].map(|x| fed(&text, x, lent));
            let never = library::score(&text, Some(HIGHEST.next_up()), lent);
            let said = fault(&low, &high)
                .or(fault(&of_bytes[0], &of_bytes[1]))
                .or(fault(&of_lines[0], &of_lines[1]))
                .or((of_bytes != [low, high]).then_some("bytes have another answer than their text"))
                .or((of_lines != [low, high]).then_some("a line that is fed has another answer than its text"))
                .or((never.stopped == 1).then_some("a sum lies above the highest"))
                .or((low != oracle_score(&text, Some(t)) || high != oracle_score(&text, Some(u))).then_some("the crate answers otherwise"));
            if let Some(said) = said {
                self.fail(|| format!("thresholds {t:?} and {u:?}, text {}: {said}\nlow  {}\nhigh {}", hex(&text), low.shown(), high.shown()));
            }
        }
        if self.survey == 0 && (both == 0 || one == 0) {
            self.fail(|| "no two thresholds parted".into());
        }
    }
}
