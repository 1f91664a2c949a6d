// remove_accent reads only the first character of the NFD form of one character: that is all that this gives.
pub struct DecomposingNormalizer;

impl DecomposingNormalizer {
    pub fn new_nfd() -> Self {
        DecomposingNormalizer
    }

    pub fn normalize(&self, text: &str) -> String {
        text.chars().map(|c| properties::of(c).decomposed).collect()
    }
}
