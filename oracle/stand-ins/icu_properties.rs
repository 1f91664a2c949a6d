// The part of icu_properties 1.x that md/structs.rs uses, over the stand-in `properties`.
use properties::of;

// A general category is its two letters, so that the names below can stand in a pattern.
#[derive(Clone, Copy, PartialEq, Eq, Debug)]
pub struct GeneralCategory([u8; 2]);

#[allow(non_upper_case_globals)]
impl GeneralCategory {
    pub const OtherPunctuation: Self = Self(*b"Po");
    pub const DashPunctuation: Self = Self(*b"Pd");
    pub const ConnectorPunctuation: Self = Self(*b"Pc");
}

// A group is the letters that its categories begin with.
pub struct GeneralCategoryGroup(&'static [u8]);

#[allow(non_upper_case_globals)]
impl GeneralCategoryGroup {
    pub const Control: Self = Self(b"Cc"); // Cc alone: the group of all that begin with C is ICU4X's `Other`
    pub const Separator: Self = Self(b"Z");
    pub const Number: Self = Self(b"N");
    pub const Punctuation: Self = Self(b"P");
    pub const Symbol: Self = Self(b"S");

    pub fn contains(&self, category: GeneralCategory) -> bool {
        category.0.starts_with(self.0)
    }
}

#[derive(Clone, Copy, PartialEq, Eq, Debug)]
pub enum Script {
    Other,
    Latin,
    Han,
    Hangul,
    Katakana,
    Hiragana,
    Thai,
}

pub mod maps {
    use super::{GeneralCategory, Script, of};

    pub struct Categories;
    pub struct Scripts;

    pub fn general_category() -> Categories {
        Categories
    }

    pub fn script() -> Scripts {
        Scripts
    }

    impl Categories {
        pub fn get(&self, c: char) -> GeneralCategory {
            GeneralCategory(of(c).category)
        }
    }

    impl Scripts {
        pub fn get(&self, c: char) -> Script {
            use Script::*;
            [Other, Latin, Han, Hangul, Katakana, Hiragana, Thai][of(c).script as usize]
        }
    }
}

pub mod sets {
    use super::of;

    pub struct Set(fn(char) -> bool);

    impl Set {
        pub fn contains(&self, c: char) -> bool {
            self.0(c)
        }
    }

    pub fn emoji_component() -> Set {
        Set(|c| of(c).emoji & 1 != 0)
    }

    pub fn emoji_modifier() -> Set {
        Set(|c| of(c).emoji & 2 != 0)
    }

    pub fn emoji_modifier_base() -> Set {
        Set(|c| of(c).emoji & 4 != 0)
    }

    pub fn emoji_presentation() -> Set {
        Set(|c| of(c).emoji & 8 != 0)
    }

    pub fn unified_ideograph() -> Set {
        Set(|c| of(c).unified_ideograph)
    }
}
