// is_accentuated asks only whether a name holds one of six patterns, which `properties` knows; the name given here holds one or none.
pub fn name(c: char) -> Option<&'static str> {
    properties::of(c).accentuated.then_some("WITH GRAVE")
}
