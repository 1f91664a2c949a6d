// The crate's own modules, opened for calling by open-crate, and `open`, which they call in place of their leaves.
#![allow(dead_code, unused_imports, mismatched_lifetime_syntaxes)]
pub mod assets;
pub mod cd;
pub mod consts;
pub mod entity;
pub mod md;
pub mod open;
pub mod utils;
