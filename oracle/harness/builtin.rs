// The built-in table of U+0000 to U+024F, written from one list: as Rattle constants, each entry one word; as antt lists, one for each field,
// which are what the table says; and as the antt list of those words, which the code's contracts cite.
use crate::tables::{BUILTIN_END, base_if_accented, point};
use oracle::open::{Class, crate_class};
use std::fmt::Write;

const ROW: usize = 8;

struct Column {
    list: &'static str,
    says: &'static str,
    words: Vec<String>,
}

fn hex(n: u32) -> String {
    if n == 0 { "0".into() } else { format!("0x{n:X}") }
}

fn entries() -> Vec<Class> {
    (0..BUILTIN_END).map(|n| base_if_accented(crate_class(point(n)))).collect()
}

// An entry as one word, as crates/class_builtin/specs/Inner/Packed.antt takes it apart.
fn packed(e: &Class) -> String {
    assert!(e.flags < 1 << 25 && e.range < 1 << 7 && e.base < 1 << 16 && e.lower < 1 << 16);
    let word = u64::from(e.flags) | u64::from(e.range) << 25 | u64::from(e.base) << 32 | u64::from(e.lower) << 48;
    format!("0x{word:X}")
}

fn columns(entries: &[Class]) -> Vec<Column> {
    let column = |list, says, words| Column { list, says, words };
    vec![
        column("flag_words", "flag words", entries.iter().map(|e| hex(e.flags)).collect()),
        column("range_numbers", "numbers of the ranges", entries.iter().map(|e| e.range.to_string()).collect()),
        column("bases", "letters without accent; 0: the character itself", entries.iter().map(|e| hex(e.base)).collect()),
        column("lowers", "lower-case letters; 0: the character itself", entries.iter().map(|e| hex(e.lower)).collect()),
    ]
}

fn packed_column(entries: &[Class]) -> Column {
    Column { list: "packed_words", says: "flag word, range, base and lower-case letter in one word (Packed)", words: entries.iter().map(packed).collect() }
}

// One constant to a line with its code point, which is also how the kit's formatter lays an array out.
fn rattle(entries: &[Class]) -> String {
    let mut out = String::from(
        "// The built-in table of U+0000 to U+024F: flag word, range, base and lower-case letter of each code point, in one word (specs/Inner/Packed.antt).\n\
         // Written by the oracle (oracle/harness/builtin.rs); specs/Inner/Words.antt has the same numbers. Do not edit either: see oracle/README.md.\n",
    );
    write!(out, "\npub const WORDS: [u64; {}] = [\n", entries.len()).unwrap();
    for (n, e) in entries.iter().enumerate() {
        writeln!(out, "    {}, // U+{n:04X}", packed(e)).unwrap();
    }
    out + "];\n"
}

fn antt(says: &str, columns: &[Column]) -> String {
    let mut out = format!(
        "-- {says}\n\
         -- Written by the oracle (oracle/harness/builtin.rs) from the crate's own answers. Do not edit it: see oracle/README.md.\n\
         -- Assumes nothing.\n\
         use Rattle.std.specs.Prelude.{{ℕ, List, [], ◌∷◌}}\n",
    );
    for c in columns {
        write!(out, "\n-- {}\nunfoldable pub {} : List ℕ\n{} =\n", c.says, c.list, c.list).unwrap();
        for (i, row) in c.words.chunks(ROW).enumerate() {
            writeln!(out, "    {} ∷  -- U+{:04X}", row.join(" ∷ "), i * ROW).unwrap();
        }
        out += "    []\n";
    }
    out
}

// The names end in .txt, since the kit refuses a Rattle or antt file that stands in no crate.
pub fn write(dir: &str) -> std::io::Result<()> {
    let entries = entries();
    std::fs::create_dir_all(dir)?;
    std::fs::write(format!("{dir}/words.rt.txt"), rattle(&entries))?;
    let said = antt("The built-in table of U+0000 to U+024F (01, \"Tables\"), as four lists.", &columns(&entries));
    std::fs::write(format!("{dir}/Words.antt.txt"), said)?;
    let words = antt("The words of src/words.rt: the built-in table as the code holds it.", &[packed_column(&entries)]);
    std::fs::write(format!("{dir}/Inner-Words.antt.txt"), words)
}
