// Which wrong program is run: the number in the variable WRONG, 0 for none. And what some of them need.
use std::sync::LazyLock;

static NUMBER: LazyLock<u32> = LazyLock::new(|| std::env::var("WRONG").map_or(0, |n| n.parse().expect("a whole number")));

#[inline]
pub fn number() -> u32 {
    *NUMBER
}

// A row of the Standard's Table 3-7: first bytes, second bytes, and how many bytes there are.
pub type Row = (u8, u8, u8, u8, usize);

const ROWS: [Row; 9] = [
    (0x00, 0x7F, 0, 0, 1),
    (0xC2, 0xDF, 0x80, 0xBF, 2),
    (0xE0, 0xE0, 0xA0, 0xBF, 3),
    (0xE1, 0xEC, 0x80, 0xBF, 3),
    (0xED, 0xED, 0x80, 0x9F, 3),
    (0xEE, 0xEF, 0x80, 0xBF, 3),
    (0xF0, 0xF0, 0x90, 0xBF, 4),
    (0xF1, 0xF3, 0x80, 0xBF, 4),
    (0xF4, 0xF4, 0x80, 0x8F, 4),
];

// The code points of some bytes by that table with another row in one's place, or where it finds no sequence.
pub fn utf8(bytes: &[u8], row: usize, other: Row) -> Result<Vec<u32>, usize> {
    let mut rows = ROWS;
    rows[row] = other;
    let (mut points, mut at) = (vec![], 0);
    while at < bytes.len() {
        let lead = bytes[at];
        let (_, _, low, high, n) = *rows.iter().find(|r| r.0 <= lead && lead <= r.1).ok_or(at)?;
        let rest = bytes.get(at + 1..at + n).ok_or(at)?;
        let follows = |i: usize, b: u8| if i == 0 { (low..=high).contains(&b) } else { (0x80..=0xBF).contains(&b) };
        if !rest.iter().enumerate().all(|(i, b)| follows(i, *b)) {
            return Err(at);
        }
        let head = if n == 1 { lead as u32 } else { lead as u32 & (0x7F >> n) };
        points.push(rest.iter().fold(head, |sum, b| sum << 6 | (*b as u32 & 0x3F)));
        at += n;
    }
    Ok(points)
}
