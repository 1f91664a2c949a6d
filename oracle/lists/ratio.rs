// ratio.rs: works out each answer of the list that ratio.py writes with Rust's own f32, and says how many differ.
//   rustc -O oracle/lists/ratio.rs -o build/ratio && build/ratio < crates/replay_ratio/stdin
use std::io::Read;

fn fractions(w: &[u32]) -> bool {
    let mut same = true;
    let mut sum: Option<f32> = None;
    for f in w[1..41].chunks(5) {
        let r = if f[1] == 0 { 0.0 } else { f[0] as f32 / f[1] as f32 };
        let left = if r >= 0.3 { r } else { 0.0 };
        let reached = (r >= 0.3) as u32 + 2 * (r >= 0.35) as u32 + 4 * (r >= 0.1) as u32 + 8 * (r >= 0.34) as u32 + 16 * (r >= 0.2) as u32;
        same = same && r.to_bits() == f[2] && left.to_bits() == f[3] && reached == f[4];
        sum = Some(sum.map_or(r, |s| s + r));
    }
    // the crate's own way, an iterator's sum, gives the same bits
    let iterated: f32 = w[1..41].chunks(5).map(|f| f32::from_bits(f[2])).sum();
    same && sum.unwrap().to_bits() == w[41] && iterated.to_bits() == w[41]
}

fn main() {
    let mut bytes = Vec::new();
    std::io::stdin().read_to_end(&mut bytes).unwrap();
    let words: Vec<u32> = bytes.chunks(4).map(|b| u32::from_le_bytes([b[0], b[1], b[2], b[3]])).collect();
    let (mut at, mut cases, mut differ) = (0, 0, 0);
    while at < words.len() {
        let n = words[at] as usize / 4;
        let w = &words[at + 1..at + 1 + n];
        let same = match w[0] {
            1 => fractions(w),
            _ => f32::from_bits(w[1]).is_finite() as u32 == w[2],
        };
        cases += 1;
        differ += !same as u32;
        at += 1 + n;
    }
    println!("{cases} cases, {differ} differ");
    std::process::exit((differ != 0) as i32);
}
