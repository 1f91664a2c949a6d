// Class and pair tables: the committed ones, random good ones, and damaged ones.
use crate::causes::flags_good;
use crate::random::Random;

pub const BUILTIN_END: u32 = 0x250;
pub const PAIR_BYTES: usize = 32_768;

#[derive(Clone, Copy, Debug, PartialEq)]
pub struct Record {
    pub first: u32,
    pub last: u32,
    pub flags: u32,
    pub range: u16,
    pub zero: u16,
    pub base: u32,
    pub lower: u32,
}

fn word(b: &[u8], at: usize) -> u32 {
    u32::from_le_bytes([b[at], b[at + 1], b[at + 2], b[at + 3]])
}

// Whole records only; what is left over is passed over.
pub fn records(bytes: &[u8]) -> Vec<Record> {
    let one = |b: &[u8]| Record {
        first: word(b, 0),
        last: word(b, 4),
        flags: word(b, 8),
        range: word(b, 12) as u16,
        zero: (word(b, 12) >> 16) as u16,
        base: word(b, 16),
        lower: word(b, 20),
    };
    bytes.chunks_exact(24).map(one).collect()
}

pub fn bytes(all: &[Record]) -> Vec<u8> {
    let mut out = Vec::with_capacity(24 * all.len());
    for r in all {
        for w in [r.first, r.last, r.flags, r.range as u32 | (r.zero as u32) << 16, r.base, r.lower] {
            out.extend(w.to_le_bytes());
        }
    }
    out
}

// A flag word of a lent record that meets the rule: each bit by chance, at several densities, until the rule holds.
pub fn random_flags(r: &mut Random) -> u32 {
    loop {
        let mut flags = 0;
        let density = 1 + r.below(6);
        for n in (0..25).filter(|n| !(8..12).contains(n)) {
            if r.below(8) < density {
                flags |= 1 << n;
            }
        }
        // a case is too rare to come by chance alone
        if r.below(3) == 0 {
            flags = flags & !0x80_0003 | 0x10_2000 | [0x20_0000, 0x40_0000][r.below(2)];
            flags &= if flags & 0x20_0000 != 0 { !0x40_0000 } else { !0x20_0000 };
        }
        if flags_good(flags) {
            return flags;
        }
    }
}

fn random_point(r: &mut Random) -> u32 {
    loop {
        let p = [r.below(BUILTIN_END as usize), r.below(0x3000), r.below(0x110000)][r.below(3)] as u32;
        if char::from_u32(p).is_some() {
            return p;
        }
    }
}

fn zero_or_point(r: &mut Random) -> u32 {
    if r.below(2) == 0 { 0 } else { random_point(r) }
}

// A good table of up to `most` records: any flag words that meet the rule, any range, base and lower.
pub fn random_records(r: &mut Random, most: usize) -> Vec<Record> {
    let n = 1 + r.below(most);
    let gap = 1 + r.below(400);
    let mut all: Vec<Record> = vec![];
    let mut from = BUILTIN_END;
    let ranges = 1 + r.below(512);
    while all.len() < n {
        let mut first = from + if r.below(3) == 0 { 0 } else { r.below(gap) as u32 };
        let mut last = first + r.below(gap) as u32;
        if first <= 0xDFFF && last >= 0xD800 {
            first = 0xE000;
            last = 0xE000 + r.below(gap) as u32;
        }
        if last > 0x10FFFF {
            break;
        }
        all.push(Record {
            first,
            last,
            flags: random_flags(r),
            range: r.below(ranges) as u16,
            zero: 0,
            base: zero_or_point(r),
            lower: zero_or_point(r),
        });
        from = last + 1;
    }
    all
}

// Up to 40 records that hold every scalar value past the built-in table.
pub fn whole_records(r: &mut Random) -> Vec<Record> {
    let mut ends: Vec<u32> = (0..r.below(39)).map(|_| random_point(r)).filter(|p| *p >= BUILTIN_END).collect();
    ends.extend([0xD7FF, 0x10FFFF]);
    ends.sort_unstable();
    ends.dedup();
    let starts = [BUILTIN_END].into_iter().chain(ends.iter().map(|end| if *end == 0xD7FF { 0xE000 } else { end + 1 }));
    let one = |(first, last): (u32, &u32)| Record { first, last: *last, flags: random_flags(r), range: r.below(512) as u16, zero: 0, base: 0, lower: 0 };
    starts.zip(&ends).map(one).collect()
}

// A record of more than one code point, shorter by its first or its last, which is told.
pub fn shorten(r: &mut Random, all: &mut [Record]) -> u32 {
    loop {
        let x = &mut all[r.below(all.len())];
        if x.first < x.last {
            let missing = [x.first, x.last][r.below(2)];
            if missing == x.first { x.first += 1 } else { x.last -= 1 }
            return missing;
        }
    }
}

pub fn random_pairs(r: &mut Random) -> Vec<u8> {
    let density = r.below(9);
    (0..PAIR_BYTES).map(|_| (0..8).fold(0u8, |b, n| b | ((r.below(8) < density) as u8) << n)).collect()
}

// One fault in one record of a good table, each kind that 01 names, in the record or against the one before.
pub fn damage(r: &mut Random, all: &mut [Record]) {
    let i = r.below(all.len());
    let before = if i == 0 { BUILTIN_END } else { all[i - 1].last };
    let x = &mut all[i];
    match r.below(17) {
        0 => x.first = BUILTIN_END - 1 - r.below(0x250) as u32,
        1 => x.first = x.last + 1,
        2 => x.last = 0x110000 + r.below(9) as u32,
        3 => (x.first, x.last) = (0xD7FF, 0xD800),
        4 => (x.first, x.last) = (0xDFFF, 0xE000),
        5 => x.first = before,
        6 => x.range = 512 + r.below(0xFE00) as u16,
        7 => x.zero = 1 << r.below(16),
        8 => x.base = 0xD800 + r.below(0x800) as u32,
        9 => x.base = 0x110000,
        10 => x.lower = 0xDFFF,
        11 => x.lower = u32::MAX,
        12 => x.flags |= 0x100 << r.below(4),
        13 => x.flags |= 1 << (25 + r.below(7)),
        14 => x.flags |= 0x60_0000,
        15 => x.flags ^= 0x10_0000,
        _ => x.flags = r.next() as u32,
    }
}

// The table as the oracle takes it.
pub fn for_oracle(all: &[Record]) -> Vec<(u32, u32, oracle::open::Class)> {
    let class = |x: &Record| oracle::open::Class { flags: x.flags, range: x.range, base: x.base, lower: x.lower };
    all.iter().map(|x| (x.first, x.last, class(x))).collect()
}
