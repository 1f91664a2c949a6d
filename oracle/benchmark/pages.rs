// Code pages: the library beside a plain Rust loop over the page's entries, and beside encoding_rs where it is there (oracle/benchmark/run says how).
// The loop trusts its page, and stops at what the page has not; the library checks the page in each call. The loop that writes walks the entries.
// encoding_rs reads into UTF-16 and writes from it, and knows its pages beforehand.
use crate::{ENGLISH, FRENCH, RUSSIAN, library, nanoseconds};
use std::hint::black_box;

const LENGTHS: [usize; 4] = [0, 80, 1_000, 65_536];

type Page = [u16; 128];

fn read(page: &Page, bytes: &[u8], out: &mut [u32]) -> usize {
    let told = library::read_page(page, bytes, out);
    assert_eq!(told.number, 0);
    told.count as usize
}

fn write(page: &Page, text: &[u32], out: &mut [u8]) -> usize {
    let told = library::write_page(page, text, out);
    assert_eq!(told.number, 0);
    told.count as usize
}

#[inline(never)]
fn plain_read(page: &Page, bytes: &[u8], out: &mut [u32]) -> Option<usize> {
    for (place, byte) in out.iter_mut().zip(bytes) {
        let point = if *byte < 0x80 { *byte as u32 } else { page[*byte as usize - 0x80] as u32 };
        if point == 0xFFFF {
            return None;
        }
        *place = point;
    }
    Some(bytes.len())
}

#[inline(never)]
fn plain_write(page: &Page, text: &[u32], out: &mut [u8]) -> Option<usize> {
    for (place, point) in out.iter_mut().zip(text) {
        *place = match *point {
            0..0x80 => *point as u8,
            0xFFFF.. => return None,
            _ => 0x80 + page.iter().position(|entry| *entry as u32 == *point)? as u8,
        };
    }
    Some(text.len())
}

#[cfg(encoding_rs)]
mod theirs {
    use encoding_rs::{DecoderResult, EncoderResult, Encoding};

    fn page(name: &str) -> &'static Encoding {
        Encoding::for_label(name.as_bytes()).expect("a page of the Encoding Standard")
    }

    pub fn read(name: &str, bytes: &[u8], out: &mut [u16]) -> usize {
        let (end, read, _) = page(name).new_decoder_without_bom_handling().decode_to_utf16_without_replacement(bytes, out, true);
        assert!(end == DecoderResult::InputEmpty && read == bytes.len());
        read
    }

    pub fn write(name: &str, text: &[u16], out: &mut [u8]) -> usize {
        let (end, read, _) = page(name).new_encoder().encode_from_utf16_without_replacement(text, out, true);
        assert!(end == EncoderResult::InputEmpty && read == text.len());
        read
    }
}

// Nanoseconds of both calls of encoding_rs, which must read the same.
#[cfg(encoding_rs)]
fn others(name: &str, bytes: &[u8], text: &[u32]) -> [String; 2] {
    let (mut words, mut back) = (vec![0; text.len()], vec![0; text.len() + 16]);
    theirs::read(name, bytes, &mut words);
    assert!(words.iter().map(|word| *word as u32).eq(text.iter().copied()), "{name}: encoding_rs reads another text");
    let reading = nanoseconds(|| {
        black_box(theirs::read(name, black_box(bytes), &mut words));
    });
    let given = words.clone();
    let writing = nanoseconds(|| {
        black_box(theirs::write(name, black_box(&given), &mut back));
    });
    [reading, writing].map(|time| format!("{time:.0}"))
}

#[cfg(not(encoding_rs))]
fn others(_: &str, _: &[u8], _: &[u32]) -> [String; 2] {
    ["-", "-"].map(String::from)
}

pub fn table(dir: &str) {
    println!("| page | text | characters | read ns | plain loop | encoding_rs | write ns | plain walk | encoding_rs |");
    println!("|---|---|---|---|---|---|---|---|---|");
    for (name, text, sample) in
        [("windows-1251", "Russian", RUSSIAN), ("windows-1252", "French", FRENCH), ("windows-1252", "ASCII", ENGLISH)]
    {
        let file = std::fs::read(format!("{dir}/pages/{name}.bin")).expect(name);
        let page: Vec<u16> = file.chunks_exact(2).map(|two| u16::from_le_bytes([two[0], two[1]])).collect();
        let page: Page = page.try_into().expect("128 entries");
        for n in LENGTHS {
            let points: Vec<u32> = sample.chars().cycle().take(n).map(u32::from).collect();
            let (mut bytes, mut out) = (vec![0; n], vec![0; n]);
            assert_eq!(write(&page, &points, &mut bytes), n);
            assert!(read(&page, &bytes, &mut out) == n && out == points, "{name}: what was written is read");
            let given = bytes.clone();
            let reading = nanoseconds(|| {
                black_box(read(&page, black_box(&given), &mut out));
            });
            let plain = nanoseconds(|| {
                black_box(plain_read(&page, black_box(&given), &mut out));
            });
            let writing = nanoseconds(|| {
                black_box(write(&page, black_box(&points), &mut bytes));
            });
            let walked = nanoseconds(|| {
                black_box(plain_write(&page, black_box(&points), &mut bytes));
            });
            let [their_reading, their_writing] = others(name, &given, &points);
            println!(
                "| {name} | {text} | {n} | {reading:.0} | {plain:.0} | {their_reading} | {writing:.0} | {walked:.0} | {their_writing} |"
            );
        }
    }
}
