// Code pages: every byte of the three both ways, refusals in their order, and that a refusal changes nothing.
use drasumira::{Page, Refusal, Tables, score};

fn refusal(number: u32, place: u32) -> Refusal {
    Refusal::new(number, place)
}

fn all() -> [Page; 3] {
    [Page::windows_1251(), Page::windows_1252(), Page::iso_8859_2()]
}

#[test]
fn every_byte_both_ways() {
    let bytes: Vec<u8> = (0..=255).collect();
    for page in all() {
        let text = page.read(&bytes).unwrap();
        assert_eq!(text.chars().count(), 256);
        assert!(text.chars().take(128).eq('\0'..='\x7F'));
        assert!(text.chars().skip(128).map(u32::from).eq(page.entries().iter().map(|e| u32::from(*e))));
        assert_eq!(page.write(&text).unwrap(), bytes);
    }
}

#[test]
fn known_places() {
    assert_eq!(Page::windows_1251().read(&[0x98, 0xA8, 0xFF]).unwrap(), "\u{98}Ёя");
    assert_eq!(Page::windows_1252().read(&[0x80, 0x81, 0x9D]).unwrap(), "€\u{81}\u{9D}");
    assert_eq!(Page::iso_8859_2().write("Łódź").unwrap(), [0xA3, 0xF3, b'd', 0xBC]);
}

#[test]
fn refusals_in_their_order() {
    let mut entries = [Page::UNUSED; 128];
    entries[0] = 0x20AC;
    let page = Page::new(&entries).unwrap();
    let (mut points, mut bytes) = ([7; 1], [7; 1]);
    assert_eq!(page.read(&[0x81; 65_537]), Err(refusal(Refusal::TOO_LONG, 0)));
    assert_eq!(page.read_into(b"a\x81", &mut points), Err(refusal(Refusal::ILL_FORMED, 1)));
    assert_eq!(page.read_into(b"a\x80", &mut points), Err(refusal(Refusal::NO_ROOM, 0)));
    assert_eq!(page.write(&vec!['\u{FFFF}'; 65_537]), Err(refusal(Refusal::TOO_LONG, 0)));
    for lacking in [0x81, 0xFFFF, 0x120AC, 0x110000, u32::MAX, 0xD800] {
        assert_eq!(page.write_into(&[0x20AC, lacking], &mut bytes), Err(refusal(Refusal::NOT_ON_PAGE, 1)));
    }
    assert_eq!(page.write_into(&[0x20AC, 0], &mut bytes), Err(refusal(Refusal::NO_ROOM, 0)));
    assert_eq!((points, bytes), ([7], [7]));
    assert_eq!(page.write(b"\xFF"), Err(refusal(Refusal::ILL_FORMED, 0)));
}

#[test]
fn bad_pages() {
    let bad = |at: usize, entry: u16| {
        let mut entries = *Page::windows_1252().entries();
        entries[at] = entry;
        Page::new(&entries).err()
    };
    assert_eq!(bad(127, 0x7F), Some(refusal(Refusal::BAD_PAGE, 127)));
    assert_eq!(bad(0, 0xD800), Some(refusal(Refusal::BAD_PAGE, 0)));
    assert_eq!(bad(3, 0xDFFF), Some(refusal(Refusal::BAD_PAGE, 3)));
    assert_eq!(bad(9, 0x20AC), Some(refusal(Refusal::BAD_PAGE, 9)));
    assert_eq!(bad(9, Page::UNUSED), None);
    assert_eq!(Page::new(&[0x80; 129]).err(), Some(refusal(Refusal::BAD_PAGE, 0)));
}

#[test]
fn read_and_scored() {
    let tables = Tables::full();
    let text = "Voix ambiguë d'un cœur qui, au zéphyr, préfère les jattes de kiwis.";
    let page = Page::windows_1252();
    assert_eq!(page.score(&page.write(text).unwrap(), Some(9.0), &tables), score(text, Some(9.0), &tables));
}
