// UTF-8 out through the package, held to Rust's own encoder.
use drasumira::{Refusal, Tables, choose, read, to_string, write_utf8};

fn all() -> impl Iterator<Item = char> {
    '\0'..=char::MAX
}

#[test]
fn every_scalar_value() {
    for c in all() {
        let (mut out, mut form) = ([0xFF; 5], [0; 4]);
        let form = c.encode_utf8(&mut form).as_bytes();
        assert_eq!(write_utf8(&[c], &mut out), Ok(form.len()));
        assert_eq!((&out[..form.len()], out[form.len()]), (form, 0xFF));
    }
}

#[test]
fn both_ways() {
    let text: Vec<char> = all().step_by(17).take(65_536).collect();
    let bytes = to_string(&text).unwrap();
    assert_eq!(bytes, text.iter().collect::<String>());
    let mut points = vec![0; text.len()];
    assert_eq!(read(bytes.as_bytes(), &mut points), Ok(text.len()));
    assert!(points.iter().zip(&text).all(|(point, c)| *point == *c as u32));
}

#[test]
fn limits() {
    let long = vec!['a'; 65_537];
    assert_eq!(to_string(&long), Err(Refusal::new(Refusal::TOO_LONG, 0)));
    assert_eq!(to_string(&long[1..]).map(|told| told.len()), Ok(65_536));
    let mut out = [7; 3];
    assert_eq!(write_utf8(&['\u{20AC}', 'a'], &mut out), Err(Refusal::new(Refusal::NO_ROOM, 0)));
    assert_eq!(out, [7; 3]);
    assert_eq!(write_utf8(&['\u{20AC}'], &mut out), Ok(3));
    assert_eq!(write_utf8(&[], &mut out[..0]), Ok(0));
    let words = "refusal 12: the number at index 4 of the text is no scalar value";
    assert_eq!(Refusal::new(Refusal::NOT_SCALAR, 4).to_string(), words);
}

#[test]
fn the_chosen_part() {
    let noise: Vec<char> = "\u{1}\u{2}\u{3}".chars().collect();
    let plain: Vec<char> = "Съешь ещё этих булок\n\n".chars().collect();
    let part = choose(&noise[..], &plain[..], &Tables::full());
    assert_eq!(to_string(part).as_deref(), Ok("Съешь ещё этих булок"));
}
