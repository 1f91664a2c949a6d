// Text on its way to a reader. Nothing of the input is written raw that could drive a terminal or that cannot be seen: it is shown as \u{1B}.

/// A character that is shown as itself: one that Rust counts as printable, the space, and the wide space of CJK texts.
pub fn is_plain(c: char) -> bool {
    match c {
        ' '..='~' | '\u{3000}' => true,
        '\0'..'\u{80}' => false,
        _ => {
            // a combining character is printable behind another one, not at the front
            let mut word = [b'a'; 5];
            let length = 1 + c.encode_utf8(&mut word[1..]).len();
            let word = std::str::from_utf8(&word[..length]).expect("an a, and a character");
            word.escape_debug().nth(1) == Some(c)
        }
    }
}

/// Whether it is shown over the character before it: an accent that comes by itself, say.
pub fn is_combining(c: char) -> bool {
    !c.is_ascii() && is_plain(c) && c.escape_debug().next() != Some(c)
}

/// Puts a character as it may be shown.
pub fn put_char(out: &mut Vec<u8>, c: char) {
    if is_plain(c) {
        out.extend_from_slice(c.encode_utf8(&mut [0; 4]).as_bytes());
    } else {
        out.extend(c.escape_unicode().map(|c| c.to_ascii_uppercase() as u8).map(|b| if b == b'U' { b'u' } else { b }));
    }
}

/// Puts a text as it may be shown.
pub fn put(out: &mut Vec<u8>, text: &str) {
    text.chars().for_each(|c| put_char(out, c));
}

/// A text as it may be shown.
pub fn text(text: &str) -> String {
    let mut out = vec![];
    put(&mut out, text);
    String::from_utf8(out).expect("characters were put")
}

/// Puts a text as a string of JSON, what is not plain as \u001B.
pub fn put_json(out: &mut Vec<u8>, text: &str) {
    out.push(b'"');
    for c in text.chars() {
        match c {
            '"' | '\\' => out.extend([b'\\', c as u8]),
            _ if is_plain(c) => put_char(out, c),
            _ => c.encode_utf16(&mut [0; 2]).iter().for_each(|unit| out.extend(format!("\\u{unit:04X}").bytes())),
        }
    }
    out.push(b'"');
}

/// A text as a string of JSON.
pub fn json(text: &str) -> String {
    let mut out = vec![];
    put_json(&mut out, text);
    String::from_utf8(out).expect("characters were put")
}

/// A number with a comma before each three digits.
pub fn thousands(number: u64) -> String {
    let digits = number.to_string();
    let threes: Vec<&str> = digits.as_bytes().rchunks(3).rev().map(|three| std::str::from_utf8(three).expect("digits")).collect();
    threes.join(",")
}

#[cfg(test)]
mod tests {
    use super::*;

    #[test]
    fn what_drives_a_terminal_is_not_raw() {
        assert_eq!(text("a\u{1B}[2J\t\u{7F}\u{9B}1m"), "a\\u{1B}[2J\\u{9}\\u{7F}\\u{9B}1m");
        assert_eq!(text("\u{202E}\u{200B}\u{2028}\u{FEFF}\u{E0041}\u{E000}"), "\\u{202E}\\u{200B}\\u{2028}\\u{FEFF}\\u{E0041}\\u{E000}");
        let plain = "é日本 \u{3000}שלום e\u{301} \\ ' \" \u{1F600}";
        assert_eq!(text(plain), plain);
    }

    #[test]
    fn combining() {
        assert!(is_combining('\u{301}') && is_combining('\u{5B8}'));
        assert!(['e', 'é', '日', '\u{200D}', '\u{1B}', '"', '\'', '\\'].into_iter().all(|c| !is_combining(c)));
    }

    #[test]
    fn strings_of_json() {
        assert_eq!(json("a\"\\\u{1B}\n\u{E0041}é"), "\"a\\\"\\\\\\u001B\\u000A\\uDB40\\uDC41é\"");
    }

    #[test]
    fn commas() {
        assert_eq!([0, 999, 1000, 1234567].map(thousands), ["0", "999", "1,000", "1,234,567"]);
    }
}
