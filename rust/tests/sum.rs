// The sums that build.rs makes: FIPS 180-4's examples, and the tables' own sums, which another program wrote.
#[path = "../sum.rs"]
mod sum;

use sum::sha256;

#[test]
fn the_standards_examples() {
    assert_eq!(sha256(b""), "e3b0c44298fc1c149afbf4c8996fb92427ae41e4649b934ca495991b7852b855");
    assert_eq!(sha256(b"abc"), "ba7816bf8f01cfea414140de5dae2223b00361a396177a9cb410ff61f20015ad");
    assert_eq!(
        sha256(b"abcdbcdecdefdefgefghfghighijhijkijkljklmklmnlmnomnopnopq"),
        "248d6a61d20638b8e5c026930c3e6039a33ce45964ff2167f6ecedd419db06c1"
    );
    assert_eq!(sha256(&[b'a'; 1_000_000]), "cdc76e5c9914fb9281a1c7e284d73e67f1809a48a497200e046d39ccc7112cd0");
}

// The tables that the package carries have the sums that stand beside them, which `sha256sum` wrote.
#[test]
fn sums_of_the_tables() {
    let tables = concat!(env!("CARGO_MANIFEST_DIR"), "/tables/");
    let mut held = 0;
    for list in ["classes", "pairs", "languages", "pages"] {
        let lines = std::fs::read_to_string(format!("{tables}{list}.sha256")).unwrap();
        for (sum, name) in lines.lines().map(|line| line.split_once("  ").unwrap()).filter(|(_, name)| name.ends_with(".bin")) {
            assert_eq!(sha256(&std::fs::read(format!("{tables}{name}")).unwrap()), sum, "{name}");
            held += 1;
        }
    }
    assert_eq!(held, 6);
}
