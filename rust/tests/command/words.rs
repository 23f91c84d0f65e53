//! Words in hex digits, as they are written elsewhere.

use crate::Folder;

#[test]
fn a_word_in_hex_digits() {
    let here = Folder::new("hex").with("bytes", [0x00, 0xff, 0x0a, 0x00, 0xff, 0x0a]);
    let spellings = [
        "00ff0A",
        "00 fF 0a",
        "0x00ff0a",
        "0X00FF0A",
        "0x00 0xff 0x0a",
        "00:ff:0a",
        "00-ff-0a",
        "0x00, 0xff, 0x0a",
        "00ff:0a",
        " 00\tff\r\n0a\u{b}\u{c}",
    ];
    for word in spellings {
        here.marks(&["find", "-x", word, "bytes"]).is(0, "0\n3\n");
    }
    here.marks(&["find", "--hex", "00", "bytes"]).is(0, "0\n3\n");
    here.marks(&["save", "-x", "0x00:0xff", "mark"]).is(0, "");
    here.marks(&["find", "-m", "mark", "bytes"]).is(0, "0\n3\n");
}

#[test]
fn what_is_no_word_in_hex_digits() {
    let here = Folder::new("no-hex").with("bytes", [0]);
    let cases = [
        ("00f", "\"00f\" has an odd number of hex digits"),
        ("0 0f f", "\"0\" has an odd number of hex digits"),
        ("2e:4:6", "\"4\" has an odd number of hex digits"),
        ("0x0", "\"0x0\" has an odd number of hex digits"),
        ("00 0x", "\"0x\" has no hex digits behind 0x"),
        ("00fg", "\"g\" is no hex digit"),
        ("0x000x00", "\"x\" is no hex digit"),
        ("0\u{1b}", "\"\\x1b\" is no hex digit"),
    ];
    for (word, said) in cases {
        let said = format!("marks: WORD: {said}; write each byte as two of 0-9 and a-f, as 2e464954\n");
        here.marks(&["find", "-x", word, "bytes"]).is_with(2, "", &said);
    }
}
