//! File names as they are printed: each on one line, whatever bytes it has, and so that two names never look the same.

use std::{ffi::OsStr, os::unix::ffi::OsStrExt};

/// What begins a name that is escaped.
const ESCAPED: &[u8] = b"$'";

pub fn is_standard(name: &OsStr) -> bool {
    name == "-"
}

/// The bytes of a name, as nothing but `-0` prints them.
pub fn raw(name: &OsStr) -> &[u8] {
    match is_standard(name) {
        true => b"(standard input)",
        false => name.as_bytes(),
    }
}

/// A name as it stands in a message and before an answer: nothing in it moves the cursor or ends the line.
pub fn shown(name: &OsStr) -> String {
    let bytes = raw(name);
    match std::str::from_utf8(bytes) {
        Ok(text) if !text.contains(is_unseen) && !bytes.starts_with(ESCAPED) => text.to_string(),
        _ => escaped(bytes),
    }
}

/// A name and what ends it: `end`, or a NUL behind its raw bytes.
pub fn ended(name: &OsStr, null: bool, end: u8) -> Vec<u8> {
    match null {
        true => [raw(name), b"\0"].concat(),
        false => [shown(name).as_bytes(), &[end]].concat(),
    }
}

/// Whether a character does something else than stand in its place: it moves the cursor, ends a line, or turns the direction of text.
pub fn is_unseen(letter: char) -> bool {
    letter.is_control() || matches!(letter, '\u{200e}' | '\u{200f}' | '\u{2028}'..='\u{202e}' | '\u{2066}'..='\u{2069}')
}

/// As `$'a\nb'`, which the common shells read back.
fn escaped(bytes: &[u8]) -> String {
    let mut out = String::from("$'");
    for chunk in bytes.utf8_chunks() {
        for letter in chunk.valid().chars() {
            match letter {
                '\n' => out.push_str("\\n"),
                '\t' => out.push_str("\\t"),
                '\r' => out.push_str("\\r"),
                '\\' | '\'' => out.extend(['\\', letter]),
                _ if is_unseen(letter) => out.push_str(&numbered(letter.encode_utf8(&mut [0; 4]).as_bytes())),
                _ => out.push(letter),
            }
        }
        out.push_str(&numbered(chunk.invalid()));
    }
    out + "'"
}

fn numbered(bytes: &[u8]) -> String {
    bytes.iter().map(|byte| format!("\\x{byte:02x}")).collect()
}

#[cfg(test)]
mod tests {
    use super::shown;
    use std::{ffi::OsStr, os::unix::ffi::OsStrExt};

    #[test]
    fn a_name_stays_as_it_is_or_is_escaped_as_a_whole() {
        let cases: [(&[u8], &str); 10] = [
            (b"ride.fit", "ride.fit"),
            ("Zürich 'a\\b'".as_bytes(), "Zürich 'a\\b'"),
            (b"a\nb\\n", "$'a\\nb\\\\n'"),
            (b"a\tb\rc\x1b[2J\x7f", "$'a\\tb\\rc\\x1b[2J\\x7f'"),
            (b"it's\x07", "$'it\\'s\\x07'"),
            (b"r\xe9sum\xe9", "$'r\\xe9sum\\xe9'"),
            ("a\u{9b}2Jü".as_bytes(), "$'a\\xc2\\x9b2Jü'"),
            ("a\u{2028}b\u{202e}c".as_bytes(), "$'a\\xe2\\x80\\xa8b\\xe2\\x80\\xaec'"),
            (b"$'a\\nb'", "$'$\\'a\\\\nb\\''"),
            (b"-", "(standard input)"),
        ];
        for (name, said) in cases {
            assert_eq!(shown(OsStr::from_bytes(name)), said);
        }
    }
}
