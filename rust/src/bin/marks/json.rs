//! JSON: file names as members of an object.

use crate::names::is_unseen;
use std::{ffi::OsStr, os::unix::ffi::OsStrExt};

/// The member that names a file which was read: `"file":"ride"`, or its bytes in hex digits where they are not UTF-8.
pub fn file(name: &OsStr) -> String {
    member("file", name)
}

/// The same under another name of the member.
pub fn member(member: &str, name: &OsStr) -> String {
    match name.to_str() {
        Some(text) => format!("\"{member}\":{}", string(text)),
        None => format!("\"{member}_hex\":\"{}\"", name.as_bytes().iter().map(|byte| format!("{byte:02x}")).collect::<String>()),
    }
}

fn string(text: &str) -> String {
    let mut out = String::from("\"");
    for letter in text.chars() {
        match letter {
            '"' | '\\' => out.extend(['\\', letter]),
            // all of these have numbers of at most four hex digits
            _ if is_unseen(letter) => out.push_str(&format!("\\u{:04x}", u32::from(letter))),
            _ => out.push(letter),
        }
    }
    out + "\""
}

#[cfg(test)]
mod tests {
    use super::file;
    use std::{ffi::OsStr, os::unix::ffi::OsStrExt};

    #[test]
    fn every_name_is_a_member() {
        let cases: [(&[u8], &str); 5] = [
            (b"ride", r#""file":"ride""#),
            (b"-", r#""file":"-""#),
            (b"a\n\"b\\\x7f", r#""file":"a\u000a\"b\\\u007f""#),
            ("Zürich\u{9b}\u{2028}".as_bytes(), r#""file":"Zürich\u009b\u2028""#),
            (b"r\xe9s", r#""file_hex":"72e973""#),
        ];
        for (name, said) in cases {
            assert_eq!(file(OsStr::from_bytes(name)), said);
        }
    }
}
