//! A word in hex digits, as people write and paste it.

use crate::{trouble::Trouble, word::quoted};

const DIGITS: &str = "write each byte as two of 0-9 and a-f, as 2e464954";

/// Digits in pairs, in one group or several, each with or without `0x`.
pub fn letters(digits: &[u8]) -> Result<Vec<u8>, Trouble> {
    let mut letters = Vec::new();
    for group in digits.split(|byte| is_between(*byte)).filter(|group| !group.is_empty()) {
        let pairs = group.strip_prefix(b"0x").or(group.strip_prefix(b"0X")).unwrap_or(group);
        if let Some(bad) = pairs.iter().find(|byte| !byte.is_ascii_hexdigit()) {
            return Err(Trouble::new("WORD", format!("{} is no hex digit", quoted(&[*bad])), DIGITS));
        }
        if pairs.is_empty() || pairs.len() % 2 == 1 {
            let what = if pairs.is_empty() { "no hex digits behind 0x" } else { "an odd number of hex digits" };
            return Err(Trouble::new("WORD", format!("{} has {what}", quoted(group)), DIGITS));
        }
        letters.extend(pairs.chunks(2).map(|pair| 16 * value(pair[0]) + value(pair[1])));
    }
    Ok(letters)
}

/// What may stand between groups: white space, and what is put between bytes elsewhere.
fn is_between(byte: u8) -> bool {
    matches!(byte, b' ' | b'\t'..=b'\r' | b':' | b'-' | b',')
}

fn value(digit: u8) -> u8 {
    match digit {
        b'0'..=b'9' => digit - b'0',
        _ => digit.to_ascii_lowercase() - b'a' + 10,
    }
}
