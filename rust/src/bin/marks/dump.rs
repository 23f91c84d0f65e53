//! The bytes around a place in a file, as `hexdump -C` prints them, with a pair of carets below the byte there.

/// The bytes of a row.
const ROW: usize = 16;

/// So many bytes on each side of the place are shown, where there are as many: a place near an end of its row gets the next row on that
/// side too.
const NEAR: usize = 4;

/// The lines. The place may be the one behind the last byte.
pub fn lines(bytes: &[u8], place: usize) -> Vec<String> {
    let own = place / ROW;
    let first = place.saturating_sub(NEAR) / ROW;
    let last_shown = (place + NEAR).min(bytes.len().saturating_sub(1));
    let mut lines = Vec::new();
    for row in first..=own.max(last_shown / ROW) {
        lines.push(line_of(bytes, row * ROW));
        if row == own {
            let end = if place == bytes.len() { " the file ends here" } else { "" };
            lines.push(format!("{:1$}^^{end}", "", column(place % ROW)));
        }
    }
    lines
}

/// The row that begins at a place: only its address, where no bytes are left.
fn line_of(bytes: &[u8], start: usize) -> String {
    let row = &bytes[start..bytes.len().min(start + ROW)];
    let mut line = format!("{start:08x}");
    for (at, byte) in row.iter().enumerate() {
        line = format!("{line:0$}{byte:02x}", column(at));
    }
    if !row.is_empty() {
        let text: String = row.iter().copied().map(seen).collect();
        line = format!("{line:0$}|{text}|", column(ROW));
    }
    line
}

/// Where on the line a byte of the row stands. Behind the last is the text's place.
fn column(at: usize) -> usize {
    10 + 3 * at + at / 8
}

/// A byte as a character that takes one place and does nothing else.
fn seen(byte: u8) -> char {
    match byte {
        b' '..=b'~' => char::from(byte),
        _ => '.',
    }
}

#[cfg(test)]
mod tests {
    use super::lines;

    /// The bytes from 0x60 on.
    fn letters(count: usize) -> Vec<u8> {
        (0x60..).take(count).collect()
    }

    #[test]
    fn a_place_within_a_row_has_a_caret_pair_below_it() {
        assert_eq!(
            lines(&letters(48), 22),
            ["00000010  70 71 72 73 74 75 76 77  78 79 7a 7b 7c 7d 7e 7f  |pqrstuvwxyz{|}~.|", "                            ^^",]
        );
        assert_eq!(
            lines(&letters(14), 8),
            ["00000000  60 61 62 63 64 65 66 67  68 69 6a 6b 6c 6d        |`abcdefghijklm|", "                                   ^^"]
        );
    }

    #[test]
    fn a_place_near_an_end_of_its_row_has_the_next_row_too() {
        let [first, second] = [
            "00000000  60 61 62 63 64 65 66 67  68 69 6a 6b 6c 6d 6e 6f  |`abcdefghijklmno|",
            "00000010  70 71 72 73 74 75 76 77  78 79 7a 7b 7c 7d 7e 7f  |pqrstuvwxyz{|}~.|",
        ];
        let below = |column: usize| " ".repeat(column) + "^^";
        let bytes = letters(32);
        assert_eq!(lines(&bytes, 11), [first, &below(44)]);
        assert_eq!(lines(&bytes, 12), [first, &below(47), second]);
        assert_eq!(lines(&bytes, 15), [first, &below(56), second]);
        assert_eq!(lines(&bytes, 16), [first, second, &below(10)]);
        assert_eq!(lines(&bytes, 19), [first, second, &below(19)]);
        assert_eq!(lines(&bytes, 20), [second, &below(22)]);
        // there is no row before the first nor behind the last
        assert_eq!(lines(&bytes, 0), [first, &below(10)]);
        assert_eq!(lines(&bytes, 31), [second, &below(56)]);
    }

    #[test]
    fn the_place_behind_the_last_byte_is_said_to_be_the_end() {
        let end = |column: usize| " ".repeat(column) + "^^ the file ends here";
        assert_eq!(lines(b"", 0), ["00000000", &end(10)]);
        let short = "00000000  60 61 62 63 64                                    |`abcd|";
        assert_eq!(lines(&letters(5), 5), [short, &end(25)]);
        let full = "00000000  60 61 62 63 64 65 66 67  68 69 6a 6b 6c 6d 6e 6f  |`abcdefghijklmno|";
        assert_eq!(lines(&letters(16), 16), [full, "00000010", &end(10)]);
        assert_eq!(lines(&letters(17), 17), [full, "00000010  70                                                |p|", &end(13)]);
    }

    #[test]
    fn every_byte_stands_above_its_carets_and_every_line_fits() {
        let every: Vec<u8> = (0..=255).collect();
        for place in 0..=every.len() {
            for line in lines(&every, place) {
                assert!(line.len() <= 78 && line.bytes().all(|byte| (b' '..=b'~').contains(&byte)), "{line}");
            }
            let caret = lines(&every, place).into_iter().find(|line| line.trim_start().starts_with("^^")).unwrap();
            let row = lines(&every, place).into_iter().find(|line| line.starts_with(&format!("{:08x}", place / 16 * 16))).unwrap();
            let at = caret.find('^').unwrap();
            assert_eq!(row.get(at..at + 2), (place < 256).then(|| format!("{place:02x}")).as_deref());
        }
    }
}
