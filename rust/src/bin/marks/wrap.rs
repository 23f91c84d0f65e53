//! Paragraphs in lines that fit a screen.

const SCREEN: usize = 80;

/// The lines of a paragraph, so far from the left.
pub fn wrapped(text: &str, indent: usize) -> Vec<String> {
    let mut lines = vec![" ".repeat(indent)];
    for word in text.split_whitespace() {
        let line = lines.last_mut().expect("there is a line");
        if line.len() > indent && line.chars().count() + 1 + word.chars().count() > SCREEN {
            lines.push(" ".repeat(indent) + word);
            continue;
        }
        if line.len() > indent {
            line.push(' ');
        }
        line.push_str(word);
    }
    lines
}
