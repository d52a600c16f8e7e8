//! Names and other text from outside, as they are printed.

use std::path::Path;

/// A file name as it is printed: on one line, and with nothing in it that drives a terminal.
pub fn shown(path: &Path) -> String {
    printable(&path.to_string_lossy())
}

/// Text with its control characters, and those that are invisible or turn the line around, written as escapes.
pub fn printable(text: &str) -> String {
    if !text.chars().any(hidden) {
        return text.to_string();
    }
    text.chars().fold(String::new(), |mut line, c| {
        match c {
            '\n' => line += "\\n",
            '\r' => line += "\\r",
            '\t' => line += "\\t",
            c if hidden(c) && c.is_ascii() => line += &format!("\\x{:02x}", u32::from(c)),
            c if hidden(c) => line += &format!("\\u{{{:x}}}", u32::from(c)),
            c => line.push(c),
        }
        line
    })
}

/// Whether a character is invisible, breaks the line, turns it around or drives the terminal.
pub fn hidden(c: char) -> bool {
    let turns_or_breaks = matches!(c, '\u{2028}'..='\u{202E}' | '\u{2066}'..='\u{2069}');
    c.is_control() || turns_or_breaks || matches!(c, '\u{200B}'..='\u{200F}' | '\u{FEFF}')
}

#[cfg(test)]
mod tests {
    use super::printable;

    #[test]
    fn control_characters_are_escaped_and_letters_stay() {
        for (text, printed) in [
            ("plain name.png", "plain name.png"),
            ("Größe→µ", "Größe→µ"),
            ("a\nb\r\tc", "a\\nb\\r\\tc"),
            ("\x1b[31mred\x07\x7f", "\\x1b[31mred\\x07\\x7f"),
            ("\u{9b}31m\u{202e}gnp\u{feff}", "\\u{9b}31m\\u{202e}gnp\\u{feff}"),
        ] {
            assert_eq!(printable(text), printed);
        }
    }
}
