//! How the tool was called, for commands that it prints.

use std::env;

/// The command as it was typed: the wrapper says how it was called itself.
pub fn name() -> String {
    let typed = env::var("VBMODEL_CALLED").ok().or_else(|| env::args().next());
    quoted(&typed.unwrap_or_else(|| "vbmodel".to_string()))
}

/// The whole command, as a shell takes it.
pub fn command() -> String {
    let words = env::args_os().skip(1).map(|word| quoted(&word.to_string_lossy()));
    std::iter::once(name()).chain(words).collect::<Vec<String>>().join(" ")
}

/// A word as a shell takes it for one.
pub fn quoted(word: &str) -> String {
    let plain = |c: char| c.is_ascii_alphanumeric() || "_-./=:,+@%".contains(c);
    if !word.is_empty() && word.chars().all(plain) {
        return word.to_string();
    }
    format!("'{}'", word.replace('\'', r"'\''"))
}

#[cfg(test)]
mod tests {
    use super::quoted;

    #[test]
    fn a_word_with_blanks_or_quotes_stays_one_word() {
        assert_eq!(quoted("out/vram.bin"), "out/vram.bin");
        assert_eq!(quoted("my lot/vram.bin"), "'my lot/vram.bin'");
        assert_eq!(quoted("it's"), r"'it'\''s'");
        assert_eq!(quoted(""), "''");
    }
}
