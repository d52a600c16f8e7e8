//! The page's tables.

const PAGE: &str = include_str!("../../../docs/CONSOLE.md");

/// The rows of the table in a section whose first column has this heading; backquotes are left out.
pub fn table(section: &str, heading: &str) -> Vec<Vec<String>> {
    let text = PAGE.split(&format!("\n## {section}\n")).nth(1).expect("the page has the section");
    let text = text.split("\n## ").next().unwrap();
    let start = text.find(&format!("\n| {heading} |")).expect("the section has the table");
    let rows = text[start + 1..].lines().take_while(|line| line.starts_with('|')).skip(2);
    let rows: Vec<Vec<String>> = rows.map(cells).collect();
    assert!(rows.len() > 1, "{section}: {heading}");
    rows
}

/// The cells of a row; `\|` is a bar.
fn cells(line: &str) -> Vec<String> {
    let line = line.trim_matches('|').replace("\\|", "\u{1}");
    let cell = |text: &str| text.trim().replace('`', "").replace('\u{1}', "|");
    line.split('|').map(cell).collect()
}

/// A number, decimal or after 0x.
pub fn number(text: &str) -> u32 {
    let text = text.replace(',', "");
    match text.strip_prefix("0x") {
        Some(digits) => u32::from_str_radix(digits, 16),
        None => text.parse(),
    }
    .unwrap_or_else(|_| panic!("`{text}` is not a number"))
}

/// The mask of `15-14` or `13`.
pub fn mask(bits: &str) -> u32 {
    let (high, low) = bits.split_once('-').unwrap_or((bits, bits));
    let (high, low) = (number(high), number(low));
    ((1 << (high - low + 1)) - 1) << low
}
