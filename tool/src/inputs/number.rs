//! Numbers as they are typed: decimal, or hexadecimal after 0x, with `_` between digits.

use std::ops::RangeInclusive;

/// A whole number below 2^64.
pub fn whole(text: &str) -> Result<u64, String> {
    let wrong = || format!("`{text}` is not a whole number; write 1000, 1_000 or 0x3E8");
    let (digits, base) = match text.strip_prefix("0x").or_else(|| text.strip_prefix("0X")) {
        Some(digits) => (digits, 16),
        None => (text, 10),
    };
    let between = digits.split('_').all(|part| !part.is_empty());
    let digits: String = digits.chars().filter(|&c| c != '_').collect();
    if !between || !digits.chars().all(|c| c.is_digit(base)) {
        return Err(wrong());
    }
    u64::from_str_radix(&digits, base)
        .map_err(|_| format!("`{text}` is above 2^64 - 1, the largest number"))
}

/// A whole number below 2^32.
pub fn word(text: &str) -> Result<u32, String> {
    u32::try_from(whole(text)?).map_err(|_| format!("`{text}` is above 0xFFFFFFFF"))
}

/// A register's value: a word, or a negative number as a word has it.
pub fn register(text: &str) -> Result<u32, String> {
    match text.strip_prefix('-') {
        None => word(text),
        Some(digits) => match word(digits)? {
            size if size <= 0x8000_0000 => Ok(size.wrapping_neg()),
            _ => Err(format!("`{text}` is below -0x80000000")),
        },
    }
}

/// One address, or two with `..` between: the first and the last.
pub fn addresses(text: &str) -> Result<RangeInclusive<u32>, String> {
    let (first, last) = match text.split_once("..") {
        None => (word(text)?, word(text)?),
        Some((first, last)) => (word(first)?, word(last)?),
    };
    match first <= last {
        true => Ok(first..=last),
        false => Err(format!("`{text}` ends before it begins")),
    }
}

/// A whole number below 256.
pub fn byte(text: &str) -> Result<u8, String> {
    within(text, 0, 255).map(|n| n as u8)
}

/// How many records are asked for.
pub fn records(text: &str) -> Result<u64, String> {
    match whole(text)? {
        0 => Err(format!("`{text}` asks for nothing; write 1 or more")),
        count => Ok(count),
    }
}

/// How many records are printed.
pub fn few(text: &str) -> Result<usize, String> {
    within(text, 0, 1_000).map(|n| n as usize)
}

/// How many times each pixel is enlarged.
pub fn scale(text: &str) -> Result<usize, String> {
    within(text, 1, crate::pictures::picture::LARGEST_SCALE as u64).map(|n| n as usize)
}

/// How far a sample may lie from its level.
pub fn threshold(text: &str) -> Result<u8, String> {
    within(text, 1, u64::from(crate::inputs::capture::LARGEST_THRESHOLD)).map(|n| n as u8)
}

fn within(text: &str, least: u64, most: u64) -> Result<u64, String> {
    match whole(text)? {
        n if (least..=most).contains(&n) => Ok(n),
        _ => Err(format!("`{text}` is not from {least} to {most}")),
    }
}

#[cfg(test)]
mod tests {
    use super::*;

    #[test]
    fn numbers_take_hex_and_underscores() {
        for (text, value) in [
            ("0", 0),
            ("20_000_000", 20_000_000),
            ("0x10", 16),
            ("0XfF_fe", 0xFFFE),
            ("18446744073709551615", u64::MAX),
        ] {
            assert_eq!(whole(text), Ok(value), "{text}");
        }
        for text in ["", "-1", "+1", "many", "0x", "_1", "1_", "1__0", "0x_1", "1,000", "1e3", " 1"]
        {
            assert!(whole(text).is_err(), "{text}");
        }
        assert_eq!(word("0xFFFF_FFFF"), Ok(u32::MAX));
        assert_eq!(word("0x1_0000_0000").unwrap_err(), "`0x1_0000_0000` is above 0xFFFFFFFF");
        assert_eq!(register("-0x8000_0000"), Ok(0x8000_0000));
        assert_eq!(register("-1"), Ok(u32::MAX));
        assert!(register("-0x80000001").is_err());
        assert_eq!(addresses("0x10..0x1F"), Ok(0x10..=0x1F));
        assert_eq!(addresses("16"), Ok(16..=16));
        assert!(addresses("2..1").is_err() && addresses("1..").is_err());
        assert_eq!(scale("0x11").unwrap_err(), "`0x11` is not from 1 to 16");
    }
}
