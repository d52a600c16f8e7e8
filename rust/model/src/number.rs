//! Sign extension and little-endian numbers, shared by every layer.

/// The low `width` bits of `value`, read as a two's complement number.
/// `width` is 1 to 32.
pub fn sign_extend(value: u32, width: u32) -> i32 {
    let modulus = 1i64 << width;
    let low = i64::from(value) % modulus;
    let signed = if low < modulus / 2 { low } else { low - modulus };
    i32::try_from(signed).expect("at most 32 bits")
}

/// Whether bit `bit` of `value` is set.
pub fn bit(value: u32, bit: u32) -> bool {
    value >> bit & 1 == 1
}

/// The `width` bits of `value` from bit `low` upwards.
pub fn field(value: u32, low: u32, width: u32) -> u32 {
    value >> low & ((1 << width) - 1)
}

/// The halfword whose low byte lies at `at` (000 "Data Types": little-endian).
pub fn half_at(bytes: &[u8], at: usize) -> u16 {
    u16::from_le_bytes([bytes[at], bytes[at + 1]])
}

#[cfg(test)]
mod tests {
    use super::*;

    #[test]
    fn sign_extension_at_several_widths() {
        assert_eq!(sign_extend(0x1FF, 10), 511);
        assert_eq!(sign_extend(0x200, 10), -512);
        assert_eq!(sign_extend(0xFC00 | 0x3FF, 10), -1);
        assert_eq!(sign_extend(0xFFFF, 16), -1);
        assert_eq!(sign_extend(0x1000, 13), -4096);
        assert_eq!(sign_extend(0x0FFF, 13), 4095);
        assert_eq!(sign_extend(0x10, 5), -16);
        assert_eq!(sign_extend(0x8000_0000, 32), i32::MIN);
        assert_eq!(sign_extend(1, 1), -1);
    }

    #[test]
    fn little_endian() {
        assert_eq!(half_at(&[0x34, 0x12], 0), 0x1234);
    }
}
