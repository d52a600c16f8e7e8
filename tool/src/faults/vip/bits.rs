//! What a fault does to the bits of a halfword, a register or an address.

/// Bits count from the lowest of the halfword.
#[derive(Clone, Copy, Debug, PartialEq, Eq)]
pub enum Bits {
    Stuck0(u32),
    Stuck1(u32),
    Inverted(u32),
    /// Both bits read as their AND: a bridge that 0 wins.
    And(u32, u32),
    /// Both bits read as their OR: a bridge that 1 wins.
    Or(u32, u32),
    /// So many bits from the first place on change places with those from the second on.
    Exchanged(u32, u32, u32),
}

impl Bits {
    pub fn apply(self, value: u16) -> u16 {
        let both = |a: u32, b: u32| 1 << a | 1 << b;
        match self {
            Bits::Stuck0(bit) => value & !(1 << bit),
            Bits::Stuck1(bit) => value | 1 << bit,
            Bits::Inverted(bit) => value ^ 1 << bit,
            Bits::And(a, b) if value & both(a, b) != both(a, b) => value & !both(a, b),
            Bits::Or(a, b) if value & both(a, b) != 0 => value | both(a, b),
            Bits::And(..) | Bits::Or(..) => value,
            Bits::Exchanged(a, b, width) => {
                let mask = (1u16 << width) - 1;
                let (low, high) = (value >> a & mask, value >> b & mask);
                value & !(mask << a | mask << b) | low << b | high << a
            }
        }
    }

    /// The same fault `by` places higher.
    pub fn raised(self, by: u32) -> Bits {
        match self {
            Bits::Stuck0(bit) => Bits::Stuck0(bit + by),
            Bits::Stuck1(bit) => Bits::Stuck1(bit + by),
            Bits::Inverted(bit) => Bits::Inverted(bit + by),
            Bits::And(a, b) => Bits::And(a + by, b + by),
            Bits::Or(a, b) => Bits::Or(a + by, b + by),
            Bits::Exchanged(a, b, width) => Bits::Exchanged(a + by, b + by, width),
        }
    }
}

#[cfg(test)]
mod tests {
    use super::Bits;

    #[test]
    fn each_kind_changes_its_bits_alone() {
        assert_eq!(Bits::Stuck0(3).apply(0xFFFF), 0xFFF7);
        assert_eq!(Bits::Stuck1(15).apply(0), 0x8000);
        assert_eq!(Bits::Inverted(7).apply(0x00FF), 0x007F);
        assert_eq!([0b00, 0b01, 0b10, 0b11].map(|v| Bits::And(0, 1).apply(v)), [0, 0, 0, 3]);
        assert_eq!([0b00, 0b01, 0b10, 0b11].map(|v| Bits::Or(0, 1).apply(v)), [0, 3, 3, 3]);
        assert_eq!(Bits::Exchanged(2, 6, 2).apply(0b0100_1000), 0b1000_0100);
        assert_eq!(Bits::Stuck1(1).raised(3).apply(0), 0x10);
    }
}
