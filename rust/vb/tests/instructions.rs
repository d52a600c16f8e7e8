//! The encoder and the decoder, as the crate gives them.

use vb::{decode, encode, left_out, op, Decoded, Halfwords, Instruction, Refusal};

const NONE: Instruction =
    Instruction { operation: 0, reg1: 0, reg2: 0, condition: 0, immediate: 0 };

#[test]
fn an_instruction_goes_both_ways() {
    let jump = Instruction { operation: op::JR, immediate: 4u32.wrapping_neg(), ..NONE };
    let halfwords = Halfwords { first: 0xABFF, second: Some(0xFFFC) };
    assert_eq!(encode(jump), Ok(halfwords));
    assert_eq!(halfwords.iter().collect::<Vec<_>>(), [0xABFF, 0xFFFC]);
    assert_eq!(decode(0xABFF, 0xFFFC), Decoded::Instruction { instruction: jump, halfwords: 2 });
    let nop = Instruction { operation: op::BCOND, condition: 13, ..NONE };
    assert_eq!(encode(nop), Ok(Halfwords { first: 0x9A00, second: None }));
    assert_eq!(decode(0x9A00, 0x1234), Decoded::Instruction { instruction: nop, halfwords: 1 });
}

#[test]
fn a_refusal_names_the_fields() {
    let wrong = Instruction { operation: op::ADD_IMM, reg2: 1, immediate: 16, ..NONE };
    let refusal = encode(wrong).unwrap_err();
    assert_eq!((refusal.number(), refusal.clone()), (12, Refusal::Encoding { instruction: wrong }));
    let start = "refusal 12: operation 17 with reg1 0, reg2 1, condition 0 and immediate 0x00000010 is not an instruction";
    assert!(refusal.to_string().starts_with(start), "{refusal}");
}

#[test]
fn illegal_halfwords_and_those_left_out_are_distinguished() {
    assert_eq!(decode(0x6C00, 0), Decoded::Illegal { halfwords: 1 });
    assert_eq!(decode(0xF800, 0x0400), Decoded::Illegal { halfwords: 2 });
    for (first, name, halfwords) in [
        (0x7C0B, "MOVBSU", 1),
        (0x7C04, "bit string", 1),
        (0xE841, "CAXI", 2),
        (0x7018, "LDSR", 1),
        (0x7418, "STSR", 1),
    ] {
        assert_eq!(decode(first, 0), Decoded::NotModelled);
        assert_eq!(left_out(first, 0), Some((name, halfwords)));
    }
    assert_eq!(left_out(0x9A00, 0), None);
}
