//! The encoder's worked rows (W8), and the processor's decoder.

use model::encoding::{decode, encode, Fields, Halfwords, ILLEGAL};
use model::instruction::{self, Decoded, Instruction};
use model::Refusal;

const NONE: Fields = Fields { operation: 0, reg1: 0, reg2: 0, condition: 0, immediate: 0 };

#[test]
fn worked_rows() {
    let one = |first| Halfwords { count: 1, first, second: 0 };
    let two = |first, second| Halfwords { count: 2, first, second };
    let minus = |size: u32| size.wrapping_neg();
    for (fields, halfwords) in [
        (Fields { operation: 17, reg2: 10, immediate: minus(1), ..NONE }, one(0x455F)),
        (Fields { operation: 42, immediate: minus(4), ..NONE }, two(0xABFF, 0xFFFC)),
        (Fields { operation: 43, immediate: 33_554_430, ..NONE }, two(0xADFF, 0xFFFE)),
        (Fields { operation: 32, condition: 13, ..NONE }, one(0x9A00)),
        (Fields { operation: 32, condition: 5, immediate: minus(256), ..NONE }, one(0x8B00)),
        (Fields { operation: 18, condition: 15, reg2: 7, ..NONE }, one(0x48EF)),
        (Fields { operation: 47, reg2: 1, immediate: 0x0700, ..NONE }, two(0xBC20, 0x0700)),
        (Fields { operation: 68, reg1: 11, reg2: 10, ..NONE }, two(0xF94B, 0x1000)),
        (Fields { operation: 72, reg2: 10, ..NONE }, two(0xF940, 0x2000)),
        (Fields { operation: 29, reg2: 9, immediate: 5, ..NONE }, one(0x7525)),
        (Fields { operation: 24, immediate: 31, ..NONE }, one(0x601F)),
        (Fields { operation: 6, reg1: 31, ..NONE }, one(0x181F)),
    ] {
        assert_eq!(encode(&fields), Ok(halfwords), "{fields:?}");
        assert_eq!(decode(halfwords.first, halfwords.second), Ok((halfwords.count, fields)));
    }
    for (first, second, halfwords) in
        [(0x1BFF, 0x1234, one(0x181F)), (0xFBFF, 0x23FF, two(0xFBE0, 0x2000))]
    {
        let (count, fields) = decode(first, second).unwrap();
        assert_eq!((count, encode(&fields)), (halfwords.count, Ok(halfwords)));
    }
}

#[test]
fn refused_rows() {
    for fields in [
        Fields { operation: 32, condition: 5, immediate: 3, ..NONE },
        Fields { operation: 42, immediate: 1, ..NONE },
        Fields { operation: 17, reg2: 1, immediate: 16, ..NONE },
        Fields { operation: 44, immediate: 0xFFFF_FFFF, ..NONE },
        Fields { operation: 28, reg2: 1, immediate: 24, ..NONE },
        Fields { operation: 1, reg1: 32, ..NONE },
        Fields { operation: ILLEGAL, ..NONE },
        Fields { operation: 18, condition: 16, ..NONE },
        Fields { operation: 41, immediate: 0xFFFF, ..NONE },
        Fields { operation: 6, reg2: 1, ..NONE },
        Fields { operation: 27, ..NONE },
        Fields { operation: 65, ..NONE },
    ] {
        assert_eq!(encode(&fields), Err(Refusal::Encoding), "{fields:?}");
    }
}

/// Both decoders say the same of length, of what is illegal and of what isn't
/// modelled.
#[test]
fn the_processor_decodes_alike() {
    for first in 0..=0xFFFF {
        for second in (0..64).map(|sub_opcode: u16| sub_opcode << 10) {
            match (instruction::decode(first, second), decode(first, second)) {
                (Decoded::NotModelled, Err(refusal)) => assert_eq!(refusal, Refusal::NotModelled),
                (Decoded::Instruction { instruction, length }, Ok((count, fields))) => {
                    assert_eq!(length, 2 * count, "{first:04X} {second:04X}");
                    let illegal = instruction == Instruction::Illegal;
                    assert_eq!(fields.operation == ILLEGAL, illegal, "{first:04X} {second:04X}");
                }
                other => panic!("{first:04X} {second:04X}: {other:?}"),
            }
        }
    }
}
