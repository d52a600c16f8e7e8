//! Refusal 12: the fields of every operation on both sides of their ranges, as vb.h
//! prints them.

use crate::calls::Given;
use crate::rows::Row;

/// Which fields the operations of a group have, and what their immediate may be.
struct Group {
    operations: &'static [u32],
    reg1: bool,
    reg2: bool,
    condition: bool,
    immediate: Immediate,
}

#[derive(Clone, Copy)]
enum Immediate {
    /// Least, most, and the step between two values.
    Range(i32, i32, i32),
    /// 0 to 31 without 24.
    SystemRegister,
}

const NONE: Immediate = Immediate::Range(0, 0, 1);

const fn group(
    operations: &'static [u32],
    [reg1, reg2, condition]: [bool; 3],
    immediate: Immediate,
) -> Group {
    Group { operations, reg1, reg2, condition, immediate }
}

const TWO: [bool; 3] = [true, true, false];
const SECOND: [bool; 3] = [false, true, false];
const NO_FIELD: [bool; 3] = [false; 3];

const GROUPS: [Group; 13] = [
    group(&[0, 1, 2, 3, 4, 5, 7, 8, 9, 10, 11, 12, 13, 14, 15], TWO, NONE),
    group(&[64, 66, 67, 68, 69, 70, 71, 74, 75, 76], TWO, NONE),
    group(&[6], [true, false, false], NONE),
    group(&[16, 17, 19], SECOND, Immediate::Range(-16, 15, 1)),
    group(&[20, 21, 23], SECOND, Immediate::Range(0, 31, 1)),
    group(&[18], [false, true, true], NONE),
    group(&[24], NO_FIELD, Immediate::Range(0, 31, 1)),
    group(&[22, 25, 26, 30], NO_FIELD, NONE),
    group(&[28, 29], SECOND, Immediate::SystemRegister),
    group(&[32], [false, false, true], Immediate::Range(-256, 254, 2)),
    group(&[42, 43], NO_FIELD, Immediate::Range(-33_554_432, 33_554_430, 2)),
    group(
        &[40, 41, 48, 49, 51, 52, 53, 55, 56, 57, 59, 60, 61, 63],
        TWO,
        Immediate::Range(-32_768, 32_767, 1),
    ),
    group(&[44, 45, 46, 47], TWO, Immediate::Range(0, 65_535, 1)),
];
const ONE_REGISTER: Group = group(&[72, 73], SECOND, NONE);

/// Numbers that are not an operation, or that cannot be encoded.
const NO_OPERATION: [u32; 15] =
    [27, 31, 33, 39, 50, 54, 58, 62, 65, 77, 127, 128, 255, 256, 0xFFFF_FFFF];

impl Immediate {
    fn accepted(self) -> Vec<i32> {
        match self {
            Immediate::Range(least, most, _) => vec![least, most],
            Immediate::SystemRegister => vec![0, 23, 25, 31],
        }
    }

    fn refused(self) -> Vec<i32> {
        match self {
            Immediate::Range(least, most, 1) => vec![least - 1, most + 1, i32::MIN, i32::MAX],
            Immediate::Range(least, most, step) => {
                vec![least - step, least - 1, least + 1, most + 1, most + step]
            }
            Immediate::SystemRegister => vec![-1, 24, 32],
        }
    }
}

/// The largest fields of a group, from which a row changes one.
fn largest(group: &Group, operation: u32) -> vbsys::Instruction {
    vbsys::Instruction {
        operation,
        reg1: if group.reg1 { 31 } else { 0 },
        reg2: if group.reg2 { 31 } else { 0 },
        condition: if group.condition { 15 } else { 0 },
        immediate: group.immediate.accepted()[1 % group.immediate.accepted().len()] as u32,
    }
}

pub fn rows() -> Vec<Row> {
    let mut all = Vec::new();
    let mut push = |instruction: vbsys::Instruction, refused: bool| {
        all.push(Row {
            number: 12,
            refused,
            what: format!("{instruction:?}"),
            large: false,
            change: Box::new(move |given: &mut Given| given.instruction = instruction),
        });
    };
    for group in GROUPS.iter().chain([&ONE_REGISTER]) {
        for &operation in group.operations {
            let whole = largest(group, operation);
            push(whole, false);
            push(vbsys::Instruction { reg1: whole.reg1 + 1, ..whole }, true);
            push(vbsys::Instruction { reg2: whole.reg2 + 1, ..whole }, true);
            push(vbsys::Instruction { condition: whole.condition + 1, ..whole }, true);
            push(vbsys::Instruction { reg1: u32::MAX, ..whole }, true);
            for immediate in group.immediate.accepted() {
                push(vbsys::Instruction { immediate: immediate as u32, ..whole }, false);
            }
            for immediate in group.immediate.refused() {
                push(vbsys::Instruction { immediate: immediate as u32, ..whole }, true);
            }
        }
    }
    for operation in NO_OPERATION {
        push(vbsys::Instruction { operation, ..Default::default() }, true);
    }
    all
}
