//! What single operations leave: result bits, flags, losses, conditions, targets.

use vb::op;

use super::super::results::{Condition, Effect as Results, FlagHow};
use super::super::Effect;
use super::{name, said, stuck, List, STUCK};
use crate::programs::mnemonics::condition_name;

/// The operations that have a result.
pub const RESULTS: [u32; 47] = [
    op::MOV,
    op::ADD,
    op::SUB,
    op::CMP,
    op::SHL,
    op::SHR,
    op::SAR,
    op::MUL,
    op::DIV,
    op::MULU,
    op::DIVU,
    op::OR,
    op::AND,
    op::XOR,
    op::NOT,
    op::MOV_IMM,
    op::ADD_IMM,
    op::SETF,
    op::CMP_IMM,
    op::SHL_IMM,
    op::SHR_IMM,
    op::SAR_IMM,
    op::STSR,
    op::MOVEA,
    op::ADDI,
    op::JAL,
    op::ORI,
    op::ANDI,
    op::XORI,
    op::MOVHI,
    op::LD_B,
    op::LD_H,
    op::LD_W,
    op::IN_B,
    op::IN_H,
    op::IN_W,
    op::CVT_WS,
    op::CVT_SW,
    op::ADDF_S,
    op::SUBF_S,
    op::MULF_S,
    op::DIVF_S,
    op::XB,
    op::XH,
    op::REV,
    op::TRNC_SW,
    op::MPYHW,
];
/// Those that set flags.
const FLAGGED: [u32; 31] = [
    op::ADD,
    op::SUB,
    op::CMP,
    op::SHL,
    op::SHR,
    op::SAR,
    op::MUL,
    op::DIV,
    op::MULU,
    op::DIVU,
    op::OR,
    op::AND,
    op::XOR,
    op::NOT,
    op::ADD_IMM,
    op::CMP_IMM,
    op::SHL_IMM,
    op::SHR_IMM,
    op::SAR_IMM,
    op::ADDI,
    op::ORI,
    op::ANDI,
    op::XORI,
    op::CMPF_S,
    op::CVT_WS,
    op::CVT_SW,
    op::ADDF_S,
    op::SUBF_S,
    op::MULF_S,
    op::DIVF_S,
    op::TRNC_SW,
];
/// All of them.
const ALL: [u32; 63] = [
    op::MOV,
    op::ADD,
    op::SUB,
    op::CMP,
    op::SHL,
    op::SHR,
    op::JMP,
    op::SAR,
    op::MUL,
    op::DIV,
    op::MULU,
    op::DIVU,
    op::OR,
    op::AND,
    op::XOR,
    op::NOT,
    op::MOV_IMM,
    op::ADD_IMM,
    op::SETF,
    op::CMP_IMM,
    op::SHL_IMM,
    op::SHR_IMM,
    op::CLI,
    op::SAR_IMM,
    op::TRAP,
    op::RETI,
    op::HALT,
    op::LDSR,
    op::STSR,
    op::SEI,
    op::BCOND,
    op::MOVEA,
    op::ADDI,
    op::JR,
    op::JAL,
    op::ORI,
    op::ANDI,
    op::XORI,
    op::MOVHI,
    op::LD_B,
    op::LD_H,
    op::LD_W,
    op::ST_B,
    op::ST_H,
    op::ST_W,
    op::IN_B,
    op::IN_H,
    op::IN_W,
    op::OUT_B,
    op::OUT_H,
    op::OUT_W,
    op::CMPF_S,
    op::CVT_WS,
    op::CVT_SW,
    op::ADDF_S,
    op::SUBF_S,
    op::MULF_S,
    op::DIVF_S,
    op::XB,
    op::XH,
    op::REV,
    op::TRNC_SW,
    op::MPYHW,
];
const FLAGS: [(&str, u8, &str); 4] =
    [("z", 0, "Z"), ("s", 1, "S"), ("ov", 2, "OV"), ("cy", 3, "CY")];

pub fn add(all: &mut List) {
    results(all);
    flags(all);
    for of in ALL {
        let meaning = format!("{} does nothing.", said(of));
        let effect = Effect::Result(Results::Lost { op: of });
        all.add(format!("cpu.lost.{}", name(of)), "cpu operation lost", meaning, effect);
    }
    conditions(all);
    systems(all);
}

/// The bits of a result that are always 0.
fn zeros(of: u32) -> u32 {
    match of {
        op::SETF => !1,
        op::ANDI | op::IN_H => 0xFFFF_0000,
        op::IN_B => 0xFFFF_FF00,
        op::JAL => 1,
        _ => 0,
    }
}

fn results(all: &mut List) {
    for of in RESULTS {
        for (bit, value) in (0..32u8).flat_map(|bit| STUCK.map(|value| (bit, value))) {
            let effect = Effect::Result(Results::Result { op: of, bit, value });
            let meaning = match of {
                op::CMP | op::CMP_IMM => format!(
                    "Bit {bit} of the difference that {} makes Z and S of is always {}.",
                    said(of),
                    u8::from(value)
                ),
                _ => format!("Bit {bit} of {}'s result is always {}.", said(of), u8::from(value)),
            };
            let name = format!("cpu.result.{}.{bit}.{}", name(of), stuck(value));
            all.add(name, "cpu result bit per operation", meaning, effect);
            let always = !value && zeros(of) >> bit & 1 == 1;
            all.equivalent_if(always, "this bit of the result is always 0");
        }
    }
    for of in [op::MUL, op::DIV, op::MULU, op::DIVU] {
        for (bit, value) in (0..32u8).flat_map(|bit| STUCK.map(|value| (bit, value))) {
            let effect = Effect::Result(Results::Second { op: of, bit, value });
            let meaning = format!(
                "Bit {bit} of what {} leaves in r30 is always {}.",
                said(of),
                u8::from(value)
            );
            let name = format!("cpu.result-r30.{}.{bit}.{}", name(of), stuck(value));
            all.add(name, "cpu second result (r30) bit", meaning, effect);
        }
    }
}

/// Whether an operation always clears OV, and whether it keeps CY.
fn clears_ov(of: u32) -> bool {
    !matches!(
        of,
        op::ADD
            | op::SUB
            | op::CMP
            | op::MUL
            | op::DIV
            | op::MULU
            | op::ADD_IMM
            | op::CMP_IMM
            | op::ADDI
    )
}

fn keeps_cy(of: u32) -> bool {
    matches!(of, op::MUL..=op::NOT | op::ORI..=op::XORI | op::CVT_SW | op::TRNC_SW)
}

fn flags(all: &mut List) {
    let class = "cpu flag per operation";
    for (flag, bit, upper) in FLAGS {
        for of in FLAGGED {
            let (named, said) = (name(of), said(of));
            let mut add =
                |how: FlagHow, end: &str, meaning: String, is: bool, why: &'static str| {
                    let effect = Effect::Result(Results::Flag { op: of, bit, how });
                    all.add(format!("cpu.flag.{named}.{flag}.{end}"), class, meaning, effect);
                    all.equivalent_if(is, why);
                };
            for value in STUCK {
                let meaning = format!("{said} always leaves {upper} {}.", u8::from(value));
                let always = !value && (bit == 1 && of == op::ANDI || bit == 2 && clears_ov(of));
                add(
                    FlagHow::Stuck(value),
                    stuck(value),
                    meaning,
                    always,
                    "the operation always clears this flag",
                );
            }
            add(
                FlagHow::Inverted,
                "inverted",
                format!("{said} leaves the opposite of {upper}."),
                false,
                "",
            );
            let kept = bit == 3 && keeps_cy(of);
            add(
                FlagHow::Kept,
                "kept",
                format!("{said} leaves {upper} as it was."),
                kept,
                "the operation keeps this flag",
            );
        }
    }
    for of in [op::ADDF_S, op::SUBF_S, op::MULF_S, op::DIVF_S] {
        for value in STUCK {
            let effect =
                Effect::Result(Results::Flag { op: of, bit: 5, how: FlagHow::Stuck(value) });
            let meaning = format!("{} always leaves FUD {}.", said(of), u8::from(value));
            all.add(format!("cpu.flag.{}.fud.{}", name(of), stuck(value)), class, meaning, effect);
        }
    }
}

fn conditions(all: &mut List) {
    let class = "cpu branch/SETF condition";
    for (setf, unit) in [(false, "bcond"), (true, "setf")] {
        for (how, end) in [
            (Condition::Inverted, "inverted"),
            (Condition::Always, "always"),
            (Condition::Never, "never"),
        ] {
            for condition in 0..16 {
                let effect = Effect::Result(Results::Condition { setf, condition, how });
                let which = format!(
                    "Condition {condition} ({}) of {}",
                    condition_name(condition),
                    if setf { "SETF" } else { "Bcond" }
                );
                let meaning = match how {
                    Condition::Inverted => format!("{which} holds exactly where it should not."),
                    Condition::Always => format!("{which} always holds."),
                    Condition::Never => format!("{which} never holds."),
                };
                all.add(format!("cpu.cond.{unit}.{condition}.{end}"), class, meaning, effect);
                let own = condition == 5 && how == Condition::Always
                    || condition == 13 && how == Condition::Never;
                all.equivalent_if(own, "this is what the condition means");
            }
        }
    }
}

fn systems(all: &mut List) {
    let class = "cpu LDSR/STSR row";
    for n in [0, 1, 2, 3, 5, 25, 29, 31] {
        let meaning = format!("LDSR to system register {n} does nothing.");
        all.add(format!("cpu.ldsr.{n}.lost"), class, meaning, Effect::Result(Results::Ldsr(n)));
    }
    for n in [0, 1, 2, 3, 4, 5, 6, 7, 25, 29, 30, 31] {
        let meaning = format!("STSR from system register {n} gives 0.");
        all.add(format!("cpu.stsr.{n}.zero"), class, meaning, Effect::Result(Results::Stsr(n)));
    }
}
