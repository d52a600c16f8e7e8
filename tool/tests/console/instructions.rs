//! Instructions, conditions, registers and exceptions by assembling and stepping; directives and expressions by assembling.

use crate::common::Folder;
use crate::machine::{Machine, PC};
use crate::page::{mask, number, table};

/// The bytes of a program's text.
fn assembled(folder: &Folder, text: &str) -> Vec<u8> {
    folder.write("one.s", text.as_bytes());
    let ran = folder.vbmodel("asm one.s -o one.rom");
    assert_eq!(ran.status, 0, "{text}: {}", ran.error);
    folder.read("one.rom")
}

fn accepts(folder: &Folder, text: &str) -> bool {
    folder.write("one.s", text.as_bytes());
    folder.vbmodel("asm one.s -o one.rom").status == 0
}

/// Whole numbers and floats at the edges.
const OPERANDS: [u32; 16] = [
    0,
    1,
    2,
    5,
    0xFFFF_FFFB,
    0xFFFF_FFFF,
    0x7FFF_FFFF,
    0x8000_0000,
    0x0001_0000,
    0x3F80_0000,
    0xBF80_0000,
    0x3FC0_0000,
    0xC060_0000,
    0x4F00_0000,
    0x0080_0000,
    0x0500_0200,
];

/// What became of each flag, Z, S, OV, CY, over many operands and flags before: seen set and clear, and kept.
fn flags_after(code: &[u8]) -> [[bool; 3]; 4] {
    let mut machine = Machine::at(code);
    let start = machine.processor;
    // ever set, ever clear, ever other than before
    let mut seen = [[false; 3]; 4];
    let pairs = OPERANDS.iter().flat_map(|a| OPERANDS.iter().map(move |b| (*a, *b)));
    for ((a, b), before) in pairs.flat_map(|pair| (0..16).map(move |flags| (pair, flags))) {
        machine.processor = start;
        (machine.processor.regs[6], machine.processor.regs[7]) = (a, b);
        machine.processor.psw = before;
        machine.processor.eipsw = a & 0xF;
        let stepped = machine.step();
        if stepped.refusal != 0
            || (stepped.answer != vbsys::ENDED && stepped.code & 0xFFE0 != 0xFFA0)
        {
            continue;
        }
        let after = machine.processor.psw;
        // Z, S, OV, CY are bits 0 to 3
        for (flag, seen) in seen.iter_mut().enumerate() {
            let (old, new) = (before >> flag & 1 == 1, after >> flag & 1 == 1);
            *seen = [seen[0] || new, seen[1] || !new, seen[2] || old != new];
        }
    }
    seen
}

#[test]
fn every_instruction() {
    let folder = Folder::new("console-instructions");
    let rows = table("Instructions", "Instruction");
    for row in &rows {
        let code = assembled(&folder, &row[0]);
        let halves: Vec<u16> = code.chunks(2).map(|b| u16::from_le_bytes([b[0], b[1]])).collect();
        assert_eq!(halves.len() as u32, number(&row[2]), "{row:?}");
        let (opcode, sub) = row[1].split_once(' ').unwrap_or((&row[1], ""));
        let bits = |half: u16, length: usize| format!("{half:016b}")[..length].to_string();
        assert_eq!(bits(halves[0], opcode.len()), opcode, "{row:?}");
        assert!(sub.is_empty() || bits(halves[1], 6) == sub, "{row:?}");
        // with another immediate too, so that every result can be met
        let other =
            assembled(&folder, &row[0].replace('5', "0").replace("LDSR r7, 0", "LDSR r7, 1"));
        let seen = [flags_after(&code), flags_after(&other)];
        for (flag, shown) in row[3].split(' ').enumerate() {
            let [set, clear, changed] = [0, 1, 2].map(|n| seen[0][flag][n] || seen[1][flag][n]);
            let expected = match shown {
                "*" => set && clear && changed,
                "0" => !set && clear && changed,
                _ => set && clear && !changed,
            };
            assert!(expected, "flag {flag}: set {set}, clear {clear}, changed {changed}; {row:?}");
        }
    }
    // every operation of the encoder has a row
    let first = |row: &Vec<String>| assembled(&folder, &row[0]);
    let mut numbers: Vec<u32> = rows.iter().map(|row| operation(&first(row))).collect();
    numbers.sort_unstable();
    numbers.dedup();
    let known: Vec<u32> = (0..255).filter(|&n| encodes(n)).collect();
    assert_eq!(numbers, known);
}

/// The library's operation number of some halfwords.
fn operation(code: &[u8]) -> u32 {
    let half = |at: usize| code.get(at..at + 2).map_or(0, |b| u16::from_le_bytes([b[0], b[1]]));
    vbsys::decode(half(0), half(2)).instruction.operation
}

fn encodes(operation: u32) -> bool {
    let instruction = vbsys::Instruction { operation, ..Default::default() };
    vbsys::encode(instruction).refusal == 0
}

#[test]
fn the_ranges_of_immediates() {
    let folder = Folder::new("console-immediates");
    for (instruction, low, high) in [
        ("MOV N, r7", -16, 15),
        ("ADD N, r7", -16, 15),
        ("CMP N, r7", -16, 15),
        ("SHL N, r7", 0, 31),
        ("SAR N, r7", 0, 31),
        ("TRAP N", 0, 31),
        ("ADDI N, r6, r7", -32_768, 32_767),
        ("MOVEA N, r6, r7", -32_768, 65_535),
        ("ORI N, r6, r7", 0, 65_535),
        ("MOVHI N, r6, r7", 0, 65_535),
        ("LD.B N[r6], r7", -32_768, 32_767),
    ] {
        for (value, fits) in [(low, true), (high, true), (low - 1, false), (high + 1, false)] {
            let text = instruction.replace('N', &value.to_string());
            assert_eq!(accepts(&folder, &text), fits, "{text}");
        }
    }
    for (target, fits) in [(254, true), (256, false), (-256, true), (-258, false)] {
        assert_eq!(accepts(&folder, &format!("BE * + {target}")), fits, "{target}");
    }
    for (target, fits) in [(33_554_430, true), (33_554_432, false)] {
        assert_eq!(accepts(&folder, &format!("JR * + {target}")), fits, "{target}");
    }
}

type Test = fn(z: bool, s: bool, ov: bool, cy: bool) -> bool;

/// The conditions in the page's words.
const CONDITIONS: [(&str, Test); 16] = [
    ("OV", |_, _, ov, _| ov),
    ("CY", |_, _, _, cy| cy),
    ("Z", |z, _, _, _| z),
    ("CY or Z", |z, _, _, cy| cy | z),
    ("S", |_, s, _, _| s),
    ("always", |_, _, _, _| true),
    ("S xor OV", |_, s, ov, _| s ^ ov),
    ("(S xor OV) or Z", |z, s, ov, _| (s ^ ov) | z),
    ("not OV", |_, _, ov, _| !ov),
    ("not CY", |_, _, _, cy| !cy),
    ("not Z", |z, _, _, _| !z),
    ("not (CY or Z)", |z, _, _, cy| !(cy | z)),
    ("not S", |_, s, _, _| !s),
    ("never", |_, _, _, _| false),
    ("not (S xor OV)", |_, s, ov, _| s == ov),
    ("not ((S xor OV) or Z)", |z, s, ov, _| !((s ^ ov) | z)),
];

#[test]
fn every_condition() {
    let folder = Folder::new("console-conditions");
    for row in table("Instructions", "Number") {
        let condition = number(&row[0]);
        for name in row[1].split(", ") {
            let text = if name == "NOP" { name.to_string() } else { format!("{name} *") };
            let code = assembled(&folder, &text);
            let half = u16::from_le_bytes([code[0], code[1]]);
            assert_eq!(u32::from(half >> 9) & 15, condition, "{row:?}");
        }
        let (_, test) =
            CONDITIONS.into_iter().find(|(text, _)| *text == row[2]).expect("its words");
        let mut machine = Machine::at(&assembled(&folder, &format!("SETF {condition}, r7")));
        let start = machine.processor;
        for flags in 0..16 {
            machine.processor = start;
            machine.processor.psw = flags;
            machine.step();
            let [z, s, ov, cy] = [0, 1, 2, 3].map(|bit| flags >> bit & 1 == 1);
            assert_eq!(machine.processor.regs[7] == 1, test(z, s, ov, cy), "{row:?}, {flags:04b}");
        }
    }
}

/// PSW after a step from these operands and PSW.
fn psw_after(folder: &Folder, text: &str, operands: [u32; 2], psw: u32) -> u32 {
    let mut machine = Machine::at(&assembled(folder, text));
    (machine.processor.regs[6], machine.processor.regs[7]) = (operands[0], operands[1]);
    machine.processor.psw = psw;
    machine.step();
    machine.processor.psw
}

#[test]
fn every_bit_of_psw() {
    let folder = Folder::new("console-psw");
    let rows = table("The processor", "Bits of PSW");
    let bits = |name: &str| mask(&rows.iter().find(|row| row[1] == name).expect("its row")[0]);
    let all = rows.iter().fold(0, |all, row| all | mask(&row[0]));
    assert_eq!(all, 0x000F_F3FF);
    for bit in 0..32 {
        let mut machine = Machine::new();
        machine.processor.psw = 1 << bit;
        assert_eq!(machine.step().refusal == 0, all >> bit & 1 == 1, "bit {bit}");
    }
    for (name, condition) in [("OV", 0), ("CY", 1), ("Z", 2), ("S", 4)] {
        let mut machine = Machine::at(&assembled(&folder, &format!("SETF {condition}, r7")));
        machine.processor.psw = bits(name);
        machine.step();
        assert_eq!(machine.processor.regs[7], 1, "{name}");
    }
    assert_eq!(psw_after(&folder, "SEI", [0; 2], 0), bits("ID"));
    let entered = psw_after(&folder, "TRAP 0", [0; 2], bits("AE"));
    assert_eq!(entered, bits("EP") | bits("ID"));
    let duplexed = psw_after(&folder, "TRAP 0", [0; 2], bits("EP"));
    assert_eq!(duplexed, bits("EP") | bits("ID") | bits("NP"));
    let (one, most) = (0x3F80_0000, 0x7F7F_FFFF);
    for (name, text, operands) in [
        ("FRO", "ADDF.S r6, r7", [0x7F80_0000, one]),
        ("FIV", "CVT.SW r6, r7", [0x4F00_0000, 0]),
        ("FZD", "DIVF.S r6, r7", [0, one]),
        ("FOV", "ADDF.S r6, r7", [most, most]),
    ] {
        let after = psw_after(&folder, text, operands, 0);
        assert_eq!(after, bits(name) | bits("EP") | bits("ID"), "{name}");
    }
    let small = psw_after(&folder, "MULF.S r6, r7", [0x0080_0000, 0x0080_0000], 0);
    assert_eq!(small & !0xF, bits("FUD"));
    let mut machine = Machine::with_timer([0x10, 0, 0, 0]);
    machine.step();
    assert_eq!(machine.processor.psw & bits("I"), 5 << bits("I").trailing_zeros());
}

#[test]
fn every_system_register() {
    let folder = Folder::new("console-system");
    let rows = table("The processor", "Number");
    let code = |text: String| assembled(&folder, &text);
    for n in (0..32).filter(|&n| n != 24) {
        let row = rows.iter().find(|row| number(&row[0]) == n);
        let (reset, kept) = row.map_or((0, "0x00000000"), |row| (number(&row[2]), &row[3]));
        let mut machine = Machine::at(&code(format!("STSR {n}, r7\nLDSR r6, {n}\nSTSR {n}, r8")));
        let at_reset = vbsys::reset().processor;
        machine.processor = vbsys::Processor { pc: PC, ..at_reset };
        machine.processor.regs[6] = 0xFFFF_FFFF;
        machine.step();
        assert_eq!(machine.processor.regs[7], reset, "{n}");
        machine.step();
        machine.step();
        let expected = match kept {
            "absolute value" => 1,
            "0x00000000" => reset,
            kept => number(kept),
        };
        assert_eq!(machine.processor.regs[8], expected, "{n}");
    }
    // LDSR r7, 24 and STSR 24, r7
    for first in [0b011100 << 10 | 7 << 5 | 24, 0b011101 << 10 | 7 << 5 | 24u16] {
        assert_eq!(Machine::at(&first.to_le_bytes()).step().refusal, 6);
    }
}

/// A machine that meets the cause at its next step, and how long the instruction is.
fn machine_at(folder: &Folder, cause: &str) -> (Machine, u32) {
    let (one, most) = (0x3F80_0000, 0x7F7F_FFFF);
    let (text, operands) = match cause {
        "division by zero" => ("DIV r6, r7", [0, 1]),
        "illegal opcode or sub-opcode" => (".half 0x6C00", [0, 0]),
        "TRAP 0 to 15" => ("TRAP 15", [0, 0]),
        "TRAP 16 to 31" => ("TRAP 16", [0, 0]),
        "float: reserved operand" => ("ADDF.S r6, r7", [0x7F80_0000, one]),
        "float: invalid operation" => ("DIVF.S r6, r7", [0, 0]),
        "float: division by zero" => ("DIVF.S r6, r7", [0, one]),
        "float: overflow" => ("ADDF.S r6, r7", [most, most]),
        _ => ("HALT", [0, 0]),
    };
    let code = assembled(folder, text);
    let mut machine = Machine::at(&code);
    (machine.processor.regs[6], machine.processor.regs[7]) = (operands[0], operands[1]);
    if let Some(level) = cause.strip_prefix("interrupt, level ") {
        machine.processor.hardware.lines = 1 << number(&level[..1]);
        return (machine, 0);
    }
    (machine, code.len() as u32)
}

#[test]
fn every_exception_and_interrupt() {
    let folder = Folder::new("console-exceptions");
    let rows = table("Exceptions and interrupts", "Cause");
    for row in &rows {
        let handler = number(&row[2]);
        if row[0] == "reset" {
            let reset = vbsys::reset().processor;
            assert_eq!((reset.ecr, reset.pc), (number(&row[1]), handler));
            assert_eq!(reset.psw, 0x8000);
            continue;
        }
        if row[1] == "its own" {
            let (mut machine, length) = machine_at(&folder, "TRAP 16 to 31");
            machine.processor.psw = 0x4000;
            machine.step();
            let p = machine.processor;
            assert_eq!((p.pc, p.ecr >> 16, p.fepc), (handler, 0xFFB0, PC + length), "{row:?}");
            continue;
        }
        let (mut machine, length) = machine_at(&folder, &row[0]);
        let stepped = machine.step();
        let vector = match row[0].as_str() {
            "TRAP 0 to 15" => 15,
            "TRAP 16 to 31" => 16,
            _ => 0,
        };
        let code = number(row[1].split(' ').next().unwrap()) + vector;
        let restore = if row[3] == "next instruction" { PC + length } else { PC };
        let p = machine.processor;
        assert_eq!((stepped.code, p.pc, p.eipc), (code, handler, restore), "{row:?}");
        assert_eq!(p.ecr & 0xFFFF, code, "{row:?}");
    }
}

#[test]
fn every_directive() {
    let folder = Folder::new("console-directives");
    for row in table("The assembler", "Line") {
        let bytes: Vec<u8> =
            row[1].split_whitespace().map(|byte| u8::from_str_radix(byte, 16).unwrap()).collect();
        let code = assembled(&folder, &format!("{}\n.byte 0x5A", row[0]));
        assert_eq!(code, [&bytes[..], &[0x5A]].concat(), "{row:?}");
    }
}

#[test]
fn every_expression() {
    let folder = Folder::new("console-expressions");
    for row in table("The assembler", "Expression") {
        let code = assembled(&folder, &format!(".word {}", row[0]));
        let value = i32::from_le_bytes(code.try_into().unwrap());
        assert_eq!(value.to_string(), row[1], "{row:?}");
    }
}
