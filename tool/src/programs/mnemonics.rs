//! Document 000's mnemonics by operation number, and how the operands of each are written.

use vb::op;

/// The operands of an instruction, as "Assembly Notation" of document 000 writes them.
#[derive(Clone, Copy, Debug, PartialEq, Eq)]
pub enum Operands {
    /// `r1, r2`: reg1, then reg2
    Registers,
    /// `[r1]`
    Target,
    /// `-1, r2`, from -16 to 15
    Signed,
    /// `31, r2`, from 0 to 31
    Unsigned,
    /// `15, r2`: a condition
    Condition,
    /// `31`: a vector
    Vector,
    None,
    /// `r2, 5`: reg2, then the system register
    ToSystem,
    /// `5, r2`
    FromSystem,
    /// An address
    Jump,
    /// `-1, r1, r2`: a sixteen-bit immediate, within these numbers
    Long(i64, i64),
    /// `4[r1], r2`
    Load,
    /// `r2, 4[r1]`
    Store,
    /// `r2`
    Reg2,
}

use Operands::{
    Condition, FromSystem, Jump, Load, Long, None as Bare, Reg2, Registers, Signed, Store, Target,
    ToSystem, Unsigned, Vector,
};

/// MOVEA is often given the lower half of an address, so it takes that without its sign too.
const MOVEA: Operands = Long(-0x8000, 0xFFFF);

const ROWS: [(u32, &str, Operands); 62] = [
    (op::MOV, "MOV", Registers),
    (op::ADD, "ADD", Registers),
    (op::SUB, "SUB", Registers),
    (op::CMP, "CMP", Registers),
    (op::SHL, "SHL", Registers),
    (op::SHR, "SHR", Registers),
    (op::JMP, "JMP", Target),
    (op::SAR, "SAR", Registers),
    (op::MUL, "MUL", Registers),
    (op::DIV, "DIV", Registers),
    (op::MULU, "MULU", Registers),
    (op::DIVU, "DIVU", Registers),
    (op::OR, "OR", Registers),
    (op::AND, "AND", Registers),
    (op::XOR, "XOR", Registers),
    (op::NOT, "NOT", Registers),
    (op::MOV_IMM, "MOV", Signed),
    (op::ADD_IMM, "ADD", Signed),
    (op::SETF, "SETF", Condition),
    (op::CMP_IMM, "CMP", Signed),
    (op::SHL_IMM, "SHL", Unsigned),
    (op::SHR_IMM, "SHR", Unsigned),
    (op::CLI, "CLI", Bare),
    (op::SAR_IMM, "SAR", Unsigned),
    (op::TRAP, "TRAP", Vector),
    (op::RETI, "RETI", Bare),
    (op::HALT, "HALT", Bare),
    (op::LDSR, "LDSR", ToSystem),
    (op::STSR, "STSR", FromSystem),
    (op::SEI, "SEI", Bare),
    (op::MOVEA, "MOVEA", MOVEA),
    (op::ADDI, "ADDI", Long(-0x8000, 0x7FFF)),
    (op::JR, "JR", Jump),
    (op::JAL, "JAL", Jump),
    (op::ORI, "ORI", Long(0, 0xFFFF)),
    (op::ANDI, "ANDI", Long(0, 0xFFFF)),
    (op::XORI, "XORI", Long(0, 0xFFFF)),
    (op::MOVHI, "MOVHI", Long(0, 0xFFFF)),
    (op::LD_B, "LD.B", Load),
    (op::LD_H, "LD.H", Load),
    (op::LD_W, "LD.W", Load),
    (op::ST_B, "ST.B", Store),
    (op::ST_H, "ST.H", Store),
    (op::ST_W, "ST.W", Store),
    (op::IN_B, "IN.B", Load),
    (op::IN_H, "IN.H", Load),
    (op::IN_W, "IN.W", Load),
    (op::OUT_B, "OUT.B", Store),
    (op::OUT_H, "OUT.H", Store),
    (op::OUT_W, "OUT.W", Store),
    (op::CMPF_S, "CMPF.S", Registers),
    (op::CVT_WS, "CVT.WS", Registers),
    (op::CVT_SW, "CVT.SW", Registers),
    (op::ADDF_S, "ADDF.S", Registers),
    (op::SUBF_S, "SUBF.S", Registers),
    (op::MULF_S, "MULF.S", Registers),
    (op::DIVF_S, "DIVF.S", Registers),
    (op::XB, "XB", Reg2),
    (op::XH, "XH", Reg2),
    (op::REV, "REV", Registers),
    (op::TRNC_SW, "TRNC.SW", Registers),
    (op::MPYHW, "MPYHW", Registers),
];

/// Bcond's mnemonics by condition, the one that is printed first.
const CONDITIONS: [&[&str]; 16] = [
    &["BV"],
    &["BL", "BC"],
    &["BE", "BZ"],
    &["BNH"],
    &["BN"],
    &["BR"],
    &["BLT"],
    &["BLE"],
    &["BNV"],
    &["BNL", "BNC"],
    &["BNE", "BNZ"],
    &["BH"],
    &["BP"],
    &["NOP"],
    &["BGE"],
    &["BGT"],
];

/// The operations of a mnemonic; MOV and a few others have two.
pub fn named(name: &str) -> Vec<(u32, Operands)> {
    ROWS.iter().filter(|row| row.1 == name).map(|row| (row.0, row.2)).collect()
}

/// The mnemonic and operands of an operation but Bcond.
pub fn of(operation: u32) -> (&'static str, Operands) {
    let row = ROWS.iter().find(|row| row.0 == operation);
    row.map(|row| (row.1, row.2)).expect("an operation of the table")
}

/// All operations but Bcond.
pub fn all() -> impl Iterator<Item = u32> {
    ROWS.iter().map(|row| row.0)
}

/// The condition of a mnemonic of Bcond.
pub fn condition(name: &str) -> Option<u32> {
    CONDITIONS.iter().position(|names| names.contains(&name)).map(|n| n as u32)
}

pub fn condition_name(condition: u32) -> &'static str {
    CONDITIONS[condition as usize][0]
}
