use super::*;

fn halves(text: &str) -> Result<Vec<u16>, String> {
    let bytes = assemble(&Source { text, origin: 0x0700_0000, symbols: &[], bytes: &[] })?;
    Ok(bytes.chunks(2).map(|b| u16::from_le_bytes([b[0], b[1]])).collect())
}

#[test]
fn instructions_have_the_halfwords_of_document_000() {
    for (text, expected) in [
        ("MOV r1, r2", vec![0x0041]),
        ("MOV -1, r2", vec![0x405F]),
        ("ADD 15, r31", vec![0x47EF]),
        ("CMP r3, r4", vec![0x0C83]),
        ("SHL 31, r5", vec![0x50BF]),
        ("SAR r6, r7", vec![0x1CE6]),
        ("MUL r8, r9", vec![0x2128]),
        ("DIVU r10, r11", vec![0x2D6A]),
        ("SETF 2, r12", vec![0x4982]),
        ("JMP [r31]", vec![0x181F]),
        ("TRAP 31", vec![0x601F]),
        ("HALT", vec![0x6800]),
        ("RETI", vec![0x6400]),
        ("LDSR r1, 5", vec![0x7025]),
        ("STSR 5, r1", vec![0x7425]),
        ("NOP", vec![0x9A00]),
        ("a: BR a", vec![0x8A00]),
        ("a: NOP\n BNZ a", vec![0x9A00, 0x95FE]),
        ("a: NOP\n JR a", vec![0x9A00, 0xABFF, 0xFFFE]),
        ("JAL a\na: NOP", vec![0xAC00, 0x0004, 0x9A00]),
        ("CMPF.S r1, r2", vec![0xF841, 0x0000]),
        ("CVT.WS r1, r2", vec![0xF841, 0x0800]),
        ("CVT.SW r1, r2", vec![0xF841, 0x0C00]),
        ("ADDF.S r1, r2", vec![0xF841, 0x1000]),
        ("SUBF.S r1, r2", vec![0xF841, 0x1400]),
        ("MULF.S r1, r2", vec![0xF841, 0x1800]),
        ("DIVF.S r1, r2", vec![0xF841, 0x1C00]),
        ("XB r2", vec![0xF840, 0x2000]),
        ("XH r2", vec![0xF840, 0x2400]),
        ("REV r1, r2", vec![0xF841, 0x2800]),
        ("TRNC.SW r1, r2", vec![0xF841, 0x2C00]),
        ("MPYHW r1, r2", vec![0xF841, 0x3000]),
        ("MOVEA -1, r1, r2", vec![0xA041, 0xFFFF]),
        ("MOVEA 0xFFFF, r1, r2", vec![0xA041, 0xFFFF]),
        ("MOVHI 0x700, r0, r6", vec![0xBCC0, 0x0700]),
        (".origin 0xFFFFFFF0\nJR 0x00000000", vec![0xA800, 0x0010]),
        ("ORI 0xFFFF, r1, r2", vec![0xB041, 0xFFFF]),
        ("LD.W 4[r1], r2", vec![0xCC41, 0x0004]),
        ("IN.H [r1], r2", vec![0xE441, 0x0000]),
        ("ST.H r2, -2[r1]", vec![0xD441, 0xFFFE]),
        ("OUT.W r2, 8[r1]", vec![0xFC41, 0x0008]),
        ("LI 0x12348000, r1", vec![0xBC20, 0x1235, 0xA021, 0x8000]),
        (".half 1, -1\n.equ two, 2\n.half two + 3 - 1", vec![1, 0xFFFF, 4]),
        (".byte 1, -1, 2 * 3, 0", vec![0xFF01, 6]),
        (".half x\n.equ x, later - 0x07000000\nlater: NOP", vec![2, 0x9A00]),
        ("NOP\n.half * - 0x07000000, (1 << 4 | 3) & ~1", vec![0x9A00, 2, 18]),
        (".equ here, * + 2\nNOP\nBR here", vec![0x9A00, 0x8A00]),
    ] {
        assert_eq!(halves(text), Ok(expected), "{text}");
    }
}

#[test]
fn mistakes_name_the_line_and_the_rule() {
    for (text, expected) in [
        ("NOP\nADD 16, r1", "line 2: 16 is not within -16 to 15: ADD 16, r1"),
        ("MOV r32, r1", "line 1: `r32` is not named: MOV r32, r1"),
        ("MOV 1, r32", "line 1: `r32` is not a register r0 to r31: MOV 1, r32"),
        ("BR nowhere", "line 1: `nowhere` is not named: BR nowhere"),
        ("a: NOP\na: NOP", "line 2: `a` is named twice: a: NOP"),
        ("LD.W r1, r2", "line 1: `r1` is not disp[reg]: LD.W r1, r2"),
        ("FLY r1", "line 1: `FLY` with these operands is not known: FLY r1"),
        (".space 2\n.org 0x07000000", "line 2: `.org` lies behind: .org 0x07000000"),
        ("BR a\n.space 300\na: NOP", "line 1: 302 is not within -256 to 254: BR a"),
        ("LDSR r1, 24", "line 1: system register 24 is not modelled: LDSR r1, 24"),
        ("SUB r32, r1", "line 1: `r32` is not a register r0 to r31: SUB r32, r1"),
        ("JR 0x07000003", "line 1: `0x07000003` is odd: JR 0x07000003"),
        ("MOV , r1", "line 1: `MOV` with these operands is not known: MOV , r1"),
        (".half 1 +", "line 1: a number or a name is missing: .half 1 +"),
        ("2a: NOP", "line 1: `2a` is not a name; a name has letters, digits and `_`, a letter or `_` first: 2a: NOP"),
        (".space b - a\na: NOP\nb: NOP", "line 2: `a` has moved; a size above it uses a name further down: a: NOP"),
        (".equ a, b\n.equ b, a\n.half a", "line 1: `a` is defined by itself: a, b, a: .equ a, b\nline 2: `b` is defined by itself: b, a, b: .equ b, a\nline 3: `a` is defined by itself: a, b, a: .half a"),
        (".equ a, a + 1", "line 1: `a` is defined by itself: a, a: .equ a, a + 1"),
        (".equ a, 1\n.equ a, 2", "line 2: `a` is named twice: .equ a, 2"),
        (".equ a, 1\n.equ a, 1", "line 2: `a` is named twice: .equ a, 1"),
        ("a: NOP\n.equ a, 1", "line 1: `a` is named twice: a: NOP"),
        (".byte 256", "line 1: 256 is not within -128 to 255: .byte 256"),
        ("FLY\nADD 16, r1\nNOP\nBR nowhere", "line 1: `FLY` with these operands is not known: FLY\nline 2: 16 is not within -16 to 15: ADD 16, r1\nline 4: `nowhere` is not named: BR nowhere"),
        ("NOP\n.origin 0", "line 2: `.origin` must stand before all bytes: .origin 0"),
        (".word 0x10000000000", "line 1: `0x10000000000` is too large: .word 0x10000000000"),
    ] {
        assert_eq!(halves(text), Err(expected.to_string()), "{text}");
    }
}
