; Floating results as words, with the flags of PSW (FRO 200, FIV 100, FZD 080, FUD 020, CY 8, OV 4, S 2, Z 1; FPR is left
; out). After a trap the next instruction goes on, reg2 as it was found. Each line is an instruction, in the order of
; `operations`; the lines below have other operands: zeros, an infinity, a subnormal.

    .equ cartridge, 0x3431
    .equ rom_end,   0x07004000
    .equ map,       0x20000
    .equ shown,     0x3EF

scene:
    JAL text
    LI handlers, r7
    LI trap, r10
    ST.W r10, 20[r7]
    LI map, r16
    LI pairs, r15
    JAL block
    LI pairs + 32, r15
    JAL block
    LI pairs + 64, r15
    JAL block
ready:
    JAL frame
    BR ready

block:
    MOV r31, r19
    LI operations, r14
    MOVEA shown, r0, r17
    MOV 3, r18
    JAL results
    ADDI 128, r16, r16
    JMP [r19]

trap:                              ; on after the instruction
    STSR 0, r26
    ADD 4, r26
    LDSR r26, 0
    RETI

addf:   ADDF.S r10, r11
    JMP [r31]
subf:   SUBF.S r10, r11
    JMP [r31]
mulf:   MULF.S r10, r11
    JMP [r31]
divf:   DIVF.S r10, r11
    JMP [r31]
cmpf:   CMPF.S r10, r11
    JMP [r31]
cvtws:  CVT.WS r10, r11
    JMP [r31]
cvtsw:  CVT.SW r10, r11
    JMP [r31]
trncsw: TRNC.SW r10, r11
    JMP [r31]

    .align 4
operations:
    .word addf, subf, mulf, divf, cmpf, cvtws, cvtsw, trncsw, 0
pairs:
    .word 0x3FC00000, 0x40100000, 0x40400000, 0x3F800000, 0x501502F9, 0xBDCCCCCD, 0x3F000000, 0xBF000000
    .word 0x00000000, 0x40A00000, 0x80000000, 0x00000000, 0x7F800000, 0x3F800000, 0x3F800000, 0x00000001
    .word 0x00800000, 0x00800001, 0x4B000001, 0x40200000, 0x4F000000, 0xCF000000, 0x34000000, 0x3F800001
