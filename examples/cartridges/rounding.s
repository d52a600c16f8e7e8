; Floating results that are rounded, underflow or overflow, as words, with all flags of PSW (FRO 200, FIV 100, FZD 080, FOV
; 040, FUD 020, FPR 010, CY 8, OV 4, S 2, Z 1). After a trap the next instruction goes on.

    .equ cartridge, 0x3531
    .equ rom_end,   0x07004000
    .equ map,       0x20000
    .equ shown,     0x3FF

scene:
    JAL text
    LI handlers, r7
    LI trap, r10
    ST.W r10, 20[r7]
    LI map, r16
    LI pairs, r15
    JAL block
    LI pairs + 32, r15
    JAL block
ready:
    JAL frame
    BR ready

block:
    MOV r31, r19
    LI operations, r14
    MOVEA shown, r0, r17
    MOV 3, r18
    JAL results
    ADDI 128, r16, r16
    JMP [r19]

trap:
    STSR 0, r26
    ADD 4, r26
    LDSR r26, 0
    RETI

addf:   ADDF.S r10, r11
    JMP [r31]
subf:   SUBF.S r10, r11
    JMP [r31]
mulf:   MULF.S r10, r11
    JMP [r31]
divf:   DIVF.S r10, r11
    JMP [r31]
cvtws:  CVT.WS r10, r11
    JMP [r31]
cvtsw:  CVT.SW r10, r11
    JMP [r31]

    .align 4
operations:
    .word addf, subf, mulf, divf, cvtws, cvtsw, 0
pairs:
    .word 0x40400000, 0x3F800000, 0x3DCCCCCD, 0x3E4CCCCD, 0x3FC00000, 0x3FC00000, 0x3F8CCCCD, 0x40200000
    .word 0x7F7FFFFF, 0x7F7FFFFF, 0x00800000, 0x7F000000, 0x7F000000, 0x00900000, 0x0DA24260, 0x2DA24260
