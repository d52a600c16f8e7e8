; Products: MULU's overflow flag for products of 31, 32 and 33 bits, MUL's beside it, and MPYHW and REV. Words and Z, S, OV,
; CY (1, 2, 4, 8).

    .equ cartridge, 0x3331
    .equ rom_end,   0x07004000
    .equ map,       0x20000

scene:
    JAL text
    LI pairs, r15
    LI map, r16
    JAL block
    LI pairs + 32, r15
    ADDI 128, r16, r16
    JAL block
ready:
    JAL frame
    BR ready

block:
    MOV r31, r19
    LI operations, r14
    MOV 15, r17
    MOV 1, r18
    JAL results
    JMP [r19]

mul:    MUL r10, r11
    JMP [r31]
mulu:   MULU r10, r11
    JMP [r31]
high:   MULU r10, r11
    MOV r30, r11
    JMP [r31]
mpyhw:  MPYHW r10, r11
    JMP [r31]
rev:    REV r10, r11
    JMP [r31]

    .align 4
operations:
    .word mul, mulu, high, mpyhw, rev, 0
pairs:
    .word 3, 0x2AAAAAAA, 3, 0x55555555, 0x10000, 0xFFFF, 0x10000, 0x10000
    .word 0xFFFFFFFF, 0xFFFFFFFF, 0x8000, 0x8000, 0x12345678, 0xFFFF7FFF, 0x0001FFFF, 0x00017FFF
