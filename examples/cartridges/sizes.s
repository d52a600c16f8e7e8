; Widths and heights that are negative or large. W of normal and H-bias worlds has 13 bits with a sign, of affine worlds 10
; without; H has 16 bits with a sign. GY starts a strip, so that the eight rows of that strip are there whatever H is.

    .equ cartridge, 0x3132
    .equ rom_end,   0x07004000
    .equ affine_rows, 0x38000      ; parameter base 0xC000

scene:
    LI maps, r7
    MOV 0, r6
    JAL pattern
    LI affine_rows, r7             ; straight rows
    MOV 0, r8
row:
    ST.H r8, 4[r7]
    MOVEA 512, r0, r9
    ST.H r9, 6[r7]
    ADDI 16, r7, r7
    ADD 8, r8
    MOVEA 256, r0, r9
    CMP r9, r8
    BNZ row
    LI table, r6
    MOV 11, r8
    JAL worlds
ready:
    JAL frame
    BR ready

    .align 4
; Flags, GX, GP, GY, MX, MP, MY, W, H, parameter base, overplane.
table:
    .half 0xC000,  16,   0,   8,    0,   0,   0,      -1,     7, 0, 0 ; no column
    .half 0xC000,  16,   0,  24,    0,   0,   0,    -100,     7, 0, 0 ; none
    .half 0xC000,  16,   0,  40,    0,   0,   0,    4095,     7, 0, 0 ; to the right edge
    .half 0xC000,  16,   0,  56,    0,   0,   0,  0xE02F,     7, 0, 0 ; 48: the upper three bits are not W's
    .half 0xD000,  16,   0,  72,    0,   0,   0,      -1,     7, 0x8000, 0
    .half 0xE000,  16,   0,  88,    0,   0,   0,  0xFC2F,     7, 0xC000, 0 ; 48: ten bits
    .half 0xE000,  16,   0, 104,    0,   0,   0,    1023,     7, 0xC000, 0
    .half 0xC000,  16,   0, 120,    0,   0,   0,      47,    -1, 0, 0
    .half 0xC000,  80,   0, 136,    0,   0,   0,      47,-32768, 0, 0
    .half 0xE000, 144,   0, 152,    0,   0,   0,      47,    -1, 0xC000, 0 ; no row
    .half 0x0040,   0,   0,   0,    0,   0,   0,       0,     0, 0, 0
