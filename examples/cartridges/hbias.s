; H-bias worlds: every row of a world moved by its own offset for each eye, over the map's seam, over the screen's left and
; right edges, and with the overplane's cell.

    .equ cartridge, 0x3230
    .equ rom_end,   0x07004000
    .equ parameters, 0x38000

scene:
    LI maps, r7
    MOV 0, r6
    JAL pattern
    LI 0x2E000, r7                 ; the overplane's cell, number 0x7000: a digit 3 in the second palette
    LI 0x4014, r10
    ST.H r10, 0[r7]

; 224 rows: left a triangle of 16 rows and 8 columns, right twice that, the other way, and 300 columns further from row 96 on
    LI parameters, r7
    MOV 0, r8
row:
    ANDI 15, r8, r9
    CMP 8, r9
    BLT rising
    MOVEA 16, r0, r10
    SUB r9, r10
    MOV r10, r9
rising:
    ST.H r9, 0[r7]
    SHL 1, r9
    NOT r9, r9
    ADD 1, r9
    MOVEA 96, r0, r10
    CMP r10, r8
    BLT near
    MOVEA 300, r0, r10
    ADD r10, r9
near:
    ST.H r9, 2[r7]
    ADD 4, r7
    ADD 1, r8
    MOVEA 224, r0, r10
    CMP r10, r8
    BNZ row

    LI table, r6
    MOV 6, r8
    JAL worlds
ready:
    JAL frame
    BR ready

    .align 4
; Flags, GX, GP, GY, MX, MP, MY, W, H, parameter base, overplane.
table:
    .half 0xD000,   0,   0,   0,    0,   0,   0, 383, 223, 0xC000, 0
    .half 0xD000, -40,   5,  16,  480,   2,   8,  99,  39, 0xC020, 0      ; over the seam and the left edge
    .half 0xD000, 320,   5,  16,  -16,   0,   8,  99,  39, 0xC000, 0      ; and the right one
    .half 0xD080, 120,  -4,  80,   -8,   0,  -8, 127,  63, 0xC080, 0x7000 ; overplane
    .half 0xD080,  24,   0, 152,  440,   0, 460, 127,  63, 0xC000, 0x7000
    .half 0x0040,   0,   0,   0,    0,   0,   0,   0,   0, 0, 0
