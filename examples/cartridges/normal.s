; Normal worlds: every flip and palette of a cell, source positions that wrap round one, two and four maps, parallax of
; window and source, worlds for one eye, and the overplane's cell beyond a background's edges. Every base is a multiple of
; the number of maps.

    .equ cartridge, 0x3130
    .equ rom_end,   0x07004000

scene:
    LI maps, r7
    MOV 0, r6
    JAL pattern
    MOV 5, r6                      ; r7 is at the next map
    JAL pattern
    MOV 10, r6
    JAL pattern
    MOV 15, r6
    JAL pattern
    LI 0x30000, r7                 ; map 8: the overplane's cell, a digit E turned over
    LI 0x701F, r10
    ST.H r10, 0[r7]
    LI table, r6
    MOV 10, r8
    JAL worlds
ready:
    JAL frame
    BR ready

    .align 4
; Flags, GX, GP, GY, MX, MP, MY, W, H, parameter base, overplane.
table:
    .half 0xC500,   0,   0,   0, -100,   0,  -60, 383, 223, 0, 0      ; four maps, over both seams
    .half 0xC000,  16,   4,  16,  500,   0,  500,  63,  47, 0, 0      ; one map, over its corner
    .half 0xC400, 112,  -6,  16,  996,   3,  -20,  79,  47, 0, 0      ; two maps beside each other
    .half 0xC102, 224,   9,  16,   -9,  -7, 1000,  71,  47, 0, 0      ; maps 2 and 3, one above the other
    .half 0x8001, 312,   0,  16,    0,   0,    0,  47,  47, 0, 0      ; left eye alone
    .half 0x4003, 312,   0,  72,    4,   2,    4,  47,  47, 0, 0      ; right eye alone
    .half 0xC080,  16,   2,  80,  -40,   0,  -16,  95,  63, 0, 0x8000 ; over the upper left edges
    .half 0xC482, 128,  -3,  80,  960,   5,  480, 119,  63, 0, 0x8000 ; over the lower right ones
    .half 0xC000,  40,   0, 160,    0,  20,    0, 255,  47, 0, 0      ; source parallax alone
    .half 0x0040,   0,   0,   0,    0,   0,    0,   0,   0, 0, 0
