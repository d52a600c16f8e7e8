; Windows over every edge and corner of the screen, with parallax that takes one eye's window further out; windows of one
; column, windows that only one eye sees, and windows that lie outside. All are eight rows high or more. By 000 the console
; applies the new BKCOL only after the first eight rows of the first picture.

    .equ cartridge, 0x3530
    .equ rom_end,   0x07004000

scene:
    LI maps, r7
    MOV 0, r6
    JAL pattern
    LI vip, r24
    MOV 1, r10
    ST.H r10, bkcol[r24]
    LI table, r6
    MOVEA 19, r0, r8
    JAL worlds
ready:
    JAL frame
    BR ready

    .align 4
; Flags, GX, GP, GY, MX, MP, MY, W, H, parameter base, overplane.
table:
    .half 0xC000, -20,   0,  60,    0,   0,   0,  59,  31, 0, 0       ; left edge
    .half 0xC000,   4,  10, 100,    0,   0,   0,  39,  31, 0, 0       ; the left eye's window alone hangs out
    .half 0xC000,   4, -10, 136,    0,   0,   0,  39,  31, 0, 0       ; the right eye's
    .half 0xC000, 350,   0,  60,    0,   0,   0,  59,  31, 0, 0       ; right edge
    .half 0xC000, 350,  12, 100,    0,   0,   0,  39,  31, 0, 0
    .half 0xC000, 350, -12, 136,    0,   0,   0,  39,  31, 0, 0
    .half 0xC000, 120,   0, -20,    0,   0,   0,  59,  39, 0, 0       ; top edge
    .half 0xC000, 200,   6, 210,    0,   0,   0,  59,  39, 0, 0       ; bottom edge
    .half 0xC000, -16,   3, -16,    0,   0,   0,  47,  47, 0, 0       ; corners
    .half 0xC000, 360,   3, -16,    0,   0,   0,  47,  47, 0, 0
    .half 0xC000, -16,   3, 200,    0,   0,   0,  47,  47, 0, 0
    .half 0xC000, 360,   3, 200,    0,   0,   0,  47,  47, 0, 0
    .half 0xC000, 383,   1,  40,    3,   0,   0,   0,   7, 0, 0       ; column 382 left, none right
    .half 0xC000,   0,   1,  40,    3,   0,   0,   0,   7, 0, 0       ; none left, column 1 right
    .half 0xC000, 100,   0,  72,  100,   0,   7,   0,  79, 0, 0       ; one column
    .half 0xC000, -60,   0, 180,    0,   0,   0,  50,  15, 0, 0       ; outside: left, right, above, below
    .half 0xC000, 400,   0, 180,    0,   0,   0,  50,  15, 0, 0
    .half 0xC000, 250,   0, -40,    0,   0,   0,  50,  15, 0, 0
    .half 0xC000, 250,   0, 224,    0,   0,   0,  50,  15, 0, 0
