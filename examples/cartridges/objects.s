; Objects and their groups: flips, palettes, parallax, one eye, order, squares over every edge of the screen.

    .equ cartridge, 0x3430
    .equ rom_end,   0x07004000

scene:
    LI maps, r7
    MOV 0, r6
    JAL pattern

; 64 objects from number 32 on, group 3, in rows of 16: flips by column, palette and parallax by row.
    LI object_table + 256, r7
    MOV 0, r8
object:
    ANDI 15, r8, r9                ; column
    MOV r8, r10
    SHR 4, r10                     ; row
    MOV r9, r11
    SHL 4, r11
    ADDI 64, r11, r11
    ST.H r11, 0[r7]                ; JX
    MOV r10, r11
    SHL 2, r11
    ADD -6, r11
    ANDI 0x3FF, r11, r11
    ORI 0xC000, r11, r11
    ST.H r11, 2[r7]                ; both eyes, JP
    MOV r10, r11
    SHL 4, r11
    ADDI 80, r11, r11
    ST.H r11, 4[r7]                ; JY
    ANDI 3, r9, r11
    SHL 12, r11
    MOV r10, r12
    SHL 14, r12
    OR r12, r11
    ADDI 17, r9, r12
    OR r12, r11
    ST.H r11, 6[r7]
    ADD 8, r7
    ADD 1, r8
    MOVEA 64, r0, r9
    CMP r9, r8
    BNZ object

    LI edges, r6
    LI object_table, r7
    MOVEA 256, r0, r8
    JAL copy
    LI vip, r24
    LI 0x001B0007, r10             ; group 0: 0 to 7, group 1: 8 to 27
    ST.W r10, spt[r24]
    LI 0x005F001F, r10             ; group 2: 28 to 31, group 3: 32 to 95
    ST.W r10, spt + 4[r24]
    LI table, r6
    MOV 7, r8
    JAL worlds
ready:
    JAL frame
    BR ready

    .align 4
; JX, eyes and JP, JY, palette, flips and character. 0 to 7: one over the other, object 0 in front.
edges:
    .half 100, 0xC000, 160, 0x0011, 103, 0xC000, 162, 0x4012, 106, 0xC000, 164, 0x8013, 109, 0xC000, 166, 0xC014
    .half 112, 0xC002, 168, 0x1015, 115, 0xC004, 170, 0x2016, 118, 0xC3FE, 172, 0x3017, 121, 0xC3FC, 174, 0x0018
; 8 to 27: over the edges and corners; one eye alone; rows counted round from 255 to 0.
    .half  -3, 0xC000,  40, 0x0011, 381, 0xC000,  40, 0x4012, 200, 0xC000, 252, 0x8013, 200, 0xC000, 220, 0xC014
    .half  -4, 0xC000, 253, 0x0015, 380, 0xC000, 253, 0x0016,  -4, 0xC000, 220, 0x0017, 380, 0xC000, 220, 0x0018
    .half   0, 0xC006, 100, 0x0019, 383, 0xC006, 100, 0x001A,   2, 0xC3F8, 120, 0x001B, 376, 0xC3F8, 120, 0x001C
    .half 150, 0x8000,  20, 0x001D, 170, 0x4000,  20, 0x001E, 190, 0x0000,  20, 0x001F, 210, 0xC00A,  20, 0x0020
    .half  -8, 0xC000,  60, 0x0011, 384, 0xC000,  60, 0x0011, 230, 0xC000, 224, 0x0011, 230, 0xC000, 248, 0x0011
; 28 to 31: behind a window, seen through it where the window is transparent.
    .half  40, 0xC000,  24, 0x0011,  60, 0xC000,  24, 0x0012,  80, 0xC000,  24, 0x0013, 100, 0xC000,  24, 0x0014
table:
    .half 0xC000, 200,   0, 140,    0,   0,   0,  95,  55, 0, 0
    .half 0xF000,   0,   0,   0,    0,   0,   0,   0,   0, 0, 0       ; group 3
    .half 0xF000,   0,   0,   0,    0,   0,   0,   0,   0, 0, 0       ; group 2
    .half 0xC000,  48,   0,  16,    0,   0,   0,  39,  23, 0, 0       ; over group 2, under group 1
    .half 0xF000,   0,   0,   0,    0,   0,   0,   0,   0, 0, 0       ; group 1
    .half 0xF000,   0,   0,   0,    0,   0,   0,   0,   0, 0, 0       ; group 0
    .half 0x0040,   0,   0,   0,    0,   0,   0,   0,   0, 0, 0
