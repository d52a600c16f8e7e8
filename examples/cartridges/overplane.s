; Where the overplane's cell is used. Upper row: normal worlds whose source lies beyond the background by less and by more
; than 4,096 pixels, also by MP. Middle row: H-bias worlds the same by their offsets. Lower row: affine rows that lie whole
; above, below and beside the background, straight and sheared.

    .equ cartridge, 0x3930
    .equ rom_end,   0x07004000
    .equ hbias_rows,  0x37000      ; parameter base 0xB800
    .equ affine_rows, 0x38000      ; parameter base 0xC000, a block of 48 rows for each world

scene:
    LI maps, r7
    MOV 0, r6
    JAL pattern
    LI 0x2E000, r7                 ; the overplane's cell, number 0x7000
    LI 0x401B, r10
    ST.H r10, 0[r7]

    LI hbias_rows, r7              ; 48 rows: offsets of 4,000 and -4,000
    MOVEA 48, r0, r8
    MOVEA 4000, r0, r9
    MOVEA -4000, r0, r10
hbias_row:
    ST.H r9, 0[r7]
    ST.H r10, 2[r7]
    ADD 4, r7
    ADD -1, r8
    BNZ hbias_row

    LI rows, r6
    LI affine_rows, r7
    MOV 5, r8
block:
    MOVEA 48, r0, r9
    LD.H 2[r6], r11                ; MY
affine_row:
    LD.H 0[r6], r10
    ST.H r10, 0[r7]                ; MX
    ST.H r11, 4[r7]
    MOVEA 512, r0, r10
    ST.H r10, 6[r7]                ; DX
    LD.H 4[r6], r10
    ST.H r10, 8[r7]                ; DY
    ADD 8, r11
    ADDI 16, r7, r7
    ADD -1, r9
    BNZ affine_row
    ADD 6, r6
    ADD -1, r8
    BNZ block

    LI table, r6
    MOV 14, r8
    JAL worlds
ready:
    JAL frame
    BR ready

    .align 4
; MX, MY in eighths, DY
rows:
    .half -2560,     0,    0       ; 320 columns to the left
    .half     0, -2560,    0       ; 320 rows above
    .half     0, -2560,    1       ; the same, sheared by very little
    .half     0,  3904,    0       ; over the lower edge in the middle of the window
    .half     0,  3904,    1
; Flags, GX, GP, GY, MX, MP, MY, W, H, parameter base, overplane.
table:
    .half 0xC080,   8,   0,   8,  -32,    0,   0,  63,  47, 0, 0x7000
    .half 0xC080,  80,   0,   8, 4064,    0,   0,  63,  47, 0, 0x7000 ; to 4,127
    .half 0xC080, 152,   0,   8,-4096,    0,   0,  63,  47, 0, 0x7000
    .half 0xC080, 224,   0,   8,    0, 8192,   0,  63,  47, 0, 0x7000 ; MP takes both eyes 8,192 away
    .half 0xC080, 296,   0,   8,    0,    0,4072,  63,  47, 0, 0x7000 ; rows to 4,119
    .half 0xD080,   8,   0,  72,    0,    0,   0,  63,  47, 0xB800, 0x7000
    .half 0xD080,  80,   0,  72, 4000,    0,   0,  63,  47, 0xB800, 0x7000 ; 8,000 left, 0 right
    .half 0xD080, 152,   0,  72,-4095,    0,   0,  63,  47, 0xB800, 0x7000
    .half 0xE080,   8,   0, 136,    0,    0,   0,  63,  47, 0xC000, 0x7000
    .half 0xE080,  80,   0, 136,    0,    0,   0,  63,  47, 0xC180, 0x7000
    .half 0xE080, 152,   0, 136,    0,    0,   0,  63,  47, 0xC300, 0x7000
    .half 0xE080, 224,   0, 136,    0,    0,   0,  63,  47, 0xC480, 0x7000
    .half 0xE080, 296,   0, 136,    0,    0,   0,  63,  47, 0xC600, 0x7000
    .half 0x0040,   0,   0,   0,    0,    0,   0,   0,   0, 0, 0
