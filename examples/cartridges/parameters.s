; Parameter bases: multiples of 16, of 8, of 2, and odd ones, for H-bias worlds (upper rows) and affine worlds (lower rows);
; and H-bias offsets whose upper three bits are set.

    .equ cartridge, 0x3232
    .equ rom_end,   0x07004000
    .equ hbias_rows,  0x37000      ; parameter base 0xB800
    .equ affine_rows, 0x38000      ; parameter base 0xC000

scene:
    LI maps, r7
    MOV 0, r6
    JAL pattern
    LI hbias_rows, r7              ; halfword k is 3 * (k mod 16); from halfword 128 on with the upper bits set
    MOV 0, r8
hbias:
    ANDI 15, r8, r9
    MOV r9, r10
    SHL 1, r10
    ADD r10, r9
    MOVEA 128, r0, r10
    CMP r10, r8
    BLT plain
    ORI 0xA000, r9, r9
plain:
    ST.H r9, 0[r7]
    ADD 2, r7
    ADD 1, r8
    MOVEA 256, r0, r10
    CMP r10, r8
    BNZ hbias

; Affine rows in which every halfword is 512, so that they mean the same at every base: step 1 both ways from (64, 64).
    LI affine_rows, r7
    LI 0x02000200, r8
    MOVEA 256, r0, r9
affine:
    ST.W r8, 0[r7]
    ADD 4, r7
    ADD -1, r9
    BNZ affine
    LI affine_rows + 256, r7       ; in rows 16 on each halfword of a row differs: MX 8 * row, MP 0, MY, DX 1, DY 0
    MOVEA 16, r0, r9
    MOV 0, r10
step:
    ST.H r10, 0[r7]
    ST.H r0, 2[r7]
    ST.H r10, 4[r7]
    MOVEA 512, r0, r11
    ST.H r11, 6[r7]
    ST.H r0, 8[r7]
    ADDI 24, r10, r10
    ADDI 16, r7, r7
    ADD -1, r9
    BNZ step

    LI table, r6
    MOV 11, r8
    JAL worlds
ready:
    JAL frame
    BR ready

    .align 4
; Flags, GX, GP, GY, MX, MP, MY, W, H, parameter base, overplane.
table:
    .half 0xD000,  16,   0,   8,    0,   0,   0,  95,  15, 0xB800, 0
    .half 0xD000, 144,   0,   8,    0,   0,   0,  95,  15, 0xB808, 0
    .half 0xD000, 272,   0,   8,    0,   0,   0,  95,  15, 0xB802, 0
    .half 0xD000,  16,   0,  40,    0,   0,   0,  95,  15, 0xB801, 0  ; odd
    .half 0xD000, 144,   0,  40,    0,   0,   0,  95,  15, 0xB80F, 0
    .half 0xD000, 272,   0,  40,    0,   0,   0,  95,  15, 0xB880, 0  ; upper bits
    .half 0xE000,  16,   0,  80,    0,   0,   0,  95,  15, 0xC000, 0
    .half 0xE000, 144,   0,  80,    0,   0,   0,  95,  15, 0xC003, 0
    .half 0xE000, 272,   0,  80,    0,   0,   0,  95,  15, 0xC080, 0
    .half 0xE000,  16,   0, 112,    0,   0,   0,  95,  15, 0xC088, 0  ; a row further on
    .half 0x0040,   0,   0,   0,    0,   0,   0,   0,   0, 0, 0
