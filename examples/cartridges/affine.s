; Affine worlds: turned, enlarged, made smaller, sheared and mirrored, wrapped round one and four maps, with the overplane's
; cell beyond a turned background, source parallax of both signs, and windows over the edges.

    .equ cartridge, 0x3330
    .equ rom_end,   0x07004000
    .equ parameters, 0x38000       ; 16 bytes a row

scene:
    LI maps, r7
    MOV 0, r6
    JAL pattern
    MOV 3, r6
    JAL pattern
    MOV 6, r6
    JAL pattern
    MOV 9, r6
    JAL pattern
    LI 0x2E000, r7
    LI 0x8016, r10                 ; the overplane's cell, number 0x7000
    ST.H r10, 0[r7]

; Each line of `rows` is a block of 96 rows: where row 0 starts, what each row adds to that, and the row's own step.
    LI rows, r6
    LI parameters, r7
    MOV 6, r8
block:
    LD.H 0[r6], r10                ; MX
    LD.H 2[r6], r11                ; MP
    LD.H 4[r6], r12                ; MY
    LD.H 6[r6], r13                ; DX
    LD.H 8[r6], r14                ; DY
    LD.H 10[r6], r15               ; added to MX
    LD.H 12[r6], r16               ; added to MY
    ADDI 14, r6, r6
    MOVEA 96, r0, r9
row:
    ST.H r10, 0[r7]
    ST.H r11, 2[r7]
    ST.H r12, 4[r7]
    ST.H r13, 6[r7]
    ST.H r14, 8[r7]
    ADD r15, r10
    ADD r16, r12
    ADDI 16, r7, r7
    ADD -1, r9
    BNZ row
    ADD -1, r8
    BNZ block

    LI table, r6
    MOV 9, r8
    JAL worlds
ready:
    JAL frame
    BR ready

    .align 4
; MX, MP, MY, DX, DY, then what each row adds to MX and MY. Positions in eighths, steps in 512ths of a pixel.
rows:
    .half  3200,   0,  -800,  443,  256,  -4,   7                     ; turned by 30 degrees
    .half   800,   6,   800,  256,    0,   0,   4                     ; twice as large; right eye 6 columns further
    .half     0,  -9,     0, 1024,  100,   3,  16                     ; half as large, sheared; left eye 9 further
    .half  4000,   4,  4000, -512,    0,   0,  -8                     ; from right to left and upside down
    .half -1200,  -3,  -900,  700, -300,   5,  11                     ; over the upper left edges, turned back
    .half  8000,  20,  7800,  333, -777,   9,   6
table:
    .half 0xE000,   0,   0,   0,    0,   0,   0, 191,  95, 0xC000, 0
    .half 0xE000, 192,   0,   0,    0,   0,   0, 191,  95, 0xC300, 0
    .half 0xE500,   0,   0,  96,    0,   0,   0, 127,  95, 0xC600, 0
    .half 0xE500, 128,   0,  96,    0,   0,   0, 127,  95, 0xC900, 0
    .half 0xE080, 256,   0,  96,    0,   0,   0, 127,  95, 0xCC00, 0x7000
    .half 0xE500,   8,   3, 192,    0,   0,   0, 367,  31, 0xCF00, 0
    .half 0xE000, -30,   7,  40,    0,   0,   0,  79,  23, 0xC000, 0  ; over the left edge
    .half 0xE000, 340,  -9,  60,    0,   0,   0, 200,  11, 0xC300, 0  ; over the right edge
    .half 0x0040,   0,   0,   0,    0,   0,   0,   0,   0, 0, 0
