; Backgrounds of many maps: two by two, eight by one, one by eight; then four by four, eight by two and eight by eight, which
; are more than the eight that there may be; and bases that are not a multiple of the number of maps. Each map shows its
; number: a square on the screen shows eight by eight maps, a 64th of their size.

    .equ cartridge, 0x3830
    .equ rom_end,   0x07004000
    .equ rows,      0x38000        ; parameter base 0xC000

scene:
    LI characters + 528, r7        ; character 33: all value 3; 34: all value 1
    MOV 8, r8
    MOVEA -1, r0, r9
    MOVEA 0x5555, r0, r10
solid:
    ST.H r9, 0[r7]
    ST.H r10, 16[r7]
    ADD 2, r7
    ADD -1, r8
    BNZ solid

; Maps 0 to 11, each the picture of its number in pixels of eight by eight cells.
    LI maps, r7
    LI digits, r6
    MOVEA 96, r0, r8               ; rows of pixels
pixels:
    MOV 8, r9                      ; rows of cells
cells:
    LD.B 0[r6], r10
    MOV 8, r11                     ; pixels
pixel:
    MOV 1, r12
    AND r10, r12
    MOVEA 34, r0, r13
    SUB r12, r13                   ; character 33 or 34
    MOV 8, r12
cell:
    ST.H r13, 0[r7]
    ADD 2, r7
    ADD -1, r12
    BNZ cell
    SHR 1, r10
    ADD -1, r11
    BNZ pixel
    ADD -1, r9
    BNZ cells
    ADD 1, r6
    ADD -1, r8
    BNZ pixels

; Affine rows of 64 columns that show every 64th column of 4,096; 64 of them for as many rows.
    LI rows, r7
    MOV 0, r9
row:
    MOV 8, r10
    ST.H r10, 0[r7]                ; MX, one pixel: the steps are a little short of 64
    ST.H r9, 4[r7]                 ; MY
    LI 0x7FFF, r10
    ST.H r10, 6[r7]                ; DX
    ADDI 16, r7, r7
    ADDI 512, r9, r9
    LI 32768, r10
    CMP r10, r9
    BNZ row

    LI table, r6
    MOV 11, r8
    JAL worlds
ready:
    JAL frame
    BR ready

    .align 4
table:
    .half 0xE500,   8,   0,   8,    0,   0,   0,  63,  63, 0xC000, 0  ; 2 by 2, base 0
    .half 0xEC00,  80,   0,   8,    0,   0,   0,  63,  63, 0xC000, 0  ; 8 by 1
    .half 0xE300, 152,   0,   8,    0,   0,   0,  63,  63, 0xC000, 0  ; 1 by 8
    .half 0xE604, 224,   0,   8,    0,   0,   0,  63,  63, 0xC000, 0  ; 2 by 4 (SCX 1, SCY 2), base 4: not a multiple of 8
    .half 0xEA00, 296,   0,   8,    0,   0,   0,  63,  63, 0xC000, 0  ; 4 by 4
    .half 0xED00,   8,   0,  80,    0,   0,   0,  63,  63, 0xC000, 0  ; 8 by 2
    .half 0xEF00,  80,   0,  80,    0,   0,   0,  63,  63, 0xC000, 0  ; 8 by 8
    .half 0xE503, 152,   0,  80,    0,   0,   0,  63,  63, 0xC000, 0  ; 2 by 2, base 3
    .half 0xE407, 224,   0,  80,    0,   0,   0,  63,  63, 0xC000, 0  ; 2 by 1, base 7
    .half 0xE102, 296,   0,  80,    0,   0,   0,  63,  63, 0xC000, 0  ; 1 by 2, base 2
    .half 0x0040,   0,   0,   0,    0,   0,   0,   0,   0, 0, 0
