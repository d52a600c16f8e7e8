; Short worlds: windows of fewer than eight rows, which begin at various rows of a strip, the first above the screen. Normal
; worlds in the first column, H-bias worlds in the second, affine ones in the third.

    .equ cartridge, 0x3630
    .equ rom_end,   0x07004000
    .equ hbias_rows,  0x37000      ; parameter base 0xB800
    .equ affine_rows, 0x38000      ; parameter base 0xC000

scene:
    LI maps, r7
    MOV 0, r6
    JAL pattern
; Affine rows: straight. H-bias rows: each two columns further left for the left eye, three for the right.
    LI affine_rows, r7
    LI hbias_rows, r11
    MOV 0, r8
    MOVEA 512, r0, r9
row:
    ST.H r8, 4[r7]
    ST.H r9, 6[r7]
    MOV r8, r10
    SHR 2, r10
    ST.H r10, 0[r11]
    MOV r8, r12
    SHR 3, r12
    ADD r12, r10
    ST.H r10, 2[r11]
    ADDI 16, r7, r7
    ADD 4, r11
    ADD 8, r8
    MOVEA 256, r0, r10
    CMP r10, r8
    BNZ row

; Ten heights by three kinds: n from 2 to 11, GY -3, 14, 31 and so on, H n mod 7. One of them is GY 99, H 1.
    LI world_table + 992, r7
    MOV 2, r8                      ; n
    MOV -3, r12                    ; GY
height:
    MOV 0, r9                      ; BGM
kind:
    MOV r9, r10
    SHL 12, r10
    ORI 0xC000, r10, r10
    ST.H r10, 0[r7]
    MOVEA 120, r0, r10
    MUL r9, r10
    ADDI 16, r10, r10
    ST.H r10, 2[r7]                ; GX
    ST.H r12, 6[r7]                ; GY
    MOVEA 99, r0, r10
    ST.H r10, 14[r7]               ; W
    MOV 7, r11
    MOV r8, r10
    DIVU r11, r10
    ST.H r30, 16[r7]               ; H
    MOV r9, r10
    SHL 11, r10
    ADDI -0x5000, r10, r10         ; 0xB000 + 0x800 * BGM
    ST.H r10, 18[r7]
    ADDI -32, r7, r7
    ADD 1, r9
    CMP 3, r9
    BNZ kind
    ADDI 17, r12, r12
    ADD 1, r8
    CMP 12, r8
    BNZ height
    MOVEA 0x40, r0, r10
    ST.H r10, 0[r7]
ready:
    JAL frame
    BR ready
