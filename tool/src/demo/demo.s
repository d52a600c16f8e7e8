; The demo: a pier by night. It fills characters, background maps, worlds of all four kinds, their parameters and
; objects, then halts for each frame, as a program of this console waits for its frame interrupt.
; After the interrupt it goes on with the next frame: the pier, the sea, the ball and the boat have moved, and the moon
; has turned. The moon's turn and the pier's distances are worked out by floating instructions.

    .equ vram_maps,   0x20000
    .equ sky_map,     0x20000
    .equ moon_map,    0x22000
    .equ sea_map,     0x24000
    .equ range_map,   0x26000
    .equ pier_map,    0x28000      ; two maps, one above the other
    .equ text_map,    0x2C000
    .equ pier_rows,   0x38000      ; parameters, 16 bytes a row
    .equ title_rows,  0x39000
    .equ moon_rows,   0x39800
    .equ sea_rows,    0x3A000      ; parameters, 4 bytes a row
    .equ blank_cell,  0x3B000      ; the overplane's cell
    .equ world_table, 0x3D800
    .equ objects,     0x3E000
    .equ vip,         0x5F800      ; SPT0 at +0x48, GPLT0 at +0x60, JPLT0 at +0x68
    .equ vip_mirror,  0xDF800      ; the same registers: the VIP repeats every 0x80000
    .equ characters_mirror, 0xF8000 ; the character mirror of that repetition
    .equ wram,        0x05000000
    .equ wram_mirror, 0x05AB0000
    .equ horizon,     112

start:
    LDSR r0, 5                     ; PSW: leaves the reset's NP state, and lets interrupts in
    JR fill

; r8 bytes, a multiple of 4, from r6 to r7.
copy:
    LD.W 0[r6], r10
    ST.W r10, 0[r7]
    ADD 4, r6
    ADD 4, r7
    ADD -4, r8
    BNZ copy
    JMP [r31]

; r8 bytes of zeros, a multiple of 4, from r7 on.
clear:
    ST.W r0, 0[r7]
    ADD 4, r7
    ADD -4, r8
    BNZ clear
    JMP [r31]

; r9 rows of r8 cells from r6 into the map at r7.
place:
    MOV r8, r11
    MOV r7, r12
place_cell:
    LD.H 0[r6], r10
    ST.H r10, 0[r12]
    ADD 2, r6
    ADD 2, r12
    ADD -1, r11
    BNZ place_cell
    ADDI 128, r7, r7
    ADD -1, r9
    BNZ place
    JMP [r31]

; Objects of r10 columns by r11 rows from (r6, r8): eyes and parallax r7, the first attribute r9, then one more each.
grid:
    MOV r6, r12
    MOV r10, r13
grid_object:
    ST.H r12, 0[r20]
    ST.H r7, 2[r20]
    ST.H r8, 4[r20]
    ST.H r9, 6[r20]
    ADD 8, r20
    ADD 8, r12
    ADD 1, r9
    ADD -1, r13
    BNZ grid_object
    ADD 8, r8
    ADD -1, r11
    BNZ grid
    JMP [r31]

; r10 is the number of the last object written.
last_object:
    LI objects + 8, r11
    MOV r20, r10
    SUB r11, r10
    SHR 3, r10
    JMP [r31]

; What stays the same in every frame.
fill:
    LI vram_maps, r7
    LI 0x20000, r8
    JAL clear
    LI characters, r6
    LI characters_mirror, r7
    LI characters_size, r8
    JAL copy
    LI wave, r6
    LI wram_mirror, r7
    LI wave_size, r8
    JAL copy
    LI moon_cells, r6
    LI moon_map, r7
    MOV 8, r8
    MOV 8, r9
    JAL place
    LI sea_cells, r6
    LI sea_map, r7
    MOVEA 64, r0, r8
    MOV 14, r9
    JAL place
    LI range_cells, r6
    LI range_map, r7
    MOVEA 64, r0, r8
    MOV 4, r9
    JAL place
    LI title_cells, r6
    LI text_map, r7
    MOV 11, r8
    MOV 1, r9
    JAL place
    LI subtitle_cells, r6
    LI text_map + 256, r7
    MOV 15, r8
    MOV 1, r9
    JAL place

; 700 stars at random cells, of eight kinds: r10 = r10 * 1103515245 + 12345.
    MOVEA 700, r0, r8
    LI 20261115, r10
    LI 1103515245, r11
    LI sky_map, r7
    LI 8190, r14
star:
    MULU r11, r10
    ADDI 12345, r10, r10
    MOV r10, r12
    SHR 15, r12
    AND r14, r12
    ADD r7, r12
    MOV r10, r13
    SHR 29, r13
    ADDI first_star, r13, r13
    ST.H r13, 0[r12]
    ADD -1, r8
    BNZ star

; The pier's 128 rows of 64 cells: squares of eight by eight cells in two palettes, edges at both sides.
    LI pier_map, r7
    MOV 0, r8
pier_line:
    MOV 0, r9
pier_cell:
    MOV r8, r10
    XOR r9, r10
    ANDI 8, r10, r10
    SHL 11, r10                    ; bit 3 to bit 14: palette 0 or 1
    MOV r9, r11
    ADD 1, r11
    ANDI 63, r11, r11
    CMP 1, r11
    BH pier_plank
    MOVEA first_plank + 1, r0, r10
    BR pier_store
pier_plank:
    ADDI first_plank, r10, r10
pier_store:
    ST.H r10, 0[r7]
    ADD 2, r7
    ADD 1, r9
    MOVEA 64, r0, r11
    CMP r11, r9
    BNZ pier_cell
    ADD 1, r8
    MOVEA 128, r0, r11
    CMP r11, r8
    BNZ pier_line

; The title, twice its size: 16 rows, each half a row further down, steps of half a column.
    LI title_rows, r7
    MOV 0, r8
    MOVEA 256, r0, r9
title_row:
    ST.H r0, 0[r7]
    ST.H r0, 2[r7]
    ST.H r8, 4[r7]
    ST.H r9, 6[r7]
    ST.H r0, 8[r7]
    ADDI 16, r7, r7
    ADD 4, r8
    MOVEA 64, r0, r10
    CMP r10, r8
    BNZ title_row

    LI blank_cell, r7
    ST.H r0, 0[r7]

; Worlds 31 down to 21, from the table: 11 halfwords each.
    LI worlds, r6
    LI world_table + 992, r7
    MOV 11, r8
world:
    MOV 11, r9
    MOV r7, r10
world_half:
    IN.H 0[r6], r11
    OUT.H r11, 0[r10]
    ADD 2, r6
    ADD 2, r10
    ADD -1, r9
    BNZ world_half
    ADDI -32, r7, r7
    ADD -1, r8
    BNZ world

; Palettes: two background palettes by one word, the object palettes by bytes, the background colour by the mirror.
    LI vip, r24
    LI 0x009400E4, r10             ; GPLT0 straight; GPLT1 one shade darker
    ST.W r10, 0x60[r24]
    MOVEA 0xE4, r0, r10
    ST.H r10, 0x64[r24]
    ST.H r10, 0x66[r24]
    ST.B r10, 0x68[r24]            ; JPLT0 straight
    MOVEA 0xE0, r0, r10
    ST.B r10, 0x6B[r24]            ; JPLT1: value 1 is black
    MOVEA 0xE4, r0, r10
    OUT.B r10, 0x6C[r24]
    OUT.H r10, 0x6E[r24]
    LI vip_mirror, r25
    ST.H r0, 0x70[r25]             ; BKCOL black
    LI wram, r23
    ST.W r0, 0x100[r23]            ; the frame's number
    MOV 1, r10
    CVT.WS r10, r10
    ST.W r10, 0x104[r23]           ; the moon's turn: cosine 1, sine 0
    ST.W r0, 0x108[r23]

; What moves. r21 is the frame's number, read through a mirror of WRAM.
frame:
    LI wram_mirror, r10
    LD.W 0x100[r10], r21

; The pier: 102 rows from 10 below the horizon on, d rows below it.
;   step  DX = 150 * 512 / d            source x  MX = 8 * 256 - 192 * 8 * DX / 512
;   source y  MY = 8 * (1174 - 24 * frame) - 8 * 18000 / d      parallax  MP = 22 * d / 111 - 12
    LI pier_rows, r7
    MOV 10, r8
    MOVEA 192, r0, r15
    MULU r21, r15
    LI 9392, r14
    SUB r15, r14
    LI 76800, r15
    LI 144000, r16
    CVT.WS r16, r16
    MOVEA 203, r0, r17
pier_row:
    MOV r15, r10
    DIV r8, r10                    ; DX
    ST.H r10, 6[r7]
    MOV r10, r11
    SHL 1, r11
    ADD r10, r11
    MOVEA 2048, r0, r12
    SUB r11, r12
    ST.H r12, 0[r7]                ; MX
    CVT.WS r8, r13
    MOV r16, r11
    DIVF.S r13, r11
    TRNC.SW r11, r11
    MOV r14, r12
    SUB r11, r12
    ST.H r12, 4[r7]                ; MY
    MOV r8, r11
    MUL r17, r11
    SAR 10, r11
    ADD -12, r11
    ST.H r11, 2[r7]                ; MP
    ST.H r0, 8[r7]                 ; DY
    ADDI 16, r7, r7
    ADD 1, r8
    MOVEA 112, r0, r11
    CMP r11, r8
    BNZ pier_row

; The moon: with each frame it turns by the angle whose cosine is 12/13 and whose sine is 5/13, about 22.6 degrees.
    MOV 13, r10
    CVT.WS r10, r10
    MOV 12, r11
    CVT.WS r11, r11
    DIVF.S r10, r11
    MOV 5, r12
    CVT.WS r12, r12
    DIVF.S r10, r12
    LD.W 0x104[r23], r13
    LD.W 0x108[r23], r14
    MOV r13, r15
    MULF.S r11, r15
    MOV r14, r16
    MULF.S r12, r16
    SUBF.S r16, r15                ; cosine c
    MULF.S r12, r13
    MULF.S r11, r14
    ADDF.S r13, r14                ; sine s
    ST.W r15, 0x104[r23]
    ST.W r14, 0x108[r23]

; Its 64 rows of 64 columns, turned about their middle:
;   step  DX = 512 * c, DY = 512 * s
;   source  MX = 256 - 252 * c - (8 * j - 252) * s      MY = 256 - 252 * s + (8 * j - 252) * c      each the nearest
    MOVEA 512, r0, r10
    CVT.WS r10, r10
    MOV r15, r17
    MULF.S r10, r17
    CVT.SW r17, r17                ; DX
    MULF.S r14, r10
    CVT.SW r10, r18                ; DY
    MOVEA 252, r0, r9
    CVT.WS r9, r9
    MOVEA 256, r0, r19
    CVT.WS r19, r19
    MOV r19, r20
    MOV r9, r10
    MULF.S r15, r10
    SUBF.S r10, r19                ; 256 - 252 * c
    MULF.S r14, r9
    SUBF.S r9, r20                 ; 256 - 252 * s
    LI moon_rows, r7
    MOVEA -252, r0, r8
moon_row:
    CVT.WS r8, r9
    MOV r9, r10
    MULF.S r14, r10
    MOV r19, r11
    SUBF.S r10, r11
    CVT.SW r11, r11
    ST.H r11, 0[r7]                ; MX
    ST.H r0, 2[r7]                 ; MP
    MULF.S r15, r9
    ADDF.S r20, r9
    CVT.SW r9, r9
    ST.H r9, 4[r7]                 ; MY
    ST.H r17, 6[r7]
    ST.H r18, 8[r7]
    ADDI 16, r7, r7
    ADD 8, r8
    MOVEA 260, r0, r10
    CMP r10, r8
    BNZ moon_row

; The sea: 112 rows, j below the horizon. Waves of 1 + j / 14 columns; t = 12 - 17 * j / 128 columns between the eyes.
    LI sea_rows, r7
    MOV 0, r8
    MOV 14, r18
sea_row:
    MOVEA 1600, r0, r10
    MOV r8, r11
    ADDI 16, r11, r11
    DIVU r11, r10                  ; narrower towards the horizon
    MOV r21, r11
    SHL 3, r11
    ADD r11, r10
    ANDI 31, r10, r10
    ADD r23, r10
    LD.B 0[r10], r10               ; the wave, -64 to 64
    MOV r8, r11
    DIVU r18, r11
    ADD 1, r11
    MUL r11, r10
    SAR 6, r10
    MOV r8, r11
    SHL 4, r11
    ADD r8, r11
    SHR 7, r11
    MOV 12, r12
    SUB r11, r12                   ; t
    MOV r12, r13
    SAR 1, r13
    SUB r13, r12                   ; t / 2 to either side
    MOV r10, r11
    ADD r13, r11
    ST.H r11, 0[r7]
    SUB r12, r10
    ST.H r10, 2[r7]
    ADD 4, r7
    ADD 1, r8
    MOVEA 112, r0, r11
    CMP r11, r8
    BNZ sea_row

; The objects, from number 1 on. Group 1: the ball, each eye its own view of it, over its shadow.
    LI objects, r20
    ST.W r0, 0[r20]                ; object 0, alone in group 0: shown to no eye
    ST.W r0, 4[r20]
    ADD 8, r20
    MOV r21, r22
    ANDI 1, r22, r22
    SHL 7, r22                     ; 128 characters for each view
    MOVEA 160, r0, r6
    MOVEA 0x83FD, r0, r7           ; left eye, JP -3
    MOVEA 92, r0, r8
    MOV r21, r10
    SHL 2, r10
    ADD r10, r8
    MOV r8, r19
    ADDI first_ball, r22, r9
    MOV 8, r10
    MOV 8, r11
    JAL grid
    MOVEA 0x43FD, r0, r7           ; right eye
    MOV r19, r8
    MOV 8, r10
    MOV 8, r11
    JAL grid
    MOVEA 0xC3FD, r0, r7
    MOVEA 190, r0, r8
    LI 0x4000 + first_shadow, r9   ; JPLT1
    MOV 8, r10
    MOV 2, r11
    JAL grid
    JAL last_object
    ST.H r0, 0x48[r24]             ; SPT0
    ST.H r10, 0x4A[r24]            ; SPT1

; Group 2: posts on both sides of the pier, the nearest first (in front). Table: d, pieces.
;   to the side 256 * d / 150, JP = 6 - 11 * d / 111
    LI posts, r14
post:
    LD.H 0[r14], r15
    CMP 0, r15
    BZ posts_done
    LD.H 2[r14], r16
    ADD 4, r14
    MOVEA 437, r0, r17
    MUL r15, r17
    SAR 8, r17
    MOVEA 101, r0, r18
    MUL r15, r18
    SAR 10, r18
    MOV 6, r7
    SUB r18, r7
    ANDI 0x3FF, r7, r7
    ORI 0xC000, r7, r7
    ADDI horizon + 2, r15, r8      ; the post's foot
    MOV r16, r10
    SHL 3, r10
    SUB r10, r8
    MOVEA 188, r0, r6
    SUB r17, r6
    MOV r6, r18
    MOVEA 188, r0, r19
    ADD r17, r19
    MOVEA first_post + 1, r0, r9   ; the lamp on top
post_piece:
    MOV 1, r10
    MOV 1, r11
    MOV r18, r6
    JAL grid
    ADD -1, r9
    ADD -8, r8
    MOV 1, r10
    MOV 1, r11
    MOV r19, r6
    JAL grid
    MOVEA first_post, r0, r9
    ADD -1, r16
    BNZ post_piece
    BR post
posts_done:
    JAL last_object
    ST.H r10, 0x4C[r24]            ; SPT2

; Group 3: the boat, and gulls of two halves, the second flipped.
    MOVEA 62, r0, r6
    MOV r21, r10
    SHL 2, r10
    ADD r10, r6
    MOVEA 0xC004, r0, r7
    MOVEA 104, r0, r8
    MOVEA first_boat, r0, r9
    MOV 3, r10
    MOV 4, r11
    JAL grid
    LI gulls, r14
gull:
    LD.H 0[r14], r6
    CMP 0, r6
    BZ gulls_done
    LD.H 2[r14], r8
    LD.H 4[r14], r7
    SUB r21, r8
    MOVEA first_wing, r0, r9
    MOV 1, r10
    MOV 1, r11
    JAL grid
    ADD 8, r6
    ADD -8, r8
    LI 0x2000 + first_wing, r9
    MOV 1, r10
    MOV 1, r11
    JAL grid
    ADD 6, r14
    BR gull
gulls_done:
    JAL last_object
    ST.H r10, 0x4E[r24]            ; SPT3

    HALT                           ; the frame is ready to be drawn
    ADD 1, r21
    ST.W r21, 0x100[r23]
    JR frame

    .align 4
; Flags, GX, GP, GY, MX, MP, MY, W, H, parameter base, overplane; world 31, the furthest, first.
worlds:
    .half 0xC000,   0,  0,   0,   0, -7,  0, 383, 111, 0, 0           ; normal: the sky
    .half 0xE081, 276,  6,   8,   0,  0,  0,  63,  63, 0xCC00, 0xD800 ; affine: the moon
    .half 0xC003,   0,  0,  80,  64, -6,  0, 383,  31, 0, 0           ; normal: the mountains
    .half 0xD002,   0,  0, 112,  64,  0,  0, 383, 111, 0xD000, 0      ; H-bias: the sea
    .half 0xF000,   0,  0,   0,   0,  0,  0,   0,   0, 0, 0           ; objects: boat and gulls
    .half 0xE184,   0,  0, 122,   0,  0,  0, 383, 101, 0xC000, 0xD800 ; affine: the pier
    .half 0xF000,   0,  0,   0,   0,  0,  0,   0,   0, 0, 0           ; objects: posts
    .half 0xF000,   0,  0,   0,   0,  0,  0,   0,   0, 0, 0           ; objects: ball and shadow
    .half 0xE086,  14, -3,  14,   0,  0,  0, 175,  15, 0xC800, 0xD800 ; affine: the title
    .half 0xC006,  17, -2,  34,   0,  0, 16, 119,   7, 0, 0           ; normal: the line below it
    .half 0x0040,   0,  0,   0,   0,  0,  0,   0,   0, 0, 0           ; END
; Rows below the horizon, pieces high.
posts:
    .half 104, 6, 74, 4, 54, 3, 39, 2, 28, 2, 0
; Column, row, eyes and parallax.
gulls:
    .half 214, 40, 0xC3FC, 236, 54, 0xC3FE, 196, 62, 0xC000, 0
    .align 4
wave:
    .bytes wave
moon_cells:
    .bytes moon
sea_cells:
    .bytes sea
range_cells:
    .bytes range
title_cells:
    .bytes title
subtitle_cells:
    .bytes subtitle
    .align 4
characters:
    .bytes characters

; The header, the handlers (each stops where it is) and the reset.
    .org 0x0700FDE0
    .bytes header
; The VIP's interrupt, at 0xFFFFFE40: acknowledged, as a program of this console does; then on after the HALT.
    .org 0x0700FE40
    MOVEA 0xFFFF, r0, r26
    ST.H r26, 4[r24]               ; INTCLR
    RETI
    .org 0x0700FF60
floating:
    BR floating
    .org 0x0700FF80
zero_divisor:
    BR zero_divisor
    .org 0x0700FF90
illegal:
    BR illegal
    .org 0x0700FFA0
trap_low:
    BR trap_low
    .org 0x0700FFB0
trap_high:
    BR trap_high
    .org 0x0700FFD0
duplexed:
    BR duplexed
    .org 0x0700FFF0
reset:
    LI start, r1
    JMP [r1]
    .org 0x07010000
