; One picture: a wall of bricks in a world, and a ball in front of it.

    .equ characters, 0x78000       ; character c is at characters + 16 * c
    .equ map_0,      0x20000
    .equ worlds,     0x3D800       ; world n is at worlds + 32 * n
    .equ objects,    0x3E000       ; object n is at objects + 8 * n
    .equ registers,  0x5F800       ; the VIP's registers, from here on

start:
    LDSR r0, 5                     ; PSW is 0: after reset NP is set

    LI pictures, r6                ; characters 1 and 2
    LI characters + 16 * 1, r7
    MOV 8, r8                      ; words
    JAL copy

    LI map_0, r7                   ; every cell of map 0 is character 1
    LI 0x00010001, r10             ; two cells
    LI 64 * 64 / 2, r8
fill:
    ST.W r10, 0[r7]
    ADD 4, r7
    ADD -1, r8
    BNZ fill

    LI world_table, r6             ; worlds 29 to 31
    LI worlds + 32 * 29, r7
    LI 3 * 8, r8
    JAL copy

    LI ball, r6                    ; object 1
    LI objects + 8 * 1, r7
    MOV 2, r8
    JAL copy

    LI registers, r7
    MOV 1, r10                     ; group 3 is object 1 alone:
    ST.H r0, 0x4C[r7]              ; SPT2, the last object of group 2
    ST.H r10, 0x4E[r7]             ; SPT3
    LI 0xE4, r10                   ; values 1, 2, 3 have shades 1, 2, 3
    ST.H r10, 0x60[r7]             ; GPLT0
    ST.H r10, 0x68[r7]             ; JPLT0
    ST.H r0, 0x70[r7]              ; BKCOL: dark
ready:
    HALT                           ; the frame is drawn here
    BR ready

; Copies r8 words from r6 to r7.
copy:
    LD.W 0[r6], r10
    ST.W r10, 0[r7]
    ADD 4, r6
    ADD 4, r7
    ADD -1, r8
    BNZ copy
    JMP [r31]

    .align 4
; A character has eight rows; of a row the two lowest bits are the left pixel.
pictures:
    .half 0x5555, 0x5A95, 0x5A95, 0x5A95, 0x5555, 0x955A, 0x955A, 0x955A   ; a brick
    .half 0x0FF0, 0x3FFC, 0xFEBF, 0xFEBF, 0xFFFF, 0xFFFF, 0x3FFC, 0x0FF0   ; a ball

; Flags, GX, GP, GY, MX, MP, MY, W, H, parameters, overplane, and five that the chip uses.
world_table:
    .half 0x0040, 0, 0, 0, 0, 0, 0, 0, 0, 0, 0, 0, 0, 0, 0, 0              ; 29: END
    .half 0xF000, 0, 0, 0, 0, 0, 0, 0, 0, 0, 0, 0, 0, 0, 0, 0              ; 30: objects of group 3
    .half 0xC000, 64, 0, 48, 0, 0, 0, 255, 127, 0, 0, 0, 0, 0, 0, 0        ; 31: normal, map 0

; JX, shown to both eyes with a parallax of 3, JY, palette 0 and character 2.
ball:
    .half 188, 0xC003, 108, 2

    .org 0x070003F0                ; reset
    JR start
    .org 0x07000400                ; a ROM of 1,024 bytes
