; Random scenes, another one in each frame: 20 background worlds of all three kinds and four object worlds over random
; characters, maps, parameters and objects. They keep to what the specification and the console's games agree on: eight rows or more,
; at most eight maps from a base that is a multiple, parameter bases that are multiples of 16, parallax within nine bits.

    .equ cartridge, 0x3332
    .equ rom_end,   0x07004000
    .equ rows,      0x38000        ; parameter base 0xC000, 1,408 rows of 16 bytes
    .equ rows_end,  0x3D800

scene:
    LI 20261117, r25               ; the random number so far
    LI 1103515245, r24
    LI characters, r14             ; 512 characters
    LI characters + 0x2000, r15
character:
    JAL random
    ST.H r10, 0[r14]
    ADD 2, r14
    CMP r15, r14
    BNZ character

    LI maps, r14                   ; eight maps
    LI maps + 0x10000, r15
cell:
    JAL random
    ANDI 0xF1FF, r10, r10
    ST.H r10, 0[r14]
    ADD 2, r14
    CMP r15, r14
    BNZ cell

    LI rows, r14
    LI rows_end, r15
row:
    JAL random
    ST.H r10, 0[r14]               ; MX
    MOV 6, r16
    JAL signed
    ST.H r10, 2[r14]               ; MP
    JAL random
    ST.H r10, 4[r14]               ; MY
    MOVEA 12, r0, r16
    JAL signed
    ST.H r10, 6[r14]               ; DX
    JAL signed
    ORI 1, r10, r10                ; never 0
    ST.H r10, 8[r14]               ; DY
    JAL random
    ST.H r10, 10[r14]
    JAL random
    ST.H r10, 12[r14]
    JAL random
    ST.H r10, 14[r14]
    ADDI 16, r14, r14
    CMP r15, r14
    BNZ row

    LI vip, r10                    ; groups of 64 objects
    LI 0x007F003F, r11
    ST.W r11, spt[r10]
    LI 0x00FF00BF, r11
    ST.W r11, spt + 4[r10]
    LI world_table + 224, r10
    MOVEA 0x40, r0, r11
    ST.H r11, 0[r10]               ; world 7: END

next:
    LI world_table + 992, r14
    LI world_table + 224, r15
    MOV 5, r17                     ; background worlds before the next object world
world:
    ADD -1, r17
    BN object_world
    JAL random
    ANDI 15, r10, r11
    SHL 1, r11
    LI backgrounds, r12
    ADD r12, r11
    LD.H 0[r11], r18               ; SCX, SCY, base
    SHR 4, r10
    ANDI 3, r10, r11
    BZ normal
    CMP 3, r11
    BZ normal
    SHL 12, r11
    OR r11, r18                    ; H-bias or affine
normal:
    MOV r10, r12
    SHR 2, r12
    ANDI 3, r12, r12
    SHL 1, r12
    LI eyes, r13
    ADD r13, r12
    LD.H 0[r12], r12
    OR r12, r18
    ANDI 0x1000, r18, r12
    BNZ no_overplane               ; an H-bias world has none here
    ANDI 0x10, r10, r12
    SHL 3, r12
    OR r12, r18                    ; OVER
no_overplane:
    ST.H r18, 0[r14]
    MOVEA 9, r0, r16
    JAL signed
    ADDI 192, r10, r10
    ST.H r10, 2[r14]               ; GX, -64 to 447
    MOV 6, r16
    JAL signed
    ST.H r10, 4[r14]               ; GP
    JAL random
    ANDI 0xFF, r10, r10
    ADDI -32, r10, r10
    ST.H r10, 6[r14]               ; GY
    MOVEA 11, r0, r16
    JAL signed
    ST.H r10, 8[r14]               ; MX
    MOVEA 9, r0, r16
    JAL signed
    ST.H r10, 10[r14]              ; MP
    MOVEA 11, r0, r16
    JAL signed
    ST.H r10, 12[r14]              ; MY
    JAL random
    ANDI 0x7F, r10, r10
    ST.H r10, 14[r14]              ; W
    JAL random
    ANDI 0x3F, r10, r10
    ADD 7, r10
    ST.H r10, 16[r14]              ; H, 7 to 70
    JAL random
    ANDI 0x1FF0, r10, r10
    ORI 0xC000, r10, r10
    ST.H r10, 18[r14]              ; parameter base
    JAL random
    ANDI 0x7FFF, r10, r10
    ST.H r10, 20[r14]              ; overplane
    BR world_done
object_world:
    MOV 5, r17
    LI 0xF000, r10
    ST.H r10, 0[r14]
world_done:
    ADDI -32, r14, r14
    CMP r15, r14
    BZ objects
    JR world

objects:
    LI object_table, r14
    LI object_table + 2048, r15
object:
    MOVEA 9, r0, r16
    JAL signed
    ADDI 192, r10, r10
    ST.H r10, 0[r14]               ; JX
    MOV 6, r16
    JAL signed
    ANDI 0x3FF, r10, r11
    JAL random
    ANDI 0xC000, r10, r10
    OR r11, r10
    ST.H r10, 2[r14]               ; eyes, JP
    JAL random
    ANDI 0xFF, r10, r10
    ST.H r10, 4[r14]               ; JY
    JAL random
    ANDI 0xF1FF, r10, r10
    ST.H r10, 6[r14]
    ADD 8, r14
    CMP r15, r14
    BNZ object
    JAL frame
    JR next

; r10: 16 random bits.
random:
    MULU r24, r25
    ADDI 12345, r25, r25
    MOV r25, r10
    SHR 16, r10
    JMP [r31]

; r10: a random number of r16 bits, with a sign.
signed:
    MULU r24, r25
    ADDI 12345, r25, r25
    MOV r25, r10
    MOVEA 32, r0, r9
    SUB r16, r9
    SAR r9, r10
    JMP [r31]

    .align 4
; SCX, SCY and base: one, two, four and eight maps.
backgrounds:
    .half 0x0000, 0x0003, 0x0005, 0x0007, 0x0400, 0x0406, 0x0102, 0x0104
    .half 0x0500, 0x0504, 0x0900, 0x0600, 0x0C00, 0x0300, 0x0800, 0x0204
eyes:
    .half 0xC000, 0x8000, 0x4000, 0xC000
