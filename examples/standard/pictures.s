; Random scenes for the image processor, another one in each frame. Characters and all maps are random, with them the
; parameters; each scene has 32 new worlds, a quarter of the objects new, new palettes, groups and background. A field of a
; world is (random & mask) + offset, mask and offset one of 32 rows of the field's table: every class of value, single bits
; among them. The text before this one names `cartridge` and `seed`.

    .equ rom_end,   0x07004000
    .equ state,     0x05000100     ; scenes so far

scene:
    LI seed, r25                   ; the random number so far
    LI state, r10
    ST.W r0, 0[r10]
    LI characters, r14
    LI characters + 0x8000, r15
    JAL fill
    LI maps, r14
    LI world_table, r15
    JAL fill
    LI object_table, r14
    LI object_table + 0x2000, r15
    JAL fill
    JAL rows

next:
    JAL registers
    LI world_table, r14
    LI world_table + 1024, r15
world:
    JAL background
    ADDI 32, r14, r14
    CMP r15, r14
    BNZ world
    JAL end
    JAL objects
    LI state, r10
    LD.W 0[r10], r11
    ADD 1, r11
    ST.W r11, 0[r10]
    JAL frame
    JR next

; Random words from r14 to r15.
fill:
    MOV r25, r10
    SHL 13, r10
    XOR r10, r25
    MOV r25, r10
    SHR 17, r10
    XOR r10, r25
    MOV r25, r10
    SHL 5, r10
    XOR r10, r25
    ST.W r25, 0[r14]
    ADD 4, r14
    CMP r15, r14
    BNZ fill
    JMP [r31]

; r25: the next random word.
random:
    MOV r25, r10
    SHL 13, r10
    XOR r10, r25
    MOV r25, r10
    SHR 17, r10
    XOR r10, r25
    MOV r25, r10
    SHL 5, r10
    XOR r10, r25
    JMP [r31]

; The world at r14. Its flags: BGM, eyes, sizes, OVER, base; then ten fields by their tables.
background:
    MOV r31, r24
    JAL random
    ANDI 0x0FBF, r25, r16          ; SCX, SCY, OVER, base and the bits that are not used; END is clear
    MOV r25, r10
    SHR 16, r10
    ANDI 15, r10, r11
    SHL 1, r11
    LI kinds, r12
    ADD r12, r11
    LD.H 0[r11], r11
    OR r11, r16
    MOV r10, r11
    SHR 4, r11
    ANDI 3, r11, r11
    SHL 1, r11
    LI eyes, r12
    ADD r12, r11
    LD.H 0[r11], r11
    MOV r10, r12
    SHR 6, r12
    ANDI 15, r12, r12
    BNZ shown                      ; one world in 16 is shown to no eye
    MOV 0, r11
shown:
    OR r11, r16
    ST.H r16, 0[r14]
    LI fields, r17
    MOV 2, r18
field:
    JAL random
    MOV r25, r11
    SHR 26, r11                    ; rows 0 to 15 three times as often as the others
    MOVEA 48, r0, r12
    CMP r12, r11
    BNL field_row
    ANDI 15, r11, r11
field_row:
    ANDI 31, r11, r11
    SHL 2, r11
    ADD r17, r11
    LD.H 0[r11], r12               ; mask
    LD.H 2[r11], r13               ; offset
    AND r25, r12
    ADD r13, r12
    MOV r14, r11
    ADD r18, r11
    ST.H r12, 0[r11]
    ADDI 128, r17, r17
    ADD 2, r18
    MOVEA 22, r0, r11
    CMP r11, r18
    BNZ field

; One world in eight reaches far above the screen, one in eight far to its left, one in eight ends at its edges.
    JAL random
    MOV r25, r10
    SHR 29, r10
    BZ tall
    CMP 1, r10
    BZ wide
    CMP 2, r10
    BZ flush
    JMP [r24]
flush:
    LD.H 2[r14], r10
    SHL 22, r10
    SAR 22, r10                    ; GX
    LD.H 4[r14], r11
    SHL 22, r11
    SAR 22, r11                    ; GP
    ANDI 1, r25, r12
    BZ flush_right
    SUB r11, r10
    BR flush_eye
flush_right:
    ADD r11, r10
flush_eye:
    MOVEA 383, r0, r12
    SUB r10, r12
    ST.H r12, 14[r14]              ; W
    LD.H 6[r14], r10
    MOVEA 223, r0, r12
    SUB r10, r12
    ST.H r12, 16[r14]              ; H
    JMP [r24]
tall:
    MOV r25, r10
    ANDI 0x1F, r10, r11
    SHR 8, r10
    ANDI 0x7FFF, r10, r10
    SHR r11, r10                   ; all sizes alike
    MOV r25, r12
    SHR 4, r12
    ANDI 0xFF, r12, r12
    ADD r10, r12
    ST.H r12, 16[r14]              ; H ends on the screen
    NOT r10, r10
    ST.H r10, 6[r14]               ; GY
    JMP [r24]
wide:
    ANDI 0x7F, r25, r10
    ADDI -512, r10, r10
    ST.H r10, 2[r14]               ; GX
    MOV r25, r11
    SHR 8, r11
    ANDI 0x3FF, r11, r12
    ADDI -512, r12, r12
    ST.H r12, 4[r14]               ; GP
    SUB r12, r10                   ; the left eye's edge
    MOV r25, r11
    SHR 18, r11
    ANDI 0xFF, r11, r11
    SUB r10, r11
    ST.H r11, 14[r14]              ; W ends on the screen
    JMP [r24]

; Every other scene ends at a world, another one each time: it may be shown, too.
end:
    LI state, r10
    LD.W 0[r10], r10
    ANDI 1, r10, r11
    BZ end_done
    MOVEA 11, r0, r11
    MUL r11, r10
    ADDI seed & 31, r10, r10
    ANDI 31, r10, r10
    SHL 5, r10
    LI world_table, r11
    ADD r11, r10
    LD.H 0[r10], r11
    ORI 0x40, r11, r11
    ST.H r11, 0[r10]
end_done:
    JMP [r31]

; Map 3 is rows of parameters that stay near each other: MX, MP, MY, DX and DY by their tables.
rows:
    MOV r31, r24
    LI maps + 0x6000, r14
    LI maps + 0x8000, r15
row:
    LI parameters, r17
    MOV r14, r18
    MOV 5, r19
parameter:
    JAL random
    MOV r25, r11
    SHR 29, r11
    SHL 2, r11
    ADD r17, r11
    LD.H 0[r11], r12               ; mask
    LD.H 2[r11], r13               ; offset
    AND r25, r12
    ADD r13, r12
    ST.H r12, 0[r18]
    ADD 2, r18
    ADDI 32, r17, r17
    ADD -1, r19
    BNZ parameter
    ADDI 16, r14, r14
    CMP r15, r14
    BNZ row
    JMP [r24]

; A quarter of the objects, another one in each scene. One in eight is wholly random, the others are near the screen.
objects:
    MOV r31, r24
    LI state, r10
    LD.W 0[r10], r10
    ANDI 3, r10, r10
    SHL 11, r10
    LI object_table, r14
    ADD r10, r14
    MOV r14, r15
    ADDI 2048, r15, r15
object:
    JAL random
    ST.W r25, 0[r14]
    MOV r25, r10
    SHR 10, r10
    ANDI 7, r10, r10
    BZ object_rest
    ANDI 0x1FF, r25, r10
    ADDI -64, r10, r10
    ST.H r10, 0[r14]               ; JX, -64 to 447
    MOV r25, r10
    SHL 6, r10
    SAR 26, r10
    ANDI 0x3FF, r10, r10           ; JP, -32 to 31
    MOV r25, r11
    SHR 13, r11
    ANDI 7, r11, r11
    SHL 1, r11
    LI object_eyes, r12
    ADD r12, r11
    LD.H 0[r11], r11
    OR r11, r10
    ST.H r10, 2[r14]
object_rest:
    JAL random
    ST.W r25, 4[r14]               ; JY, looks
    ADD 8, r14
    CMP r15, r14
    BNZ object
    JMP [r24]

; Palettes and background are random. Groups: half of the scenes have four that follow each other, long or short, a quarter
; random ones, a quarter two that are equal.
registers:
    MOV r31, r24
    LI vip, r20
    MOV 8, r21
    MOV r20, r22
palette:
    JAL random
    ST.H r25, gplt[r22]
    ADD 2, r22
    ADD -1, r21
    BNZ palette
    JAL random
    ST.H r25, bkcol[r20]
    MOV r25, r23
    SHR 30, r23                    ; 0 long and 1 short that follow each other, 2 random, 3 equal
    MOV 0, r16
    MOV 4, r21
    MOV r20, r22
group:
    JAL random
    ANDI 0x3FF, r25, r17
    CMP 2, r23
    BNL group_store
    ANDI 0x1FF, r17, r17
    CMP 1, r23
    BNZ group_long
    ANDI 3, r17, r17
group_long:
    ADD r17, r16
    ANDI 0x3FF, r16, r17
group_store:
    ST.H r17, spt[r22]
    ADD 2, r22
    ADD -1, r21
    BNZ group
    CMP 3, r23
    BNZ groups_done
    MOV r25, r10
    SHR 20, r10
    ANDI 1, r10, r11
    SHR 1, r10
    ANDI 1, r10, r10
    ADD r11, r10
    SHL 1, r10
    ADD r20, r10
    LD.H spt[r10], r11
    ST.H r11, spt + 2[r10]         ; SPT1, SPT2 or SPT3 is that of the group below
groups_done:
    JMP [r24]

    .align 4
kinds:
    .half 0x0000, 0x0000, 0x0000, 0x0000, 0x0000, 0x1000, 0x1000, 0x1000
    .half 0x1000, 0x1000, 0x2000, 0x2000, 0x2000, 0x2000, 0x3000, 0x3000
eyes:
    .half 0xC000, 0xC000, 0x8000, 0x4000
object_eyes:
    .half 0xC000, 0xC000, 0xC000, 0xC000, 0xC000, 0x8000, 0x4000, 0x0000

; For each parameter of an affine row 8 rows of mask and offset.
parameters:
    .half 0xFFFF, 0, 0xFFFF, 0, 0xFFF, 0, 0xFFF, -2048, 0x7FF, 0, 0x1FF, -256, 0, 0, 0x7FFF, 0x8000
    .half 0, 0, 0, 0, 0x0F, -8, 0x3F, -32, 0xFF, -128, 0xFFFF, 0, 0, 0x8000, 0, -1
    .half 0xFFFF, 0, 0xFFFF, 0, 0xFFF, 0, 0xFFF, -2048, 0x7FF, 0, 0x1FF, -256, 0, 0, 0x7FFF, 0x8000
    .half 0, 512, 0, 0, 0, -512, 0x1FF, 256, 0x1FF, -768, 0x3F, -32, 0, 0, 0xFFFF, 0
    .half 0, 0, 0, 0, 0, 512, 0x1FF, -256, 0x3F, -32, 0x7FF, -1024, 0, 0, 0xFFFF, 0

; For each field 32 rows of mask and offset.
fields:
; GX: near the screen, at its edges, single bits, anything
    .half 0x1FF, -64, 0x1FF, -64, 0x1FF, -64, 0x1FF, -64, 0xFF, 0, 0xFF, 0, 0xFF, 0, 0xFF, 0
    .half 0xFF, 64, 0xFF, 64, 0x3F, -32, 0x3F, -32, 0x0F, -8, 0x0F, 376, 0xFFFF, 0, 0xFFFF, 0
    .half 0, 1, 0, 2, 0, 4, 0, 8, 0, 16, 0, 32, 0, 64, 0, 128
    .half 0, 256, 0, 511, 0, 512, 0, -1, 0x07, 380, 0x0F, 504, 0, 0, 0xFF, -200
; GP: none, small, single bits, anything
    .half 0, 0, 0, 0, 0, 0, 0x0F, -8, 0x0F, -8, 0x0F, -8, 0x3F, -32, 0x3F, -32
    .half 0x3F, -32, 0x7F, -64, 0x7F, -64, 0xFF, -128, 0xFF, -128, 0xFFFF, 0, 0xFFFF, 0, 0xFFFF, 0
    .half 0, 1, 0, 2, 0, 4, 0, 8, 0, 16, 0, 32, 0, 64, 0, 128
    .half 0, 256, 0, 511, 0, 512, 0, 513, 0, -1, 0, -2, 0x1F, 16, 0x1F, -48
; GY: on the screen, over its top, at its bottom, single bits, anything
    .half 0xFF, -32, 0xFF, -32, 0x7F, 0, 0, 0, 0x7F, 64, 0x7F, 64, 0x3F, 128, 0x3F, 160
    .half 0x1F, 200, 0x0F, 216, 0x1F, -16, 0x3F, -64, 0x07, 216, 0xFFFF, 0, 0, 223, 0, -1
    .half 0, 1, 0, 2, 0, 4, 0, 8, 0, 16, 0, 32, 0, 64, 0, 128
    .half 0, 0x100, 0, 0x200, 0, 0x400, 0, 0x800, 0, 0x1000, 0, 0x2000, 0, 0x4000, 0, 0x8000
; MX: inside, at the edges of a background, anything
    .half 0xFFFF, 0, 0xFFFF, 0, 0xFFFF, 0, 0xFFFF, 0, 0x1FF, 0, 0x1FF, 0, 0x3FF, 0, 0x7FF, 0
    .half 0x1FF, -256, 0x1FF, 256, 0x1FF, 768, 0x1FF, 1792, 0x1FF, 3840, 0x1FF, -4096, 0x3F, -32, 0x3F, 480
    .half 0, 1, 0, 2, 0, 4, 0, 8, 0, 16, 0, 32, 0, 64, 0, 128
    .half 0, 256, 0, 512, 0, 1024, 0, 2048, 0, 4096, 0, 4095, 0, -1, 0xFF, -3900
; MP: none, small, single bits, anything
    .half 0, 0, 0, 0, 0x0F, -8, 0x3F, -32, 0xFF, -128, 0x1FF, -256, 0x3FF, -512, 0xFFF, -2048
    .half 0xFFFF, 0, 0xFFFF, 0, 0xFFFF, 0, 0xFFFF, 0, 0x1FFF, 0x2000, 0x1FFF, 0x4000, 0x1FFF, 0x6000, 0x1FFF, 0
    .half 0, 1, 0, 2, 0, 4, 0, 8, 0, 16, 0, 32, 0, 64, 0, 128
    .half 0, 0x100, 0, 0x200, 0, 0x400, 0, 0x800, 0, 0x1000, 0, 0x2000, 0, 0x4000, 0, -1
; MY: as MX
    .half 0xFFFF, 0, 0xFFFF, 0, 0xFFFF, 0, 0xFFFF, 0, 0x1FF, 0, 0x1FF, 0, 0x3FF, 0, 0x7FF, 0
    .half 0x1FF, -256, 0x1FF, 256, 0x1FF, 768, 0x1FF, 1792, 0x1FF, 3840, 0x1FF, -4096, 0x3F, -32, 0x3F, 480
    .half 0, 1, 0, 2, 0, 4, 0, 8, 0, 16, 0, 32, 0, 64, 0, 128
    .half 0, 256, 0, 512, 0, 1024, 0, 2048, 0, 4096, 0, 4095, 0, -1, 0xFF, -3900
; W: 1 to 256 columns, the whole screen, single bits, negative, anything
    .half 0x3F, 0, 0x3F, 0, 0x7F, 0, 0x7F, 0, 0x7F, 0, 0x7F, 16, 0xFF, 0, 0xFF, 0
    .half 0xFF, 64, 0x07, 0, 0, 0, 0, 383, 0xFFFF, 0, 0xFFF, 0x1000, 0, 0x1FFF, 0x3F, 512
    .half 0, 1, 0, 2, 0, 4, 0, 8, 0, 16, 0, 32, 0, 64, 0, 128
    .half 0, 256, 0, 512, 0, 1024, 0, 2048, 0, 4096, 0x0F, 0, 0x1FF, 0, 0x1F, 32
; H: 1 to 128 rows, the whole screen, less than a strip, single bits, negative, anything
    .half 0x3F, 0, 0x3F, 0, 0x3F, 8, 0x3F, 8, 0x7F, 0, 0x7F, 0, 0x1F, 8, 0x1F, 16
    .half 0x07, 0, 0x07, 0, 0, 0, 0, 223, 0xFFFF, 0, 0, -1, 0x7F, -128, 0x0F, 0
    .half 0, 1, 0, 2, 0, 4, 0, 8, 0, 16, 0, 32, 0, 64, 0, 128
    .half 0, 0x100, 0, 0x200, 0, 0x400, 0, 0x800, 0, 0x1000, 0, 0x2000, 0, 0x4000, 0, 0x8000
; Parameter base: the rows of map 3, anything, at the wrap, single bits
    .half 0x07F8, 0x3000, 0x07F8, 0x3000, 0x07F8, 0x3000, 0x07F8, 0x3000, 0x07F8, 0x3000, 0x07F8, 0x3000, 0x7F, 0x3000, 0xFFFF, 0
    .half 0xFFFF, 0, 0xFFFF, 0, 0xFFFF, 0, 0xFFFF, 0, 0x7F, -64, 0x7FF, -2048, 0x7FF0, 0, 0x7FF0, 0x8000
    .half 0, 1, 0, 2, 0, 4, 0, 8, 0, 16, 0, 32, 0, 64, 0, 128
    .half 0, 0x100, 0, 0x200, 0, 0x400, 0, 0x800, 0, 0x1000, 0, 0x2000, 0, 0x4000, 0, 0x8000
; The overplane's cell: anything, single bits
    .half 0xFFFF, 0, 0xFFFF, 0, 0xFFFF, 0, 0xFFFF, 0, 0xFFFF, 0, 0xFFFF, 0, 0xFFFF, 0, 0xFFFF, 0
    .half 0xFFFF, 0, 0xFFFF, 0, 0xFFFF, 0, 0xFFFF, 0, 0xFFFF, 0, 0xFFFF, 0, 0xFFFF, 0, 0xFFFF, 0
    .half 0, 1, 0, 2, 0, 4, 0, 8, 0, 16, 0, 32, 0, 64, 0, 128
    .half 0, 0x100, 0, 0x200, 0, 0x400, 0, 0x800, 0, 0x1000, 0, 0x2000, 0, 0x4000, 0, 0x8000
