; The VIP's addresses repeat every 0x80000, registers and character mirrors too; byte writes to a register store 16 bits of
; the source. What is read is printed. The three characters in the first line are written at 0x00078280, at 0x000F8290 and at
; 0x00F862A0, the cells after them through 0x000A0000 and 0x00FA0000.

    .equ cartridge, 0x3131
    .equ rom_end,   0x07004000
    .equ map,       0x20000

scene:
    JAL text
    LI map, r15
    MOVEA 40, r0, r10
    ST.H r10, 0[r15]
    ADD 1, r10
    ST.H r10, 4[r15]
    ADD 1, r10
    ST.H r10, 8[r15]
    LI art, r6
    LI 0x00078280, r7
    MOVEA 16, r0, r8
    JAL copy
    LI art, r6
    LI 0x000F8290, r7
    MOVEA 16, r0, r8
    JAL copy
    LI art, r6
    LI 0x00F862A0, r7
    MOVEA 16, r0, r8
    JAL copy
    LI 0x000A0000, r15
    MOVEA 11, r0, r10
    ST.H r10, 12[r15]
    LI 0x00FA0000, r15
    MOVEA 12, r0, r10
    ST.H r10, 16[r15]

; Reads through the mirrors
    LI reads, r14
    LI map + 256, r16
read:
    LD.W 0[r14], r10
    ADD 4, r14
    CMP 0, r10
    BZ registers
    MOV r10, r6
    MOV r16, r7
    MOV 8, r8
    JAL print
    ADD 2, r7
    LD.W 0[r10], r6
    MOV 8, r8
    JAL print
    ADDI 128, r16, r16
    BR read

; Registers: SPT0 by a byte write, SPT1 by one at its odd address, SPT2 and SPT3 by a word, GPLT3 through a mirror.
registers:
    LI vip, r24
    LI 0x12345678, r10
    ST.B r10, spt[r24]
    ST.B r10, spt + 3[r24]
    ST.W r10, spt + 4[r24]
    LI 0x000DF800, r23
    MOVEA 0xFC, r0, r11
    ST.H r11, gplt + 6[r23]
    LI map + 1536, r7
    LD.H spt[r24], r6
    MOV 4, r8
    JAL print
    ADD 2, r7
    LD.H spt + 2[r24], r6
    MOV 4, r8
    JAL print
    ADD 2, r7
    LD.W spt + 4[r24], r6
    MOV 8, r8
    JAL print
    ADD 2, r7
    LD.H gplt + 6[r24], r6
    MOV 4, r8
    JAL print
    LI map + 1792, r7
    IN.B spt[r24], r6              ; its low byte and its high byte
    MOV 2, r8
    JAL print
    ADD 2, r7
    IN.B spt + 1[r24], r6
    MOV 2, r8
    JAL print
    ADD 2, r7
    LD.H 0x44[r24], r6             ; VER
    MOV 4, r8
    JAL print
ready:
    JAL frame
    BR ready

    .align 4
art:
    .half 0x5555, 0x7FFD, 0x6AA9, 0x6FF9, 0x6C39, 0x6CF9, 0x6AA9, 0x5555
reads:
    .word 0x00020000, 0x000A0000, 0x00FA0000, 0x000F8280, 0x00086280, 0x000DF860, 0x00FDF868, 0
