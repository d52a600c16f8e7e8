; HALT stops until an interrupt is accepted: the instruction after it finds what the handler stored. Frame 0 shows 1; frame 1
; shows the word that was read right after the HALT, FFFFFFFF where the handler ran before it.

    .equ cartridge, 0x3931
    .equ rom_end,   0x07004000
    .equ map,       0x20000

scene:
    JAL text
    LI map, r7
    MOV 1, r6
    MOV 8, r8
    JAL print
    LI drawn, r14
    ST.W r0, 0[r14]
    LI vip, r11
    MOVEA xpend, r0, r12
    ST.H r12, intenb[r11]
    MOV 2, r12
    ST.H r12, xpctrl[r11]          ; XPEN
    HALT
    LD.W 0[r14], r6
wait:                              ; a machine that did not stop waits here
    LD.W 0[r14], r10
    CMP 0, r10
    BZ wait
    LI map + 256, r7
    MOV 8, r8
    JAL print
ready:
    JAL frame
    BR ready
