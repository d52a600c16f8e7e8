; Timer and interrupt. The timer interrupts four times, every five ticks; its handler notes PSW (without the flags of the
; program), ECR, TCR and the count, and acknowledges. Then I is 2: the timer's request waits, and is accepted when I is 1.
; Frame 1 shows what the VIP's interrupt left.

    .equ cartridge, 0x3731
    .equ rom_end,   0x07004000
    .equ map,       0x20000
    .equ hardware,  0x02000000
    .equ tlr,       0x18
    .equ thr,       0x1C
    .equ tcr,       0x20

scene:
    JAL text
    LI handlers, r7
    LI timer, r10
    ST.W r10, 4[r7]
    LI own_wram, r20
    ST.W r0, 0[r20]                ; interrupts so far
    LI map + 1024, r16
    LI hardware, r24
    LI map, r7
    IN.B tcr[r24], r6              ; nothing is set yet
    MOV 2, r8
    JAL print
    MOV 5, r10
    ST.B r10, tlr[r24]
    ST.B r0, thr[r24]
    MOVEA 0x0D, r0, r10            ; Tim-Z-Int, Z-Stat-Clr, T-Enb: every 100 microseconds
    ST.B r10, tcr[r24]
four:
    LD.W 0[r20], r10
    CMP 4, r10
    BLT four
    ST.B r0, tcr[r24]

; I is 2: the timer's request, level 1, has to wait.
    LI 0x00020000, r10
    LDSR r10, 5
    MOV 1, r10
    ST.B r10, tlr[r24]
    ST.B r0, thr[r24]
    MOVEA 0x0D, r0, r10
    ST.B r10, tcr[r24]
waits:
    IN.B tcr[r24], r10
    ANDI 2, r10, r10               ; Z-Stat
    BZ waits
    LI map + 256, r7
    LD.W 0[r20], r6                ; still 4
    MOV 8, r8
    JAL print
    LI 0x00010000, r10
    LDSR r10, 5                    ; now it is accepted
    LDSR r0, 5
    ST.B r0, tcr[r24]
    LI map + 384, r7
    LD.W 0[r20], r6                ; 5
    MOV 8, r8
    JAL print
    JAL frame

    LI map + 512, r7
    MOV 1, r6
    MOV 8, r8
    JAL print
    ADD 2, r7
    STSR 4, r6
    MOV 8, r8
    JAL print
    ADD 2, r7
    STSR 5, r6
    SHR 4, r6
    SHL 4, r6
    MOV 8, r8
    JAL print
ready:
    JAL frame
    BR ready

; Prints a line from r16 on. Registers of the program are kept in WRAM.
timer:
    LI own_wram + 16, r27
    ST.W r6, 0[r27]
    ST.W r7, 4[r27]
    ST.W r8, 8[r27]
    ST.W r9, 12[r27]
    ST.W r31, 16[r27]
    STSR 5, r6
    IN.B tlr[r24], r28             ; at once: the next tick counts on
    IN.B tcr[r24], r29
    MOV 8, r7
    ST.B r7, tcr[r24]              ; stopped, so that the count of 0 does not matter to Z-Stat-Clr
    MOVEA 0x0D, r0, r7
    ST.B r7, tcr[r24]
    SHR 4, r6
    SHL 4, r6
    MOV r16, r7
    MOV 8, r8
    JAL print
    ADD 2, r7
    STSR 4, r6
    MOV 8, r8
    JAL print
    ADD 2, r7
    MOV r29, r6
    MOV 2, r8
    JAL print
    ADD 2, r7
    MOV r28, r6
    MOV 2, r8
    JAL print
    ADDI 128, r16, r16
    LD.W 0[r20], r6
    ADD 1, r6
    ST.W r6, 0[r20]
    LD.W 0[r27], r6
    LD.W 4[r27], r7
    LD.W 8[r27], r8
    LD.W 12[r27], r9
    LD.W 16[r27], r31
    RETI
