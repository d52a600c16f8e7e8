; Places where timers are known to differ. Line 0: the count read after TLR and THR are written, timer off. 2: TCR read
; after Z-Stat-Clr while the count is 0. 4: TCR after Tim-Z-Int is cleared with Z-Stat set. 6: interrupts after Tim-Z-Int is
; set with Z-Stat set.

    .equ cartridge, 0x3831
    .equ rom_end,   0x07004000
    .equ map,       0x20000
    .equ hardware,  0x02000000
    .equ tlr,       0x18
    .equ thr,       0x1C
    .equ tcr,       0x20

scene:
    JAL text
    LI handlers, r7
    LI timer, r10
    ST.W r10, 4[r7]
    LI own_wram, r20
    ST.W r0, 0[r20]                ; interrupts so far
    LI hardware, r24

    MOVEA 0x34, r0, r10
    ST.B r10, tlr[r24]
    MOVEA 0x12, r0, r10
    ST.B r10, thr[r24]
    IN.B thr[r24], r6
    LI map, r7
    MOV 2, r8
    JAL print
    IN.B tlr[r24], r6
    MOV 2, r8
    JAL print

; Runs to zero in nine ticks with Tim-Z-Int, I masking the interrupt.
    LI 0x000F0000, r10
    LDSR r10, 5
    MOV 9, r10
    ST.B r10, tlr[r24]
    ST.B r0, thr[r24]
    MOVEA 0x0D, r0, r10            ; Tim-Z-Int, Z-Stat-Clr, T-Enb
    ST.B r10, tcr[r24]
first_zero:
    IN.B tcr[r24], r11
    ANDI 2, r11, r11
    BZ first_zero
    ST.B r10, tcr[r24]             ; Z-Stat-Clr at a count of 0
    IN.B tcr[r24], r6
    LI map + 256, r7
    MOV 2, r8
    JAL print

; To zero again; then without Tim-Z-Int.
    ST.B r0, tcr[r24]
    MOVEA 0x0D, r0, r10
    ST.B r10, tcr[r24]
second_zero:
    IN.B tcr[r24], r11
    ANDI 2, r11, r11
    BZ second_zero
    ST.B r0, tcr[r24]
    IN.B tcr[r24], r6
    LI map + 512, r7
    MOV 2, r8
    JAL print

; To zero without Tim-Z-Int; then it is set, the timer off, and interrupts are let in.
    MOVEA 0x05, r0, r10
    ST.B r10, tcr[r24]
third_zero:
    IN.B tcr[r24], r11
    ANDI 2, r11, r11
    BZ third_zero
    MOV 8, r10                     ; Tim-Z-Int alone
    ST.B r10, tcr[r24]
    LDSR r0, 5
    NOP
    NOP
    LD.W 0[r20], r6
    LI map + 768, r7
    MOV 8, r8
    JAL print
    MOV 4, r10
    ST.B r10, tcr[r24]
ready:
    JAL frame
    BR ready

timer:
    MOV 4, r27
    ST.B r27, tcr[r24]
    LD.W 0[r20], r27
    ADD 1, r27
    ST.W r27, 0[r20]
    RETI
