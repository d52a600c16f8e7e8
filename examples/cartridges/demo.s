; The demo (`vbmodel demo`) as a cartridge: its image of 64 KiB stands at 0x07000000, and what follows here is the second half
; of the ROM, which sets the console up and then starts it.
; The demo says by HALT alone that a picture is ready, so drawing starts by the timer: half a second after the start, when
; the demo has long been at its first HALT. Then each picture that was drawn ends a HALT. On the model no tick comes.

    .origin 0x07010000
    .equ cartridge, 0x3030
    .equ rom_end,   0x07020000

    .equ hardware,  0x02000000
    .equ tlr,       0x18
    .equ thr,       0x1C
    .equ tcr,       0x20

scene:
    LI handlers, r7
    LI timer, r10
    ST.W r10, 4[r7]
    LI hardware, r7
    LI 5000, r10                   ; of 100 microseconds
    ST.B r10, tlr[r7]
    SHR 8, r10
    ST.B r10, thr[r7]
    MOVEA 0x0D, r0, r10            ; Tim-Z-Int, Z-Stat-Clr, T-Enb
    ST.B r10, tcr[r7]
    LI 0x07000000, r10
    JMP [r10]

; Switches the timer off and drawing on, and waits until the first picture is drawn.
timer:
    LI hardware, r26
    MOV 4, r27
    ST.B r27, tcr[r26]
    LI vip, r27
    MOVEA xpend, r0, r28
    ST.H r28, intenb[r27]
    MOV 2, r28
    ST.H r28, xpctrl[r27]          ; XPEN
undrawn:
    LD.H intpnd[r27], r28
    ANDI xpend, r28, r28
    BZ undrawn
    MOVEA -1, r0, r28
    ST.H r28, intclr[r27]
    RETI
