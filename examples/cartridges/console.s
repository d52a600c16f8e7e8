; What every cartridge shares; it stands behind the cartridge's own text, which names `cartridge`, `rom_end` and `scene`.
;
; The set-up of a real program: wait for WRAM, stop and reset the VIP, frame rate, brightness, column table, a display of
; dark pictures. Then `scene` fills VIP memory and calls `frame`, which switches drawing on and halts; the VIP's interrupt
; ends the HALT once the picture is drawn, so that the program may change it.
; On the model all registers of display, drawing and interrupts read 0 and ignore writes: its picture is drawn at the HALT,
; and the bench raises the VIP's line.
;
; r26 to r29 belong to the handlers.

    .equ vip,      0x5F800         ; the registers, from here on
    .equ intpnd,   0x00
    .equ intenb,   0x02
    .equ intclr,   0x04
    .equ dpstts,   0x20
    .equ dpctrl,   0x22
    .equ brta,     0x24
    .equ brtb,     0x26
    .equ brtc,     0x28
    .equ rest,     0x2A
    .equ frmcyc,   0x2E
    .equ xpctrl,   0x42
    .equ spt,      0x48            ; SPT0 to SPT3
    .equ gplt,     0x60            ; GPLT0 to GPLT3, then JPLT0 to JPLT3
    .equ jplt,     0x68
    .equ bkcol,    0x70

    .equ maps,         0x20000
    .equ world_table,  0x3D800
    .equ column_table, 0x3DC00     ; left; the right one is 0x200 further on
    .equ object_table, 0x3E000
    .equ characters,   0x78000
    .equ handlers,     0x0500FF80  ; 11 words: where each handler goes on
    .equ drawn,        0x0500FFC0  ; not 0: the picture is drawn
    .equ own_wram,     0x05000100

    .equ brightness_a, 32          ; values 1, 2 and 3 are shown for 32, 64 and 32 + 64 + 32 units
    .equ brightness_b, 64
    .equ brightness_c, 32

    .equ xpend,        0x4000      ; INTPND and INTENB: the picture is drawn

    .align 4
console:
    MOVEA 2000, r0, r10            ; WRAM needs 200 microseconds, 4,000 clocks; a turn takes four
wram_wait:
    ADD -1, r10
    BNZ wram_wait

    LI vip, r27
    ST.H r0, intenb[r27]
    MOV 1, r10
    ST.H r10, xpctrl[r27]          ; XPRST
    ST.H r10, dpctrl[r27]          ; DPRST
    MOVEA -1, r0, r10
    ST.H r10, intclr[r27]
    ST.H r0, frmcyc[r27]           ; a picture for every frame of the display
    MOVEA brightness_a, r0, r10
    ST.H r10, brta[r27]
    MOVEA brightness_b, r0, r10
    ST.H r10, brtb[r27]
    MOVEA brightness_c, r0, r10
    ST.H r10, brtc[r27]
    ST.H r0, rest[r27]

    MOV 0, r7                      ; all of VRAM, the frame buffers too
    LI 0x40000, r8
clear:
    ST.W r0, 0[r7]
    ADD 4, r7
    CMP r8, r7
    BNZ clear

; The recommended column table: 62 entries of 0xFE, the listed ones, and all of that backwards.
    LI column_table, r7
    LI column_table + 0x1FE, r8
    LI column_entries, r6
    MOVEA 128, r0, r9
    MOVEA 66, r0, r11
column:
    MOVEA 0xFE, r0, r10
    CMP r11, r9
    BGT column_store
    LD.H 0[r6], r10
    ADD 2, r6
column_store:
    ST.H r10, 0[r7]
    ST.H r10, 0x200[r7]
    ST.H r10, 0[r8]
    ST.H r10, 0x200[r8]
    ADD 2, r7
    ADD -2, r8
    ADD -1, r9
    BNZ column

; Characters 1 to 16: the digits 0 to F in value 3. 17 to 32: the same on value 1, with value 2 in the upper left corner.
    LI digits, r6
    LI characters + 16, r7
    MOVEA 16, r0, r8
digit:
    MOV 8, r9
digit_row:
    LD.B 0[r6], r10
    ADD 1, r6
    MOV 8, r11
    MOV 0, r12
digit_pixel:                       ; the row's bits from the left-most, bit 0, on; each comes in at the top
    SHR 2, r12
    MOV r10, r13
    ANDI 1, r13, r13
    SHL 14, r13
    OR r13, r12
    SHL 1, r13
    OR r13, r12
    SHR 1, r10
    ADD -1, r11
    BNZ digit_pixel
    ST.H r12, 0[r7]
    ORI 0x5555, r12, r12
    CMP 8, r9
    BNZ digit_store
    XORI 3, r12, r12               ; the corner's value 1 to 2
digit_store:
    ST.H r12, 256[r7]
    ADD 2, r7
    ADD -1, r9
    BNZ digit_row
    ADD -1, r8
    BNZ digit

; Palettes of backgrounds and objects: straight, darker, backwards, turned.
    LI 0x009000E4, r10
    ST.W r10, gplt[r27]
    ST.W r10, jplt[r27]
    LI 0x0078006C, r10
    ST.W r10, gplt + 4[r27]
    ST.W r10, jplt + 4[r27]
    ST.H r0, bkcol[r27]

; Every handler stops, but for the VIP's.
    LI handlers, r7
    LI stop, r10
    MOV 11, r8
handler:
    ST.W r10, 0[r7]
    ADD 4, r7
    ADD -1, r8
    BNZ handler
    LI handlers, r7
    LI vip_interrupt, r10
    ST.W r10, 16[r7]

; The display shows the dark frame buffers. Where BRTA can be read back, there are mirrors to wait for.
    MOVEA 0x302, r0, r10           ; SYNCE, RE, DISP
    ST.H r10, dpctrl[r27]
mirrors_wait:
    LD.H brta[r27], r10
    CMP 0, r10
    BZ mirrors_stable
    LD.H dpstts[r27], r10
    ANDI 0x40, r10, r10            ; SCANRDY
    BZ mirrors_wait
mirrors_stable:
    LDSR r0, 5                     ; PSW: out of the reset's NP state; interrupts are let in
    JR scene

stop:
    HALT
    BR stop

; The picture is drawn, or the bench raised the line.
vip_interrupt:
    LI vip, r27
    MOVEA -1, r0, r28
    ST.H r28, intclr[r27]
    LI drawn, r27
    ST.W r28, 0[r27]
    RETI

; Has the picture drawn, and returns when it is: other interrupts may end the HALT too. The pause keeps a machine here that
; runs on for some clocks after a HALT before it stops.
frame:
    LI drawn, r10
    ST.W r0, 0[r10]
    LI vip, r11
    MOVEA xpend, r0, r12
    ST.H r12, intenb[r11]
    MOV 2, r12
    ST.H r12, xpctrl[r11]          ; XPEN
frame_wait:
    HALT
    MOVEA 200, r0, r12
frame_pause:
    ADD -1, r12
    BNZ frame_pause
    LD.W 0[r10], r12
    CMP 0, r12
    BZ frame_wait
    JMP [r31]

; r8 worlds of 11 halfwords from r6, world 31 first.
worlds:
    LI world_table + 992, r7
worlds_next:
    MOV 11, r9
    MOV r7, r11
world_half:
    LD.H 0[r6], r10
    ST.H r10, 0[r11]
    ADD 2, r6
    ADD 2, r11
    ADD -1, r9
    BNZ world_half
    ADDI -32, r7, r7
    ADD -1, r8
    BNZ worlds_next
    JMP [r31]

; r8 bytes, a multiple of 4, from r6 to r7.
copy:
    LD.W 0[r6], r10
    ST.W r10, 0[r7]
    ADD 4, r6
    ADD 4, r7
    ADD -4, r8
    BNZ copy
    JMP [r31]

; The lowest r8 digits of r6 as cells from r7 on.
print:
    SHL 2, r8
print_digit:
    ADD -4, r8
    MOV r6, r9
    SHR r8, r9
    ANDI 15, r9, r9
    ADD 1, r9
    ST.H r9, 0[r7]
    ADD 2, r7
    CMP 0, r8
    BNZ print_digit
    JMP [r31]

; A line for each operation in the list of addresses at r14, which 0 ends, from the cells at r16 on. In it for each of the
; four pairs of words at r15: the operation on r10 and r11, its flags 0, 15, 0 and 15 before it. Printed are r11 after it and
; PSW's bits of r17, r18 digits of them.
results:
    MOV r31, r25
results_line:
    LD.W 0[r14], r20
    ADD 4, r14
    CMP 0, r20
    BZ results_end
    MOV r15, r21
    MOV r16, r7
    MOV 0, r22
    MOV 4, r23
results_pair:
    LD.W 0[r21], r10
    LD.W 4[r21], r11
    ADD 8, r21
    MOV 0, r30
    LDSR r22, 5
    JAL operation
    STSR 5, r24
    XORI 15, r22, r22
    MOV r11, r6
    MOV 8, r8
    JAL print
    MOV r24, r6
    AND r17, r6
    MOV r18, r8
    JAL print
    ADD 2, r7
    ADD -1, r23
    BNZ results_pair
    ADDI 128, r16, r16
    BR results_line
results_end:
    JMP [r25]
operation:
    JMP [r20]

; A world of text: map 0 over the whole screen.
text:
    LI world_table + 992, r7
    LI 0xC000, r10
    ST.H r10, 0[r7]
    MOVEA 383, r0, r10
    ST.H r10, 14[r7]
    MOVEA 223, r0, r10
    ST.H r10, 16[r7]
    JMP [r31]

; The map at r7: 64 by 64 cells of digits on value 1, number column + 3 * row + r6, flips by row, palettes by column.
pattern:
    MOV 0, r8                      ; row
pattern_row:
    MOV 0, r9                      ; column
pattern_cell:
    MOV r8, r10
    SHL 1, r10
    ADD r8, r10
    ADD r9, r10
    ADD r6, r10
    ANDI 15, r10, r10
    ADDI 17, r10, r10
    ANDI 3, r8, r11
    SHL 12, r11
    OR r11, r10
    MOV r9, r11
    SHR 2, r11
    ANDI 3, r11, r11
    SHL 14, r11
    OR r11, r10
    ST.H r10, 0[r7]
    ADD 2, r7
    ADD 1, r9
    MOVEA 64, r0, r11
    CMP r11, r9
    BNZ pattern_cell
    ADD 1, r8
    CMP r11, r8
    BNZ pattern_row
    JMP [r31]

    .align 4
column_entries:
    .half 0xE0, 0xBC
    .half 0xA6, 0x96, 0x8A, 0x82, 0x7A, 0x74, 0x6E, 0x6A, 0x66, 0x62, 0x60, 0x5C, 0x5A, 0x58, 0x56, 0x54
    .half 0x52, 0x50, 0x50, 0x4E, 0x4C, 0x4C, 0x4A, 0x4A, 0x48, 0x48, 0x46, 0x46, 0x46, 0x44, 0x44, 0x44
    .half 0x42, 0x42, 0x42, 0x40, 0x40, 0x40, 0x40, 0x40, 0x3E, 0x3E, 0x3E, 0x3E, 0x3E, 0x3E, 0x3E, 0x3C
    .half 0x3C, 0x3C, 0x3C, 0x3C, 0x3C, 0x3C, 0x3C, 0x3C, 0x3C, 0x3C, 0x3C, 0x3C, 0x3C, 0x3C, 0x3C, 0x3C
; Eight rows of eight pixels each, a bit a pixel.
digits:
    .half 0x1C00, 0x3222, 0x262A, 0x1C22   ; 0
    .half 0x0800, 0x080C, 0x0808, 0x1C08   ; 1
    .half 0x1C00, 0x2022, 0x0810, 0x3E04   ; 2
    .half 0x3E00, 0x0810, 0x2010, 0x1C22   ; 3
    .half 0x1000, 0x1418, 0x3E12, 0x1010   ; 4
    .half 0x3E00, 0x1E02, 0x2020, 0x1C22   ; 5
    .half 0x1800, 0x0204, 0x221E, 0x1C22   ; 6
    .half 0x3E00, 0x1020, 0x0408, 0x0404   ; 7
    .half 0x1C00, 0x2222, 0x221C, 0x1C22   ; 8
    .half 0x1C00, 0x2222, 0x203C, 0x0C10   ; 9
    .half 0x1C00, 0x2222, 0x223E, 0x2222   ; A
    .half 0x1E00, 0x2222, 0x221E, 0x1E22   ; B
    .half 0x1C00, 0x0222, 0x0202, 0x1C22   ; C
    .half 0x0E00, 0x2212, 0x2222, 0x0E12   ; D
    .half 0x3E00, 0x0202, 0x021E, 0x3E02   ; E
    .half 0x3E00, 0x0202, 0x021E, 0x0202   ; F

; The header: title, reserved, maker, code, version.
    .org rom_end - 0x220
    .half 0x5453, 0x5655, 0x4C45, 0x5247, 0x4E41, 0x2041, cartridge, 0x2020, 0x2020, 0x2020 ; STUVELGRANA and a number
    .half 0, 0, 0x3000, 0x5330, 0x5554, 0x0056

; The handlers: each goes on where its word of `handlers` says.
    .org rom_end - 0x200
    MOVHI 0x0501, r0, r26          ; pad
    LD.W handlers - 0x05010000 + 0[r26], r26
    JMP [r26]
    .align 16
    MOVHI 0x0501, r0, r26          ; timer
    LD.W handlers - 0x05010000 + 4[r26], r26
    JMP [r26]
    .align 16
    MOVHI 0x0501, r0, r26          ; game pak
    LD.W handlers - 0x05010000 + 8[r26], r26
    JMP [r26]
    .align 16
    MOVHI 0x0501, r0, r26          ; link
    LD.W handlers - 0x05010000 + 12[r26], r26
    JMP [r26]
    .align 16
    MOVHI 0x0501, r0, r26          ; VIP
    LD.W handlers - 0x05010000 + 16[r26], r26
    JMP [r26]
    .org rom_end - 0xA0
    MOVHI 0x0501, r0, r26          ; floating
    LD.W handlers - 0x05010000 + 20[r26], r26
    JMP [r26]
    .org rom_end - 0x80
    MOVHI 0x0501, r0, r26          ; zero divisor
    LD.W handlers - 0x05010000 + 24[r26], r26
    JMP [r26]
    .align 16
    MOVHI 0x0501, r0, r26          ; illegal
    LD.W handlers - 0x05010000 + 28[r26], r26
    JMP [r26]
    .align 16
    MOVHI 0x0501, r0, r26          ; TRAP, vectors below 16
    LD.W handlers - 0x05010000 + 32[r26], r26
    JMP [r26]
    .align 16
    MOVHI 0x0501, r0, r26          ; TRAP, vectors from 16 on
    LD.W handlers - 0x05010000 + 36[r26], r26
    JMP [r26]
    .org rom_end - 0x30
    MOVHI 0x0501, r0, r26          ; duplexed
    LD.W handlers - 0x05010000 + 40[r26], r26
    JMP [r26]
    .org rom_end - 0x10
    LI console, r1
    JMP [r1]
    .org rom_end
